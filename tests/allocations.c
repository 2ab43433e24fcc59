/* Counts what the program that it is loaded into allocates, and refuses one allocation where it is asked to.

   The variable ALLOCATION_COUNTS names a file; it holds afterwards four counts, each of 64 bits: the allocations asked for,
   the bytes asked for, the most bytes that were held at one time, and whether one was refused.
   REFUSED_ALLOCATION is the number of the one to refuse, counted from 1; where REFUSED_AFTER is set, all after it are refused too.

   A program with checks at run time has a malloc of its own, whose place no library takes. There ALLOC_AT and REALLOC_AT tell at which
   addresses rattle_alloc and rattle_realloc stand, by which it allocates. Then those are counted and refused, and there is no peak. */
#define _GNU_SOURCE
#include <dlfcn.h>
#include <errno.h>
#include <fcntl.h>
#include <link.h>
#include <malloc.h>
#include <stdint.h>
#include <stdlib.h>
#include <string.h>
#include <sys/mman.h>
#include <unistd.h>

/* The C library's own, under its second names (glibc). */
extern void *__libc_malloc(size_t size);
extern void *__libc_calloc(size_t count, size_t size);
extern void *__libc_realloc(void *old, size_t size);
extern void __libc_free(void *old);

struct counts {
    uint64_t asked;
    uint64_t bytes;
    uint64_t peak;
    uint64_t refused;
};

static struct counts before_it_began;
static struct counts *counts = &before_it_began;
static uint64_t wanted;
static int all_after;
static uint64_t held;

static void replace_allocator(void);

/* Counting begins here, so what the loader allocates before the program runs is not counted.
   The counts lie in the file itself, since a program may end without a word to this library. */
__attribute__((constructor)) static void begin(void) {
    const char *number = getenv("REFUSED_ALLOCATION");
    const char *name = getenv("ALLOCATION_COUNTS");
    int file = name ? open(name, O_RDWR | O_CREAT | O_TRUNC, 0600) : -1;
    if (file < 0 || ftruncate(file, sizeof *counts) != 0) {
        _exit(99);
    }
    counts = mmap(NULL, sizeof *counts, PROT_READ | PROT_WRITE, MAP_SHARED, file, 0);
    if (counts == MAP_FAILED) {
        _exit(99);
    }
    close(file);
    wanted = number ? strtoull(number, NULL, 10) : 0;
    all_after = getenv("REFUSED_AFTER") != NULL;
    replace_allocator();
}

static int is_refused(size_t size) {
    counts->asked += 1;
    counts->bytes += size;
    if (wanted == 0 || counts->asked < wanted || (counts->asked > wanted && !all_after)) {
        return 0;
    }
    counts->refused = 1;
    errno = ENOMEM;
    return 1;
}

static void *hold(void *block) {
    held += malloc_usable_size(block);
    if (held > counts->peak) {
        counts->peak = held;
    }
    return block;
}

void *malloc(size_t size) {
    return is_refused(size) ? NULL : hold(__libc_malloc(size));
}

void *calloc(size_t count, size_t size) {
    return is_refused(count * size) ? NULL : hold(__libc_calloc(count, size));
}

void *realloc(void *old, size_t size) {
    size_t before = malloc_usable_size(old);
    void *block;
    if (is_refused(size)) {
        return NULL;
    }
    block = __libc_realloc(old, size);
    if (block || size == 0) {
        held -= before;
    }
    return block ? hold(block) : NULL;
}

void free(void *old) {
    held -= malloc_usable_size(old);
    __libc_free(old);
}

/* What rattle_alloc and rattle_realloc answer: whether there is a block, and the block, or else any address. */
struct tried {
    uint64_t is_there;
    void *block;
};

static struct tried tried(void *block) {
    struct tried answer = {block != NULL, block ? block : (void *)counts};
    return answer;
}

/* The program's own. */
static void *(*own_malloc)(size_t size);
static void *(*own_realloc)(void *old, size_t size);

static struct tried try_alloc(size_t size, size_t alignment) {
    size = size ? size : alignment;
    return tried(is_refused(size) ? NULL : own_malloc(size));
}

static struct tried try_realloc(void *old, size_t kept, size_t size, size_t alignment) {
    (void)kept;
    size = size ? size : alignment;
    return tried(is_refused(size) ? NULL : own_realloc(old, size));
}

/* The program itself comes first, and then its libraries. */
static int first_base(struct dl_phdr_info *loaded, size_t size, void *base) {
    (void)size;
    *(uintptr_t *)base = loaded->dlpi_addr;
    return 1;
}

/* Writes a jump to a function of this library over the one of the program whose address the variable tells. */
static void take_place(const char *name, void *function) {
    unsigned char jump[12] = {0x48, 0xb8, 0, 0, 0, 0, 0, 0, 0, 0, 0xff, 0xe0};
    uintptr_t base = 0;
    uintptr_t place;
    void *pages;
    dl_iterate_phdr(first_base, &base);
    place = base + strtoull(getenv(name), NULL, 16);
    pages = (void *)(place & ~(uintptr_t)4095);
    memcpy(jump + 2, &function, sizeof function);
    if (mprotect(pages, 8192, PROT_READ | PROT_WRITE | PROT_EXEC) != 0) {
        _exit(99);
    }
    memcpy((void *)place, jump, sizeof jump);
}

static void replace_allocator(void) {
    if (getenv("ALLOC_AT") && getenv("REALLOC_AT")) {
        *(void **)&own_malloc = dlsym(RTLD_DEFAULT, "malloc");
        *(void **)&own_realloc = dlsym(RTLD_DEFAULT, "realloc");
        take_place("ALLOC_AT", (void *)try_alloc);
        take_place("REALLOC_AT", (void *)try_realloc);
    }
}
