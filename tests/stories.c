/* All states that stories of one stream come to, of which the bounds are given: puts, starts, accepts, and crashes a side. What the pages say of each put, that it was
   got, is gone or is open, is compared with a search: what is open can be got, by moves that go on from there, and what is gone is got by no move
   that goes on, within the bounds. Puts are told apart by their numbers, and have all the same message. Every packet that was emitted may come at any time.

   It prints how many states there are, how many moves lead from one to another, and how many puts are got, gone and open; its status is 1 where
   the pages are wrong. */
#include <stdint.h>
#include <stdio.h>
#include <stdlib.h>
#include <string.h>

/* Identifiers are numbers from 1 on, below this, and there are so many puts at most. */
#define NUMBERS 12
#define PUTS 3
/* So long is the way to get all open puts at most. */
#define STEPS 60

enum sending { QUIET, NEED_ID, SENDS, SENDER_DOWN };
enum receiving { IDLE, ACCEPTS, RECEIVED, ACKS, RECEIVER_DOWN };
enum outcome { NONE, GOT, GONE, OPEN };
enum kind { PUT, START, BATCH, ACCEPT, ACK_GOT, ACK_LOST, NEEDUID, SEND, CLEANUP, GET, RESEND, CRASH_SENDER, CRASH_RECEIVER, RECOVER_SENDER, RECOVER_RECEIVER };

/* Puts from a first one up to an end. */
struct puts {
    uint8_t first, end;
};

/* Both sides, and what was emitted under each identifier. */
struct pair {
    uint8_t puts, waits, sending, is_batch, starts, under, receiving, accepted, accepts, sender_crashes, receiver_crashes;
    struct puts load, held;
    uint8_t accepted_for[NUMBERS], was_sent[NUMBERS], sent_in_batch[NUMBERS], acked_got[NUMBERS], acked_lost[NUMBERS], cleaned[NUMBERS];
    struct puts sent[NUMBERS];
    uint8_t got[PUTS];
};

struct move {
    enum kind kind;
    uint8_t id;
};

struct node {
    struct pair pair;
    uint8_t told[PUTS];
};

static int most_puts, most_starts, most_accepts, most_crashes;

static void begin(struct pair *pair, int many, int is_batch)
{
    pair->load = (struct puts){pair->waits, pair->waits + many};
    pair->waits += many;
    pair->is_batch = is_batch;
    pair->starts++;
    pair->sending = NEED_ID;
}

static void accepts(struct pair *pair, int id)
{
    if (pair->sending == NEED_ID && pair->accepted_for[id] == pair->starts) {
        pair->sending = SENDS;
        pair->under = id;
        pair->sent[id] = pair->load;
        pair->sent_in_batch[id] = pair->is_batch;
        pair->was_sent[id] = 1;
    } else if (pair->sending == QUIET || pair->sending == NEED_ID || (pair->sending == SENDS && pair->under != id)) {
        pair->cleaned[id] = 1;
    }
}

static void acked(struct pair *pair, int id, int was_got)
{
    if (pair->sending == SENDER_DOWN)
        return;
    if (pair->sending == SENDS && pair->under == id)
        pair->sending = QUIET;
    if (was_got)
        pair->cleaned[id] = 1;
}

static void receives(struct pair *pair, int id)
{
    int is_known = pair->accepted == id && pair->receiving != IDLE;
    if (pair->receiving == RECEIVER_DOWN)
        return;
    if (pair->receiving == ACCEPTS && is_known) {
        pair->receiving = RECEIVED;
        pair->held = pair->sent[id];
    } else if (pair->receiving == ACKS && is_known) {
        pair->acked_got[id] = 1;
    } else if (!(pair->receiving == RECEIVED && is_known)) {
        pair->acked_lost[id] = 1;
    }
}

/* What names nothing any more is 0, so that equal states are equal bytes. */
static void forget(struct pair *pair)
{
    if (pair->sending != NEED_ID && pair->sending != SENDS) {
        pair->load = (struct puts){0, 0};
        pair->is_batch = 0;
    }
    if (pair->sending != SENDS)
        pair->under = 0;
    if (pair->receiving == IDLE || pair->receiving == RECEIVER_DOWN)
        pair->accepted = 0;
    if (pair->receiving != RECEIVED)
        pair->held = (struct puts){0, 0};
}

static struct pair after(struct pair pair, struct move move)
{
    int id = move.id;
    switch (move.kind) {
    case PUT: pair.puts++; break;
    case START: begin(&pair, 1, 0); break;
    case BATCH: begin(&pair, pair.puts - pair.waits, 1); break;
    case ACCEPT: accepts(&pair, id); break;
    case ACK_GOT: acked(&pair, id, 1); break;
    case ACK_LOST: acked(&pair, id, 0); break;
    case NEEDUID:
        if (pair.receiving == IDLE) {
            pair.accepted = ++pair.accepts;
            pair.accepted_for[pair.accepted] = id;
            pair.receiving = ACCEPTS;
        }
        break;
    case SEND: receives(&pair, id); break;
    case CLEANUP:
        if ((pair.receiving == ACCEPTS || pair.receiving == ACKS) && pair.accepted == id)
            pair.receiving = IDLE;
        break;
    case GET:
        if (pair.receiving == RECEIVED) {
            pair.got[pair.held.first++] = 1;
            if (pair.held.first == pair.held.end)
                pair.receiving = ACKS;
        }
        break;
    case RESEND: pair.acked_got[pair.accepted] = 1; break;
    case CRASH_SENDER:
        pair.sending = SENDER_DOWN;
        pair.waits = pair.puts;
        pair.sender_crashes++;
        break;
    case CRASH_RECEIVER:
        pair.receiving = RECEIVER_DOWN;
        pair.receiver_crashes++;
        break;
    case RECOVER_SENDER: pair.sending = QUIET; break;
    case RECOVER_RECEIVER: pair.receiving = IDLE; break;
    }
    forget(&pair);
    return pair;
}

/* The moves that are made from here, within the bounds. */
static int moves(const struct pair *pair, struct move *to)
{
    int count = 0;
#define MAY(condition, kind, id) if (condition) to[count++] = (struct move){kind, id}
    int is_up = pair->sending != SENDER_DOWN, takes = pair->receiving != RECEIVER_DOWN;
    int may_start = pair->sending == QUIET && pair->puts > pair->waits && pair->starts < most_starts;
    MAY(is_up && pair->puts < most_puts, PUT, 0);
    MAY(may_start, START, 0);
    MAY(may_start, BATCH, 0);
    MAY(is_up && pair->sender_crashes < most_crashes, CRASH_SENDER, 0);
    MAY(!is_up, RECOVER_SENDER, 0);
    MAY(takes, GET, 0);
    MAY(pair->receiving == ACKS, RESEND, 0);
    MAY(takes && pair->receiver_crashes < most_crashes, CRASH_RECEIVER, 0);
    MAY(!takes, RECOVER_RECEIVER, 0);
    for (int word = 1; word <= pair->starts; word++)
        MAY(pair->receiving != IDLE || pair->accepts < most_accepts, NEEDUID, word);
    for (int id = 1; id <= pair->accepts; id++) {
        MAY(1, ACCEPT, id);
        MAY(pair->was_sent[id], SEND, id);
        MAY(pair->acked_got[id], ACK_GOT, id);
        MAY(pair->acked_lost[id], ACK_LOST, id);
        MAY(pair->cleaned[id], CLEANUP, id);
    }
#undef MAY
    return count;
}

static int has(struct puts puts, int put)
{
    return puts.first <= put && put < puts.end;
}

/* What the pages say of a put: got; or open, where it arrives, an identifier is asked for it, or it waits; or gone. */
static enum outcome outcome(const struct pair *pair, int put)
{
    if (put >= pair->puts)
        return NONE;
    if (pair->got[put])
        return GOT;
    int arrives = (pair->receiving == RECEIVED && has(pair->held, put))
        || (pair->receiving == ACCEPTS && pair->was_sent[pair->accepted] && has(pair->sent[pair->accepted], put));
    int asked = pair->sending == NEED_ID && has(pair->load, put);
    return arrives || asked || put >= pair->waits ? OPEN : GONE;
}

/* A move on the way to get what is open: what arrives is got, and a handshake goes on, or makes room for the next. */
static struct move way(const struct pair *pair)
{
    int id = pair->accepted, under = pair->under;
    if (pair->receiving == RECEIVER_DOWN)
        return (struct move){RECOVER_RECEIVER, 0};
    if (pair->receiving == RECEIVED)
        return (struct move){GET, 0};
    if (pair->receiving == ACCEPTS && pair->was_sent[id])
        return (struct move){SEND, id};
    if (pair->sending == SENDER_DOWN)
        return (struct move){RECOVER_SENDER, 0};
    if (pair->sending == QUIET)
        return (struct move){START, 0};
    if (pair->sending == SENDS)
        return (struct move){pair->acked_lost[under] ? ACK_LOST : pair->acked_got[under] ? ACK_GOT : SEND, under};
    if (pair->receiving == IDLE)
        return (struct move){NEEDUID, pair->starts};
    if (pair->receiving == ACCEPTS)
        return (struct move){pair->cleaned[id] ? CLEANUP : ACCEPT, id};
    return pair->cleaned[id] ? (struct move){CLEANUP, id} : pair->acked_got[id] ? (struct move){ACK_GOT, id} : (struct move){RESEND, 0};
}

/* Whether all puts that are told to be open are got on that way. */
static int can_be_got(const struct node *node)
{
    struct pair pair = node->pair;
    for (int step = 0; step <= STEPS; step++) {
        int lacks = 0;
        for (int put = 0; put < PUTS; put++)
            lacks |= node->told[put] == OPEN && !pair.got[put];
        if (!lacks)
            return 1;
        if (pair.accepts + 1 >= NUMBERS)
            return 0;
        pair = after(pair, way(&pair));
    }
    return 0;
}

/* What a move may make of what is told: what is got stays got, what is gone stays gone, and what is got just now was open. */
static int may_become(int before, int now, int is_got_now)
{
    if (before == NONE)
        return now == NONE || now == OPEN;
    if (before == OPEN)
        return now != NONE && is_got_now == (now == GOT);
    return now == before && !is_got_now;
}

/* All states, by a table of their places, which are one too great there. */
static struct node *nodes;
static size_t count, room = 1 << 16, slots = 1 << 18;
static uint32_t *table;

static size_t slot_of(const struct pair *pair)
{
    uint64_t hash = 14695981039346656037u;
    for (size_t at = 0; at < sizeof *pair; at++)
        hash = (hash ^ ((const uint8_t *)pair)[at]) * 1099511628211u;
    size_t slot = (hash ^ hash >> 29) & (slots - 1);
    while (table[slot] && memcmp(&nodes[table[slot] - 1].pair, pair, sizeof *pair))
        slot = (slot + 1) & (slots - 1);
    return slot;
}

static void *or_end(void *memory)
{
    if (!memory) {
        fputs("stories: out of memory\n", stderr);
        exit(2);
    }
    return memory;
}

/* The place of a state, which is added if it is new. */
static size_t place_of(const struct pair *pair)
{
    size_t slot = slot_of(pair);
    if (table[slot])
        return table[slot] - 1;
    if (count == room)
        nodes = or_end(realloc(nodes, (room *= 2) * sizeof *nodes));
    nodes[count].pair = *pair;
    for (int put = 0; put < PUTS; put++)
        nodes[count].told[put] = outcome(pair, put);
    table[slot] = ++count;
    if (2 * count > slots) {
        free(table);
        table = or_end(calloc(slots *= 2, sizeof *table));
        for (size_t place = 0; place < count; place++)
            table[slot_of(&nodes[place].pair)] = place + 1;
    }
    return count - 1;
}

int main(int words, char **word)
{
    if (words != 5) {
        fputs("usage: stories PUTS STARTS ACCEPTS CRASHES\n", stderr);
        return 2;
    }
    most_puts = atoi(word[1]), most_starts = atoi(word[2]), most_accepts = atoi(word[3]), most_crashes = atoi(word[4]);
    if (most_puts > PUTS || most_accepts > 5 || most_starts > 5)
        return 2;
    nodes = or_end(malloc(room * sizeof *nodes));
    table = or_end(calloc(slots, sizeof *table));
    struct pair first;
    memset(&first, 0, sizeof first);
    place_of(&first);
    size_t made = 0, told[OPEN + 1] = {0}, wrong = 0;
    for (size_t place = 0; place < count; place++) {
        struct move to[64];
        int many = moves(&nodes[place].pair, to);
        made += many;
        for (int at = 0; at < many; at++) {
            struct pair next = after(nodes[place].pair, to[at]);
            size_t there = place_of(&next);
            for (int put = 0; put < PUTS; put++) {
                int is_got_now = next.got[put] && !nodes[place].pair.got[put];
                wrong += !may_become(nodes[place].told[put], nodes[there].told[put], is_got_now);
            }
        }
        wrong += !can_be_got(&nodes[place]);
        for (int put = 0; put < PUTS; put++)
            told[nodes[place].told[put]]++;
    }
    printf("%zu states, %zu moves; puts: %zu got, %zu gone, %zu open; %zu wrong\n", count, made, told[GOT], told[GONE], told[OPEN], wrong);
    return wrong > 0;
}
