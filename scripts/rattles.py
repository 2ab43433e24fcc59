"""What the processes of the prover are at, as /proc tells of them."""

import os

TICKS = os.sysconf("SC_CLK_TCK")


class Process:
    """A process as it stands now: its own number, its parent's, when it began, and how many seconds of a processor it has used."""

    def __init__(self, number):
        with open(f"/proc/{number}/stat", encoding="utf-8", errors="replace") as it:
            fields = it.read().rpartition(")")[2].split()
        self.number, self.parent, self.began = number, int(fields[1]), int(fields[19])
        self.seconds = (int(fields[11]) + int(fields[12])) / TICKS

    def program(self):
        return os.path.basename(self.link("exe"))

    def folder(self):
        return self.link("cwd")

    def link(self, name):
        try:
            return os.readlink(f"/proc/{self.number}/{name}")
        except OSError:  # it has ended, or is another user's
            return ""

    def words(self):
        try:
            with open(f"/proc/{self.number}/cmdline", encoding="utf-8", errors="replace") as it:
                return it.read().split("\0")[:-1]
        except OSError:
            return []

    def crate(self):
        """The crate that it checks or builds, if it is one of the prover's."""
        words = self.words() if self.program() == "rattle" else []
        return words[words.index("--crate-name") + 1] if "--crate-name" in words[:-1] else None


def processes():
    """Each process that there is, by its number."""
    found = {}
    for name in os.listdir("/proc"):
        if name.isdigit():
            try:
                found[int(name)] = Process(int(name))
            except (OSError, IndexError, ValueError):  # it has ended meanwhile
                pass
    return found


def below(found, top):
    """Those of the processes found that the process `top` started, and those that they started, and so on: parents first."""
    children = {}
    for it in found.values():
        children.setdefault(it.parent, []).append(it)
    ours, at = list(children.get(top, [])), 0
    while at < len(ours):
        ours += children.get(ours[at].number, [])
        at += 1
    return ours
