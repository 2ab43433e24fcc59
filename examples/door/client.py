"""Puts and takes messages through the doors of hosts, each once, whatever is killed meanwhile: the program, a host, or both.

    Sender("127.0.0.1:7003", 3, "put.calls").put("order 17", b"pay Ann 100")
    Receiver("127.0.0.1:7004", 3, "taken.calls").take(wait=30)

A stream must have one program at each end, and that one file, which has each call before it is made. The next start makes again what has no answer. Who else
puts on the stream would have what became of its message told as if it were yours: behind a start of its host a call is known by its number alone.
"""

import contextlib
import fcntl
import http.client
import json
import secrets
import sqlite3
import time

TABLES = """
PRAGMA synchronous = EXTRA;
CREATE TABLE IF NOT EXISTS streams (stream TEXT);
CREATE TABLE IF NOT EXISTS puts (name TEXT PRIMARY KEY, message BLOB, state TEXT DEFAULT 'new', life TEXT, number INTEGER, by TEXT);
CREATE TABLE IF NOT EXISTS takes (life TEXT, number INTEGER, by TEXT, behind INTEGER);
"""


class Door:
    """A stream of the host with a door at HOST:PORT, and its file. What is not answered in so many seconds ends with TimeoutError: call again."""

    def __init__(self, door, stream, file, token=None, seconds=60):
        self.door, self.stream, self.seconds = door, f"/v1/streams/{stream}", seconds
        self.fields = {"Authorization": f"Bearer {token}"} if token else {}
        # One at a time has the file: else two would ask for the same number. Who comes second ends with BlockingIOError.
        self.lock = open(f"{file}.lock", "ab")
        fcntl.flock(self.lock, fcntl.LOCK_EX | fcntl.LOCK_NB)
        self.base = sqlite3.connect(file, isolation_level=None)
        self.base.executescript(TABLES)
        self.base.execute("INSERT INTO streams SELECT ? WHERE NOT EXISTS (SELECT * FROM streams)", (self.stream,))
        if self.base.execute("SELECT * FROM streams").fetchone() != (self.stream,):
            raise ValueError(f"{file} is of another stream")

    def ask(self, method, target, wanted=(200,), body=None):
        """The status, the fields and the body of the answer, whatever happens on the way to it. One of another status than is wanted is a fault."""
        until = time.monotonic() + self.seconds
        while time.monotonic() < until:
            with contextlib.suppress(OSError, http.client.HTTPException), contextlib.closing(http.client.HTTPConnection(self.door, timeout=self.seconds)) as link:
                link.request(method, target, body, self.fields)
                answer = link.getresponse()
                told = answer.read()
                told = json.loads(told) if answer.headers.get_content_type() == "application/json" else told
                if answer.status in wanted:
                    return answer.status, answer.headers, told
                # A host that has no room, or was slow to hear, did nothing now: it is asked again.
                if answer.status not in (408, 503) or "not_now" in str(told):
                    raise RuntimeError(f"{method} {target}: {answer.status} {told}")
            time.sleep(0.1)
        raise TimeoutError(f"{method} {target} was not answered")

    def claim(self, last):
        """The life of the host, the next number of the stream in it, and a caller."""
        state = self.ask("GET", self.stream)[2]
        return state["life"], state[last] + 1, secrets.token_hex(12)


class Sender(Door):
    """Puts messages under names. Under one name nothing is put twice, but what is gone: it was not got, and never will be."""

    def put(self, name, message):
        """Puts this, if nothing was put under this name or that is gone, and answers what is known of it, as `outcome` does."""
        if not isinstance(message, bytes) or len(message) > 1024:
            raise ValueError("a message is bytes, 1,024 at most")
        self.base.execute("INSERT OR IGNORE INTO puts (name, message) VALUES (?, ?)", (name, message))
        if self.base.execute("SELECT message FROM puts WHERE name = ?", (name,)).fetchone() != (message,):
            raise ValueError(f"another message was put as {name}")
        self.finish()
        state, again = self.outcome(name), ("new", "gone")
        while state in again:
            # First the file, then the call: killed between the two, the next start makes it.
            self.base.execute("UPDATE puts SET state = 'asked', life = ?, number = ?, by = ? WHERE name = ?", (*self.claim("put"), name))
            self.finish()
            state, again = self.outcome(name), ("new",)
            time.sleep(0.1 if state in again else 0)
        return state

    def finish(self):
        """Makes the call again that has no answer yet, if there is one: no other may come before it."""
        for name, message, life, number, by in self.base.execute("SELECT name, message, life, number, by FROM puts WHERE state = 'asked'").fetchall():
            # 410: the host lives another life. Whether the message was put, and what became of it, is asked then.
            self.ask("PUT", f"{self.stream}/messages/{number}?life={life}&by={by}", (200, 201, 410), message)
            self.base.execute("UPDATE puts SET state = 'put' WHERE name = ?", (name,))

    def outcome(self, name):
        """What is known now: `put`, it is on its way; `got`; `gone`; `unknown`, it was got, is lost, or may still be got; `new`, it was never put."""
        state, life, number = self.base.execute("SELECT state, life, number FROM puts WHERE name = ?", (name,)).fetchone()
        if state == "put":
            told = self.ask("GET", f"{self.stream}/messages/{number}?life={life}", (200, 410, 500))[2]
            state = {"got": "got", "gone": "gone", "never": "new", "open": "put"}.get(told.get("outcome"), "unknown")
            if state != "unknown":
                self.base.execute("UPDATE puts SET state = ? WHERE name = ?", (state, name))
        return state


class Receiver(Door):
    """Takes messages. Each comes again until it is done: work in `base`, in one transaction with that, is done once."""

    def take(self, wait=0):
        """The number of its line in the receiver's journal and the next message; None where none came within so many seconds."""
        if not self.base.execute("SELECT * FROM takes").fetchone():
            line = int(self.ask("GET", "/metrics")[2].split(b"\namo_journal_next_line ")[1].split()[0]) - 1
            self.base.execute("INSERT INTO takes VALUES (?, ?, ?, ?)", (*self.claim("taken"), line))
        while True:
            life, number, by, behind = self.base.execute("SELECT * FROM takes").fetchone()
            status, fields, told = self.ask("POST", f"{self.stream}/take?life={life}&by={by}&number={number}&wait={wait}", (200, 204, 410))
            if status == 200 and (f"/v1/streams/{fields['Amo-Stream']}", fields["Amo-Number"]) != (self.stream, str(number)):
                raise RuntimeError(f"what came is no answer to the take of number {number}")
            if status != 410:
                return (int(fields["Amo-Line"]), told) if status == 200 else None
            # That life is over. What was taken in it, and is not done, comes before anything is taken in the next.
            if missed := self.missed(behind):
                return missed
            # A host that starts again and again is not asked without a pause.
            time.sleep(0.1)
            self.base.execute("UPDATE takes SET life = ?, number = ?, by = ?", self.claim("taken"))

    def missed(self, behind):
        """The line and the bytes of the first message that was taken behind this line, as the journal tells."""
        told = {"next": behind, "more": True, "got": []}
        while told["more"] and not told["got"]:
            behind = told["next"]
            told = self.ask("GET", f"{self.stream}/got" + (f"?after={behind}" if behind >= 0 else ""))[2]
            if (told["from"] or 0) > behind + 1:
                raise RuntimeError(f"what was taken behind line {behind} is unknown: pieces of the journal were moved away")
        return next(((it["line"], it["text"].encode() if "text" in it else bytes.fromhex(it["hex"])) for it in told["got"]), None)

    def done(self, line):
        """The message of this line was worked on."""
        self.base.execute("UPDATE takes SET behind = ?, number = number + 1", (line,))
