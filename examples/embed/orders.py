#!/usr/bin/env python3
"""Hands orders from a table to `amo send`, each to be carried out once, and learns what became of each: over crashes of this program and of both hosts.
An order is new, sent (nothing is known of it yet), done, or in doubt: it may have been carried out, or may still be. Only what is new is sent.

    orders.py TABLE add TEXT                         writes an order into the table
    orders.py TABLE send JOURNAL PEER AMO send ..    sends what is new, by the command that follows; PEER is the other host's journal, or -
    orders.py TABLE work JOURNAL AMO                 carries out what the host that receives has got, until it is ended
"""

import contextlib
import json
import os
import queue
import sqlite3
import subprocess
import sys
import threading
import time

TABLES = """PRAGMA synchronous = EXTRA;
CREATE TABLE IF NOT EXISTS orders (id INTEGER PRIMARY KEY AUTOINCREMENT, text TEXT, state TEXT DEFAULT 'new', line INTEGER);
CREATE INDEX IF NOT EXISTS states ON orders (state);
CREATE TABLE IF NOT EXISTS work (line INTEGER, text TEXT UNIQUE)"""


def mark(base, number, state, line=None):
    base.execute("UPDATE orders SET state = ?, line = ifnull(?, line) WHERE id = ?", (state, line, number))


def message(told):
    return told["text"] if "text" in told else bytes.fromhex(told["hex"]).decode(errors="backslashreplace")  # It has a control character.


def outcomes(amo, *journals):
    """Of each line of the sender's journal that put an order, the order's number and what became of that put. Journals that are faulty end the program."""
    ran = subprocess.run([amo, "outcomes", *journals, "--json"], stdout=subprocess.PIPE, check=True)
    return {it["number"]: (message(it).split(" ")[0], it["outcome"]) for it in map(json.loads, ran.stdout.splitlines())}


def settle(base, amo, journal, peer):
    """Learns what became of what was handed to a host: of what the journal does not have, nothing was put, if it is the journal that was there before."""
    told = outcomes(amo, journal)
    line, number = base.execute("SELECT line, id FROM orders WHERE line IS NOT NULL ORDER BY line DESC").fetchone() or (None, None)
    if line not in told or told[line][0] != str(number):
        # It is a new one, with line numbers of its own: of what stood in another one nothing is known any more.
        base.execute("UPDATE orders SET line = NULL, state = replace(state, 'sent', 'doubt')")
    if os.path.exists(peer):  # Where one journal is behind the other, what both tell to be open may be out of date.
        told.update((line, it) for line, it in outcomes(amo, journal, peer).items() if it[1] != "open")
    last_puts = {number: (line, outcome) for line, (number, outcome) in told.items()}
    for number, state in base.execute("SELECT id, state FROM orders WHERE state IN ('sent', 'doubt')").fetchall():
        line, outcome = last_puts.get(str(number), (None, "gone" if state == "sent" else "unknown"))
        mark(base, number, {"got": "done", "gone": "new", "open": "sent"}.get(outcome, "doubt"), line)


def send(base, journal, peer, *command):
    """One life of a host. What an earlier one left is settled before anything is sent."""
    host = subprocess.Popen([*command, "--json"], stdin=subprocess.PIPE, stdout=subprocess.PIPE, encoding="utf-8", errors="replace")
    lines, sent = queue.SimpleQueue(), set()  # It takes no line while its answers wait to be read: so a thread reads them.
    threading.Thread(target=lambda: [*map(lines.put, host.stdout), lines.put(None)], daemon=True).start()
    answers = map(json.loads, iter(lines.get, None))

    def hand_on(stream):
        if new := base.execute("SELECT id, text FROM orders WHERE state = 'new' ORDER BY id").fetchone():
            # First the table: were the line first, and this program killed behind it, the order would be sent again.
            mark(base, new[0], "sent")
            sent.add(str(new[0]))
            print(json.dumps({"stream": stream, "id": str(new[0]), "text": f"{new[0]} {new[1]}"}), file=host.stdin, flush=True)

    with contextlib.suppress(BrokenPipeError):
        # An empty line is refused: by then the host has its journal, nobody else has it, and what waited when the one before it died is gone.
        print(file=host.stdin, flush=True)
        if any(told["event"] == "refused" for told in answers):
            settle(base, command[0], journal, peer)
            for stream in range(1, int(command[command.index("--streams") + 1]) + 1):
                hand_on(stream)
        while sent and (told := next(answers, None)):
            if told["event"] == "refused":
                sys.exit(f"order {told.get('id')}: {told['reason']}")
            if state := {"ok": "sent", "yes": "done", "no": "doubt"}.get(told["event"]):
                mark(base, told["id"], state, told.get("line"))
            if state in ("done", "doubt"):
                sent.remove(told["id"])
                hand_on(told["stream"])
    host.kill()
    if host.wait() == 2:
        sys.exit("the host refuses its arguments")


def work(base, journal, amo):
    """Carries out each order once: that it was is kept in the same transaction as the work."""
    ask = [amo, "got", journal, "--json", "--after"]
    line, text = base.execute("SELECT line, text FROM work ORDER BY rowid DESC").fetchone() or (1, None)
    with subprocess.Popen([*ask, str(line - 1)], stdout=subprocess.PIPE) as got:
        first = json.loads(got.stdout.readline() or "{}")
    # Another journal may be there by now, with line numbers of its own: that is read from its first line on.
    after = line if first and (first["number"], message(first)) == (line, text) else 0
    with subprocess.Popen([*ask, str(after), "--follow"], stdout=subprocess.PIPE) as got:
        for it in map(json.loads, got.stdout):
            base.execute("INSERT INTO work VALUES (?, ?) ON CONFLICT (text) DO NOTHING", (it["number"], message(it)))
    sys.exit(f"amo got ended with status {got.returncode}")


def main(table, act, *words):
    base = sqlite3.connect(table, timeout=30, isolation_level=None)
    base.executescript(TABLES)
    if act == "add":
        if len(words[0].encode()) > 1000 or len(json.dumps(words[0])) > 4000:
            sys.exit("the order is too long: with its number a message has 1,024 bytes at most, and a host's line of JSON 4,096")
        base.execute("INSERT INTO orders (text) VALUES (?)", words)
    elif act == "send":
        if "--sync" not in words:
            sys.exit("give the host --sync: else a loss of power takes lines whose packets left, and what the journal does not have may have been carried out")
        while base.execute("SELECT id FROM orders WHERE state IN ('new', 'sent')").fetchone():
            send(base, *words)
            time.sleep(0.2)  # The host of an earlier life of this program may still have the journal: it ends with its input.
    else:
        work(base, *words)


main(*sys.argv[1:])
