"""Runs a command whose standard error is a terminal.

    python3 at_terminal.py SHOWN SCREEN COMMAND..

The file SHOWN gets what stood on the terminal's last line each time that it was about to be written over; the file SCREEN gets what
stands on the terminal at the end. Both without blanks at the ends of lines. Standard output and the status are the command's own.
"""

import os
import pty
import subprocess
import sys


def read_all(terminal):
    """What the command wrote, until it and all that it started have closed the terminal."""
    parts = []
    while True:
        try:
            part = os.read(terminal, 65536)
        except OSError:  # how Linux tells that the other side is closed
            break
        if not part:
            break
        parts.append(part)
    return b"".join(parts).decode()


def play(text):
    """What stood on the last line each time that a carriage return went back to its start, and the screen at last."""
    shown, lines, line, column = [], [], "", 0
    for char in text.replace("\r\n", "\n"):  # a terminal makes both of a line feed
        if char == "\r":
            shown.append(line.rstrip())
            column = 0
        elif char == "\n":
            lines.append(line.rstrip())
            line, column = "", 0
        else:
            line = line[:column] + char + line[column + 1 :]
            column += 1
    return shown, lines + [line.rstrip()]


def main():
    shown_file, screen_file, *command = sys.argv[1:]
    terminal, inside = pty.openpty()
    child = subprocess.Popen(command, stdin=subprocess.DEVNULL, stderr=inside)
    os.close(inside)
    shown, screen = play(read_all(terminal))
    with open(shown_file, "w", encoding="utf-8") as it:
        it.writelines(f"{line}\n" for line in shown if line)
    with open(screen_file, "w", encoding="utf-8") as it:
        it.write("\n".join(screen))
    sys.exit(child.wait())


if __name__ == "__main__":
    main()
