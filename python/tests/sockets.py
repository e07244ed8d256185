"""What a tree of processes listens on, from /proc alone."""
import os
import re
from pathlib import Path

LISTEN, ACCEPTS = "0A", 0x10000


def tree(pid):
    """A process and all that it began."""
    found = [pid]
    for task in Path(f"/proc/{pid}/task").glob("*/children"):
        try:
            children = task.read_text().split()
        except OSError:
            continue
        for child in children:
            found += tree(int(child))
    return found


def inodes(pid):
    """The inodes of the sockets that a process has open."""
    found = set()
    for path in Path(f"/proc/{pid}/fd").glob("*"):
        try:
            match = re.fullmatch(r"socket:\[(\d+)\]", os.readlink(path))
        except OSError:
            continue
        if match:
            found.add(match.group(1))
    return found


def rows(pid, table):
    """The rows of a table of sockets, as words, without its head."""
    try:
        lines = Path(f"/proc/{pid}/net/{table}").read_text().split("\n")
        return [line.split() for line in lines[1:] if line]
    except OSError:
        return []


def address(word):
    """An address of the kernel's tables as hexadecimal digits and a port."""
    host, _, port = word.partition(":")
    return f"{host}:{int(port, 16)}"


def listening_of(pid):
    """What one process listens on: TCP that listens, UDP that is bound, and Unix that accepts."""
    own, found = inodes(pid), []
    for table in ("tcp", "tcp6", "udp", "udp6"):
        found += [f"{table} {address(row[1])}" for row in rows(pid, table) if row[9] in own
                  and (row[3] == LISTEN or table.startswith("udp"))]
    return found + [f"unix {row[7] if len(row) > 7 else ''}" for row in rows(pid, "unix")
                    if row[6] in own and int(row[3], 16) & ACCEPTS]


def listening(pid):
    """What a process and all that it began listen on."""
    return [each for process in tree(pid) for each in listening_of(process)]
