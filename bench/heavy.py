#!/usr/bin/env python3
"""Writes the heavy bundles of the bench into a folder.

    heavy.py FOLDER

A file NAME.bundle each:

apart   two sheets of 48 states with 64 moves each, joined with nothing shared. From the starts 32 states of each are
        reached, so 1,024 pairs are found in 1,024 cells and all are opened: 128 moves each.
shared  two such sheets with 4 actions, all shared: a pair has 16 x 16 moves by each action, 1,024 in all. The same
        number of pairs is found and opened.
ways    one sheet of 62 states with 64 moves each, and a watch table of 32 marks with 25 ways by one action each; 992
        pairs are found and opened, 1,600 moves and ways each.
"""
import os
import struct
import sys


def field(tag, content):
    return tag + struct.pack(">H", len(content)) + content


def entries(rows):
    return b"".join(struct.pack(">HBH", *row) for row in rows)


def sheet(states, reached, actions):
    """States with 64 moves each, whose actions go round; the first `reached` states lead to one another."""
    rows = []
    for state in range(states):
        for k in range(64):
            rows.append((state, k % actions, (state + 1 + k // actions) % (reached if state < reached else states)))
    return struct.pack(">HH", states, 0) + entries(rows)


def quiet_table():
    """A watch table of one mark, which condemns nothing and goes on by every action."""
    return struct.pack(">HH", 1, 0) + bytes(1) + entries((0, action, 0) for action in range(16))


def wide_table(marks, ways):
    """Marks of which none condemns, each with so many ways by action 0."""
    rows = [(mark, 0, (mark + 1 + way) % marks) for mark in range(marks) for way in range(ways)]
    return struct.pack(">HH", marks, 0) + bytes(marks) + entries(rows)


def bundle(machine, table, cells, second=None, shared=0):
    joined = b"" if second is None else field(b"C", second) + field(b"S", struct.pack(">H", shared))
    return field(b"M", machine) + joined + field(b"W", table) + field(b"T", struct.pack(">H", cells))


def main():
    folder = sys.argv[1]
    heavy = {
        "apart": bundle(sheet(48, 32, 16), quiet_table(), 1024, sheet(48, 32, 16), 0),
        "shared": bundle(sheet(48, 32, 4), quiet_table(), 1024, sheet(48, 32, 4), 15),
        "ways": bundle(sheet(62, 31, 1), wide_table(32, 25), 1024),
    }
    for name, content in heavy.items():
        assert len(content) <= 32768, (name, len(content))
        with open(os.path.join(folder, name + ".bundle"), "wb") as out:
            out.write(content)


if __name__ == "__main__":
    main()
