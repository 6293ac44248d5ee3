#!/usr/bin/env python3
"""Feeds random and damaged bundles to `lanecheck` and to the plain Rust program, and compares their lines.

    compare.py LANECHECK PLAIN COUNT [SEED]
"""
import collections
import random
import struct
import subprocess
import sys


def field(tag, content):
    return tag + struct.pack(">H", len(content)) + content


def entries(rng, size, count, actions):
    return b"".join(struct.pack(">HBH", rng.randrange(size), rng.choice(actions), rng.randrange(size)) for _ in range(count))


def sheet(rng, actions):
    size = rng.choice([1, 2, 3, 5, 9])
    return struct.pack(">HH", size, rng.randrange(size)) + entries(rng, size, rng.randrange(3 * size + 1), actions)


def watch_table(rng, actions):
    size = rng.choice([1, 2, 3, 4])
    marks = bytes(rng.random() < 0.2 for _ in range(size))
    return struct.pack(">HH", size, rng.randrange(size)) + marks + entries(rng, size, rng.randrange(4 * size + 8), actions)


def bundle(rng):
    actions = rng.sample(range(16), rng.choice([1, 2, 3, 6]))
    fields = [field(b"M", sheet(rng, actions))]
    if rng.random() < 0.6:
        shared = sum(1 << action for action in actions if rng.random() < 0.5) | (rng.randrange(65536) if rng.random() < 0.1 else 0)
        fields += [field(b"C", sheet(rng, actions)), field(b"S", struct.pack(">H", shared))]
    if rng.random() < 0.5:
        fields.append(field(b"H", bytes(rng.choice(actions) if rng.random() < 0.5 else action for action in range(16))))
    fields.append(field(b"W", watch_table(rng, actions)))
    fields.append(field(b"T", struct.pack(">H", rng.choice([1, 2, 5, 20, 200, 1024]))))
    return fields


def damaged(rng, fields):
    kind = rng.randrange(5)
    if kind == 0:
        fields.pop(rng.randrange(len(fields)))
    elif kind == 1:
        fields.insert(rng.randrange(len(fields) + 1), rng.choice(fields))
    elif kind == 2:
        rng.shuffle(fields)
    whole = bytearray(b"".join(fields))
    if kind == 3 and whole:
        for _ in range(rng.choice([1, 1, 3])):
            whole[rng.randrange(len(whole))] = rng.choice([0, 1, 2, 15, 16, 17, 67, 72, 83, 255])
    elif kind == 4:
        del whole[rng.randrange(len(whole) + 1):]
    return bytes(whole)


def line(program, content):
    return subprocess.run([program], input=content, stdout=subprocess.PIPE, check=True).stdout


def main():
    lanecheck, plain, count = sys.argv[1], sys.argv[2], int(sys.argv[3])
    rng = random.Random(int(sys.argv[4]) if len(sys.argv) > 4 else 1)
    said = collections.Counter()
    for number in range(count):
        fields = bundle(rng)
        content = damaged(rng, fields) if rng.random() < 0.3 else b"".join(fields)
        one, other = line(lanecheck, content), line(plain, content)
        if one != other:
            print(f"bundle {number}: {one!r}, but plain says {other!r}: {content.hex(' ')}")
            return 1
        words = one.split()
        said[b" ".join(words[:2]) if words[0] == b"fault" else words[0]] += 1
    print(", ".join(f"{what.decode()} {n}" for what, n in sorted(said.items())))
    return 0


if __name__ == "__main__":
    sys.exit(main())
