#!/usr/bin/env python3
"""Writes a script to standard output.

generate.py PUTS GETS   so many puts round 1,000 keys, and gets of them; values have 8 bytes
generate.py full        the greatest script: 500,000 puts in 16 MiB, of which the first 3,072 are accepted
generate.py flushes FLUSHES GETS
                        before each flush 1,000 puts, and after each put so many gets of its key
generate.py oldest FLUSHES GETS
                        1,000 puts of keys of its own before each flush, and then gets of the first flush's keys
"""
import sys

GREATEST = 16 * 1024 * 1024
LINES = 500_000
ROWS = 1000


def mixed(puts, gets):
    for i in range(puts):
        yield f"1 put default k{i % 1000:06} v{i:07}\n"
    for i in range(gets):
        yield f"1 get default k{(i * 7919) % 1000:06}\n"


def full():
    room = GREATEST // LINES
    for i in range(LINES):
        line = f"1 put default k{i % 1000:06} "
        yield line + "v" * (room - len(line) - 1) + "\n"


def flushes(count, gets):
    for i in range(count * ROWS):
        key = f"k{i % ROWS:06}"
        yield f"1 put default {key} v{i:07}\n"
        yield f"1 get default {key}\n" * gets
        if i % ROWS == ROWS - 1:
            yield "1 flush default\n"


def oldest(count, gets):
    for i in range(count * ROWS):
        yield f"1 put default k{i:06} v{i:07}\n"
        if i % ROWS == ROWS - 1:
            yield "1 flush default\n"
    for i in range(gets):
        yield f"1 get default k{(i * 7919) % ROWS:06}\n"


SCRIPTS = {"flushes": flushes, "oldest": oldest}

if sys.argv[1:] == ["full"]:
    lines = full()
elif sys.argv[1] in SCRIPTS:
    lines = SCRIPTS[sys.argv[1]](int(sys.argv[2]), int(sys.argv[3]))
else:
    lines = mixed(int(sys.argv[1]), int(sys.argv[2]))
sys.stdout.write("".join(lines))
