#!/usr/bin/env python3
"""Compares a shake program with the model on drawn and wrong arguments.

    shake_fuzz.py PROGRAM [COUNT] [SEED]

PROGRAM (a command; it may have arguments) gets each list of arguments: all of
shake_selftest.py's, then COUNT drawn ones.  Standard output must be the model's
byte for byte, and standard error one line exactly where it is `(bad 14)`.  The
first difference is printed, and the end is 1.
"""

import os
import shlex
import subprocess
import sys

import cells
import draw
import fuzz
import shake_selftest
import shaker

LIMIT_SECONDS = 20


def printed(command, words):
    """Standard output, and the number of lines on standard error."""
    try:
        done = subprocess.run(command + words, stdin=subprocess.DEVNULL,
                              capture_output=True, timeout=LIMIT_SECONDS)
    except subprocess.TimeoutExpired:
        return b"[no end within %d seconds]\n" % LIMIT_SECONDS, 0
    out = done.stdout
    if done.returncode < 0:
        out += b"[ended by signal %d]\n" % -done.returncode
    return out, done.stderr.count(b"\n")


def near_limits(d):
    """Five numbers, most of them good, some next to their limits."""
    n = d.pick((d.between(1, 32), d.between(1, 4), d.pick((0, 1, 32, 33))))
    v = d.pick((d.between(1, 16), d.between(1, 2), d.pick((0, 1, 16, 17))))
    least = cells.least_blocks(n, v)
    b = d.pick((least, 128, d.between(0, 130), max(least - 1, 0), 129))
    length = d.pick((d.between(1, 40), d.between(1, 3000),
                     d.pick((0, 1, 2999, 3000, 3001))))
    return [b"%d" % number for number in (d.below(2 ** 32), n, v, b, length)]


def drawn(d):
    words = near_limits(d)
    if d.percent(20):
        words[d.below(5)] = d.pick(fuzz.EDGES).encode()
    if d.percent(3):
        del words[d.below(5)]
    if d.percent(3):
        words.append(b"1")
    return words


def all_lists(count, seed):
    yield from (words.split(b" ")
                for words, _ in shake_selftest.GOOD_ARGUMENTS)
    yield from shake_selftest.bad_arguments()
    d = draw.Draw(seed)
    for _ in range(count):
        yield drawn(d)


def main():
    if len(sys.argv) < 2:
        print(__doc__)
        return 2
    command = [os.fsencode(word) for word in shlex.split(sys.argv[1])]
    if os.path.exists(command[0]):
        command[0] = os.path.abspath(command[0])
    count = int(sys.argv[2]) if len(sys.argv) > 2 else 300
    seed = int(sys.argv[3]) if len(sys.argv) > 3 else 1
    lists = 0
    for words in all_lists(count, seed):
        wanted = shaker.shake_arguments(words)
        found, lines = printed(command, words)
        if found != wanted:
            print("arguments %r\n  model   %r\n  program %r"
                  % (words, wanted[:400], found[:400]))
            return 1
        if lines != (wanted == b"(bad 14)\n"):
            print("arguments %r: %d lines on standard error" % (words, lines))
            return 1
        lists += 1
    print("%d lists of arguments agree, seed %d" % (lists, seed))
    return 0


if __name__ == "__main__":
    sys.exit(main())
