#!/usr/bin/env python3
"""Counts the calls of files that `play` makes over a mirror of two files, beside those over one file, by strace.

Run it by hand, from any folder: python3 bench/mirror.py [FOLDER]
FOLDER (default the system's folder for temporary files) is where the files are made and removed again: 512 MiB.
It ends with status 0 where a session calls both files at most 2.2 times as often as it calls one, behind the opening, and where the
opening reads each sector of the data of one file once, and writes it once to the other, 4,096 bytes a call.
"""
import os
import re
import subprocess
import sys
import tempfile
from collections import Counter

TOP = os.path.dirname(os.path.dirname(os.path.abspath(__file__)))
UFS = os.path.join(TOP, "ufs")
MOST = 2.2
PIECE = 4096
LABEL = 524_287 * 512  # where the label of a file stands
CALL = re.compile(r'(pread64|pwrite64|fsync)\(\d+<([^>]*)>(?:, (?:""|NULL)(?:\.\.\.)?, (\d+), (\d+))?\)\s+= ')

SYNCED = ["open /log w creat append"] + ["write 3 100*61", "fsync 3"] * 200
LARGE = ["open /large rw creat", *["write 3 1000000*61"] * 4, "fsync 3", "trunc 3 1000000", "fsync 3", "pread 3 1000000 0"]
NAMES = ["mkdir /d"] + [line for n in range(100) for line in ("open /d/f%d w creat" % n, "write 3 61", "close 3", "sync")]
SESSIONS = (("200 appends with an fsync each", SYNCED), ("one large file", LARGE), ("100 new files with a sync each", NAMES))


def run(words, script=b""):
    subprocess.run(words, input=script, stdout=subprocess.DEVNULL, check=True)


def calls(folder, lines, files):
    """Each call of a file, in order: (its name, the file, the bytes, the place)."""
    log = os.path.join(folder, "calls")
    script = ("\n".join(["client 0", *lines, "end"]) + "\n").encode()
    run(["strace", "-f", "-y", "-s", "0", "-e", "trace=pread64,pwrite64,fsync", "-o", log, UFS, "play", *files], script)
    found = []
    with open(log) as f:
        for line in f:
            call = CALL.search(line)
            if call:
                name, path, size, at = call.groups()
                found.append((name, os.path.basename(path), int(size or 0), int(at or 0)))
    return found


def opening_of(made, file):
    """How many of a file's calls its opening is: up to the fsync behind its label."""
    labelled = False
    for number, (name, _, _, at) in enumerate(made):
        labelled = labelled or (name == "pwrite64" and at == LABEL)
        if labelled and name == "fsync":
            return number + 1
    sys.exit("%s got no label" % file)


def is_whole_copy(pieces):
    """Whether these calls take each byte before the label once, in the largest pieces."""
    wanted = [(at, min(PIECE, LABEL - at)) for at in range(0, LABEL, PIECE)]
    return [(at, size) for _, _, size, at in pieces] == wanted


def one_session(name, lines, folder):
    one, first, second = (os.path.join(folder, f) for f in ("one.img", "first.img", "second.img"))
    both = ["--image", first, "--mirror", second]
    run([UFS, "mkfs", "8192", "256", "4096", "--image", one])
    run([UFS, "mkfs", "8192", "256", "4096", *both])
    alone = len(calls(folder, lines, ["--image", one]))
    made = calls(folder, lines, both)
    legs = {f: [c for c in made if c[1] == f] for f in ("first.img", "second.img")}
    ends = {f: opening_of(of_leg, f) for f, of_leg in legs.items()}
    behind = len(made) - sum(ends.values())
    print("%-34s %6d calls of one file, %6d of both behind the opening: %.2f times" % (name, alone, behind, behind / alone))
    reads = [c for c in legs["first.img"][: ends["first.img"]] if c[0] == "pread64" and c[3] != LABEL]
    writes = [c for c in legs["second.img"][: ends["second.img"]] if c[0] == "pwrite64" and c[3] != LABEL]
    for leg, pieces in (("reads of the first", reads), ("writes of the second", writes)):
        sizes = ", ".join("%d of %d bytes" % (n, size) for size, n in Counter(c[2] for c in pieces).most_common())
        print("    the opening's copy, %s: %s%s" % (leg, sizes, "" if is_whole_copy(pieces) else ", which isn't the data once"))
    for file in (one, first, second):
        os.remove(file)
    return behind <= MOST * alone and is_whole_copy(reads) and is_whole_copy(writes)


def main():
    base = sys.argv[1] if len(sys.argv) > 1 else None
    subprocess.run([UFS], stdin=subprocess.DEVNULL, stdout=subprocess.DEVNULL)  # builds it where it isn't there
    with tempfile.TemporaryDirectory(dir=base) as folder:
        passed = [one_session(name, lines, folder) for name, lines in SESSIONS]
    sys.exit(0 if all(passed) else 1)


main()
