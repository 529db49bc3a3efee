#!/usr/bin/env python3
"""Asks whether the time of `ufs play` grows with the number of requests and not with its square, and how long the
longest script takes to be read.

Run it by hand, from any folder: python3 bench/linear.py [FOLDER]
FOLDER (default /dev/shm) is where scripts, replies and the image are made and removed again.
"""
import os
import subprocess
import sys
import tempfile
import time

TOP = os.path.dirname(os.path.dirname(os.path.abspath(__file__)))
UFS = os.path.join(TOP, "ufs")
LONGEST = 16777216  # the greatest length of a script, in bytes
RUNS = 3


def appends(count):
    """So many appends of one byte to one file. Two clients make half of them each, since one has at most 65,536
    requests, of which the `open` is one."""
    half = ["open /f w creat append"] + ["write 3 61"] * (count // 2)
    return "\n".join(["client 0"] + half + ["client 1"] + half + ["end"]) + "\n"


def longest():
    """A script of exactly the greatest length: few requests with much data, and a comment for the rest."""
    head = "client 0\nopen /f w creat\n"
    write = "pwrite 3 %s 0\n" % ("6a" * 1048576)
    tail = "end\n"
    writes = (LONGEST - len(head) - len(tail)) // len(write)
    text = head + write * writes + tail
    return text + "#" * (LONGEST - len(text) - 1) + "\n"


def seconds(folder, text):
    """The least time of some runs, the status of the last one, and its last line."""
    script, replies, image = (os.path.join(folder, name) for name in ("script", "replies", "image"))
    with open(script, "w") as f:
        f.write(text)
    times = []
    for _ in range(RUNS):
        subprocess.run([UFS, "mkfs", "65536", "4096", "4096", "--image", image], stdout=subprocess.DEVNULL)
        begin = time.monotonic()
        with open(script, "rb") as source, open(replies, "wb") as sink:
            status = subprocess.run([UFS, "play", "--image", image], stdin=source, stdout=sink).returncode
        times.append(time.monotonic() - begin)
    with open(replies, "rb") as f:
        lines = f.read().splitlines()
    return min(times), status, lines[-1].decode() if lines else ""


def main():
    base = sys.argv[1] if len(sys.argv) > 1 else "/dev/shm"
    subprocess.run([UFS], stdin=subprocess.DEVNULL, stdout=subprocess.DEVNULL)  # builds it where it isn't there
    rows = [("32,768 appends", appends(32768)), ("65,536 appends", appends(65536)), ("16 MiB of text", longest())]
    took = []
    with tempfile.TemporaryDirectory(dir=base) as folder:
        for name, text in rows:
            time_of, status, last = seconds(folder, text)
            took.append(time_of)
            print("%-15s %8d bytes   %7.3f s   status %d, last line %s" % (name, len(text), time_of, status, last))
    print("twice the appends take %.1f times as long: about 2 is linear, about 4 would be the square" % (took[1] / took[0]))
    print("16 MiB of text are read in %s" % ("under a second" if took[2] < 1 else "A SECOND OR MORE"))


main()
