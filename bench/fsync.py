#!/usr/bin/env python3
"""Times a session of small writes, each with an fsync, beside the same calls on a file of the kernel's.

Run it by hand, from any folder: python3 bench/fsync.py [FOLDER [WRITES]]
FOLDER (default the system's folder for temporary files) is where the image and the kernel's file are made and removed again;
WRITES are 10,000 where none are given. They are appends to a new file, and then writes at the end of a file of nearly 16 MiB:
an fsync isn't to cost more there. The calls of the device that an fsync makes are counted by strace, where there is one.
"""
import os
import shutil
import subprocess
import sys
import tempfile
import time

TOP = os.path.dirname(os.path.dirname(os.path.abspath(__file__)))
UFS = os.path.join(TOP, "ufs")
BYTES = b"a" * 100
LARGE = 16_000_000
COUNTED = 200
CALLS = ("pwrite64", "fsync")

APPENDS = ["open /log w creat append"]
APPEND = ["write 3 %d*61" % len(BYTES), "fsync 3"]
AT_THE_END = ["open /log rw creat", "trunc 3 %d" % LARGE, "fsync 3"]
WRITE = ["pwrite 3 %d*61 %d" % (len(BYTES), LARGE - len(BYTES)), "fsync 3"]


def session(folder, lines, before=()):
    """Plays these lines on a new image, by the words in `before` where there are such. Answers the seconds."""
    image, script = os.path.join(folder, "ufs.img"), os.path.join(folder, "script")
    subprocess.run([UFS, "mkfs", "8192", "64", "4096", "--image", image], stdout=subprocess.DEVNULL, check=True)
    with open(script, "w") as f:
        f.write("\n".join(["client 0", *lines, "end"]) + "\n")
    begin = time.monotonic()
    with open(script, "rb") as source:
        subprocess.run([*before, UFS, "play", "--image", image], stdin=source, stdout=subprocess.DEVNULL, check=True)
    return time.monotonic() - begin


def seconds_each(folder, first, each, writes):
    return (session(folder, first + each * writes) - session(folder, first)) / writes


def count_calls(folder, lines):
    """How many of each call of the device a session makes."""
    log = os.path.join(folder, "calls")
    session(folder, lines, ["strace", "-f", "-e", "trace=" + ",".join(CALLS), "-o", log])
    with open(log) as f:
        text = f.read()
    return [text.count(call + "(") for call in CALLS]


def calls_each(folder, first, each):
    whole, empty = count_calls(folder, first + each * COUNTED), count_calls(folder, first)
    return [(w - e) / COUNTED for w, e in zip(whole, empty)]


def kernel_each(folder, writes):
    file = os.open(os.path.join(folder, "log"), os.O_WRONLY | os.O_CREAT | os.O_APPEND)
    begin = time.monotonic()
    for _ in range(writes):
        os.write(file, BYTES)
        os.fsync(file)
    taken = time.monotonic() - begin
    os.close(file)
    return taken / writes


def main():
    base = sys.argv[1] if len(sys.argv) > 1 else None
    writes = int(sys.argv[2]) if len(sys.argv) > 2 else 10000
    subprocess.run([UFS], stdin=subprocess.DEVNULL, stdout=subprocess.DEVNULL)  # builds it where it isn't there
    print("%d writes of %d bytes, each with an fsync; microseconds each" % (writes, len(BYTES)))
    with tempfile.TemporaryDirectory(dir=base) as folder:
        print("ufs play, appends to a new file        %8.1f" % (seconds_each(folder, APPENDS, APPEND, writes) * 1e6))
        print("ufs play, at the end of a large file   %8.1f" % (seconds_each(folder, AT_THE_END, WRITE, writes) * 1e6))
        print("kernel, appends to a new file          %8.1f" % (kernel_each(folder, writes) * 1e6))
        if shutil.which("strace") is None:
            print("calls of the device aren't counted: there is no strace")
            return
        for name, first, each in (("an append", APPENDS, APPEND), ("a write in a large file", AT_THE_END, WRITE)):
            print("calls of the device for %s and its fsync: %.2f writes, %.2f barriers" % (name, *calls_each(folder, first, each)))
        again = [(w - e) / COUNTED for w, e in zip(count_calls(folder, APPENDS + APPEND + ["fsync 3"] * COUNTED), count_calls(folder, APPENDS + APPEND))]
        print("calls of the device for an fsync behind an fsync: %.2f writes, %.2f barriers" % tuple(again))


main()
