#!/usr/bin/env python3
"""Asks what an audit costs: the processor time of `ufs audit` on what 65,536 requests of sixteen clients print, beside that of
`ufs play` on their script; and the same of the workload of `ufs bench 1`.

Run it by hand, from any folder: python3 bench/audit.py [FOLDER [PROGRAM]]
FOLDER (default /dev/shm) is where scripts, texts and images are made and removed again; PROGRAM is a build of `ufs`, by default
this repository's. It is the time of the whole process, user and system, the least of some runs. A second row with a quarter of
the requests says whether the time grows with their number. It ends with status 1 where an audit takes more than four times as
long as `play`, or the text isn't found legal.
"""
import os
import random
import resource
import shutil
import subprocess
import sys
import tempfile

import workload

TOP = os.path.dirname(os.path.dirname(os.path.abspath(__file__)))
CLIENTS = 16
RUNS = 5
MOST = 4
SEED = 1


def requests(client, count):
    """A client's requests: a directory with four files, and then small requests of every kind."""
    pick = random.Random(SEED * CLIENTS + client)
    lines = ["mkdir /c%d" % client] + ["open /c%d/f%d rw creat" % (client, file) for file in range(4)]
    while len(lines) < count:
        fd, file, place = 3 + pick.randrange(4), pick.randrange(4), pick.randrange(8192)
        lines.append(
            pick.choice(
                [
                    "pwrite %d 100*6a %d" % (fd, place),
                    "pread %d 100 %d" % (fd, place),
                    "write %d 62757a0a" % fd,
                    "read %d 64" % fd,
                    "seek %d set %d" % (fd, place),
                    "stat /c%d/f%d" % (client, file),
                    "stat /c%d/f%d" % (pick.randrange(CLIENTS), file),
                    "trunc %d %d" % (fd, place),
                    "list /c%d" % client,
                    "open /c%d/none r" % client,
                ]
            )
        )
    return lines[:count]


def script(count):
    """So many requests in all."""
    lines = []
    for client in range(CLIENTS):
        lines += ["client %d" % client] + requests(client, count // CLIENTS)
    return "\n".join(lines + ["end"]) + "\n"


def benched(folder):
    """The script of `ufs bench 1`."""
    path = os.path.join(folder, "workload")
    workload.script(path, workload.workload(1))
    with open(path) as f:
        return f.read()


class Session:
    """A script, an image as it was before, and what is printed."""

    def __init__(self, program, folder, text):
        self.program = program
        self.script, self.new, self.image, self.whole = (os.path.join(folder, name) for name in ("script", "new", "image", "whole"))
        with open(self.script, "w") as f:
            f.write(text)
        if os.path.exists(self.new):
            os.remove(self.new)
        subprocess.run([program, "mkfs", "16384", "1024", "1024", "--image", self.new], check=True, stdout=subprocess.DEVNULL)

    def run(self, words, image, source, sink=subprocess.DEVNULL):
        """What is used by one call of the program, and its status."""
        before = resource.getrusage(resource.RUSAGE_CHILDREN)
        with open(source, "rb") as given:
            status = subprocess.run([self.program, *words, "--image", image], stdin=given, stdout=sink).returncode
        after = resource.getrusage(resource.RUSAGE_CHILDREN)
        return after.ru_utime + after.ru_stime - before.ru_utime - before.ru_stime, status

    def play(self, words, sink=subprocess.DEVNULL):
        shutil.copy(self.new, self.image)
        used, status = self.run(words, self.image, self.script, sink)
        if status != 0:
            sys.exit("play ended with status %d" % status)
        return used

    def print_whole(self):
        """The script, and what it prints with its trace."""
        with open(self.whole, "wb") as f:
            with open(self.script, "rb") as given:
                f.write(given.read())
            f.flush()
            self.play(["play", "--trace"], f)

    def audit(self):
        used, status = self.run(["audit"], self.new, self.whole)
        if status != 0:
            sys.exit("audit ended with status %d" % status)
        return used


def row(program, folder, name, text):
    """The times of a script, and how many times as long the audit takes."""
    session = Session(program, folder, text)
    session.print_whole()
    played, audited = float("inf"), float("inf")
    for _ in range(RUNS):
        played = min(played, session.play(["play"]))
        audited = min(audited, session.audit())
    size = os.path.getsize(session.whole)
    print("%s, %8d bytes to audit: play %7.3f s, audit %7.3f s, %.2f times" % (name, size, played, audited, audited / played), flush=True)
    return audited / played


def main():
    base = sys.argv[1] if len(sys.argv) > 1 else "/dev/shm"
    program = sys.argv[2] if len(sys.argv) > 2 else os.path.join(TOP, "ufs")
    if len(sys.argv) < 3:
        subprocess.run([program], stdin=subprocess.DEVNULL, stdout=subprocess.DEVNULL)  # builds it where it isn't there
    with tempfile.TemporaryDirectory(dir=base) as folder:
        times = [row(program, folder, "%6d requests" % count, script(count)) for count in (16384, 65536)]
        times.append(row(program, folder, "ufs bench 1", benched(folder)))
    if max(times) > MOST:
        print("an audit takes MORE THAN %d TIMES as long as play" % MOST)
        return 1
    return 0


sys.exit(main())
