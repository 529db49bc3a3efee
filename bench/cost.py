#!/usr/bin/env python3
"""Says what 65,000 mixed requests cost: the instructions of `ufs play` by callgrind, and its processor time beside that of the
same calls on a folder in memory, made by a C program (bench/kernel.c).

Run it by hand, from any folder: python3 bench/cost.py [FOLDER [PROGRAM]]
FOLDER (default /dev/shm, a tmpfs) is where the script, the image and the kernel's files are made and removed again. PROGRAM is a
build of `ufs`, by default this repository's. It needs cc, and valgrind for the instructions. Of both sides the least of some
runs counts; of `ufs` it is that of the whole process, without that of a script of no request. So the reading of the script and
the writing of the replies are in it, which the C program doesn't have.
"""
import os
import random
import re
import resource
import shutil
import subprocess
import sys
import tempfile

TOP = os.path.dirname(os.path.dirname(os.path.abspath(__file__)))
REQUESTS = 65000
RUNS = 5
DIRS, FILES, OPEN = 100, 1500, 48
SEED = 1


class Mix:
    """A client's requests, and what they leave open."""

    def __init__(self):
        self.pick = random.Random(SEED)
        self.lines = ["mkdir /d%d" % i for i in range(DIRS)]
        self.paths = []
        self.open = {}
        self.made = 0

    def name(self):
        self.made += 1
        return "/d%d/f%d" % (self.pick.randrange(DIRS), self.made)

    def lowest(self):
        return next(fd for fd in range(3, 67) if fd not in self.open)

    def opened(self, path, flags):
        self.open[self.lowest()] = path
        self.lines.append("open %s rw%s" % (path, flags))

    def step(self):
        """One request, of the kinds that fit."""
        kind = self.pick.random()
        if (kind < 0.08 and len(self.open) < OPEN) or not self.open:
            if len(self.paths) < FILES and (self.pick.random() < 0.6 or not self.paths):
                self.paths.append(self.name())
                self.opened(self.paths[-1], " creat")
            else:
                self.opened(self.pick.choice(self.paths), "")
            return
        fd = self.pick.choice(list(self.open))
        if kind < 0.16:
            del self.open[fd]
            self.lines.append("close %d" % fd)
        elif kind < 0.40:
            self.lines.append("pwrite %d %d*61 %d" % (fd, self.pick.choice((1, 64, 512, 4096)), self.pick.randrange(16384)))
        elif kind < 0.70:
            self.lines.append("pread %d %d %d" % (fd, self.pick.choice((1, 64, 512)), self.pick.randrange(16384)))
        elif kind < 0.78:
            self.lines.append("seek %d set %d" % (fd, self.pick.randrange(16384)))
        elif kind < 0.90:
            self.lines.append("stat %s" % self.pick.choice(self.paths))
        elif kind < 0.94:
            self.lines.append("trunc %d %d" % (fd, self.pick.randrange(16384)))
        else:
            self.rename_or_unlink()

    def rename_or_unlink(self):
        """Of a file that nobody has open."""
        at = self.pick.randrange(len(self.paths))
        path = self.paths[at]
        if path in self.open.values():
            self.lines.append("stat %s" % path)
        elif self.pick.random() < 0.5:
            self.paths[at] = self.name()
            self.lines.append("rename %s %s" % (path, self.paths[at]))
        else:
            self.paths[at] = self.paths[-1]
            self.paths.pop()
            self.lines.append("unlink %s" % path)


def script(count):
    mix = Mix()
    while len(mix.lines) < count:
        mix.step()
    return "\n".join(["client 0"] + mix.lines[:count] + ["end"]) + "\n"


def used(run):
    """The processor time of the children that a run makes."""
    before = resource.getrusage(resource.RUSAGE_CHILDREN)
    run()
    after = resource.getrusage(resource.RUSAGE_CHILDREN)
    return after.ru_utime + after.ru_stime - before.ru_utime - before.ru_stime


class Ufs:
    def __init__(self, program, folder):
        self.program, self.image = program, os.path.join(folder, "image")

    def make(self):
        if os.path.exists(self.image):
            os.remove(self.image)
        subprocess.run([self.program, "mkfs", "16384", "4096", "4096", "--image", self.image], check=True, stdout=subprocess.DEVNULL)

    def play(self, source, before=()):
        with open(source) as given:
            return subprocess.run([*before, self.program, "play", "--image", self.image], stdin=given, stdout=subprocess.DEVNULL, stderr=subprocess.PIPE, check=True)

    def seconds(self, source):
        least = float("inf")
        for _ in range(RUNS):
            self.make()
            least = min(least, used(lambda: self.play(source)))
        return least

    def instructions(self, source):
        self.make()
        told = self.play(source, ("valgrind", "--tool=callgrind", "--callgrind-out-file=/dev/null")).stderr.decode()
        return int(re.search(r"Collected : (\d+)", told).group(1))


def kernel_seconds(program, folder, source):
    """The least seconds, and how many calls failed."""
    least, failed = float("inf"), 0
    for _ in range(RUNS):
        place = os.path.join(folder, "tree")
        os.mkdir(place)
        with open(source) as given:
            count, failed, took = subprocess.run([program, place], stdin=given, check=True, capture_output=True).stdout.split()
        shutil.rmtree(place)
        least = min(least, float(took))
    return least, int(failed)


def main():
    base = sys.argv[1] if len(sys.argv) > 1 else "/dev/shm"
    own = os.path.join(TOP, "ufs")
    if len(sys.argv) < 3:
        subprocess.run([own], stdin=subprocess.DEVNULL, stdout=subprocess.DEVNULL)  # builds it where it isn't there
        own = os.path.join(TOP, "crates", "ufs_top", "out", "ufs_top")
    with tempfile.TemporaryDirectory(dir=base) as folder:
        calls = os.path.join(folder, "kernel")
        subprocess.run(["cc", "-O2", "-o", calls, os.path.join(TOP, "bench", "kernel.c")], check=True)
        whole, none = os.path.join(folder, "whole"), os.path.join(folder, "none")
        for path, count in ((whole, REQUESTS), (none, 0)):
            with open(path, "w") as f:
                f.write(script(count))
        ufs = Ufs(sys.argv[2] if len(sys.argv) > 2 else own, folder)
        took, alone = ufs.seconds(whole), ufs.seconds(none)
        beside, failed = kernel_seconds(calls, folder, whole)
        print("processor time, ms: ufs %.1f, without its empty session %.1f; the kernel's calls %.1f (%d of them refused); %.2f times" % (took * 1e3, (took - alone) * 1e3, beside * 1e3, failed, (took - alone) / beside), flush=True)
        if shutil.which("valgrind"):
            count, empty = ufs.instructions(whole), ufs.instructions(none)
            print("instructions, millions: %.0f, without an empty session's %.0f" % (count / 1e6, (count - empty) / 1e6))


if __name__ == "__main__":
    main()
