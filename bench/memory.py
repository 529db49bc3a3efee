#!/usr/bin/env python3
"""Plays scripts with little memory, and asks what `ufs` does where an allocation is refused.

Run it by hand, from any folder: python3 bench/memory.py [FOLDER [PROGRAM]]
FOLDER (default /dev/shm) is where images are made and removed again; PROGRAM is a build of `ufs`, by default this repository's.
One script reads 40 megabytes block by block, and then a megabyte at once; the other makes and writes many files. Each is played with one limit
after another on the process's address space, from the least with which the program starts to one that suffices. It fails unless
 - each run ends with status 0 or 5, and with none of the others (a process that can't be started for want of memory isn't counted);
 - of a run with status 0 each reply line is as without a limit, or `err ENOMEM`, or has the cause that a request before it was so
   excused; the first line that differs is `err ENOMEM`;
 - of a run with status 5 the image opens again, with no damage;
 - both happen: a run with status 5, and one with status 0 and at least one line `err ENOMEM`.
"""
import os
import resource
import subprocess
import sys
import tempfile

TOP = os.path.dirname(os.path.dirname(os.path.abspath(__file__)))
STEP = 1 << 18
LARGEST = 256 << 20


def reading():
    """40 megabytes that are read in blocks, whose bytes are kept until they are printed, and a megabyte that is read at once."""
    lines = ["client 0", "open /f rw creat", "trunc 3 1048576"] + ["pread 3 4096 0"] * 10240
    return lines + ["pread 3 1048576 0", "mkdir /d", "sync", "end"]


def making():
    """Many files, each with a block of bytes, and a commit behind each eighth."""
    lines = ["client 0", "mkdir /d"]
    for number in range(200):
        lines += ["open /d/%d rw creat" % number, "pwrite %d %s %d" % (3 + number % 16, "61" * 4096, number)]
        if number % 8 == 7:
            lines.append("fsync %d" % (3 + number % 16))
        if number >= 15:
            lines.append("close %d" % (3 + (number + 1) % 16))
    return lines + ["sync", "end"]


def run(program, words, script, limit):
    """The status and the lines that a command prints, with so many bytes of address space."""
    def little():
        if limit:
            resource.setrlimit(resource.RLIMIT_AS, (limit, limit))
    done = subprocess.run([program, *words], input=script, capture_output=True, preexec_fn=little)
    return done.returncode, done.stdout.decode().splitlines(), done.stderr.decode().strip()


def image(program, folder):
    """A new image."""
    at = os.path.join(folder, "image")
    if os.path.exists(at):
        os.remove(at)
    status, _, said = run(program, ["mkfs", "--image", at, "8192", "256", "1024"], b"", 0)
    if status:
        sys.exit("mkfs: status %d: %s" % (status, said))
    return at


def least(program, folder):
    """The least limit, in steps, with which the program tells its usage."""
    for limit in range(STEP, LARGEST, STEP):
        try:
            if run(program, [], b"", limit)[0] == 1:
                return limit
        except OSError:
            pass
    sys.exit("the program doesn't start with %d bytes" % LARGEST)


def is_excused(lines, whole):
    """Whether the lines are those of a whole run up to one that is excused; how many are excused."""
    excused = [number for number, line in enumerate(lines) if line.endswith(" err ENOMEM")]
    differs = [number for number, (line, other) in enumerate(zip(lines, whole)) if line != other]
    return len(lines) == len(whole) and (not differs or differs[0] == excused[0]), len(excused)


def try_script(program, folder, name, script, start):
    """Plays the script with each limit. Answers what is wrong, and the limits of both kinds."""
    text = "\n".join(script + [""]).encode()
    status, whole, said = run(program, ["play", "--image", image(program, folder)], text, 0)
    if status:
        sys.exit("%s: status %d without a limit: %s" % (name, status, said))
    wrong, refused, excused = [], [], []
    for limit in range(start, LARGEST, STEP):
        at = image(program, folder)
        status, lines, said = run(program, ["play", "--image", at], text, limit)
        if status == 5:
            refused.append(limit)
        elif status == 0:
            fits, count = is_excused(lines, whole)
            if not fits:
                wrong.append("%s, %d KB: a line differs before the first excuse" % (name, limit >> 10))
            if not count:
                break
            excused.append(limit)
        else:
            wrong.append("%s, %d KB: status %d: %s" % (name, limit >> 10, status, said))
        status, damage, said = run(program, ["check", "--image", at], b"", 0)
        if status:
            wrong.append("%s, %d KB: behind it `check` ends with %d: %s %s" % (name, limit >> 10, status, damage[:1], said))
    return wrong, refused, excused


def told(limits):
    """The limits of a kind as a range."""
    return "%d runs, with %d to %d KB" % (len(limits), limits[0] >> 10, limits[-1] >> 10) if limits else "none"


def main():
    folder = sys.argv[1] if len(sys.argv) > 1 else "/dev/shm"
    program = os.path.abspath(sys.argv[2]) if len(sys.argv) > 2 else os.path.join(TOP, "ufs")
    failed = []
    with tempfile.TemporaryDirectory(dir=folder) as at:
        start = least(program, at)
        print("the program starts with %d KB" % (start >> 10))
        for name, script in [("reading", reading()), ("making", making())]:
            wrong, refused, excused = try_script(program, at, name, script, start)
            failed += wrong
            print("%-8s status 5: %s; status 0 with excuses: %s" % (name, told(refused), told(excused)))
            if name == "reading" and not (refused and excused):
                failed.append("%s: want of memory isn't met in both ways" % name)
    for line in failed:
        print(line)
    sys.exit(1 if failed else 0)


if __name__ == "__main__":
    main()
