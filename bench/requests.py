#!/usr/bin/env python3
"""Times small requests that stay in memory, and appends each with an `fsync`, as `ufs play` serves them.

Run it by hand, from any folder: python3 bench/requests.py [FOLDER [PROGRAM ..]]
FOLDER (default /dev/shm) is where scripts and images are made and removed again. Each PROGRAM is a build of `ufs`, by default
this repository's; with more than one each row's last column is the time of the last beside that of the first. What is told
of a request is the least time of some runs, without that of a script which only opens and writes the files.
"""
import os
import subprocess
import sys
import tempfile
import time

TOP = os.path.dirname(os.path.dirname(os.path.abspath(__file__)))
RUNS = 15
COUNT = 57600


def script(request, clients):
    """So many requests in all, by so many clients, each on a file of its own."""
    lines = []
    times = COUNT // clients // len(request) if request else 0
    for client in range(clients):
        lines += ["client %d" % client, "open /f%d rw creat" % client, "write 3 6275790a"] + request * times
    return "\n".join(lines + ["end"]) + "\n"


ROWS = [
    ("seek", ["seek 3 set 0"]),
    ("pread", ["pread 3 0 4"]),
    ("stat", ["stat /f0"]),
    ("append", ["write 3 61"]),
    ("append and fsync", ["write 3 61", "fsync 3"]),
]


def once(program, folder, text):
    """The seconds of one session on a new image."""
    image, source = os.path.join(folder, "image"), os.path.join(folder, "script")
    with open(source, "w") as f:
        f.write(text)
    if os.path.exists(image):
        os.remove(image)
    quiet = {"stdout": subprocess.DEVNULL, "stderr": subprocess.DEVNULL}
    subprocess.run([program, "mkfs", "4096", "256", "4096", "--image", image], check=True, **quiet)
    with open(source) as given:
        begin = time.monotonic()
        status = subprocess.run([program, "play", "--image", image], stdin=given, **quiet).returncode
    took = time.monotonic() - begin
    if status != 0:
        sys.exit("%s ended with status %d" % (program, status))
    return took


def best(programs, folder, text):
    """The least seconds of each program; they take turns."""
    least = [float("inf")] * len(programs)
    for _ in range(RUNS):
        for at, program in enumerate(programs):
            least[at] = min(least[at], once(program, folder, text))
    return least


def main():
    base = sys.argv[1] if len(sys.argv) > 1 else "/dev/shm"
    own = os.path.join(TOP, "ufs")
    if len(sys.argv) < 3:
        subprocess.run([own], stdin=subprocess.DEVNULL, stdout=subprocess.DEVNULL)  # builds it where it isn't there
    programs = sys.argv[2:] or [own]
    with tempfile.TemporaryDirectory(dir=base) as folder:
        for clients in (1, 16):
            without = best(programs, folder, script([], clients))
            for name, request in ROWS:
                took = best(programs, folder, script(request, clients))
                each = ["%7.0f" % ((t - w) / COUNT * 1e9) for t, w in zip(took, without)]
                whole = ["%6.1f" % (t * 1e3) for t in took]
                beside = "  %.2f" % (took[-1] / took[0]) if len(programs) > 1 else ""
                print("%-17s %2d clients: ms %s, ns a request %s%s" % (name, clients, " ".join(whole), " ".join(each), beside), flush=True)


if __name__ == "__main__":
    main()
