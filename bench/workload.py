#!/usr/bin/env python3
"""Times `ufs bench`, beside `ufs play` of the same script and beside the same calls made on a folder by a plain program, and
asks whether `bench` and the plain program are answered alike.

Run it by hand, from any folder: python3 bench/workload.py [FOLDER [PROGRAM]]
FOLDER (default /dev/shm) is where images and files are made and removed again; PROGRAM is a build of `ufs`, by default this
repository's. A row for each seed has the processor time of each, user and system: of `ufs` that of its whole process, where
`bench` formats its image and `play` reads its script and writes its replies, and of the plain program that of the calls alone,
which it makes in this process. It also tells how long a refused command takes, by the clock and by processor time, beside
`/bin/true`.
"""
import os
import resource
import shutil
import subprocess
import sys
import tempfile
import time

TOP = os.path.dirname(os.path.dirname(os.path.abspath(__file__)))
RUNS = 5
M64, M32 = (1 << 64) - 1, (1 << 32) - 1
MULTIPLIER = 6364136223846793005


def output(state):
    """The word of a state, by PCG XSH RR 64/32."""
    word, turn = ((state >> 18 ^ state) >> 27) & M32, state >> 59
    return (word >> turn | word << (32 - turn)) & M32 if turn else word


def words(seed):
    """The generator's words: the number gives 16 bytes, and these the state and the increment."""
    spread, state = b"", seed
    while len(spread) < 16:
        state = (state * 0x5851F42D4C957F2D + 0xA17654E46FBE17F3) & M64
        spread += output(state).to_bytes(4, "little")
    step = int.from_bytes(spread[8:], "little") | 1
    state = ((int.from_bytes(spread[:8], "little") + step) * MULTIPLIER + step) & M64
    while True:
        yield output(state)
        state = (state * MULTIPLIER + step) & M64


def workload(seed):
    """The calls of the eight clients behind the making of their files: client, file, kind, place and count."""
    drawn = words(seed)
    for client in range(8):
        for _ in range(1995):
            x = next(drawn)
            yield client, x % 4, x // 4 % 8, x // 32 % 65536, 1 + x // 2**21 % 256


def script(path, calls):
    """Writes the requests of the eight clients as a script."""
    lines, at = [], None
    for client, file, kind, place, count in calls:
        if client != at:
            at = client
            lines += ["client %d" % client, "mkdir /c%d" % client]
            lines += ["open /c%d/f%d rw creat" % (client, file) for file in range(4)]
        fd = 3 + file
        if kind < 3:
            lines.append("pwrite %d %d*%02x %d" % (fd, count, client, place))
        elif kind < 6:
            lines.append("pread %d %d %d" % (fd, count, place))
        elif kind == 6:
            lines.append("fsync %d" % fd)
        else:
            lines.append("trunc %d %d" % (fd, place))
    with open(path, "w") as f:
        f.write("\n".join(lines + ["end"]) + "\n")


def plain(folder, calls):
    """The summary's lines, of the same calls on a folder."""
    ok, n, data = 8, 0, 0
    files = {}
    for client in range(8):
        os.mkdir(os.path.join(folder, "c%d" % client))
        for file in range(4):
            path = os.path.join(folder, "c%d" % client, "f%d" % file)
            files[client, file] = os.open(path, os.O_RDWR | os.O_CREAT)
    for client, file, kind, place, count in calls:
        fd = files[client, file]
        if kind < 3:
            os.pwrite(fd, bytes([client]) * count, place)
            n += 1
        elif kind < 6:
            os.pread(fd, count, place)
            data += 1
        elif kind == 6:
            os.fsync(fd)
            ok += 1
        else:
            os.ftruncate(fd, place)
            ok += 1
    size = sum(os.fstat(fd).st_size for fd in files.values())
    for fd in files.values():
        os.close(fd)
    lines = ["requests 16000", "ok %d" % ok, "fd 32", "n %d" % n, "data %d" % data, "err 0", "bytes %d" % size]
    return "\n".join(lines) + "\n"


def processor(who):
    spent = resource.getrusage(who)
    return spent.ru_utime + spent.ru_stime


def ufs(program, words, source=os.devnull):
    """What it prints, its status, and the processor time and the time that it takes."""
    before, begin = processor(resource.RUSAGE_CHILDREN), time.monotonic()
    with open(source) as given:
        ended = subprocess.run([program] + words, stdin=given, stdout=subprocess.PIPE, text=True)
    took = time.monotonic() - begin
    return ended.stdout, ended.returncode, processor(resource.RUSAGE_CHILDREN) - before, took


def row(program, base, seed):
    calls = list(workload(seed))
    served, played, made = float("inf"), float("inf"), float("inf")
    for _ in range(RUNS):
        folder = tempfile.mkdtemp(dir=base)
        try:
            image = os.path.join(folder, "image")
            text, status, spent, _ = ufs(program, ["bench", str(seed), "--image", image])
            if status != 0:
                sys.exit("%s ended with status %d: %s" % (program, status, text))
            served = min(served, spent)
            source = os.path.join(folder, "source")
            script(source, calls)
            ufs(program, ["mkfs", "4096", "256", "512", "--image", image])
            told, status, spent, _ = ufs(program, ["play", "--image", image], source)
            if status != 0 or told.count("\n") != 16000:
                sys.exit("%s ended with status %d" % (program, status))
            played = min(played, spent)
            before = processor(resource.RUSAGE_SELF)
            wanted = plain(folder, calls)
            made = min(made, processor(resource.RUSAGE_SELF) - before)
            if text != wanted:
                sys.exit("seed %d: ufs prints\n%sand the plain program\n%s" % (seed, text, wanted))
        finally:
            shutil.rmtree(folder)
    print("%4d  %8.1f  %8.1f  %8.1f" % (seed, served * 1000, played * 1000, made * 1000))


def least(program, words):
    """The least time by the clock and the least processor time, in milliseconds."""
    runs = [ufs(program, words) for _ in range(20)]
    return min(r[3] for r in runs) * 1000, min(r[2] for r in runs) * 1000


def main():
    base = sys.argv[1] if len(sys.argv) > 1 else "/dev/shm"
    program = os.path.join(TOP, "ufs")
    if len(sys.argv) > 2:
        program = sys.argv[2]
    else:
        ufs(program, [])  # builds it where it isn't there
        program = os.path.join(TOP, "crates", "ufs_top", "out", "ufs_top")
    print("a refused command: %.1f ms, processor %.1f; /bin/true: %.1f ms, processor %.1f" % (least(program, ["bench", "4294967296", "--image", "none"]) + least("/bin/true", [])))
    print("seed  bench ms   play ms  plain ms")
    for seed in (1, 2, 3):
        row(program, base, seed)


if __name__ == "__main__":
    main()
