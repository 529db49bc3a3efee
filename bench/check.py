#!/usr/bin/env python3
"""Times `ufs check`, `recover` and `tree` on the largest image with 4,095 files, beside e2fsck on an ext4 image of the same size
with the same files.

Run it by hand, from any folder: python3 bench/check.py [FOLDER]
FOLDER (default /dev/shm) is where both images are made and removed again. Without mke2fs and e2fsck only ufs is timed.
"""
import os
import shutil
import subprocess
import sys
import tempfile
import time

TOP = os.path.dirname(os.path.dirname(os.path.abspath(__file__)))
UFS = os.path.join(TOP, "ufs")
RUNS = 3
DIRS, FILES = 63, 64  # 63 directories, each with 64 files: 4,095 inodes beside the root's
SIZE = 5000


def script():
    lines = ["client 0"]
    for d in range(DIRS):
        lines.append("mkdir /d%d" % d)
        for f in range(FILES):
            lines += ["open /d%d/f%d w creat" % (d, f), "write 3 %d*61" % SIZE, "close 3"]
        lines.append("sync")
    return "\n".join(lines + ["end"]) + "\n"


def best(words):
    times = []
    for _ in range(RUNS):
        begin = time.monotonic()
        status = subprocess.run(words, stdin=subprocess.DEVNULL, stdout=subprocess.DEVNULL, stderr=subprocess.DEVNULL).returncode
        times.append(time.monotonic() - begin)
        if status != 0:
            sys.exit("%s ended with status %d" % (" ".join(words), status))
    return min(times)


def set_in_use(image):
    """As a session that was killed leaves it: the superblock's mark is 0."""
    with open(image, "r+b") as f:
        f.seek(40)
        f.write(b"\0")


def ext4(folder):
    tree, image = os.path.join(folder, "tree"), os.path.join(folder, "ext4.img")
    for d in range(DIRS):
        os.makedirs(os.path.join(tree, "d%d" % d))
        for f in range(FILES):
            with open(os.path.join(tree, "d%d" % d, "f%d" % f), "wb") as file:
                file.write(b"a" * SIZE)
    subprocess.run(["mke2fs", "-q", "-t", "ext4", "-d", tree, image, "256M"], check=True)
    return best(["e2fsck", "-fn", image])


def main():
    base = sys.argv[1] if len(sys.argv) > 1 else "/dev/shm"
    subprocess.run([UFS], stdin=subprocess.DEVNULL, stdout=subprocess.DEVNULL)  # builds it where it isn't there
    with tempfile.TemporaryDirectory(dir=base) as folder:
        image, text = os.path.join(folder, "ufs.img"), os.path.join(folder, "script")
        subprocess.run([UFS, "mkfs", "65536", "4096", "4096", "--image", image], stdout=subprocess.DEVNULL, check=True)
        with open(text, "w") as f:
            f.write(script())
        begin = time.monotonic()
        with open(text, "rb") as source:
            subprocess.run([UFS, "play", "--image", image], stdin=source, stdout=subprocess.DEVNULL, check=True)
        print("made by a session in %.3f s" % (time.monotonic() - begin))
        for command in ("check", "tree"):
            print("ufs %-8s %7.3f s" % (command, best([UFS, command, "--image", image])))
        times = []
        for _ in range(RUNS):
            set_in_use(image)
            begin = time.monotonic()
            subprocess.run([UFS, "recover", "--image", image], stdout=subprocess.DEVNULL, check=True)
            times.append(time.monotonic() - begin)
        print("ufs %-8s %7.3f s, of an image in use" % ("recover", min(times)))
        if shutil.which("mke2fs") and shutil.which("e2fsck"):
            print("e2fsck -fn   %7.3f s" % ext4(folder))


main()
