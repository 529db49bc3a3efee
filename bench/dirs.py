#!/usr/bin/env python3
"""Times `ufs play` beside `ufs_plain`, which serves by whole paths in ordered maps, and beside a plain program that
makes the same calls on a folder in memory. Both servers have to print the same bytes, and the plain program the same
replies where the kernel answers alike.

Run it by hand, from any folder: python3 bench/dirs.py [FOLDER]
FOLDER (default /dev/shm) is where scripts, replies and the plain program's files are made and removed again.
"""
import errno
import os
import random
import shutil
import subprocess
import sys
import tempfile
import time

TOP = os.path.dirname(os.path.dirname(os.path.abspath(__file__)))
UFS = os.path.join(TOP, "ufs")
CRATES = os.path.join(TOP, "crates")
PLAIN = os.path.join(CRATES, "ufs_plain", "out", "ufs_plain")
RUNS = 3
REQUESTS = 65536  # the most that one client may have
NODES = 4000  # the largest image has 4,095 inodes beside the root's, and an open file that no path names keeps its own
SEED = 1


# ---- scripts


class Node:
    """A file, or a directory with the nodes that it has by name."""

    def __init__(self, parent, name, is_dir):
        self.parent, self.name = parent, name
        self.kids = {} if is_dir else None
        if parent is not None:
            parent.kids[name] = self

    def path(self):
        names = []
        node = self
        while node.parent is not None:
            names.append(node.name)
            node = node.parent
        return "/" + "/".join(reversed(names))

    def place(self, name):
        """The path of a name in this directory."""
        return self.path().rstrip("/") + "/" + name

    def depth(self):
        return 0 if self.parent is None else 1 + self.parent.depth()

    def below(self):
        """All that lies below, the node too."""
        nodes = [self]
        for node in nodes:
            nodes += (node.kids or {}).values()
        return nodes

    def height(self):
        return 0 if not self.kids else 1 + max(kid.height() for kid in self.kids.values())

    def is_below(self, other):
        node = self
        while node is not None and node is not other:
            node = node.parent
        return node is other

    def move(self, parent, name):
        del self.parent.kids[self.name]
        self.parent, self.name = parent, name
        parent.kids[name] = self


class Mix:
    """Requests that mostly succeed, over a tree that is kept beside them."""

    def __init__(self, seed, dirs):
        self.rng = random.Random(seed)
        self.root = Node(None, "", True)
        self.dirs, self.files, self.open = [self.root], [], {}
        self.lines, self.made = [], 0
        while len(self.dirs) <= dirs:
            parent = self.rng.choice(self.dirs)
            if parent.depth() < 4:
                self.dirs.append(Node(parent, self.fresh("d"), True))
                self.lines.append("mkdir " + self.dirs[-1].path())

    def fresh(self, kind):
        self.made += 1
        return kind + str(self.made)

    def make(self):
        """Opens a new file."""
        self.files.append(Node(self.rng.choice(self.dirs), self.fresh("f"), False))
        return self.take_fd("open %s rw creat" % self.files[-1].path())

    def open_one(self):
        if len(self.open) == 64:
            return self.close()
        if not self.files or (self.rng.random() < 0.6 and len(self.dirs) + len(self.files) < NODES):
            return self.make()
        return self.take_fd("open %s %s" % (self.rng.choice(self.files).path(), self.rng.choice(["r", "rw", "rw"])))

    def take_fd(self, line):
        fd = next(n for n in range(3, 67) if n not in self.open)
        self.open[fd] = True
        return line

    def fd(self):
        return self.rng.choice(list(self.open)) if self.open else 3

    def close(self):
        fd = self.fd()
        self.open.pop(fd, None)
        return "close %d" % fd

    def data(self):
        return "%d*%02x" % (self.rng.randint(100, 600), self.rng.randint(97, 122))

    def write(self):
        if self.rng.random() < 0.7:
            return "write %d %s" % (self.fd(), self.data())
        return "pwrite %d %s %d" % (self.fd(), self.data(), self.rng.randint(0, 2000))

    def pread(self):
        return "pread %d %d %d" % (self.fd(), self.rng.randint(1, 400), self.rng.randint(0, 1500))

    def stat_file(self):
        return "stat " + self.rng.choice(self.files).path()

    def stat_dir(self):
        return "stat " + self.rng.choice(self.dirs).path()

    def list_dir(self):
        return "list " + self.rng.choice(self.dirs).path()

    def rename_file(self):
        """To a new name, or one time in five onto another file."""
        node = self.rng.choice(self.files)
        other = self.rng.choice(self.files)
        if other is node or self.rng.random() < 0.8:
            parent, name = self.rng.choice(self.dirs), self.fresh("f")
        else:
            parent, name = other.parent, other.name
            self.files.remove(other)
        line = "rename %s %s" % (node.path(), parent.place(name))
        node.move(parent, name)
        return line

    def rename_dir(self):
        """The one of twenty directories that has most below it. The paths stay short enough."""
        node = max(self.rng.sample(self.dirs[1:], 20), key=lambda d: len(d.below()))
        parent = self.rng.choice([d for d in self.rng.sample(self.dirs, 8) if not d.is_below(node)] or [self.root])
        if parent.depth() + node.height() > 10:
            parent = self.root
        name = self.fresh("d")
        line = "rename %s %s" % (node.path(), parent.place(name))
        node.move(parent, name)
        return line

    def unlink(self):
        node = self.files.pop(self.rng.randrange(len(self.files)))
        line = "unlink " + node.path()
        del node.parent.kids[node.name]
        return line

    def refused(self):
        """A request that changes nothing. Two kinds are left out, which Linux answers in its own way: `unlink` of a
        directory (EISDIR, and by POSIX EPERM), and `rename` of a file onto a directory above it (ENOTEMPTY, and by
        POSIX EISDIR)."""
        node, parent = self.rng.choice(self.files), self.rng.choice(self.dirs[1:])
        while node.is_below(parent):
            parent = self.rng.choice(self.dirs[1:])
        return self.rng.choice([
            "stat " + parent.place("none"),
            "stat " + node.path() + "/below",
            "open " + parent.place("none/file") + " rw creat",
            "open " + parent.path() + " rw",
            "open " + node.path() + " rw creat excl",
            "mkdir " + parent.path(),
            "rename " + parent.path() + " " + parent.place("itself"),
            "rename " + node.path() + " " + parent.path(),
            "rename " + parent.path() + " " + node.path(),
            "close 99",
        ])

    def requests(self, count):
        kinds = {self.open_one: 18, self.close: 16, self.write: 20, self.pread: 16, self.stat_file: 9, self.stat_dir: 5,
                 self.list_dir: 1, self.rename_file: 5, self.rename_dir: 2, self.unlink: 5, self.refused: 3}
        for _ in range(200):
            self.lines.append(self.make())
            self.lines.append(self.close())
        while len(self.lines) < count:
            self.lines.append(self.rng.choices(list(kinds), list(kinds.values()))[0]())
        return self.lines


def many_directories():
    """1,000 directories, four deep at first, and then a mix of calls in them."""
    return Mix(SEED, 1000).requests(REQUESTS)


def one_directory():
    """2,000 directories and 2,000 files in the root; each file is written and read five times."""
    lines = ["mkdir /d%d" % i for i in range(2000)]
    for _ in range(5):
        for i in range(2000):
            lines += ["open /f%d rw creat" % i, "write 3 %s" % ("61" * 32), "open /f%d r creat" % i, "pread 4 64 0",
                      "close 4", "close 3"]
    return lines[:REQUESTS]


def long_text():
    """Nearly 16 MiB of text: a file of 8 MB that is written in long pieces and read in long ones."""
    lines = ["open /f rw creat", "open /f r creat"]
    lines += ["write 3 " + "6a" * 262144] * 31
    return lines + ["pread 4 1048576 %d" % (n * 1048576) for n in range(8)]


# ---- the plain program


class Calls:
    """The same calls by the operating system, below a folder, with the same replies. They differ where `ufs` counts
    what POSIX doesn't: `stat` of a directory tells here no number of entries, so those numbers aren't compared."""

    def __init__(self, folder):
        self.folder, self.fds = folder, {}

    def mkdir(self, path):
        os.mkdir(self.folder + path)
        return "ok"

    def open(self, path, mode, *flags):
        bits = {"r": os.O_RDONLY, "w": os.O_WRONLY, "rw": os.O_RDWR}[mode]
        for flag in flags:
            bits |= {"creat": os.O_CREAT, "excl": os.O_EXCL}[flag]
        fd = next((n for n in range(3, 67) if n not in self.fds), None)
        if fd is None:
            raise OSError(errno.EMFILE, "")
        self.fds[fd] = os.open(self.folder + path, bits)
        return "fd %d" % fd

    def close(self, fd):
        os.close(self.fds.pop(int(fd)))
        return "ok"

    def write(self, fd, data):
        return "n %d" % os.write(self.fds[int(fd)], bytes_of(data))

    def pwrite(self, fd, data, at):
        return "n %d" % os.pwrite(self.fds[int(fd)], bytes_of(data), int(at))

    def pread(self, fd, count, at):
        return "data " + (os.pread(self.fds[int(fd)], int(count), int(at)).hex() or "-")

    def stat(self, path):
        found = os.stat(self.folder + path)
        return "dir" if found.st_mode & 0o040000 else "file %d" % found.st_size

    def list(self, path):
        names = sorted(os.listdir(self.folder + path))
        return " ".join(["names", str(len(names))] + names)

    def rename(self, old, new):
        os.rename(self.folder + old, self.folder + new)
        return "ok"

    def unlink(self, path):
        os.unlink(self.folder + path)
        return "ok"


def bytes_of(data):
    count, star, byte = data.partition("*")
    return bytes.fromhex(byte) * int(count) if star else bytes.fromhex(data)


def call(script, folder, replies):
    """Makes the script's calls, and writes their replies."""
    calls = Calls(folder)
    with open(script) as source, open(replies, "w") as sink:
        for seq, line in enumerate(source.read().splitlines()[1:-1]):
            verb, *words = line.split(" ")
            try:
                reply = getattr(calls, verb)(*words)
            except KeyError:
                reply = "err EBADF"
            except OSError as e:
                reply = "err " + errno.errorcode[e.errno]
            sink.write("0.%d %s\n" % (seq, reply))
    for fd in calls.fds.values():
        os.close(fd)


# ---- the table


def best(run, prepare=lambda: None):
    """The least time of some runs. What is prepared before each isn't timed."""
    times = []
    for _ in range(RUNS):
        prepare()
        begin = time.monotonic()
        run()
        times.append(time.monotonic() - begin)
    return min(times)


def serve(words, script, replies):
    with open(script, "rb") as source, open(replies, "wb") as sink:
        status = subprocess.run(words, stdin=source, stdout=sink).returncode
    if status != 0:
        sys.exit("%s ended with status %d" % (words[0], status))


def make(image):
    """The largest image."""
    subprocess.run([UFS, "mkfs", "65536", "4096", "4096", "--image", image], stdout=subprocess.DEVNULL, check=True)


def call_times(script, work, replies):
    """Each run has a new folder, which isn't timed."""
    times = []
    for run in range(RUNS):
        folder = os.path.join(work, "tree%d" % run)
        os.mkdir(folder)
        begin = time.monotonic()
        call(script, folder, replies)
        times.append(time.monotonic() - begin)
        shutil.rmtree(folder)
    return min(times)


def comparable(line):
    """A reply without the number of a directory's entries."""
    words = line.split(b" ")
    return words[:2] if words[1] == b"dir" else words


def difference(ours, theirs):
    """How the kernel's replies differ, in words."""
    with open(ours, "rb") as a, open(theirs, "rb") as b:
        pairs = list(zip(a.read().splitlines(), b.read().splitlines()))
    differ = [(x, y) for x, y in pairs if comparable(x) != comparable(y)]
    if not differ:
        return "as the kernel"
    return "%d REPLIES DIFFER FROM THE KERNEL'S, first %s, %s" % (len(differ), differ[0][0][:60], differ[0][1][:60])


def row(name, lines, base):
    with tempfile.TemporaryDirectory(dir=base) as work:
        script, ours, plain, theirs, image = (os.path.join(work, n) for n in ("script", "ours", "plain", "theirs", "image"))
        with open(script, "w") as f:
            f.write("\n".join(["client 0"] + lines + ["end"]) + "\n")
        times = (best(lambda: serve([UFS, "play", "--image", image], script, ours), lambda: make(image)),
                 best(lambda: serve([PLAIN], script, plain)),
                 call_times(script, work, theirs))
        with open(ours, "rb") as a, open(plain, "rb") as b:
            same = "same output" if a.read() == b.read() else "OUTPUT DIFFERS"
        print("%-18s %8d %9d   %8.3f s  %8.3f s  %8.3f s   %s, %s"
              % ((name, len(lines), os.path.getsize(script)) + times + (same, difference(ours, theirs))), flush=True)


def is_stale():
    """Whether `ufs_plain` isn't built, or a crate that it stands on has changed since."""
    if not os.access(PLAIN, os.X_OK):
        return True
    folders = [os.path.join(CRATES, name, part) for name in os.listdir(CRATES) for part in ("src", "specs")
               if name not in ("ufs_names", "ufs_top")]
    times = [entry.stat().st_mtime for folder in folders if os.path.isdir(folder) for entry in os.scandir(folder)]
    return max(times) > os.path.getmtime(PLAIN)


def build():
    """Has both programs proved and built where they aren't there."""
    subprocess.run([UFS], stdin=subprocess.DEVNULL, stdout=subprocess.DEVNULL)
    if is_stale():
        print("dirs: proving and building ufs_plain, which takes some minutes at first", file=sys.stderr)
        subprocess.run(["rt", "run", "--"], cwd=os.path.join(CRATES, "ufs_plain"), stdin=subprocess.DEVNULL,
                       stdout=subprocess.DEVNULL, stderr=subprocess.DEVNULL)


def main():
    base = sys.argv[1] if len(sys.argv) > 1 else "/dev/shm"
    build()
    print("%-18s %8s %9s   %10s  %10s  %10s" % ("the best of %d runs" % RUNS, "requests", "bytes", "ufs play", "ufs_plain", "kernel"))
    row("1,000 directories", many_directories(), base)
    row("one directory", one_directory(), base)
    row("a long text", long_text(), base)


main()
