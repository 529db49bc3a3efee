#!/usr/bin/env python3
"""Makes the scripts of examples/ rows of a test: each is played, with its trace where that stands beside it, and must print
what stands there.

    python3 tools/examples.py            writes crates/ufs_command_tests/src/examples.rt
    python3 tools/examples.py --check    ends with status 1 if that file is behind
"""
import pathlib
import sys

TOP = pathlib.Path(__file__).resolve().parent.parent
FILE = TOP / "crates/ufs_command_tests/src/examples.rt"
HEAD = """\
// The scripts of `examples/`, each with the words that play it, its status, and what it prints over a new image.
// `tools/examples.py` writes this file.
use crate::calls::{Call, check_new, playing};
use crate::trees::making_large;

/// Words, a script, a status, and what is printed.
pub const EXAMPLES: [(&[&str], &str, u8, &str); {count}] = [
"""
TAIL = """\
];

#[test]
fn the_examples_print_what_stands_beside_them(rt: HostRuntime) {
    for (words, script, status, text) in &EXAMPLES {
        let call = Call {
            words: *words,
            ..playing(script, *status, text)
        };
        check_new(&rt, 65_536, &[making_large(), call]);
    }
}
"""


def literal(text):
    """The text as a string literal on one line."""
    for old, new in (("\\", "\\\\"), ('"', '\\"'), ("\n", "\\n"), ("\t", "\\t"), ("\r", "\\r")):
        text = text.replace(old, new)
    return f'"{text}"'


def row(script):
    """A script with the words that play it, its status, which is 2 where its text is refused, and what it prints."""
    printed = script.with_suffix(".out").read_text()
    words = '&["play", "--trace"]' if "\n# " in printed else '&["play"]'
    status = 2 if printed.startswith("ufs: line ") else 0
    parts = (words, literal(script.read_text()), str(status), literal(printed))
    return "    (\n" + "".join(f"        {part},\n" for part in parts) + "    ),\n"


def main():
    scripts = sorted((TOP / "examples").glob("*.ufs"))
    text = HEAD.replace("{count}", str(len(scripts))) + "".join(map(row, scripts)) + TAIL
    if sys.argv[1:] == ["--check"]:
        if not FILE.exists() or FILE.read_text() != text:
            print(f"{FILE.relative_to(TOP)} is behind examples/: run python3 tools/examples.py")
            return 1
        return 0
    FILE.write_text(text)
    return 0


if __name__ == "__main__":
    sys.exit(main())
