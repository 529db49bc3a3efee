#!/usr/bin/env python3
"""Asks whether want of memory, or what stands beside it, is made where it may be made alone. An error carries the want of memory
that it was made from, and nobody can write that; but `Excuse::Memory`, and what is no want of memory and ends a call like it,
are cases without a field, and `AllocError` and `AllocFailed` are the library's. Text that makes one of them as a value stands
in the places below, and nowhere else in crates/*/src, tests apart. Patterns of `match`, `let` and `matches!` may stand anywhere.
Notes of the names that are let go can't be committed any more, and whoever asks for a commit then is answered want of memory: so
the calls that let them go stand in the places below, too.

    python3 tools/memory.py --check        ends with status 1 if a value is made elsewhere, or the self-test fails
    python3 tools/memory.py --self-test    shows that the check can fail
"""
import collections
import pathlib
import re
import sys

TOP = pathlib.Path(__file__).resolve().parent.parent

# What may be made, by file: how often.
MAY = {
    # the value of a failed allocation goes on beside its error
    "ufs_base/src/memory.rt": {"AllocError": 1},
    # the one place of the excuse
    "ufs_model/src/lacking.rt": {"Excuse::Memory": 2},
    # the one ending for all of them
    "ufs_command/src/last_line.rt": {"Ending::OutOfMemory": 1},
    # a number at its end
    "ufs_held/src/excuses.rt": {"Lack::AtEnd": 1},
    "ufs_ilog/src/name_notes.rt": {"Lack::AtEnd": 1, ".lose": 1},
    "ufs_ilog/src/names_log.rt": {"Lack::AtEnd": 1},
    # a stop of which the store doesn't know
    "ufs_image_paths/src/opened.rt": {"Lack::AtEnd": 1},
    "ufs_links/src/links.rt": {"Lack::AtEnd": 1},
    "ufs_owner/src/table.rt": {"Lack::AtEnd": 1},
    "ufs_recovery/src/plan.rt": {"Lack::AtEnd": 1},
    "ufs_start/src/numbers.rt": {"Lack::AtEnd": 1},
    "ufs_store/src/commits.rt": {"Lack::AtEnd": 1},
    "ufs_store/src/homes.rt": {"Lack::AtEnd": 1},
    "ufs_names_commit/src/commits.rt": {"Lack::AtEnd": 1},
    "ufs_tree/src/answer.rt": {"Lack::AtEnd": 1},
    "ufs_tree/src/counts.rt": {"Lack::AtEnd": 1},
    # notes that aren't begun, those that are lost for what was lacking, and those that are lent to a commit
    "ufs_name_tree/src/name_tree.rt": {"NameNotes::off": 3},
    "ufs_name_tree/src/notes.rt": {".lose": 1},
    "ufs_names/src/noting.rt": {".take_notes": 1},
    "ufs_noted/src/room.rt": {".take_notes": 1},
    "ufs_turns/src/commits.rt": {".take_notes": 1},
    # what a disk has that doesn't give back what it was given, and what no caller asks for
    "ufs_brink/src/closing.rt": {"Lack::Unsound": 1},
    # the reader of words tells a refused allocation by the kind of its error alone
    "ufs_words/src/command.rt": {"AllocError": 1},
    # an error of the system carries nothing
    "ufs_process/src/process.rt": {"Lack::Told": 1},
}

NAMES = {
    ("AllocError",),
    ("AllocFailed",),
    ("Excuse", "::", "Memory"),
    ("Lack", "::", "AtEnd"),
    ("Lack", "::", "Unsound"),
    ("Lack", "::", "Told"),
    ("Ending", "::", "OutOfMemory"),
}
# Calls after which nothing is noted.
LOSING = [
    ("NameNotes", "::", "off"),
    (".", "take_notes"),
    ("::", "take_notes"),
    (".", "lose"),
    ("::", "lose"),
]
CASES = {name[2]: "".join(name) for name in NAMES if len(name) == 3}

TOKEN = re.compile(
    r'//[^\n]*|"(?:\\.|[^"\\])*"|b?\'(?:\\.|[^\'\\])\'|[A-Za-z_][A-Za-z_0-9]*!?|::|=>|==|->|<=|>=|!=|\S'
)
CLOSING = {"(": ")", "[": "]", "{": "}"}


def tokens_of(text):
    """The words and signs, without comments, without literals' text, without ghost items and contracts."""
    found = []
    for match in TOKEN.finditer(text):
        token = match.group(0)
        if token.startswith("//"):
            continue
        found.append('""' if token[0] in "\"'" or token[:2] == "b'" else token)
    return without_ghosts(found)


def without_ghosts(tokens):
    """Leaves out `ghost ..;`, `ghost .. { .. }`, `requires .. { .. }` and `ensures .. { .. }`."""
    kept, at = [], 0
    while at < len(tokens):
        if tokens[at] in ("ghost", "requires", "ensures"):
            depth = 0
            while at < len(tokens):
                token = tokens[at]
                at += 1
                if token == "{":
                    depth += 1
                elif token == "}":
                    depth -= 1
                    if depth == 0:
                        break
                elif token == ";" and depth == 0:
                    break
            if at < len(tokens) and tokens[at] in (";", ",") and kept and tokens[at] == ";":
                kept.append(";")
                at += 1
            continue
        kept.append(tokens[at])
        at += 1
    return kept


def enclosing(tokens):
    """For each place, that of the bracket that is open there; -1 for none."""
    open_at, result = [], []
    for at, token in enumerate(tokens):
        if token in ")]}" and open_at:
            open_at.pop()
        result.append(open_at[-1] if open_at else -1)
        if token in "([{":
            open_at.append(at)
    return result


def closing_of(tokens, at):
    """The place of the bracket that closes the one at this place."""
    depth = 0
    for place in range(at, len(tokens)):
        if tokens[place] in "([{":
            depth += 1
        elif tokens[place] in ")]}":
            depth -= 1
            if depth == 0:
                return place
    return len(tokens)


def is_pattern(tokens, around, at, end):
    """Whether what stands from `at` up to `end` is part of a pattern."""
    outer = around[at]
    # within `matches!(value, pattern)`
    while outer >= 0:
        if outer > 0 and tokens[outer - 1] == "matches!":
            return "," in tokens[outer:at]
        if tokens[outer] == "{":
            break
        outer = around[outer]
    place = end
    while place < len(tokens):
        token = tokens[place]
        if token in ("=>", "if"):
            return True
        if token == "=":
            return True
        if token in "([{":
            place = closing_of(tokens, place) + 1
        elif token in (")", "]"):
            place += 1
        elif token == ",":
            outer = around[place]
            if outer < 0 or tokens[outer] == "{":
                return False
            place = closing_of(tokens, outer)
        elif token == "|":
            place += 1
        elif token == "::":
            place += 1
        elif re.fullmatch(r"[A-Za-z_]\w*", token) and tokens[place - 1] in ("|", "::"):
            place += 1
        else:
            return False
    return False


def is_type(tokens, around, at):
    """Whether the name of an error stands as a type, in a `use`, or as whose function is called."""
    before = tokens[at - 1] if at else ""
    after = tokens[at + 1] if at + 1 < len(tokens) else ""
    if after in (">", "::", "<") or before in ("&", "->", "for", "impl"):
        return True
    place = at
    while place >= 0 and tokens[place] not in (";", "(", ")", "=>", "="):
        if tokens[place] == "use":
            return True
        place -= 1
    if before == ":":
        outer = around[at]
        if outer >= 2 and tokens[outer] == "(" and tokens[outer - 2] == "fn":
            return True
        if outer >= 2 and tokens[outer] == "{" and tokens[outer - 2] == "struct":
            return True
    return False


def values_in(text):
    """What the text makes as a value, and how often."""
    tokens = tokens_of(text)
    around = enclosing(tokens)
    made = collections.Counter()
    imported = set()
    for at, token in enumerate(tokens):
        if token == "use":
            # A case that is brought in by its own name, or under another, is refused as a value.
            end = tokens.index(";", at)
            words = tokens[at:end]
            for owner in ("Excuse", "Lack", "Ending"):
                if owner in words and "::" in words[words.index(owner):]:
                    imported.update(words[words.index(owner) + 1 :])
            if "AllocError" in words and "as" in words or "AllocFailed" in words and "as" in words:
                made["another name"] += 1
    for case in set(CASES) & imported:
        made[CASES[case]] += 1
    if "*" in imported:
        made["a name for each case"] += 1
    for at, token in enumerate(tokens):
        for words in LOSING:
            if tuple(tokens[at : at + len(words)]) == words:
                made["".join(words)] += 1
        if token in ("AllocError", "AllocFailed"):
            if not is_type(tokens, around, at) and not (
                token == "AllocFailed" and is_pattern(tokens, around, at, at + 1)
            ):
                made[token] += 1
        elif token in ("Excuse", "Lack", "Ending"):
            name = tuple(tokens[at : at + 3])
            if name in NAMES and not is_pattern(tokens, around, at, at + 3):
                made["".join(name)] += 1
    return made


def complaints(files):
    """What stands where it may not, of these texts by their paths below crates/."""
    told = []
    for path, text in files:
        may = MAY.get(path, {})
        made = values_in(text)
        for name in sorted(set(made) | set(may)):
            if made[name] != may.get(name, 0):
                told.append(f"crates/{path} makes {name} {made[name]} times, and may {may.get(name, 0)} times")
    return told


def sources():
    for path in sorted((TOP / "crates").glob("*/src/**/*.rt")):
        short = str(path.relative_to(TOP / "crates"))
        if not short.split("/")[0].endswith("_tests"):
            yield short, path.read_text()


# Texts, and what each makes.
ROWS = [
    ("fn f() -> Result<(), AllocError> { g()?; Ok(()) }", {}),
    ("use std::alloc::{AllocError, Global};", {}),
    ("fn f() -> Result<(), Memory> { Err(AllocError)? }", {"AllocError": 1}),
    ("fn f() -> AllocError { AllocError }", {"AllocError": 1}),
    ("fn f() -> Memory { Memory::from(AllocError) }", {"AllocError": 1}),
    ("impl From<AllocError> for X { fn from(refused: AllocError) -> X { X::from(refused) } }", {}),
    ("fn f(failed: AllocFailed<u8>) -> AllocError { AllocError::from(failed) }", {}),
    ("fn f() -> Memory { Memory::from(AllocFailed { value: 1 }) }", {"AllocFailed": 1}),
    ("fn f(e: X) -> u8 { let AllocFailed { value } = e; value }", {}),
    ("use std::alloc::AllocError as Refused;", {"another name": 1}),
    ("fn f() -> Excuse { Excuse::Memory }", {"Excuse::Memory": 1}),
    ("fn f(x: Excuse) -> bool { match x { Excuse::Memory => true, _ => false } }", {}),
    ("fn f(x: Excuse) -> bool { match x { Excuse::Memory | Excuse::Inodes => true, _ => false } }", {}),
    ("fn f(x: Excuse) -> bool { match x { Excuse::Inodes | Excuse::Memory if g() => true, _ => false } }", {}),
    ("fn f(x: R) -> bool { match x { Err(Excuse::Memory) => true, _ => false } }", {}),
    ("fn f(x: R) -> bool { match x { (Excuse::Memory, _) => true, _ => false } }", {}),
    ("fn f(x: E) -> Excuse { match x { E::A => Excuse::Memory, E::B => Excuse::Inodes } }", {"Excuse::Memory": 1}),
    ("fn f(x: E) -> R { match x { E::A => Err(Excuse::Memory), E::B => Ok(()) } }", {"Excuse::Memory": 1}),
    ("fn f(x: Excuse) -> bool { if let Excuse::Memory = x { true } else { false } }", {}),
    ("fn f(x: Excuse) -> bool { matches!(x, Excuse::Memory) }", {}),
    ("fn f(x: Excuse) -> bool { matches!(Excuse::Memory, x) }", {"Excuse::Memory": 1}),
    ("fn f(x: Excuse) -> bool { x == Excuse::Memory }", {"Excuse::Memory": 1}),
    ("fn f() -> R { return Err(Excuse::Memory); }", {"Excuse::Memory": 1}),
    ("fn f() -> R { g(Excuse::Memory, 1) }", {"Excuse::Memory": 1}),
    ("fn f() -> R { let x = Excuse::Memory; x }", {"Excuse::Memory": 1}),
    ("const X: Excuse = Excuse::Memory;", {"Excuse::Memory": 1}),
    ("use ufs_model::Excuse::{Memory, Inodes};", {"Excuse::Memory": 1}),
    ("use ufs_model::Excuse::*;", {"a name for each case": 1}),
    ("// Excuse::Memory\nfn f() -> &str { \"Excuse::Memory\" }", {}),
    ("fn f() ensures { result ≡ x } -> R { Err(StoreFault::Lack(Lack::AtEnd)) }", {"Lack::AtEnd": 1}),
    ("fn f() -> Lack { if full() { return Lack::Unsound; } Lack::Told }", {"Lack::Unsound": 1, "Lack::Told": 1}),
    ("fn f(e: Ending) -> u8 { match e { Ending::OutOfMemory => 5, _ => 0 } }", {}),
    ("fn f() -> u8 { finish(sink, Ending::OutOfMemory) }", {"Ending::OutOfMemory": 1}),
    ("fn f(tree: &mut NameTree) { let _lost = tree.take_notes(); }", {".take_notes": 1}),
    ("fn f(tree: &mut NameTree) { tree.notes = NameNotes::off(); }", {"NameNotes::off": 1}),
    ("fn f(notes: &mut NameNotes, lack: Lack) { NameNotes::lose(notes, lack); }", {"::lose": 1}),
    ("fn take_notes(&mut self) -> NameNotes { begin(self) } fn lose() {}", {}),
]


def self_test():
    """What the check gets wrong of texts that are known."""
    wrong = []
    for text, wanted in ROWS:
        made = dict(values_in(text))
        if made != wanted:
            wrong.append(f"{text!r} makes {wanted}, and {made} was found")
    planted = "fn f() -> Result<(), Excuse> { Err(Excuse::Memory) }\n"
    if not complaints([("ufs_turns/src/commits.rt", planted)]):
        wrong.append("an excuse that is made up passes")
    first = next(iter(MAY))
    if not complaints([(first, "")]):
        wrong.append("a place that makes nothing any more passes")
    return wrong


def main():
    told = [f"the self-test fails: {wrong}" for wrong in self_test()]
    if sys.argv[1:] == ["--check"]:
        told += complaints(sources())
        told += [f"crates/{path} isn't there" for path in MAY if not (TOP / "crates" / path).exists()]
    elif sys.argv[1:] != ["--self-test"]:
        print(__doc__)
        return 1
    for line in told:
        print(line)
    return 1 if told else 0


if __name__ == "__main__":
    sys.exit(main())
