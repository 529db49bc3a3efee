#!/usr/bin/env python3
"""Quotes the source in each crate's CALLING.md: who uses the crate, its public contracts, and callers.

    python3 tools/calling.py            writes the pages
    python3 tools/calling.py --check    says which pages are behind or missing, and which crate stands on one that it
                                        doesn't cite, and ends with status 1 if there is such; shows first that it can

What is below the line `## Who uses it`, or `## Contracts`, is written here. Above it a page keeps its words, but
the block of code behind a line that ends with "`crates/NAME/src/FILE.rt`, `fn NAME`:" is that function, without its
clauses.
"""
import pathlib
import re
import sys

HEAD = "## Contracts\n"
USERS = "## Who uses it\n"
WRITTEN = re.compile(f"^(?:{USERS}|{HEAD})", re.M)
TESTS = ("_tests", "_broken", "_mirrored")
# More names than these aren't spelled out.
MOST = 20
CALLER = re.compile(r"(`(crates/\w+/src/[\w/]+\.rt)`, `fn (\w+)`:\n\n```rust\n)(?:.*?)(```\n)", re.S)
TOP = pathlib.Path(__file__).resolve().parent.parent
ITEM = re.compile(r"^(\s*)(?:pub )?(?:const |ghost )?(fn|struct|enum|trait|type|const|static) (\w+)")
IMPL = re.compile(r"^impl\b(?:<.*?>)?\s+(?:([\w:]+)(?:<.*>)?\s+for\s+)?(\w+)")


def listed():
    """The crates of crates.txt in its order, each with those of its own that it stands on."""
    lines = (TOP / "crates.txt").read_text().splitlines()
    lines = [line for line in lines if line and not line.startswith("#")]
    found = {line.split(":")[0]: line.split(":")[1].split() for line in lines}
    return {crate: [below for below in found[crate] if below in found] for crate in found}


def cited(texts):
    """The crates that files cite: those whose code theirs uses, and those of which they name definitions or lemmas."""
    code, words = set(), set()
    for text in texts:
        text = re.sub(r"^\s*(?://|--).*", "", text, flags=re.M)
        code.update(re.findall(r"\b(\w+)::", text))
        words.update(re.findall(r"\bRattle\.(\w+)\.", text))
    return code, words


def texts_of(crate):
    """The files of a crate that cite others."""
    files = [path for part in ("src", "specs", "proofs") for path in (TOP / "crates" / crate / part).rglob("*")]
    return [path.read_text() for path in files if path.suffix in (".rt", ".antt")]


def names(crates):
    """Some crates, spelled out where they are few."""
    return f"{len(crates)} crates" if len(crates) > MOST else ", ".join(f"`{crate}`" for crate in crates)


def using(crate, below, cites):
    """Who stands on a crate: by its code, by definitions and lemmas alone, and in tests. Nothing where nobody does."""
    above = [user for user in below if crate in below[user]]
    tests = [user for user in above if user.endswith(TESTS)]
    code = [user for user in above if user not in tests and crate in cites[user][0]]
    words = [user for user in above if user not in tests + code]
    lines = (("Code", code), ("Contracts, definitions or proofs alone", words), ("Tests", tests))
    return "".join(f"- {kind}: {names(crates)}\n" for kind, crates in lines if crates)


def uncited(below, cites):
    """What crates stand on and don't cite."""
    return [f"{crate}: {name}" for crate in below for name in below[crate] if name not in set().union(*cites[crate])]


def exported(root):
    """The names that the root module gives out, and the names of its public modules."""
    names, modules = set(), set()
    for found in re.finditer(r"^pub use ([^;]+);", root, re.M):
        names.update(re.findall(r"\w+", found.group(1).split("::", 1)[1]))
    modules.update(re.findall(r"^pub mod (\w+);", root, re.M))
    names.update(re.findall(r"^pub (?:fn|struct|enum|trait|const|type) (\w+)", root, re.M))
    return names, modules


def head_of(lines, at):
    """A call's lines from its signature to the end of its clauses, and where the rest goes on."""
    indent = re.match(r"\s*", lines[at]).group()
    taken = []
    while at < len(lines):
        line = lines[at]
        if line.rstrip() in (indent + "{", indent + "{}") or line.startswith(indent + "{ "):
            return taken, at + 1
        if taken and line.rstrip() == indent + "}":
            return taken, at + 1
        if line.rstrip().endswith(" {") and re.match(re.escape(indent) + r"(\)|pub fn|fn)", line):
            return taken + [line.rstrip()[:-2]], at + 1
        taken.append(line.rstrip())
        if line.rstrip().endswith(";"):
            return taken, at + 1
        at += 1
    return taken, at


def body_of(lines, at):
    """A type's lines as they stand."""
    indent = re.match(r"\s*", lines[at]).group()
    taken = [lines[at].rstrip()]
    if lines[at].rstrip().endswith((";", "}")):
        return taken, at + 1
    at += 1
    while not lines[at].startswith((indent + "}", indent + ")")):
        taken.append(lines[at].rstrip())
        at += 1
    return taken + [lines[at].rstrip()], at + 1


def shown(lines):
    """A struct without its private fields."""
    if not lines[0].lstrip().startswith("pub struct"):
        return lines
    kept, notes = [lines[0]], []
    for line in lines[1:-1]:
        if line.lstrip().startswith(("///", "//", "#[")):
            notes.append(line)
            continue
        if line.lstrip().startswith("pub "):
            kept += notes + [line]
        notes = []
    if not kept[1:]:
        return [lines[0].rstrip(" {;") + ";"]
    return kept + [lines[-1]]


def module(text, names, every):
    """The public items of a file, each as a list of lines."""
    lines, at, notes, owner, items = text.splitlines(), 0, [], None, []
    while at < len(lines):
        line = lines[at]
        if line.startswith("///") or (owner and line.startswith("    ///")):
            notes.append(line.rstrip())
            at += 1
            continue
        opened = IMPL.match(line)
        if opened and line.rstrip().endswith("{"):
            owner = (opened.group(2), line.rstrip()) if not opened.group(1) else None
            notes, at = [], at + 1
            continue
        if line.rstrip() == "}":
            owner, notes, at = None, [], at + 1
            continue
        found = ITEM.match(line)
        if found and "pub " in line[: found.start(3)]:
            indent, kind, name = found.groups()
            wanted = every or (owner[0] if indent and owner else name) in names
            taken, after = head_of(lines, at) if kind in ("fn", "const", "static", "type") else body_of(lines, at)
            if wanted and (not indent or owner):
                taken = shown(taken) if kind == "struct" else taken
                items.append((owner[1] if indent else None, notes + taken))
            notes, at = [], after
            continue
        if not line.lstrip().startswith(("#[", "//")):
            notes = []
        at += 1
    return items


def contracts(crate):
    """What the page of a crate quotes, or nothing where it gives out nothing. A program's modules are all shown."""
    source = TOP / "crates" / crate / "src"
    root = source / "lib.rt"
    names, modules = exported(root.read_text()) if root.exists() else (set(), set())
    parts = []
    for path in sorted(source.glob("*.rt"), key=lambda p: (p != root, p.name)):
        items = module(path.read_text(), names, not root.exists() or path.stem in modules)
        if items:
            parts.append(f"\n### `src/{path.name}`\n\n```rust\n{laid_out(items)}\n```\n")
    return "".join(parts)


def laid_out(items):
    """Calls under the type that they belong to."""
    lines, last = [], None
    for owner, item in items:
        if owner != last and last:
            lines.append("}")
        if lines:
            lines.append("")
        if owner != last and owner:
            lines.append(owner)
        last = owner
        lines += item
    return "\n".join(lines + ["}"] if last else lines)


def unclaused(body):
    """A function without its clauses, which stand on the page of its own crate."""
    first = next((at for at, line in enumerate(body) if re.match(r"    (requires|ensures)\b", line)), None)
    if first is None or "{" not in body[first:]:
        return body
    return body[:first] + body[body.index("{", first) :]


def caller(found):
    """A block of code that quotes a function, as its file has it."""
    lines = (TOP / found.group(2)).read_text().splitlines()
    for at, line in enumerate(lines):
        indent = re.match(rf"(\s*)(?:pub )?fn {found.group(3)}\b", line)
        if indent:
            end = lines.index(indent.group(1) + "}", at) + 1
            body = [text[len(indent.group(1)) :] for text in lines[at:end]]
            return found.group(1) + "".join(text + "\n" for text in unclaused(body)) + found.group(4)
    sys.exit(f"{found.group(2)} has no function {found.group(3)}, which a page quotes")


def laid(above, used, quoted):
    """A page: its words, who uses the crate, and what is quoted of it."""
    return above + (f"\n{USERS}\n{used}" if used else "") + (f"\n{HEAD}{quoted}" if quoted else "")


def page_of(crate, old, below, cites):
    """The page of a crate with what it quotes."""
    above = CALLER.sub(caller, WRITTEN.split(old)[0].rstrip() + "\n")
    return laid(above, using(crate, below, cites), contracts(crate))


def shows_that_it_can_fail():
    """Whether a crate is told that is used, by whom and how, one that isn't cited, and a page that is behind."""
    below = {"low": [], "code": ["low"], "laws": ["low"], "idle": ["low"], "low_tests": ["low"]}
    texts = {"laws": "use Rattle.low.specs.A.{a}", "idle": "// low::a\n-- Rattle.low.specs.A.a"}
    cites = {crate: cited([texts.get(crate, "use low::a;")]) for crate in below}
    told = "- Code: `code`\n- Contracts, definitions or proofs alone: `laws`, `idle`\n- Tests: `low_tests`\n"
    page = laid("# `low`\n", told, "\nquoted\n")
    return (
        using("low", below, cites) == told
        and using("code", below, cites) == ""
        and uncited(below, cites) == ["idle: low"]
        and names(["a"] * (MOST + 1)) == f"{MOST + 1} crates"
        and WRITTEN.split(page)[0].rstrip() + "\n" == "# `low`\n"
        and WRITTEN.split(laid("# `low`\n", "", "\nquoted\n"))[0] == "# `low`\n\n"
        and laid("# `low`\n", told.replace("`laws`, ", ""), "\nquoted\n") != page
    )


def main():
    if not shows_that_it_can_fail():
        sys.exit("this check can't fail: mend it")
    below, behind = listed(), []
    cites = {crate: cited(texts_of(crate)) for crate in below}
    for crate in below:
        if crate.endswith(TESTS):
            continue
        page = TOP / "crates" / crate / "CALLING.md"
        old = page.read_text() if page.exists() else ""
        new = page_of(crate, old or f"# `{crate}`\n", below, cites)
        if new != old:
            behind.append(str(page.relative_to(TOP)))
            if "--check" not in sys.argv:
                page.write_text(new)
    idle = uncited(below, cites)
    if idle:
        print("in crates.txt, and not cited:", *idle, sep="\n    ")
    if "--check" in sys.argv and behind:
        print("behind their source:", *behind, sep="\n    ")
    if "--check" in sys.argv and (behind or idle):
        sys.exit(1)


if __name__ == "__main__":
    main()
