"""Whether what stands in more than one file of the house is the same. Run in the repository's root; each complaint names the files.

- One version: both headers, host/Cargo.toml, desk/Cargo.toml, the first heading of CHANGELOG.md.
- One version of the layout: docs/LAYOUT.md, gateway.h, host/src/layout.rs.
- One table of groups: crates.txt has docs/ARCHITECTURE.md's headings and, under each, its crates in the same order; so many folders are in crates/;
  README.md names the groups.
- Twins in docs/ARCHITECTURE.md: each definition and each function that it names is in the file or the crate that it names.
- The README is one screen, and has the gate's command; the number of crates is right there, in docs/USING.md and in CONTRIBUTING.md: all, and
  those that the day program rests on.
"""

import re
import sys
from pathlib import Path

SCREEN = 60  # lines
complaints = []


def text(path):
    return Path(path).read_text(encoding="utf-8")


def found(path, pattern):
    """What a file says in the place that the pattern has; a file that says nothing is complained of."""
    match = re.search(pattern, text(path), re.MULTILINE)
    if not match:
        complaints.append(f"{path}: nothing is {pattern}")
    return match[1] if match else None


def agree(what, places):
    """All places say the same."""
    said = {path: found(path, pattern) for path, pattern in places}
    if len(set(said.values())) > 1:
        complaints.append(f"{what}: " + ", ".join(f"{path} has {value}" for path, value in said.items()))
    return next(iter(said.values()))


def groups():
    """The groups of crates.txt, behind its head: a comment with the name, then a line for each crate."""
    groups = {}
    for block in text("crates.txt").strip().split("\n\n")[1:]:
        heading = re.match(r"# ([^:\n]*): ", block)
        crates = re.findall(r"^(\w+)(?: staticlib)?:", block, re.MULTILINE)
        groups[heading[1] if heading else "none"] = crates
    return groups


def pictured():
    """The groups of docs/ARCHITECTURE.md."""
    section = re.search(r"^## The crates$(.*?)^## |\Z", text("docs/ARCHITECTURE.md"), re.MULTILINE | re.DOTALL)[1] or ""
    rows = re.findall(r"^\| ([a-z][^|]*) \| (`[^|]*`) \|$", section, re.MULTILINE)
    return {name: re.findall(r"`(\w+)`", crates) for name, crates in rows}


def rests_on(name):
    """How many crates a crate rests on, itself included."""
    lines = [line.split("#")[0].split(":") for line in text("crates.txt").split("\n") if ":" in line.split("#")[0]]
    below = {crate.split()[0]: deps.split() for crate, deps in lines}
    seen, todo = set(), [name]
    while todo:
        crate = todo.pop()
        if crate in below and crate not in seen:
            seen.add(crate)
            todo += below[crate]
    return len(seen)


def twins():
    """How many definitions and functions docs/ARCHITECTURE.md, Twins, names; each is where it says."""
    section = re.search(r"^## Twins$(.*?)^## ", text("docs/ARCHITECTURE.md"), re.MULTILINE | re.DOTALL)
    definitions, functions = set(), set()
    for line in (section[1] if section else "").split("\n"):
        cells = [cell.strip() for cell in line.strip("|").split("|")]
        if len(cells) != 4 or not cells[0].endswith(".rs"):
            continue
        same = re.fullmatch(r"`(\w+)`", cells[2]), re.fullmatch(r"`(\w+)`", cells[3])
        if all(same):
            names = re.findall(r"`(\w+)`", cells[1])
            definitions |= {(same[0][1], name) for name in names}
            functions |= {(same[1][1], name) for name in names}
        definitions |= set(re.findall(r"`([A-Z]\w*)\.(\w+)`", cells[2]))
        functions |= set(re.findall(r"`([a-z]\w*)::(\w+)`", cells[3]))
    for file, name in sorted(definitions):
        place = Path("crates", "wide" if file == "Wide" else "machine", "specs", f"{file}.antt")
        if not (place.is_file() and re.search(rf"^(?:\w+ )*{name} : ", text(place), re.MULTILINE)):
            complaints.append(f"docs/ARCHITECTURE.md, Twins: {place} has no {name}")
    for crate, name in sorted(functions):
        if not any(re.search(rf"\bfn {name}\b", text(source)) for source in Path("crates", crate, "src").glob("**/*.rt")):
            complaints.append(f"docs/ARCHITECTURE.md, Twins: crates/{crate}/src has no function {name}")
    if not (definitions and functions):
        complaints.append("docs/ARCHITECTURE.md: no table of twins")
    return len(definitions) + len(functions)


def readme(crates):
    page = text("README.md")
    if len(page.split("\n")) > SCREEN:
        complaints.append(f"README.md: {len(page.splitlines())} lines are more than a screen of {SCREEN}")
    if "`./test`" not in page:
        complaints.append("README.md: the gate's command, `./test`, is not named")
    day = rests_on("day")
    for path, pattern, number in [
        ("README.md", r"^ *1 of (\d+): ", day),
        ("README.md", r"proves (\d+) crates", day),
        ("README.md", r"all (\d+) crates", crates),
        ("docs/USING.md", r"`n of (\d+)`", day),
        ("CONTRIBUTING.md", r"`n of (\d+)`", crates),
    ]:
        told = found(path, pattern)
        if told and int(told) != number:
            complaints.append(f"{path}: {number} crates, not {told}, are what {pattern} should give")


def main():
    quoted = r'^(?:#define JUBAFIYE_VERSION|version =) "([^"]*)"'
    version = agree("version", [(path, quoted) for path in ("host/include/gateway.h", "host/include/fix.h", "host/Cargo.toml", "desk/Cargo.toml")]
                    + [("CHANGELOG.md", r"^## (\S+)")])
    layout = agree("layout version", [
        ("docs/LAYOUT.md", r"^This page is version (\d+)"),
        ("host/include/gateway.h", r"^#define JUBAFIYE_LAYOUT_VERSION (\d+)"),
        ("host/src/layout.rs", r"^pub const LAYOUT_VERSION: u32 = (\d+);"),
    ])
    here, there = groups(), pictured()
    if list(here.items()) != list(there.items()):
        parted = [name for name in {*here, *there} if here.get(name) != there.get(name)] or ["their order"]
        complaints.append(f"crates.txt and docs/ARCHITECTURE.md have other groups: {', '.join(sorted(parted))}")
    if "(" + "; ".join(here) + ")" not in text("README.md"):
        complaints.append("README.md: it has not the groups of crates.txt: " + "; ".join(here))
    crates = sum(map(len, here.values()))
    if crates != len(list(Path("crates").iterdir())):
        complaints.append(f"crates.txt: {crates} crates in groups, and crates/ has others")
    readme(crates)
    named = twins()
    for complaint in complaints:
        print(complaint)
    if complaints:
        sys.exit(1)
    print(f"docs: version {version}, layout {layout}, in each file that names them; {crates} crates in {len(here)} groups, as they are pictured; {named} twins are there")


main()
