"""Whether what docs/STATEMENTS.md and docs/statements count, name and quote is there. Run in the repository's root; each complaint names
file and line.

- The list of files (docs/statements/files.md): each file's lines (blank ones apart), those of named parts of a file, and their sum, which
  docs/STATEMENTS.md gives too; the files that change requests add, in the table below it.
- Each path of the repository, in backquotes or not, and each link with its heading, in these pages and in the other documents (docs/changes
  tells of its own day and is left out; a path that is not in backquotes is asked of these pages alone).
- Each must-fail edit, `CRATE/NAME`, has its file, and each file of an edit is named on some page.
- Each `Name.part`: a fact of crates/facts, or a field of a record or a name of a file of definitions; each file of facts has its row.
- Each name in "`NAME` in `crates/FILE`" is in that file, its comments apart; each other name in backquotes is in some file of the crates.
- Each quotation, a block that begins with three backquotes, a language and a file, is in that file as it is here.
- Each page has its four headings and two wrong answers at least, and docs/STATEMENTS.md has a row for it and is two printed pages long.
"""

import re
import sys
from collections import defaultdict
from pathlib import Path

STATEMENTS = Path("docs/STATEMENTS.md")
FILES, FACTS = Path("docs/statements/files.md"), Path("docs/statements/facts.md")
PAGES = sorted(Path("docs/statements").glob("*.md"))
OTHERS = [*map(Path, ("README.md", "CHANGELOG.md", "CONTRIBUTING.md", "host/README.md", "desk/README.md")), *sorted(Path("docs").glob("*.md")), *sorted(Path("tests").glob("*/*.md"))]
DOCUMENTS = [*OTHERS, *PAGES]
FORM = ["What is promised", "Where it is stated", "What it rests on", "Which wrong answers it shuts out"]
# Words of docs/STATEMENTS.md, as `wc -w` counts them: two printed pages.
MOST_WORDS = 1300
# Files that are made and not kept.
MADE = re.compile(r"target/|/target(/|$)")
complaints = []


def complain(path, line, text):
    complaints.append(f"{path}:{line}: {text}")


def lines_of(path):
    return path.read_text(encoding="utf-8").split("\n")


def prose(path):
    """The numbered lines of a document without its blocks of code."""
    inside = False
    for line, text in enumerate(lines_of(path), 1):
        if text.startswith("```"):
            inside = not inside
        elif not inside:
            yield line, text


def statements():
    """The lines of docs/STATEMENTS.md and of its pages: (document, line, text)."""
    return [(path, line, text) for path in [STATEMENTS, *PAGES] for line, text in prose(path)]


def written(path):
    """The lines that are not blank."""
    return [line for line in lines_of(path) if line.strip()]


def paragraphs(path):
    """Blocks of lines between blank ones: a declaration with its comment."""
    return [block.split("\n") for block in re.split(r"\n[ \t]*\n", path.read_text(encoding="utf-8").strip("\n"))]


def declaration(path, name):
    """How many lines the declaration of a name has, its comment too; None if it is not there."""
    begins = re.compile(rf"\s*(?:(?:pub|abbrev|unfoldable|opaque|data|record) )*{re.escape(name)}\s.*:")
    return next((len(block) for block in paragraphs(path) if any(begins.match(line) for line in block)), None)


def struct(path, name):
    """How many lines a struct has, its comment too and its attributes apart."""
    for block in paragraphs(path):
        if any(re.match(rf"pub struct {name}\b", line) for line in block):
            return sum(not line.startswith("#[") for line in block)
    return None


def named_parts(row):
    """What a row of the list of files counts if that is not a whole file: (file, part, its lines)."""
    path = Path(re.match(r"\| `([^`]*)`", row)[1])
    parts = []
    if "its structs" in row:
        words = row.split("|")[3]
        parts = [(path, name, struct(path, name)) for name in re.findall(r"\b[A-Z]\w+", words)]
    elif "its `" in row:
        parts = [(path, name, declaration(path, name)) for name in re.findall(r"its `([^`]*)`", row)]
    elif path.is_dir():
        for names, file in re.findall(r"((?:`[^`]+`(?:, )?)+) \((\w+)\)", row):
            inner = path / f"{file}.antt"
            parts += [(inner, name, declaration(inner, name)) for name in re.findall(r"`([^`]+)`", names)]
    return parts


def count_of(row, line):
    """The lines that a row of the list of files should say."""
    path = Path(re.match(r"\| `([^`]*)`", row)[1])
    parts = named_parts(row)
    for file, name, lines in parts:
        if lines is None:
            complain(FILES, line, f"{file} has no `{name}`")
    if parts:
        return sum(lines or 0 for _, _, lines in parts)
    return len(written(path)) if path.is_file() else complain(FILES, line, f"no file {path}")


def list_of_files(lines):
    """The table of the list of files, and its sum: the line of the sum, the rows, the sum."""
    total, rows = 0, 0
    for line, row in enumerate(lines, 1):
        told = re.match(r"\| `crates/[^|]*\| ([\d,]+) \|", row)
        if told:
            number, rows = int(told[1].replace(",", "")), rows + 1
            count = count_of(row, line)
            if count is not None and count != number:
                complain(FILES, line, f"{row.split('|')[1].strip()} has {count} lines, not {number}")
            for again in re.findall(r"([\d,]+) lines of", row):
                if again != told[1]:
                    complain(FILES, line, f"{again} lines of it in one column, {told[1]} in the next")
            total += number
        told = re.match(r"\| in all \| ([\d,]+) \|", row)
        if told:
            if int(told[1].replace(",", "")) != total:
                complain(FILES, line, f"the lines above come to {total:,}, not {told[1]}")
            return line, rows, total
    complain(FILES, 1, "the list of files has no row 'in all'")
    return 0, rows, total


def told_again(rows, total):
    """The sum and the rows of the list of files, as docs/STATEMENTS.md gives them."""
    for line, text in enumerate(lines_of(STATEMENTS), 1):
        if told := re.search(r"read ([\d,]+) lines .* in the (\d+) rows", text):
            if (told[1], told[2]) != (f"{total:,}", str(rows)):
                complain(STATEMENTS, line, f"the list of files has {total:,} lines in {rows} rows, not {told[1]} in {told[2]}")
            return
    complain(STATEMENTS, 1, "it does not say how many lines and rows the list of files has")


def added(lines, first):
    """The table below the list: a row for each file; 'the rest of' a file is without the part in the list."""
    parts = {str(file): count for row in lines[:first] if "its `" in row for file, _, count in named_parts(row)}
    rows = 0
    for line, text in enumerate(lines[first:], first + 1):
        told = re.match(r"\| (the rest of )?`(crates/[^`]*)` \| ([\d,]+) \|", text)
        if not told:
            continue
        rows += 1
        if not Path(told[2]).is_file():
            complain(FILES, line, f"no file {told[2]}")
            continue
        count = len(written(Path(told[2]))) - (parts.get(told[2], 0) if told[1] else 0)
        if count != int(told[3].replace(",", "")):
            complain(FILES, line, f"{told[2]} has {count} lines, not {told[3]}")
    if not rows:
        complain(FILES, first, "no table of the files that change requests add")


def is_there(name, document):
    return any(any(root.glob(f"{name}{end}")) or (root / name).exists() for root in [Path("."), document.parent] for end in ("", ".antt"))


def paths():
    """Every path is there; words in capitals stand for any."""
    place = r"(?:\.\./)?(?:crates|docs|tests|host|desk)/[^`\s]*"
    for document in DOCUMENTS:
        for line, text in enumerate(lines_of(document), 1):
            names = re.findall(rf"`({place})`", text)
            if document in [STATEMENTS, *PAGES]:
                outside = re.sub(r"`[^`]*`|\]\([^)]*\)", " ", text)
                names += [name.rstrip(".,;:)") for name in re.findall(rf"(?<![\w/]){place}", outside)]
            for name in names:
                if not (re.search(r"\b[A-Z]{2,}\b(?!\.md)", name) or MADE.search(name) or is_there(name, document)):
                    complain(document, line, f"no file or folder {name}")


def anchors(path):
    """The headings of a document as links name them."""
    heads = [text.lstrip("#").strip().lower() for _, text in prose(path) if text.startswith("#")]
    return {re.sub(r"[^\w\- ]", "", head).replace(" ", "-") for head in heads}


def links():
    """Every link leads to a file, and to a heading of it if it names one."""
    count = 0
    for document in DOCUMENTS:
        for line, text in prose(document):
            for target in re.findall(r"\]\(([^)\s]+)\)", text):
                if re.match(r"[a-z]+:", target):
                    continue
                name, _, head = target.partition("#")
                path = document.parent / name if name else document
                count += 1
                if not path.exists():
                    complain(document, line, f"a link to {target}, which is not there")
                elif head and head not in anchors(path):
                    complain(document, line, f"a link to {target}: {path} has no such heading")
    return count


def names_in(pattern, text):
    return re.findall(rf"`({pattern})`", text)


def edits():
    """Must-fail edits named and not there, and there and not named."""
    crates = {path.name for path in Path("crates").iterdir()}
    named = [(path, line, name) for path, line, text in statements() for name in names_in(r"[a-z]\w*/[a-z]\w*", text) if name.split("/")[0] in crates]
    files = {f"{path.parts[1]}/{path.stem}" for path in Path("crates").glob("*/must-fail/*.edit")}
    for path, line, name in named:
        if name not in files:
            complain(path, line, f"no must-fail edit {name}: crates/{name.replace('/', '/must-fail/')}.edit")
    for name in sorted(files - {name for _, _, name in named}):
        complain(STATEMENTS, 1, f"crates/{name.replace('/', '/must-fail/')}.edit is named nowhere")
    return len(files)


def declared(path):
    """The names of a file of definitions: those at its top, and of each record its fields."""
    top, fields, record = set(), defaultdict(set), None
    for line in lines_of(path):
        begins = re.match(r"\s*(?:pub )?record (\S+)", line)
        name = re.match(r"(\s*)(?:(?:pub|abbrev|unfoldable|opaque) )*([^\s:()]+(?: [^\s:()]+)*) :", line)
        if begins:
            record = begins[1]
        elif name and name[1] and record:
            fields[record] |= set(name[2].split())
        elif name:
            record = None
            top |= set(name[2].split())
    return top, fields


def parts_by_name():
    """For each file and each record of the definitions, what it has; a file of facts has its records' fields too."""
    parts = defaultdict(set)
    for path in Path("crates").glob("*/specs/**/*.antt"):
        top, records = declared(path)
        parts[path.stem] |= top
        for record, fields in records.items():
            parts[record] |= fields
            if path.parts[1] == "facts":
                parts[path.stem] |= fields
    return parts


def facts():
    """Each `Name.part` is there, and each file of facts has a row in the table of them."""
    parts = parts_by_name()
    count = 0
    for path, line, text in statements():
        for name in names_in(r"[A-Z]\w*\.[a-z][\w!'-]*", text):
            whole, part = name.split(".")
            if part in ("antt", "md"):
                continue
            count += 1
            if part not in parts[whole]:
                complain(path, line, f"no fact or field {name}")
    rows = {row[1]: line for line, text in prose(FACTS) if (row := re.match(r"\| `(\w+)` \|", text))}
    files = {path.stem for path in Path("crates/facts/specs").glob("*.antt")} - {"Lib"}
    for name in sorted(rows.keys() - files):
        complain(FACTS, rows[name], f"no file crates/facts/specs/{name}.antt")
    for name in sorted(files - rows.keys()):
        complain(FACTS, 1, f"crates/facts/specs/{name}.antt has no row in the table of facts")
    return count


def words_of(path):
    """The words of a file of the crates, its comments apart."""
    code = re.sub(r"(?m)^\s*(?:--|//).*$| // .*$", "", path.read_text(encoding="utf-8"))
    return set(re.findall(r"[\w'!-]+", code))


def names():
    """Each name that is said to be in a file is there; each other name in backquotes is somewhere in the crates."""
    sources = [path for end in ("antt", "rt") for path in Path("crates").glob(f"*/[!o]*/**/*.{end}")]  # not those in out/
    programs = Path("tests/oracle/compare/src/bin").glob("*.rs")
    anywhere = {path.stem for path in [*sources, *programs]} | {path.name for path in Path("crates").iterdir()}
    for path in sources:
        anywhere |= words_of(path)
    count = 0
    for path, line, text in statements():
        for listed, file in re.findall(r"((?:`[^`]+`(?:, and |, | and ))*`[^`]+`) in `(crates/[^`]+\.(?:antt|rt))`", text):
            for name in [name for name in names_in(r"[^`]+", listed) if "." not in name]:
                count += 1
                if Path(file).is_file() and name not in words_of(Path(file)):
                    complain(path, line, f"{file} has no {name}")
        for name in names_in(r"[A-Za-z][\w'!-]*", text):
            if name not in anywhere:
                complain(path, line, f"no crate has the name {name}")
    return count


def quotations():
    """Each block of code is in the file that it names."""
    count = 0
    for path in [STATEMENTS, *PAGES]:
        for found in re.finditer(r"^```(.*)\n((?:.*\n)*?)```$", path.read_text(encoding="utf-8"), re.MULTILINE):
            line = path.read_text(encoding="utf-8").count("\n", 0, found.start()) + 1
            file = Path(found[1].split()[-1] if len(found[1].split()) == 2 else "")
            count += 1
            if not file.is_file():
                complain(path, line, f"a quotation names no file: '{found[1]}'")
            elif "\n" + found[2] not in file.read_text(encoding="utf-8"):
                complain(path, line, f"what is quoted from {file} is not in it")
    return count


def form():
    """The pages' headings and wrong answers, their rows in docs/STATEMENTS.md, and its length."""
    table = [text for _, text in prose(STATEMENTS) if text.startswith("|")]
    words = len(STATEMENTS.read_text(encoding="utf-8").split())
    if words > MOST_WORDS:
        complain(STATEMENTS, 1, f"{words} words, and more than {MOST_WORDS} are no reading list")
    for path in PAGES:
        if path == FILES:
            continue
        if not any(f"](statements/{path.name})" in row for row in table):
            complain(STATEMENTS, 1, f"no row for {path}")
        heads = [text[3:] for _, text in prose(path) if text.startswith("## ")]
        if heads != FORM:
            complain(path, 1, f"its headings are {heads}, not {FORM}")
        last = [text for _, text in prose(path)]
        last = last[last.index(f"## {FORM[-1]}"):] if f"## {FORM[-1]}" in last else []
        if sum(text.startswith("| ") for text in last) < 4:
            complain(path, 1, "fewer than two wrong answers in its last table")


def main():
    lines = lines_of(FILES)
    last, rows, total = list_of_files(lines)
    told_again(rows, total)
    added(lines, last)
    paths()
    form()
    counts = [len(PAGES), rows, edits(), facts(), names(), quotations(), links()]
    for complaint in complaints:
        print(complaint)
    if complaints:
        sys.exit(1)
    said = "{} must-fail edits, {} facts and fields, {} names in their files, {} quotations and {} links are there"
    print("docs: {} pages, {} rows of the list of files counted; ".format(*counts[:2]) + said.format(*counts[2:]))


if __name__ == "__main__":
    main()
