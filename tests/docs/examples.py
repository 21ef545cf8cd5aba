"""Whether every public item of a crate has an example that runs. Takes the folder that `cargo doc` wrote for the crate, and its sources'.

- A module, type, trait, constant, function or macro has one in its own documentation; of an enum that is enough for its variants.
- A method has one too, or a link to an item or method that has one. So has an associated function. An associated constant has one.
- An example asserts something that a reader sees. No example is marked `ignore`, `no_run` or `compile_fail`, so that rustdoc runs each; the
  sources are asked for these marks, since the pages do not show all of them.

rustdoc tells the share of items with an example on the nightly toolchain alone, so its pages are read: all.html lists the items.
"""

import re
import sys
from html.parser import HTMLParser
from pathlib import Path

MARK = re.compile(r"\s*//[/!]\s*```.*\b(ignore|no_run|compile_fail)\b")
EMPTY = {"br", "hr", "img", "input", "link", "meta", "wbr"}


class Element:
    """An element of a page: its tag, its attributes, and what it holds: elements and texts."""

    def __init__(self, tag, attributes):
        self.tag, self.attributes, self.inner = tag, dict(attributes), []

    def words(self):
        return (self.attributes.get("class") or "").split()

    def all(self):
        yield self
        for one in self.inner:
            if isinstance(one, Element):
                yield from one.all()

    def text(self):
        return "".join(one if isinstance(one, str) else one.text() for one in self.inner)

    def first(self, word):
        """The first element within it that has this word in its class."""
        return next((one for one in self.all() if word in one.words()), None)


class Tree(HTMLParser):
    """Reads a page into elements."""

    def __init__(self, page):
        super().__init__()
        self.open = [Element("page", [])]
        self.feed(page)

    def handle_starttag(self, tag, attributes):
        element = Element(tag, attributes)
        self.open[-1].inner.append(element)
        if tag not in EMPTY:
            self.open.append(element)

    def handle_endtag(self, tag):
        if any(element.tag == tag for element in self.open[1:]):
            while self.open.pop().tag != tag:
                pass

    def handle_data(self, text):
        self.open[-1].inner.append(text)


class Page:
    """A page of an item: its own documentation, and that of each method and associated constant by its id."""

    def __init__(self, path):
        self.path = path
        page = Tree(path.read_text(encoding="utf-8")).open[0]
        own = page.first("top-doc")
        self.own = own and own.first("docblock")
        listed = [one for one in page.all() if one.attributes.get("id") == "implementations-list"]
        lists = [items for one in listed for items in one.all() if "impl-items" in items.words()]
        # a trait's own
        lists += [one for one in page.all() if "methods" in one.words()]
        self.parts = dict(parts(lists))


def parts(lists):
    """Each method and associated constant with its documentation, None if it has none."""
    for items in lists:
        for item in (one for one in items.inner if isinstance(one, Element)):
            section = next((one for one in item.all() if one.tag == "section"), None)
            if section:
                yield section.attributes.get("id"), item.first("docblock")


def has_example(documentation):
    """Whether there is an example in Rust, with an assertion."""
    wraps = [one for one in documentation.all() if "example-wrap" in one.words()] if documentation else []
    return any(one.first("rust") and "assert" in one.text() for one in wraps)


class Crate:
    """The pages of a crate, each read once."""

    def __init__(self, folder):
        self.folder, self.pages = folder.resolve(), {}

    def page(self, path):
        path = path.resolve()
        if path not in self.pages:
            self.pages[path] = Page(path)
        return self.pages[path]

    def items(self):
        """The pages of the crate and its modules, and of each item that all.html lists."""
        modules = [self.folder / "index.html"]
        for module in modules:
            page = Tree(module.read_text(encoding="utf-8")).open[0]
            links = (one.attributes["href"] for one in page.all() if one.tag == "a" and "mod" in one.words())
            modules += [module.parent / link for link in links if link != "#"]
        listed = Tree((self.folder / "all.html").read_text(encoding="utf-8")).open[0]
        lists = [one for one in listed.all() if "all-items" in one.words()]
        links = [one.attributes["href"] for ul in lists for one in ul.all() if one.tag == "a"]
        return [self.page(path) for path in modules + [self.folder / link for link in links]]

    def leads_to_example(self, page, documentation):
        """Whether a link of some documentation leads to an item or a part of one that has an example."""
        for link in (one.attributes.get("href") or "" for one in documentation.all() if one.tag == "a"):
            name, _, part = link.partition("#")
            path = (page.path.parent / name).resolve() if name else page.path
            if "://" in link or not path.is_relative_to(self.folder) or not path.is_file():
                continue
            target = self.page(path)
            if has_example(target.parts.get(part) if part else target.own):
                return True
        return False


def marked(sources):
    """The examples that are not run."""
    for path in sorted(sources.rglob("*.rs")):
        for line, text in enumerate(path.read_text(encoding="utf-8").split("\n"), 1):
            if mark := MARK.match(text):
                yield f"{path}:{line}: an example that is not run: {mark[1]}"


def complaints(crate, page):
    """What of a page has no example."""
    name = page.path.relative_to(crate.folder)
    if not has_example(page.own):
        yield f"{name}: no example that asserts something"
    for part, documentation in page.parts.items():
        if has_example(documentation):
            continue
        if part.startswith("associatedconstant"):
            yield f"{name}: {part}: no example that asserts something"
        elif not documentation or not crate.leads_to_example(page, documentation):
            yield f"{name}: {part}: neither an example that asserts something nor a link to one"


def main():
    crate = Crate(Path(sys.argv[1]))
    pages = crate.items()
    found = [*marked(Path(sys.argv[2])), *(complaint for page in pages for complaint in complaints(crate, page))]
    found += [f"{crate.folder}: no method is found in its pages"] * (not any(page.parts for page in pages))
    print("\n".join(found), end="\n" * bool(found))
    if found:
        sys.exit(1)
    count = sum(len(page.parts) for page in pages)
    print(f"docs: {crate.folder.name}: {len(pages)} items have an example that runs, {count} methods one or a link to one")


main()
