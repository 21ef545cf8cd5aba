"""A scratch repository in which mutants are checked: one crate, `sweep`, that has for each mutant a folder with the
altered file, the files of the specs that rest on it and some files of facts. All else is the repository's own, proved."""

import os
import re
import shlex
import shutil
import subprocess
from pathlib import Path

from mutants import FILES, Mutant

USES = re.compile(r"^use Rattle\.(?!std\.)(\w+)\.specs\.(\w+)", re.MULTILINE)
PLACE = re.compile(r"\bspecs/M(\d+)/(\w+)\.antt:(\d+)")
COPIED = ("machine", "wide", "facts")
FACTS = [("wide", "Facts")]

# Question 1 of each call, whether the book keeps its rules, is nine tenths of what a fact computes. It is cut out of a mutant's copy if
# the rules are not what is altered.
ASKED = "comes_to b (read_as e) = if rules b then step_of b e otherwise refusing (number_of BadBook)"
CUT = "comes_to b (read_as e) = step_of b e"
RULES = ("Rules", "Ranges", "History")

Module = tuple[str, str]


class Failure(Exception):
    """The sweep itself failed: what it found says nothing."""


class Specs:
    """The specs of the crates that are copied, and what rests on what."""

    def __init__(self, root: Path):
        self.texts: dict[Module, str] = {}
        for crate in COPIED:
            for file in sorted((root / "crates" / crate / "specs").glob("*.antt")):
                self.texts[crate, file.stem] = file.read_text()
        self.uses = {m: set(USES.findall(t)) for m, t in self.texts.items()}
        self.facts = self.fact_files(root)

    def fact_files(self, root: Path) -> list[Module]:
        """The files of facts that speak of the copied crates alone, as their Lib lists them."""
        listed = re.findall(r"^pub mod (\w+)$", (root / "crates/facts/specs/Lib.antt").read_text(), re.MULTILINE)
        below = set(re.search(r"^machine:([^#]*)", (root / "crates.txt").read_text(), re.MULTILINE).group(1).split())
        known = [("facts", n) for n in listed if n != "Play" and {c for c, _ in self.uses["facts", n]} <= below | set(COPIED)]
        return known + FACTS

    def below(self, module: Module) -> set[Module]:
        """The module and all that it rests on."""
        seen, todo = set(), [module]
        while todo:
            m = todo.pop()
            if m in self.texts and m not in seen:
                seen.add(m)
                todo += self.uses[m]
        return seen

    def copied(self, altered: set[Module], facts: list[Module]) -> set[Module]:
        """What a mutant's folder holds: of what the facts rest on, all that rests on an altered file."""
        wanted = set().union(*(self.below(f) for f in facts))
        return {m for m in wanted if m[0] == "facts" or m in facts or altered & self.below(m)}


class Scratch:
    """A repository in a folder of its own, with copies of the crates that machine rests on: rt takes what it built of the same text. `whole` asks question 1 throughout."""

    def __init__(self, root: Path, folder: Path, whole: bool = False):
        self.folder, self.whole, self.specs = folder, whole, Specs(root)
        rests = dict(re.findall(r"^(\w+):([^#\n]*)", (root / "crates.txt").read_text(), re.MULTILINE))
        below, todo = set(), ["machine"]
        while todo:
            crate = todo.pop()
            below.add(crate)
            todo += rests[crate].split()
        rests["sweep"] = f"{rests['machine'].strip()} machine"
        (folder / "crates.txt").write_text("".join(f"{crate}: {rests[crate].strip()}\n" for crate in sorted(below | {"sweep"})))
        for crate in below:
            shutil.copytree(root / "crates" / crate, folder / "crates" / crate, ignore=shutil.ignore_patterns("out", "must-fail"))

    def write(self, mutants: list[Mutant | None], facts: list[Module]) -> None:
        """The crate anew, with a folder M0, M1 .. for each mutant; None is the definitions as they are."""
        crate = self.folder / "crates/sweep"
        shutil.rmtree(crate, ignore_errors=True)
        (crate / "src").mkdir(parents=True)
        (crate / "src/lib.rt").write_text("// Mutants of the machine's definitions, each with its facts.\n#![tactic(auto)]\n")
        (crate / "specs").mkdir()
        (crate / "specs/Lib.antt").write_text("".join(f"pub mod M{i}\n" for i in range(len(mutants))))
        for i, mutant in enumerate(mutants):
            self.write_one(crate / "specs", i, mutant, facts)

    def write_one(self, specs: Path, i: int, mutant: Mutant | None, facts: list[Module]) -> None:
        altered = (mutant.crate, mutant.module) if mutant else FILES[0]
        cut = not self.whole and altered[1] not in RULES
        copied = self.specs.copied({altered, ("machine", "History")}, facts)
        (specs / f"M{i}").mkdir()
        (specs / f"M{i}.antt").write_text("".join(f"pub mod {name}\n" for _, name in sorted(copied)))
        for module in copied:
            text = self.specs.texts[module]
            if mutant and module == altered:
                text = mutant.applied(text)
            if cut and module == ("machine", "History"):
                text = cut_in(text)
            (specs / f"M{i}" / f"{module[1]}.antt").write_text(renamed(text, i, copied))

    def check(self) -> dict[int, list[tuple[str, int, str]]]:
        """Checks the crate: for each mutant the errors, as file, line and message. Anything else that goes wrong is a failure."""
        command = shlex.split(os.environ.get("SWEEP_PREFIX", "")) + ["rt", "check"]
        done = subprocess.run(command, cwd=self.folder / "crates/sweep", capture_output=True, text=True, check=False)
        said = done.stdout + done.stderr
        errors: dict[int, list[tuple[str, int, str]]] = {}
        for line in said.splitlines():
            if "error" in line:
                place = PLACE.search(line)
                if not place:
                    raise Failure(f"an error that is no mutant's: {line[:500]}")
                errors.setdefault(int(place.group(1)), []).append((place.group(2), int(place.group(3)), line))
        proved = "\nlogic=proved" in said
        status = 0 if proved else 3 if "\nrattle: no verdict" in said else 1
        if done.returncode != status or proved == bool(errors):
            raise Failure(f"rt ended with {done.returncode}:\n{said[-3000:]}")
        return errors


def cut_in(text: str) -> str:
    """History without question 1."""
    if text.count(ASKED) != 1:
        raise Failure("History.antt no longer has the equation of `comes_to` that is cut: see ASKED in scratch.py")
    return text.replace(ASKED, CUT)


def renamed(text: str, i: int, copied: set[Module]) -> str:
    """A file of mutant i: what is copied is named in the crate itself."""

    def name(use: re.Match) -> str:
        crate, module = use.groups()
        return f"use Rattle.sweep.specs.M{i}.{module}" if (crate, module) in copied else use.group()

    return USES.sub(name, text)
