"""The sweep: which wrong definitions the facts tell. README.md says what it does and how its output is read.

    sweep.py [--sample N | --machines] [--known FILE] [--whole] [--list] [MODULE ..]"""

import argparse
import re
import sys
import tempfile
from collections import Counter
from pathlib import Path

from mutants import FILES, Mutant, all_mutants, by_hand
from scratch import Failure, Module, Scratch

ROOT = Path(__file__).resolve().parents[2]
EQUAL = Path(__file__).resolve().parent / "equal.txt"
SWEPT = 300  # of all mutants, those that come first by rank
AT_ONCE = 12  # mutants in one check
LEAST = 95  # per cent that facts must tell

# For each module the groups of files of facts that are asked about its mutants one after the other, those that tell most in the least time first; then come all others.
GROUPS = {
    "Rules": [["SweptParts"], ["Broken"], ["Inside"]],
    "Ranges": [["SweptParts"], ["Broken"]],
    "Wide": [["Facts", "Sources"], ["SweptParts"]],
    "Exchange": [["Opens"]],
}
COMMON = [["Swept", "SweptSteps", "SweptParts"], ["Days", "Pinned", "Handled", "Edges", "Worn"]]


def stages(module: str, facts: list[Module]) -> list[list[Module]]:
    """All files of facts, in the groups in which they are asked about a mutant of the module."""
    by_name = {f[1]: f for f in facts}
    if unknown := {n for groups in (COMMON, *GROUPS.values()) for g in groups for n in g} - set(by_name):
        raise Failure(f"no such file of facts: {', '.join(sorted(unknown))}")
    groups = [[by_name[n] for n in names] for names in GROUPS.get(module, COMMON)]
    return groups + [[f for f in facts if not any(f in g for g in groups)]]


def judge(scratch: Scratch, errors: list[tuple[str, int, str]]) -> str | None:
    """What a mutant's errors say: 'told by FILE.FACT', 'no definition' if the altered text is none, or nothing if computing a fact took too long."""
    of_facts = {name: (crate, name) for crate, name in scratch.specs.facts}
    if any(file not in of_facts for file, _, _ in errors):
        return "no definition"
    for file, line, message in errors:
        text = scratch.specs.texts[of_facts[file]].splitlines()[line - 1]
        named = re.findall(r"(\S+) = refl", text)
        if "refl" in text and re.search("expected type|the two types (differ|are)", message):
            return f"told by {file}" + (f".{named[0]}" if len(named) == 1 else "")
    if all("step limit" in message for _, _, message in errors):
        return None
    raise Failure(f"an error that is no fact's: {errors[0][2][:500]}")


def verdicts(scratch: Scratch, mutants: list[Mutant]):
    """Yields each mutant of one module with what became of it, as soon as that is known."""
    living = list(mutants)
    for facts in stages(mutants[0].module, scratch.specs.facts):
        if not living:
            break
        scratch.write(living, facts)
        errors = scratch.check()
        found = {m: verdict for i, m in enumerate(living) if i in errors and (verdict := judge(scratch, errors[i]))}
        yield from found.items()
        living = [m for m in living if m not in found]
    yield from ((m, "survived") for m in living)


def control(scratch: Scratch) -> None:
    """The definitions as they are, copied as a mutant is, meet every fact."""
    scratch.write([None], scratch.specs.facts)
    errors = scratch.check()
    if errors:
        raise Failure(f"the definitions as they are do not meet the facts: {errors[0][0][2][:500]}")


def excuses(known: set[str]) -> dict[str, str]:
    """The mutants that equal.txt names, each with its reason: a line with the name, and an indented one with why."""
    named, last = {}, ""
    for line in EQUAL.read_text().splitlines():
        if line.startswith("  "):
            named[last] = (named[last] + " " + line.strip()).strip()
        elif line and not line.startswith("#"):
            last = line
            named[last] = ""
    for name, reason in named.items():
        if name not in known or not reason:
            raise Failure(f"equal.txt: no such mutant, or no reason: {name}")
    return named


def settled(chosen: list[Mutant], file: Path | None) -> dict[Mutant, str]:
    """Of the chosen mutants those that an earlier run's output has as told, or as no definition."""
    lines = file.read_text().splitlines() if file else []
    verdict = {line.partition(": ")[2]: line.partition(": ")[0] for line in lines if line.startswith(("told by ", "no definition: "))}
    return {m: verdict[m.name] for m in chosen if m.name in verdict}


def sweep(scratch: Scratch, chosen: list[Mutant], found: dict[Mutant, str]) -> dict[Mutant, str]:
    """Every chosen mutant with what became of it, printed as it is found; of some it is known already."""
    for mutant, verdict in found.items():
        print(f"{verdict}: {mutant.name}")
    for _, module in FILES:
        own = [m for m in chosen if m.module == module and m not in found]
        for at in range(0, len(own), AT_ONCE):
            for mutant, verdict in verdicts(scratch, own[at : at + AT_ONCE]):
                print(f"{verdict}: {mutant.name}", flush=True)
                found[mutant] = verdict
    return found


def summed(found: dict[Mutant, str], named: dict[str, str]) -> int:
    """Prints the score, and says by its status whether every survivor is excused and enough are told."""
    told = [m for m, v in found.items() if v.startswith("told")]
    survived = [m for m, v in found.items() if v == "survived"]
    unread = [m for m in survived if m.name not in named]
    stale = [m for m in told if m.name in named]
    for mutant in unread:
        print(f"not told by any fact, and not in equal.txt: {mutant.name}")
    for mutant in stale:
        print(f"told, and yet in equal.txt: {mutant.name}")
    judged = len(told) + len(survived)
    by = Counter(v.split(".")[0] for v in found.values() if v.startswith("told"))
    print("; ".join(f"{n} {v}" for v, n in by.most_common()))
    print(f"definitions: {len(told)} of {judged} mutants told, {len(survived)} survived, {len(found) - judged} no definition")
    enough = judged > 0 and 100 * len(told) >= LEAST * judged
    return 0 if enough and not unread and not stale else 1


def main() -> int:
    parser = argparse.ArgumentParser()
    parser.add_argument("--sample", type=int, default=SWEPT)
    parser.add_argument("--machines", action="store_true")
    parser.add_argument("--known", type=Path)
    parser.add_argument("--list", action="store_true")
    parser.add_argument("--whole", action="store_true")
    parser.add_argument("modules", nargs="*")
    words = parser.parse_args()
    everything = all_mutants(ROOT)
    if unknown := set(words.modules) - {m for _, m in FILES}:
        raise Failure(f"no such module: {', '.join(sorted(unknown))}")
    wanted = words.modules or [m for _, m in FILES]
    chosen = [m for m in everything if m.module in wanted][: words.sample]
    if words.machines:
        chosen = [m for m in by_hand(ROOT) if m.module in wanted]
    if words.list:
        print("\n".join(m.name for m in chosen))
        return 0
    named = excuses({m.name for m in everything})
    # Outside the checkout, in which `rt ci` takes no second crates.txt.
    with tempfile.TemporaryDirectory(prefix="definitions-") as folder:
        scratch = Scratch(ROOT, Path(folder), words.whole)
        control(scratch)
        return summed(sweep(scratch, chosen, settled(chosen, words.known)), named)


if __name__ == "__main__":
    try:
        sys.exit(main())
    except Failure as failure:
        print(f"definitions: {failure}", file=sys.stderr)
        sys.exit(2)
