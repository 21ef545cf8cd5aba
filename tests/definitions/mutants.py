"""The mutants: definitions of the specs altered in one place each.

A definition is a signature line (`unfoldable pub NAME : ..` or `abbrev pub NAME : ..`) and the equations
below it; what stands behind the `=` of an equation is altered, one place at a time."""

import hashlib
import re
from dataclasses import dataclass
from pathlib import Path

# Each file whose definitions are altered, as crate and module; of the last, the named definitions alone.
FILES = [("machine", name) for name in "Constants Orders Messages Changes GatewayCancel Amend Report Machine Ranges Rules History".split()]
FILES += [("wide", "Wide"), ("machine", "Exchange")]
ONLY = {"Exchange": {"open_of"}, "History": {"comes_to", "messages_of", "left_by"}}

SIGNATURE = re.compile(r"(?:unfoldable|abbrev) pub (\S+) :")
TOKEN = re.compile(r"\.[a-z]\w*|[^\W\d][\w']*|\d+|&&|\|\||[-+;()]")

# A token for another, and a field for one of the same type that stands beside it. A refusal, and a kind of event: for each the next one, which is the number that is one more.
REFUSALS = "BadBook ShortAnswer BadRecord OutOfRange InUse WrongPrice FullBook ShortPage".split()
KINDS = ["event_" + kind for kind in "book cancel replace report unknown cancel_reject send_failed send_again gateway_cancel".split()]
SWAPS = {"eqb": "leb", "ltb": "leb", "leb": "ltb", "&&": "||", "||": "&&", "true": "false", "false": "true", "not": "", "+": "-", "-": "+"}
SWAPS |= {name: more for names in (REFUSALS, KINDS) for name, more in zip(names, names[1:], strict=False)}
FIELDS = {
    ".cumqty": ".avgpx", ".lastqty": ".cumqty", ".lastpx": ".avgpx", ".avgpx": ".cumqty", ".qty": ".price", ".price": ".qty",
    ".ordtype": ".timeinforce", ".timeinforce": ".ordtype", ".side": ".ordtype", ".exectype": ".status", ".status": ".cumqty",
    ".clordid": ".origclordid", ".origclordid": ".clordid", ".downstream": ".clordid", ".name": ".downstream", ".symbol": ".name",
    ".venueorderid": ".downstream", ".tries": ".refusedsends", ".refusedsends": ".tries", ".unsent": ".stuck", ".stuck": ".unsent",
    ".answered": ".superseded", ".superseded": ".answered", ".alarm": ".alarm2", ".alarm2": ".alarm", ".first": ".second",
    ".second": ".first", ".current": ".cancel", ".amendments": ".current", ".client": ".venue", ".venue": ".client",
    ".fixedtext": ".reason", ".reason": ".origin", ".origin": ".reason", ".place": ".requests", ".execseq": ".cumqty",
    ".outcome": ".answered", ".accepted": ".refused", ".refused": ".failed_to_send", ".failed_to_send": ".accepted",
}  # fmt: skip
# The same where what stands before it decides: None where there is no neighbour of its type.
BEHIND = {("c", ".place"): None, ("change", ".place"): None, ("q", ".answered"): None, ("request", ".answered"): None, ("e", ".reason"): ".verdict", ("event", ".reason"): ".verdict"}
BEHIND |= {("refused", ".status"): None, ("refused", ".venueorderid"): None, ("refused", ".outcome"): ".status"}
# What returns its last argument with something done to it, and how many arguments it takes: the step is left out.
STEPS = {
    "alarming": 2, "answering": 3, "superseding": 2, "adding": 2, "telling": 2, "with_order": 2, "stuck": 1, "send_gateway_cancel": 2, "resume_gateway_cancel": 2,
    "retry_gateway_cancel": 2, "gateway_cancel_refused": 3, "set_status": 2, "next_exec": 1, "record_venue_order_id": 3, "apply_replace": 2, "numbered_order": 3,
    "with_names": 2, "with_state": 2, "with_links": 2, "with_pending": 2, "with_gateway": 2, "not_pending": 1, "refused_order": 3, "send_refused": 1,
    "refused_note": 1, "unless_short": 3, "status_at": 2, "as_asked": 2, "one_more": 2, "next_sequence": 1, "limit_price": 2, "or_own": 2, "verdict_text": 1, "max": 2,
    "answer_link": 3, "answered": 2,
}  # fmt: skip
# A condition more, of the order or of the venue's event that a definition of these files is given, by the names that it may have there.
OF_ORDER = ["ltb 0 {}.state.cumqty", "eqb {}.state.cumqty 0", "eqb {}.terms.timeinforce 0", "eqb {}.links.cancel 0"]
OF_EVENT = ["eqb {}.exec.lastqty 0", "ltb 0 {}.exec.cumqty", "eqb {}.reason 0", "eqb {}.text.len 0"]
ORDERS, EVENTS = ("o", "order"), ("e", "event")
ASKS = {name: [ask.format(name) for ask in asks] for names, asks in ((ORDERS, OF_ORDER), (EVENTS, OF_EVENT)) for name in names}
# The mutants in the order in which they come in a sweep: that of the hashes of their names as they were first spelled. Others come after them.
ORDER = {line: n for n, line in enumerate((Path(__file__).resolve().parent / "order.txt").read_text(encoding="utf-8").splitlines())}
ASKED = {"Amend": ORDERS, "GatewayCancel": ORDERS, "Machine": ORDERS, "Orders": ORDERS, "Report": ORDERS + EVENTS}


@dataclass(frozen=True)
class Mutant:
    """A definition with the text from `start` to `end` of its file replaced."""

    crate: str
    module: str
    definition: str
    old: str
    nth: int
    new: str
    start: int
    end: int
    text: str  # what stands from start to end instead: `new`, or what `new` says in short

    @property
    def name(self) -> str:
        if not self.nth:
            return f"{self.module} {self.definition}"
        return f"{self.module}.{self.definition} '{self.old}' {self.nth} -> '{self.new}'"

    @property
    def rank(self) -> tuple[int, str]:
        return ORDER.get(self.name, len(ORDER)), hashlib.sha256(self.name.encode()).hexdigest()

    def applied(self, text: str) -> str:
        """The file with this one place altered, and with every name that an alteration may need in scope."""
        altered = text[: self.start] + self.text + text[self.end :]
        return imported(altered, self.text)


def imported(text: str, new: str) -> str:
    """The file with comparisons, connectives and sums in scope, and what stands in the altered place if it is the name of a refusal or of a kind of event."""
    modules = [("Rattle.std.specs.Prelude", ["ℕ", "◌+◌", "◌-◌", "Bool", "true", "false", "not", "◌&&◌", "◌||◌", "eqb", "leb", "ltb"])]
    modules += [("Rattle.prelude.specs.declared.Refusal.TheVariants", [new])] if new in REFUSALS else []
    modules += [("Rattle.machine.specs.Constants", [new])] if new in KINDS else []
    for module, names in modules:
        line = re.compile(rf"^use {re.escape(module)}\.\{{(.*)\}}$", re.MULTILINE)
        found = line.search(text)
        have = found.group(1).split(", ") if found else []
        wanted = f"use {module}.{{{', '.join(have + [n for n in names if n not in have])}}}"
        text = text[: found.start()] + wanted + text[found.end() :] if found else wanted + "\n" + text
    return text


def bodies(text: str):
    """Yields each definition's name, with what each of its equations is given and where the right side starts and ends."""
    name, start, at, given = None, None, 0, []
    for line in text.splitlines(keepends=True) + [""]:
        signature = SIGNATURE.match(line)
        ends = not line.startswith(" ") and not line.startswith("}")
        if start is not None and ends:
            yield name, given, start, at
            start = None
        if signature:
            name = signature.group(1)
        elif name and line.startswith(name + " "):
            start = at + line.index("=", len(name)) + 1
            given = line[len(name) : start - at - 1].split()
        elif ends:
            name = None
        at += len(line)


def numbers(root: Path) -> dict[str, str]:
    """The numbers that Constants and Codes name."""
    texts = [(root / place).read_text() for place in ("crates/machine/specs/Constants.antt", "crates/format/specs/Codes.antt")]
    return dict(re.findall(r"^(\w+) = (\d+)$", "\n".join(texts), re.MULTILINE))


def constants(text: str, named: dict[str, str]) -> dict[str, str]:
    """Each number that the file imports by name from Constants or Codes, with the next of its import line that is another number."""
    following = {}
    for line in re.findall(r"^use Rattle\.\S*\.(?:Constants|Codes)\.\{(.*)\}$", text, re.MULTILINE):
        names = [n for n in line.split(", ") if n in named and n not in KINDS]
        for k, name in enumerate(names):
            others = [n for n in names[k + 1 :] + names[:k] if named[n] != named[name]]
            following.update({name: n for n in others[:1]})
    return following


def operand(tokens: list[re.Match], k: int) -> tuple[int, int]:
    """Where the operand behind the connective at k starts and ends."""
    depth, last = 0, k
    for i in range(k + 1, len(tokens)):
        word = tokens[i].group()
        depth += {"(": 1, ")": -1}.get(word, 0)
        if depth < 0 or (depth == 0 and word in ("&&", "||", "then", "otherwise", "in", ";")):
            break
        last = i
    return tokens[k + 1].start(), tokens[last].end()


def second(tokens: list[re.Match], k: int) -> str:
    """The second argument of the comparison at k, if it is one token."""
    at, depth = k + 1, 0
    while True:
        depth += {"(": 1, ")": -1}.get(tokens[at].group(), 0)
        at += 1
        if depth == 0 and not tokens[at].group().startswith("."):
            return tokens[at].group()


def condition(tokens: list[re.Match], k: int) -> tuple[int, int]:
    """Where the condition of the `if` at k starts and ends."""
    then, depth = k + 1, 0
    while tokens[then].group() != "then" or depth:
        depth += {"if": 1, "then": -1}.get(tokens[then].group(), 0)
        then += 1
    return tokens[k + 1].start(), tokens[then - 1].end()


def branch(tokens: list[re.Match], k: int) -> tuple[int, int, int] | None:
    """Where the branch behind the `then` at k starts and ends, and the place of its `otherwise`."""
    depth, inside = 0, 0
    for i in range(k + 1, len(tokens)):
        word = tokens[i].group()
        inside += {"(": 1, ")": -1}.get(word, 0)
        if word == "otherwise" and depth == 0 and inside == 0:
            return tokens[k + 1].start(), tokens[i - 1].end(), i
        depth += {"if": 1, "otherwise": -1}.get(word, 0)
    return None


def arms(text: str, tokens: list[re.Match], k: int) -> list[tuple[int, int, str, str]]:
    """The arm of the `if` at k and the one of the `otherwise if` behind it, if there is one: condition and branch of each as start, end and texts."""
    found = []
    while len(found) < 2 and k < len(tokens) and tokens[k].group() == "if":
        first, last = condition(tokens, k)
        then = next(i for i in range(k, len(tokens)) if tokens[i].start() >= last)
        behind = branch(tokens, then)
        if behind is None:
            break
        found.append((first, behind[1], text[first:last], text[behind[0] : behind[1]]))
        k = behind[2] + 1
    return found


def exchanged(text: str, tokens: list[re.Match], k: int):
    """Yields the arms of an `if` and of the `otherwise if` behind it exchanged, unless that is the same: one branch twice, or one value compared with two numbers."""
    both = arms(text, tokens, k)
    if len(both) < 2 or both[0][3].split() == both[1][3].split():
        return
    (start, _, one, goes), (_, end, two, comes) = both
    apart = [re.fullmatch(r"eqb (.*) (?:\d+|event_\w+)", " ".join(c.split())) for c in (one, two)]
    if all(apart) and apart[0].group(1) == apart[1].group(1):
        return
    short = [" ".join(c.split()) for c in (one, two)]
    yield start, end, f"{two} then {comes} otherwise if {one} then {goes}", f"{short[0]} .. otherwise if {short[1]}", f"{short[1]} .. otherwise if {short[0]}"


def more(text: str, start: int, end: int, given: list[str], definition: str):
    """Yields the condition from start to end with one more of each that the definition is given: the one that ORDER names, else one by the hash of the condition."""
    short = " ".join(text[start:end].split())
    chosen = int(hashlib.sha256(short.encode()).hexdigest(), 16)
    for name in given:
        extra = ASKS[name][chosen % len(ASKS[name])]
        extra = next((e for e in ASKS[name] if f"{definition} '{short}' 1 -> 'and {e}'" in ORDER), extra)
        if extra not in short:
            yield start, end, f"({text[start:end]}) && {extra}", short, f"and {extra}"


def last_argument(text: str, tokens: list[re.Match], k: int) -> tuple[int, int] | None:
    """Where the last argument of the step at k starts and ends; None if it does not have all of them."""
    at = k
    for _ in range(STEPS[tokens[k].group()]):
        start = at + 1
        if start >= len(tokens) or text[tokens[at].end() : tokens[start].start()].strip() or not re.match(r"\w|\(", tokens[start].group()):
            return None
        at, depth = start, (tokens[start].group() == "(")
        while depth:
            at += 1
            depth += {"(": 1, ")": -1}.get(tokens[at].group(), 0)
        while at + 1 < len(tokens) and tokens[at + 1].group().startswith(".") and tokens[at].end() == tokens[at + 1].start():
            at += 1
    return tokens[start].start(), tokens[at].end()


def omitted(text: str, tokens: list[re.Match], k: int):
    """Yields the call at k replaced by its last argument."""
    if (found := last_argument(text, tokens, k)) and not (k and tokens[k - 1].group().startswith(".")):
        yield tokens[k].start(), found[1], text[found[0] : found[1]], tokens[k].group(), ""


def larger(text: str, tokens: list[re.Match], given: list[str], definition: str):
    """Yields alterations of more than a word: where one starts and ends, what stands there instead, and both in short."""
    for k, token in enumerate(tokens):
        word = token.group()
        if word == "if":
            yield from exchanged(text, tokens, k)
            yield from more(text, *condition(tokens, k), given, definition)
        elif word in STEPS and not re.match(r"\s*[=:](?!\w)", text[token.end() :]):
            yield from omitted(text, tokens, k)


def alterations(text: str, tokens: list[re.Match], following: dict[str, str]):
    """Yields where a place that can be altered starts and ends, and what stands there instead."""
    for k, token in enumerate(tokens):
        word = token.group()
        labels = re.match(r"\s*[=:](?!\w)", text[token.end() :])
        if word.isdigit():
            yield token.start(), token.end(), str(int(word) + 1)
        elif word in ("&&", "||"):
            yield *operand(tokens, k), {"&&": "true", "||": "false"}[word]
            yield token.start(), token.end(), SWAPS[word]
        elif word == "if":
            for value in ("true", "false"):
                yield *condition(tokens, k), value
        elif not labels:
            before = tokens[k - 1].group() if k else ""
            new = BEHIND.get((before, word), (SWAPS | FIELDS | following).get(word))
            if word == "eqb" and second(tokens, k) == "0":
                new = "ltb"  # not leb: what is at most 0 is 0
            if new is not None:
                yield token.start(), token.end(), new


def mutants_of(crate: str, module: str, text: str, following: dict[str, str]) -> list[Mutant]:
    """Every mutant of a file, in the order of its text."""
    found = []
    counted: dict[tuple[str, str], int] = {}
    for definition, given, start, end in bodies(text):
        if definition not in ONLY.get(module, {definition}):
            continue
        tokens = list(TOKEN.finditer(text, start, end))
        places = [(a, b, new, " ".join(text[a:b].split()), new) for a, b, new in alterations(text, tokens, following)]
        asked = [n for n in ASKED.get(module, ()) if n in given]
        for first, last, put, old, new in places + list(larger(text, tokens, asked, f"{module}.{definition}")):
            key = (definition, f"{old} -> {new}")
            counted[key] = counted.get(key, 0) + 1
            found.append(Mutant(crate, module, definition, old, counted[key], new, first, last, put))
    return found


def all_mutants(root: Path) -> list[Mutant]:
    """Every mutant of the definitions, those that come first in a sweep first."""
    found, named = [], numbers(root)
    for crate, module in FILES:
        text = (root / "crates" / crate / "specs" / f"{module}.antt").read_text()
        found += mutants_of(crate, module, text, constants(text, named))
    return sorted(found, key=lambda m: m.rank)


def by_hand(root: Path) -> list[Mutant]:
    """The wrong definitions of machines/NAME.edit: a line that says what is wrong, then the file, the text that stands there once, and what stands there instead."""
    found = []
    for edit in sorted((Path(__file__).resolve().parent / "machines").glob("*.edit")):
        file, old, new = re.fullmatch(r".+\nfile: (\S+)\nold: (.*?)\nnew: (.*)\n", edit.read_text(), re.DOTALL).groups()
        text = (root / "crates" / file).read_text()
        if text.count(old) != 1:
            raise ValueError(f"{edit.name}: the old text does not stand once in crates/{file}")
        start = text.index(old)
        found.append(Mutant(file.split("/")[0], Path(file).stem, edit.stem, old, 0, new, start, start + len(old), new))
    return found
