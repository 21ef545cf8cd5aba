"""QuickFIX's logs of all three: the messages of one order in time order, each once."""
import functools
import glob
import os

SHOWN = ("35", "43", "97", "34", "37", "11", "41", "17", "150", "39", "55", "54", "38", "44", "32", "14", "151", "102", "103", "58")
ENDS = {"4", "5", "8", "C"}


class Sent:
    """One message on the wire, by the lines of the sender's log and of the receiver's."""

    def __init__(self, values):
        self.values, self.times = values, {}

    def get(self, tag):
        return self.values.get(tag, "")

    def order_key(self):
        return min(self.times.get("desk", "~"), self.times.get("other", "~")) if "desk" not in self.times else self.times["desk"]

    def line(self):
        body = "|".join(f"{tag}={self.values[tag]}" for tag in SHOWN if tag in self.values)
        away = "" if len(self.times) == 2 else "  (in one log only)"
        return f"{self.order_key()[9:21]}  {self.get('49'):>9} > {self.get('56'):<9} {body}{away}"


def parse(text):
    """The fields by tag; of a tag that comes twice the first. None if the line is cut."""
    values = {}
    for part in text.rstrip("\n").split("\1"):
        tag, equals, value = part.partition("=")
        if equals:
            values.setdefault(tag, value)
    return values if "34" in values and "10" in values else None


@functools.lru_cache(maxsize=None)
def lines(directory, role):
    """All lines of a role's logs: the time and the fields of each message."""
    return list(read_lines(directory, role))


def read_lines(directory, role):
    for path in sorted(glob.glob(os.path.join(directory, f"log-{role}", "*.messages.current.log"))):
        with open(path, encoding="latin-1", newline="\n") as log:
            for line in log:
                time, _, text = line.partition(" : ")
                values = parse(text)
                if values:
                    yield time, values


def concerns(values, coop, names, downstream):
    """Whether an application message is about the order."""
    if values["35"] not in "DFG89":
        return False
    ids = [values[tag] for tag in ("11", "41") if tag in values]
    if f"COOP{coop}" in (values["49"], values["56"]):
        return any(one in names for one in ids)
    if "VENUE" in values["49"] + values["56"]:
        return any(one.partition("-")[0] in downstream for one in ids)
    return False


def of_order(directory, coop, names, downstream):
    """Every message of the order, each transmission once, by the time at which the desk saw it."""
    found = {}
    for role in ("desk", "venue", "client"):
        for time, values in lines(directory, role):
            if concerns(values, coop, names, downstream):
                key = tuple(values.get(tag) for tag in ("49", "56", "34", "43", "52"))
                sent = found.setdefault(key, Sent(values))
                sent.times.setdefault("desk" if role == "desk" else "other", time)
    return sorted(found.values(), key=lambda one: (one.order_key(), int(one.get("34"))))


def fills(one):
    return one.get("35") == "8" and one.get("32").strip("0.") != ""


def told_list(messages):
    """What shows that another quantity was told: the order, the venue's fills, and the reports that told a fill or the end."""
    return [one for one in once(messages) if one.get("35") == "D" or fills(one) or one.get("39") in ENDS | {"2"}]


def twice_list(messages):
    """What shows that an order went out twice: the orders, the replaces that were accepted, the fills, and the Filled before the second."""
    accepted = {one.get("11") for one in messages if one.get("150") == "5"}
    kept, orders = [], 0
    for one in once(messages):
        with_venue = "VENUE" in one.get("49") + one.get("56")
        new = one.get("35") == "D"
        orders += new and with_venue
        replace = one.get("35") == "G" and one.get("11") in accepted
        report = one.get("35") == "8" and (fills(one) or orders < 2 and (one.get("150") == "5" or one.get("39") == "2"))
        if new or with_venue and (replace or report):
            kept.append(one)
    return kept


def telling(messages):
    """Requests, rejects, and the reports that fill, change or end."""
    return [one for one in once(messages) if one.get("35") != "8" or fills(one) or one.get("150") in ENDS or one.get("39") == "2"]


def once(messages):
    """Without the reports that were there before, under their ExecID, and without what a session sent again."""
    seen = set()
    for one in messages:
        key = (one.get("56"), one.get("17") or (one.get("35"), one.get("11"), one.get("97")))
        if key not in seen:
            seen.add(key)
            yield one
