"""What was said on the wire, by the logs of the clients and of the venue and not by the desk's: answers, terms, prices, names, marks."""
from collections import Counter, defaultdict
from decimal import Decimal

from . import messages

TERMS = {"D": ("55", "54", "38", "40", "44", "59"), "G": ("55", "54", "38", "40", "44")}
NUMBERS = {"38", "44"}
DONE = "24C8"
ACCEPTED = {"F": {"cancelled"}, "G": {"raised", "lowered", "repriced"}}
PENDING = {"6", "E"}
ENVELOPE = {"9", "10", "34", "43", "52", "97", "122"}


def once(run, role, fits):
    """The messages of a role's log that fit, each once by its session and number, by their numbers within a session."""
    found = {}
    for _, values in messages.lines(run.directory, role):
        if fits(values):
            found.setdefault((values["49"], values["56"], int(values["34"])), values)
    return [found[key] for key in sorted(found)]


def coop_of(comp_id):
    return int(comp_id[4:])


class Said:
    """Of each client order: what the client asked, what it was told, what the venue was asked."""

    def __init__(self, run):
        by_client = {(order.coop, name): order for order in run.orders for name in order.names}
        self.asked, self.told, self.sent = defaultdict(dict), defaultdict(list), defaultdict(dict)
        self.not_taken, self.reports = set(), defaultdict(list)
        for one in once(run, "client", lambda values: values["49"].startswith("COOP") and values["35"] in ("D", "F", "G")):
            order = by_client.get((coop_of(one["49"]), one["11"]))
            if order:
                self.asked[order].setdefault(one["11"], one)
        for one in once(run, "client", lambda values: values["56"].startswith("COOP") and values["35"] in ("8", "9", "j")):
            coop = coop_of(one["56"])
            if one["35"] == "j":
                self.not_taken.add((coop, one.get("379")))
            elif (coop, one["11"]) in by_client:
                self.told[by_client[(coop, one["11"])]].append(one)
            if one["35"] == "8":
                self.reports[(coop, one["17"])].append(one)
        for one in once(run, "venue", lambda values: values["49"] == "GATEWAY" and values["35"] in ("D", "G")):
            order = run.by_name.get(one["11"].partition("-")[0])
            if order:
                self.sent[order].setdefault(one["11"], one)


def settles(request, one):
    """Whether a message to the client, under the request's ClOrdID, says what became of it. What accepts a replace may also bring a fill, and is an F then."""
    if one["35"] == "9":
        return True
    return one["39"] == "4" if request["35"] == "F" else "41" in one and one["39"] not in PENDING


def accepted_at_venue(run, order, kind):
    ids = {row["order_id"] for row in order.venue}
    return sum(deed["order_id"] in ids and deed["deed"] in ACCEPTED[kind] for deed in run.deeds)


def answers(run, said):
    """Each cancel and replace that a client sent is accepted or refused in the end, under its own ClOrdID, and accepted only if the venue did.
    One that the venue accepted may go without a word if the order's end came first: the book has the acceptance for stale."""
    for order in run.orders:
        for kind, what in (("F", "cancel"), ("G", "replace")):
            asked = {name: one for name, one in said.asked[order].items() if one["35"] == kind}
            told = [one for one in said.told[order] if one["11"] in asked and settles(asked[one["11"]], one)]
            refused = {one["11"] for one in told if one["35"] == "9"}
            accepted = {one["11"] for one in told} - refused
            left = [name for name in asked if name not in refused | accepted and (order.coop, name) not in said.not_taken]
            silent = accepted_at_venue(run, order, kind) - len(accepted) if order.row["status"] in DONE else 0
            if len(left) > max(silent, 0):
                yield "answer", f"{order}: {what} {' '.join(left)}: neither accepted nor refused", order
            # A status report (I) also answers a request that the client sent again, whatever became of it.
            if len({one["11"] for one in told if one["35"] == "8" and one["150"] != "I"}) > accepted_at_venue(run, order, kind):
                yield "answer", f"{order}: more {what}s were told to be accepted than the venue accepted", order


def quantities(run, _):
    """An order that lives or is filled has one quantity, at the venue, in the book and as it was told last."""
    for order in run.orders:
        if len(order.venue) == 1 and len(order.desk) == 1 and order.venue[0]["status"] not in "4C8":
            found = [row["ordered"] for row in (order.venue[0], order.desk[0], order.row)]
            if len(set(found)) > 1:
                yield "ordered", f"{order}: the quantity is {found[0]} at the venue, {found[1]} in the book, {found[2]} as told", order


def terms(one):
    return tuple([one["35"]] + [Decimal(one[tag]) if tag in NUMBERS and tag in one else one.get(tag) for tag in TERMS[one["35"]]])


def other_terms(run, said):
    """Each order and replace at the venue has the terms of one that the client sent."""
    for order in run.orders:
        wanted = Counter(terms(one) for one in said.asked[order].values() if one["35"] in TERMS)
        for extra in Counter(terms(one) for one in said.sent[order].values()) - wanted:
            shown = " ".join(str(part) for part in extra if part is not None)
            yield "terms", f"{order}: the venue was sent {shown}, which the client did not ask", order


def counted(text, places):
    return int(Decimal(text).scaleb(places))


def other_prices(run, said):
    """Each fill told has the venue's average after it, and the price of what it adds, but for what rounding takes."""
    value = defaultdict(lambda: {0: 0})
    for fill in run.fills:
        sums = value[fill["order_id"]]
        quantity = counted(fill["qty"], 4)
        sums[max(sums) + quantity] = sums[max(sums)] + quantity * counted(fill["price"], 8)
    for order in run.orders:
        if len(order.venue) != 1:
            continue
        sums = value[order.venue[0]["order_id"]]
        for one in said.told[order]:
            rise = counted(one.get("32", "0"), 4)
            if rise == 0:
                continue
            cum = counted(one["14"], 4)
            if cum not in sums or cum - rise not in sums:
                yield "price", f"{order}: report {one['17']} tells {one['32']} up to {one['14']}, which the venue never had", order
            elif counted(one["6"], 8) != (sums[cum] + cum // 2) // cum:
                yield "price", f"{order}: report {one['17']} tells an average of {one['6']} at {one['14']}, which is not the venue's", order
            elif abs(counted(one["31"], 8) * rise - (sums[cum] - sums[cum - rise])) > 2 * cum + rise:
                yield "price", f"{order}: report {one['17']} tells {one['32']} at {one['31']}, which is not the venue's price", order


def other_names(run, said):
    """A report that answers no request, and so has no OrigClOrdID, is told under the ClOrdID in force: that of the replace accepted last, else the first."""
    for order in run.orders:
        seen, names = set(), {order.first}  # a status report that answers a redelivered replace does not say whether it is accepted: both are then possible
        for one in said.told[order]:
            if one["35"] != "8" or one["17"] in seen:
                continue
            seen.add(one["17"])
            if "41" not in one:
                if one["11"] not in names:
                    yield "name", f"{order}: report {one['17']} stands under {one['11']}, and {' or '.join(sorted(names))} is in force", order
                names = {one["11"]}
            elif said.asked[order].get(one["11"], {}).get("35") == "G" and one["39"] not in PENDING:
                names = names | {one["11"]} if one["150"] == "I" else {one["11"]}


def unmarked(run, said):
    """An ExecID that comes again comes marked, and is the same message."""
    for (coop, exec_id), reports in said.reports.items():
        first = {tag: value for tag, value in reports[0].items() if tag not in ENVELOPE}
        for one in reports[1:]:
            if one.get("97") != "Y":
                yield "mark", f"COOP{coop}: report {exec_id} came again and is not marked PossResend", None
            if {tag: value for tag, value in one.items() if tag not in ENVELOPE} != first:
                yield "exec-id", f"COOP{coop}: report {exec_id} came again with other contents", None


def differences(run):
    if run.settings["old_way"]:
        return
    said = Said(run)
    for ask in (answers, quantities, other_terms, other_prices, other_names, unmarked):
        yield from ask(run, said)
