"""The comparison: what the clients were told, what the book has and what the venue filled, order by order; net positions; alarms."""
from collections import defaultdict

from . import quiet, said, sheets

DONE = "24C8"


class Difference:
    """What differs, in words, and the client order that shows it, if there is one."""

    def __init__(self, kind, text, order=None, weight=0):
        self.kind, self.text, self.order, self.weight = kind, text, order, weight


class Order:
    """A client order with all that stands for it at the desk and at the venue."""

    def __init__(self, row):
        self.row, self.desk, self.venue = row, [], []
        self.coop, self.first = int(row["coop"]), row["clordid"]
        self.names = set(row["names"].split(" "))
        self.told, self.told_cum = sheets.count(row["told_last"]), sheets.count(row["told_cum"])
        self.rejected = row["rejected"] == "1"

    def downstream(self):
        """The desk's names of it, before the `-`."""
        return sorted({base(row["name"]) for row in self.desk} | {base(row["first_clordid"]) for row in self.venue})

    def filled(self):
        return sum(sheets.count(row["filled"]) for row in self.venue)

    def __str__(self):
        side = {"1": "buy", "2": "sell", "5": "sell short"}[self.row["side"]]
        ordered = (self.venue or [self.row])[0]["ordered"]
        return f"COOP{self.coop} {self.first} ({'/'.join(self.downstream()) or 'not booked'}), {side} {ordered} {self.row['symbol']}"


def base(clordid):
    return clordid.partition("-")[0]


class Run:
    """The sheets of a run, joined."""

    def __init__(self, directory, settings):
        self.directory, self.settings = directory, settings
        self.desk, self.venue = sheets.read(directory, "desk.tsv"), sheets.read(directory, "venue.tsv")
        self.fills, self.deeds = sheets.read(directory, "venue-fills.tsv"), sheets.read(directory, "venue-deeds.tsv")
        self.net, self.alarms = sheets.read(directory, "desk-net.tsv"), sheets.read(directory, "desk-alarms.tsv")
        self.refused = sheets.read(directory, "desk-refused.tsv")
        self.events = sheets.journal(directory)
        self.orders = [Order(row) for row in sheets.read(directory, "client.tsv")]
        self.join()

    def join(self):
        by_client = {(order.coop, name): order for order in self.orders for name in order.names}
        self.by_name, self.strange = {}, []
        for row in self.desk:
            order = by_client.get((int(row["client"]), row["first_clordid"]))
            if order is None:
                self.strange.append(f"the desk has {row['name']} for {row['first_clordid']} of client {row['client']}, which no client sent")
            else:
                order.desk.append(row)
                self.by_name[base(row["name"])] = order
        for row in self.venue:
            order = self.by_name.get(base(row["first_clordid"]))
            if order is None:
                self.strange.append(f"the venue has {row['order_id']} as {row['first_clordid']}, which the desk has not booked")
            else:
                order.venue.append(row)
        self.deeds_of = defaultdict(set)
        names = {row["order_id"]: base(row["first_clordid"]) for row in self.venue}
        for deed in self.deeds:
            self.deeds_of[names.get(deed["order_id"], "")].add(deed["deed"])


def per_order(run):
    """Each order: told = booked = filled; at the venue once."""
    for order in run.orders:
        filled = order.filled()
        if len(order.venue) > 1:
            each = " and ".join(f"{row['first_clordid']} ({row['filled']} of {row['ordered']} filled)" for row in order.venue)
            ordered = sheets.count(order.venue[0]["ordered"])
            over = filled - ordered
            doubled = f", {sheets.show(over)} more than ordered: the hedge is doubled" if over > 0 else ""
            text = f"{order}: at the venue {len(order.venue)} times, as {each}: {sheets.show(filled)} filled in all{doubled}"
            yield Difference("twice", text, order, 3 if 2 * over >= ordered else 2 if over > 0 else 1)
        if not order.venue and not order.rejected:
            yield Difference("missing", f"{order}: not at the venue, and not rejected", order)
        booked = sum(sheets.count(row["cum"]) for row in order.desk)
        if not (order.told == order.told_cum == booked == filled) and not run.settings["old_way"]:
            said = f"told {sheets.show(order.told)} by LastQty and {sheets.show(order.told_cum)} by CumQty"
            yield Difference("told", f"{order}: the venue filled {sheets.show(filled)}, the book has {sheets.show(booked)}, the client was {said}", order, 1)
        if order.row["conflicts"] != "0":
            yield Difference("exec-id", f"{order}: an ExecID came with another LastQty than before", order)


def statuses(run):
    """At the end the book's status is the venue's: done alike if it is done, else live."""
    if run.settings["old_way"]:
        return
    for order in run.orders:
        if len(order.venue) != 1 or len(order.desk) != 1:
            continue
        venue, desk, client = order.venue[0]["status"], order.desk[0]["status"], order.row["status"]
        if (venue in DONE or desk in DONE) and venue != desk:
            yield Difference("status", f"{order}: {venue} at the venue, {desk} in the book", order)
        elif desk in DONE and client != desk:
            yield Difference("status", f"{order}: {desk} in the book, {client} was told", order)


def net_of_venue(run):
    """Bought less sold by cooperative and symbol, from the venue's own fills."""
    orders, net = {row["order_id"]: row for row in run.venue}, defaultdict(int)
    for fill in run.fills:
        row = orders.get(fill["order_id"], {"first_clordid": "", "symbol": fill["order_id"], "side": "1"})
        order = run.by_name.get(base(row["first_clordid"]))
        net[(order.coop if order else 0, row["symbol"])] += sheets.count(fill["qty"]) * (1 if row["side"] == "1" else -1)
    return net


def net_of_clients(run):
    net = defaultdict(int)
    for order in run.orders:
        net[(order.coop, order.row["symbol"])] += order.told * (1 if order.row["side"] == "1" else -1)
    return net


def net_of_book(run):
    if run.settings["old_way"]:
        return net_of_clients(run)
    return {(int(row["client"]), row["symbol"]): sheets.count(row["net"]) for row in run.net}


def nets(run):
    venue, clients, book = net_of_venue(run), net_of_clients(run), net_of_book(run)
    for key in sorted(set(venue) | set(clients) | set(book)):
        found = [side.get(key, 0) for side in (venue, book, clients)]
        if len(set(found)) > 1:
            shown = [sheets.show(one) for one in found]
            yield Difference("net", f"COOP{key[0]} {key[1]}: net {shown[0]} at the venue, {shown[1]} in the book, {shown[2]} told")


def explains(run, alarm, clordid):
    """Whether a deed of the venue explains the alarm (docs/REHEARSAL.md, Alarms)."""
    deeds = run.deeds_of[base(clordid)]
    if alarm == 1:
        return run.settings["cancel_on_drop"] and any(deed.startswith("reject") for deed in deeds)
    if alarm == 2:
        return "late" in deeds and "raised" in deeds
    if alarm == 3:
        return any(deed["deed"] == "unknown" and deed["clordid"] == clordid for deed in run.deeds)
    if alarm == 4:
        return "denied" in deeds
    if alarm == 6:
        return "short" in deeds or ("late" in deeds and bool(deeds & {"raised", "lowered"}))
    return False


def alarms(run):
    named = {seq: clordid for seq, _, clordid, _ in run.events}
    for row in run.alarms:
        clordid = named.get(int(row["seq"]), "")
        if not explains(run, int(row["alarm"]), clordid):
            yield Difference("alarm", f"event {row['seq']}, {clordid}: alarm {row['alarm']} is explained by nothing that the venue did", run.by_name.get(base(clordid)))


def oddities(run):
    for text in run.strange:
        yield Difference("strange", text)
    for deed in run.deeds:
        if deed["deed"] in ("twice", "request-for-nothing"):
            text = f"{deed['clordid']}: the venue got it {'twice, the second unmarked' if deed['deed'] == 'twice' else 'for an order that it has not'}"
            yield Difference("request", text, run.by_name.get(base(deed["clordid"])))
    strays = quiet.progress(run.directory, "client").get("strays", 0)
    if strays:
        yield Difference("strange", f"the clients got {strays} messages about no order of theirs")
    for row in run.refused:
        yield Difference("refused", f"event {row['seq']}: a message of the venue's was not taken: {row['refusal']} {row['why']}: {row['message']}")


def differences(run):
    found = []
    for ask in (per_order, nets, alarms, statuses, oddities):
        found += list(ask(run))
    return found + [Difference(*one) for one in said.differences(run)]
