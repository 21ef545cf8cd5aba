"""What a run prints: the evening page beside the venue's count, the net position, the differences."""
import os
import sys

from . import compare, messages, sheets

MOST = 40  # lines of the page that are printed; all of it stands in DIR/evening.txt
MOST_DIFFERENCES = 3
CONSIDERED = 30  # differences whose lists are made, to find the shortest


def page(run):
    """The evening page, each line beside what the venue counted for that order."""
    venue, lines = {}, []
    for row in run.venue:
        venue.setdefault(compare.base(row["first_clordid"]), []).append(row)
    path = os.path.join(run.directory, "desk-page.txt")
    if os.path.exists(path):
        with open(path, encoding="latin-1", newline="\n") as text:
            lines = text.read().splitlines()
    else:
        rows = [row for row in run.desk if "-" not in row["name"]]
        lines = [f"{row['name']:20}{row['symbol']:16}{row['status']}{row['ordered']:>14}{row['cum']:>14}{'':14} " for row in rows]
    for line in lines:
        counted = ", ".join(f"{row['order_id']} {row['status']} {row['ordered']} {row['filled']}" for row in venue.get(line[:20].strip(), []))
        yield f"{line}| {counted or '-'}"


def net(run):
    venue, clients, book = compare.net_of_venue(run), compare.net_of_clients(run), compare.net_of_book(run)
    for key in sorted(set(venue) | set(clients) | set(book)):
        cells = [sheets.show(side.get(key, 0)) for side in (book, clients, venue)]
        yield f"COOP{key[0]:<3} {key[1]:<12}" + "".join(f"{cell:>16}" for cell in cells) + ("" if len(set(cells)) == 1 else "   <-")


def evening(run):
    lines = list(page(run))
    nets = ["Net position: cooperative, symbol; in the book, told to the cooperative, by the venue's own fills"] + list(net(run))
    heading = ["Evening page: name, symbol, status, ordered, filled, left | the venue's count: order, status, ordered, filled"]
    with open(os.path.join(run.directory, "evening.txt"), "w", encoding="latin-1") as kept:
        kept.write("\n".join(heading + lines + [""] + nets) + "\n")
    if len(lines) > MOST:
        lines = lines[:MOST // 2] + [f".. {len(lines) - MOST} more, in {run.directory}/evening.txt .."] + lines[-MOST // 2:]
    print("\n".join(heading + lines + [""] + nets + [""]))


SHORTEST = {"told": messages.told_list, "twice": messages.twice_list}


def shortest(run, one):
    """The messages that show a difference, and how many its order has in all; none for one that is about no order."""
    if one.order is None:
        return [], 0
    all_of_it = messages.of_order(run.directory, one.order.coop, one.order.names, set(one.order.downstream()))
    if run.settings["old_way"]:  # which does not listen to the drop copy
        all_of_it = [message for message in all_of_it if message.get("49") != "VENUEDROP"]
    return list(SHORTEST.get(one.kind, messages.telling)(all_of_it)), len(all_of_it)


def verdict(run, found):
    """Prints the differences, the gravest first and of these the one with the shortest list, one list for an order."""
    if not found:
        print("no difference")
        return
    found.sort(key=lambda one: -one.weight)
    lists = {one: shortest(run, one) for one in found[:CONSIDERED]}
    shown, kinds = set(), {}
    for one in sorted(lists, key=lambda one: (-one.weight, len(lists[one][0]))):
        if len(shown) >= MOST_DIFFERENCES or (one.order or one) in shown:
            continue
        shown.add(one.order or one)
        print(f"difference: {one.text}")
        if one.order:
            print(f"  the {len(lists[one][0])} of its {lists[one][1]} FIX messages that show it, by the desk's clock:")
        for message in lists[one][0]:
            print("  " + message.line())
    for one in found:
        kinds[one.kind] = kinds.get(one.kind, 0) + 1
    print(f"{len(found)} differences: " + ", ".join(f"{name} {number}" for name, number in sorted(kinds.items())) + f"; all is in {run.directory}")


class Progress:
    """One line on standard error, written anew each second if that is a terminal."""

    def __init__(self, directory):
        self.directory, self.last = directory, 0.0

    def show(self, now, text):
        if sys.stderr.isatty() and now - self.last >= 1:
            self.last = now
            sys.stderr.write("\r\x1b[K" + text)
            sys.stderr.flush()

    @staticmethod
    def end():
        if sys.stderr.isatty():
            sys.stderr.write("\r\x1b[K")
