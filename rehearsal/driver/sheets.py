"""The sheets of a run, and the records of its journal."""
import csv
import os
import sqlite3

LOT = 10000
TEXT_BITS = {2, 3, 4, 5, 6, 18, 20, 30}
SIZES = {0: 2, 1: 2, 7: 1, 8: 1, 9: 8, 10: 8, 11: 1, 12: 1, 13: 1, 14: 8, 15: 8, 16: 8, 17: 8, 19: 4, 21: 0, 22: 0, 23: 1}
DOWNSTREAM = 5


def read(directory, name):
    """The rows of a sheet as dictionaries; none if it is not there."""
    path = os.path.join(directory, name)
    if not os.path.exists(path):
        return []
    with open(path, encoding="utf-8", newline="") as sheet:
        return list(csv.DictReader(sheet, delimiter="\t", quoting=csv.QUOTE_NONE))


def count(text):
    """A quantity in ten-thousandths."""
    sign = -1 if text.startswith("-") else 1
    whole, _, rest = text.lstrip("-").partition(".")
    return sign * (int(whole) * LOT + int((rest + "0000")[:4]))


def show(quantity):
    return "{}{}.{:04d}".format("-" if quantity < 0 else "", abs(quantity) // LOT, abs(quantity) % LOT)


def fields(record):
    """The fields of an event's record by their bits (docs/SCOPE.md, Records)."""
    bits, at, found = int.from_bytes(record[1:5], "little"), 5, {}
    for bit in range(32):
        if not bits >> bit & 1:
            continue
        size = SIZES.get(bit, 0)
        if bit in TEXT_BITS:
            size, at = record[at], at + 1
        found[bit] = record[at:at + size]
        at += size
    return found


def journal(directory):
    """The events of the journal: number, kind, downstream ClOrdID if there is one, refusal."""
    path = os.path.join(directory, "journal.sqlite")
    if not os.path.exists(path):
        return []
    with sqlite3.connect(f"file:{path}?mode=ro", uri=True) as kept:
        rows = kept.execute("SELECT seq, record, refusal FROM event ORDER BY seq").fetchall()
    return [(seq, record[0], fields(record).get(DOWNSTREAM, b"").decode("latin-1"), refusal) for seq, record, refusal in rows]
