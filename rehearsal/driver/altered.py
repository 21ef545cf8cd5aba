"""Whether the comparison can fail: a kept run without a difference, one cell of a sheet or one message of a log altered at a time, must differ, and
in that way.
    altered.py DIR"""
import os
import sys
import tempfile

sys.dont_write_bytecode = True
sys.path.insert(0, os.path.dirname(os.path.dirname(os.path.abspath(__file__))))

from driver import compare, messages, settings  # noqa: E402

MORE = "77.7777"


def cell(column, value, where=None):
    """Sets a column of the first row, or of the first row that fits."""
    def alter(heading, rows):
        at = heading.index(column)
        fits = [row for row in rows if where is None or where(dict(zip(heading, row)))]
        fits[0][at] = value
        return rows
    return alter


def without_last(_, rows):
    return rows[:-1]


def without_filled(heading, rows):
    """Without the first row that is Filled."""
    gone = next(row for row in rows if filled(dict(zip(heading, row))))
    return [row for row in rows if row is not gone]


def last_again(_, rows):
    return rows + [rows[-1]]


def added(*cells):
    return lambda _, rows: rows + [list(cells)]


def filled(row):
    return row["status"] == "2"


ALTERED = (
    ("client.tsv", cell("told_last", MORE), "told", "the client was told another sum"),
    ("client.tsv", cell("told_cum", MORE), "told", "the client was told another CumQty"),
    ("client.tsv", cell("ordered", MORE, filled), "ordered", "the client was told another quantity"),
    ("client.tsv", cell("conflicts", "1"), "exec-id", "an ExecID with two contents"),
    ("client.tsv", cell("status", "1", filled), "status", "the client was not told the end"),
    ("client.tsv", without_last, "strange", "an order that no client sent"),
    ("desk.tsv", cell("cum", MORE), "told", "the book has another quantity"),
    ("desk.tsv", cell("status", "1", filled), "status", "the book does not know the end"),
    ("desk-net.tsv", cell("net", MORE), "net", "another net position in the book"),
    ("desk-alarms.tsv", added("1", "5", "G1"), "alarm", "an alarm that nothing explains"),
    ("desk-refused.tsv", added("1", "7", "full", "-"), "refused", "a message of the venue's that the book refused"),
    ("venue.tsv", cell("filled", MORE), "told", "the venue filled another quantity"),
    ("venue.tsv", last_again, "twice", "an order at the venue twice"),
    ("venue.tsv", without_filled, "missing", "an order that is not at the venue"),
    ("venue-fills.tsv", cell("qty", MORE), "net", "another fill at the venue"),
    ("venue-deeds.tsv", added("twice", "V-1", "G1", "D"), "request", "a request that came twice, unmarked"),
)


def is_told(one, type_):
    return one["56"].startswith("COOP") and one["35"] == type_


def is_fill(one):
    return is_told(one, "8") and one["150"] == "F" and "41" not in one


def altered_message(fits, alter):
    """Alters the first message that fits, wherever it stands in the log, and leaves it out if `alter` gives none."""
    def altered(lines):
        first = next(one for _, one in lines if fits(one))
        same = [first[tag] for tag in ("49", "56", "34")]
        for time, one in lines:
            one = alter(dict(one)) if [one[tag] for tag in ("49", "56", "34")] == same else one
            if one:
                yield time, one
    return altered


def without_answer(lines):
    """Without all that was told of the first request that was refused."""
    name = next(one["11"] for _, one in lines if is_told(one, "9"))
    return [(time, one) for time, one in lines if not (one["56"].startswith("COOP") and one.get("11") == name)]


def sent_again(lines):
    """The first fill a second time at the end, under another number, not marked."""
    time, one = next((time, one) for time, one in lines if is_fill(one))
    return lines + [(time, dict(one, **{"34": "999999"}))]


SAID = (
    ("client", without_answer, "answer", "a request that was never answered"),
    ("client", altered_message(is_fill, lambda one: dict(one, **{"31": "7.00000000"})), "price", "a fill told at another price"),
    ("client", altered_message(is_fill, lambda one: dict(one, **{"6": "7.00000000"})), "price", "another average told"),
    ("client", sent_again, "mark", "a report told again, not marked"),
    ("venue", altered_message(lambda one: one["35"] == "D" and "44" in one, lambda one: dict(one, **{"44": "7.00000000"})), "terms", "an order at another price"),
    ("venue", altered_message(lambda one: one["35"] == "G", lambda one: dict(one, **{"38": "7.0000"})), "terms", "a replace to another quantity"),
)
REFUSED = "seq\trefusal\twhy\tmessage\n"


def rows_of(path):
    if not os.path.exists(path):
        return REFUSED.strip().split("\t"), []
    with open(path, encoding="utf-8") as sheet:
        lines = [line.rstrip("\n").split("\t") for line in sheet]
    return lines[0], lines[1:]


def kinds(directory, name, alter):
    """The kinds of difference of the run with one sheet altered."""
    with tempfile.TemporaryDirectory() as copy:
        for entry in os.listdir(directory):
            if entry != name:
                os.symlink(os.path.join(os.path.abspath(directory), entry), os.path.join(copy, entry))
        heading, rows = rows_of(os.path.join(directory, name))
        with open(os.path.join(copy, name), "w", encoding="utf-8") as sheet:
            sheet.writelines("\t".join(row) + "\n" for row in [heading] + alter(heading, rows))
        return {one.kind for one in compare.differences(compare.Run(copy, settings.load(directory)))}


def kinds_said(directory, role, alter):
    """The kinds of difference of the run with one log altered."""
    with tempfile.TemporaryDirectory() as copy:
        for entry in os.listdir(directory):
            if entry != "log-" + role:
                os.symlink(os.path.join(os.path.abspath(directory), entry), os.path.join(copy, entry))
        os.mkdir(os.path.join(copy, "log-" + role))
        with open(os.path.join(copy, "log-" + role, "all.messages.current.log"), "w", encoding="latin-1", newline="\n") as log:
            for time, one in alter(messages.lines(directory, role)):
                log.write(time + " : " + "".join(f"{tag}={value}\1" for tag, value in one.items()) + "\n")
        return {one.kind for one in compare.differences(compare.Run(copy, settings.load(directory)))}


def main():
    directory = sys.argv[1]
    if compare.differences(compare.Run(directory, settings.load(directory))):
        sys.exit(f"altered: {directory} has a difference already")
    for name, alter, kind, what in ALTERED:
        found = kinds(directory, name, alter)
        if kind not in found:
            sys.exit(f"altered: not found: {what} ({name}): {sorted(found)}")
    for role, alter, kind, what in SAID:
        found = kinds_said(directory, role, alter)
        if kind not in found:
            sys.exit(f"altered: not found: {what} (log-{role}): {sorted(found)}")
    print(f"altered: the comparison finds each of {len(ALTERED)} altered cells and {len(SAID)} altered messages")


if __name__ == "__main__":
    main()
