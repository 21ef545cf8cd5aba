"""How long an order takes from the client to the venue, from the logs of a kept run: network, desk, network; and where the desk's time goes.
    path.py DIR"""
import os
import sys
from datetime import datetime

sys.dont_write_bytecode = True
sys.path.insert(0, os.path.dirname(os.path.dirname(os.path.abspath(__file__))))

from driver import figures, messages, sheets  # noqa: E402


def times(directory, role, peer):
    """When each NewOrderSingle between the gateway and such peers first stood in a role's log, by the client's side and ClOrdID."""
    seen = {}
    for time, values in messages.lines(directory, role):
        if values["35"] == "D" and values[peer].startswith(("COOP", "VENUE")):
            stamp = datetime.strptime(time[:24], "%Y%m%d-%H:%M:%S.%f").timestamp()
            key = (values[peer], values["11"])
            seen[key] = min(stamp, seen.get(key, stamp))
    return seen


def spread(name, values):
    ordered = sorted(values)
    middle, high = ordered[len(ordered) // 2], ordered[len(ordered) * 95 // 100]
    print(f"{name}: median {1000 * middle:.0f} ms, 95th of a hundred {1000 * high:.0f} ms ({len(ordered)} orders)")


def main():
    directory = sys.argv[1]
    sent, taken = times(directory, "client", "49"), times(directory, "desk", "49")
    passed, got = times(directory, "desk", "56"), times(directory, "venue", "56")
    legs = [[], [], []]
    for row in sheets.read(directory, "desk.tsv"):
        near, far = (f"COOP{row['client']}", row["first_clordid"]), ("VENUE", row["name"])
        if near in sent and near in taken and far in passed and ("VENUE", row["name"]) in got:
            stamps = (sent[near], taken[near], passed[far], got[far])
            for leg, (begin, end) in zip(legs, zip(stamps, stamps[1:])):
                leg.append(end - begin)
    for name, leg in zip(("client to desk", "in the desk", "desk to venue"), legs):
        spread(name, leg)
    spent = figures.spent(directory)
    whole = spent["message"]
    print(f"the desk: {whole[0]} messages in {whole[1]:.2f} s of handling, {whole[0] / whole[1]:.0f} a second")
    for part in ("commit", "note", "send", "book"):
        count, seconds = spent[part]
        print(f"  {part}: {count} times, {seconds:.3f} s, {100 * seconds / whole[1]:.1f} of a hundred, {1000000 * seconds / max(count, 1):.0f} us each")


if __name__ == "__main__":
    main()
