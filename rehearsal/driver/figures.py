"""The figures of a run, for the summary and for docs/REHEARSAL.md."""
from collections import Counter

from . import messages, quiet, sheets


def marked(directory):
    """Of the venue's messages that came to the desk: those that a session sent again, and those marked as a possible resend."""
    marks = Counter()
    for _, values in messages.lines(directory, "desk"):
        if values["56"] == "GATEWAY" and values["35"] in "89":
            marks["possdup"] += values.get("43") == "Y"
            marks["possresend"] += values.get("97") == "Y"
    return marks


def first_by_session(directory):
    """How many reports came first on each of the venue's two sessions, by the times of the desk's log."""
    seen = {}
    for time, values in messages.lines(directory, "desk"):
        if values["56"] == "GATEWAY" and values["35"] == "8" and values["49"].startswith("VENUE"):
            was = seen.get(values["17"])
            if was is None or time < was[0]:
                seen[values["17"]] = (time, values["49"])
    return Counter(where for _, where in seen.values())


def spent(directory):
    """Where the time of the desk's last process went: calls and seconds of each part."""
    return {row["part"]: [int(row["count"]), round(float(row["seconds"]), 3)] for row in sheets.read(directory, "desk-times.tsv")}


def collect(run, world, took):
    deeds = Counter(deed["deed"] for deed in run.deeds)
    marks, first = marked(run.directory), first_by_session(run.directory)
    client, venue = quiet.progress(run.directory, "client"), quiet.progress(run.directory, "venue")
    return {
        "orders": len(run.orders), "requests": client.get("requests", 0), "fills": len(run.fills), "events": len(run.events),
        "venue_messages": venue.get("sent", 0), "reports_told": client.get("reports", 0), "rejects_told": client.get("rejects", 0),
        "told_again": client.get("again", 0), "refused": client.get("refused", 0), "kills": world.killed, "cuts": world.cuts, "seconds": round(took, 1),
        "possdup": marks["possdup"], "possresend": marks["possresend"], "first_on_drop": first["VENUEDROP"], "first_on_orders": first["VENUE"],
        "alarms": dict(sorted(Counter(row["alarm"] for row in run.alarms).items())), "deeds": dict(sorted(deeds.items())),
        "cpu": world.cpu, "desk": spent(run.directory),
    }


def lines(figures):
    yield ("orders {orders}, cancels and replaces {requests}, fills {fills}; venue's messages {venue_messages}, events in the journal {events}; "
           "reports told {reports_told}, again {told_again}, rejects told {rejects_told}").format(**figures)
    yield ("desk killed {kills} times, sessions cut {cuts} times; sent again by a session {possdup}, marked PossResend {possresend}; "
           "reports first on the drop copy {first_on_drop}, on the order session {first_on_orders}; {seconds} s").format(**figures)
    yield "deeds: " + (", ".join(f"{name} {number}" for name, number in figures["deeds"].items()) or "none")
    yield "alarms: " + (", ".join(f"{number} times {name}" for name, number in figures["alarms"].items()) or "none")
