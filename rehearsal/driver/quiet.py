"""Whether everything has arrived: each sender's next number is its receiver's expected one, and nobody has anything left to do."""
import os
import time

from .world import Failed


def numbers(directory, role, own, peer):
    """A session's next number out and in, from QuickFIX's store; None while it is not there or half written."""
    path = os.path.join(directory, f"store-{role}", f"FIX.4.4-{own}-{peer}.seqnums")
    try:
        with open(path, encoding="ascii") as store:
            out, into = store.read().split(":")
        return int(out), int(into)
    except (OSError, ValueError):
        return None


def progress(directory, role):
    """What a process says of itself, as numbers by name."""
    try:
        with open(os.path.join(directory, role + ".progress"), encoding="ascii") as told:
            return {name: int(number) for name, number in (line.split() for line in told)}
    except (OSError, ValueError):
        return {}


def sessions(coops):
    pairs = [("venue", "VENUE"), ("venue", "VENUEDROP")]
    return pairs + [("client", f"COOP{coop}") for coop in range(1, coops + 1)]


def apart(directory, coops):
    """The sessions whose two ends do not agree."""
    left = []
    for role, name in sessions(coops):
        one = numbers(directory, role, name, "GATEWAY")
        other = numbers(directory, "desk", "GATEWAY", name)
        if one is None or other is None or one[0] != other[1] or one[1] != other[0]:
            left.append((name, one, other))
    return left


def busy(directory):
    """What moves while there is something to do."""
    venue, client = progress(directory, "venue"), progress(directory, "client")
    idle = venue.get("held", 1) == 0 and venue.get("waiting", 1) == 0
    return idle, tuple(venue.get(name) for name in ("sent", "fills")), tuple(client.get(name) for name in ("requests", "reports", "rejects"))


def wait_until_quiet(world, show, least=1.5, most=90):
    """Waits until all has arrived and nothing has moved for a while."""
    coops, directory = world.settings["coops"], world.directory
    since, last, deadline = time.monotonic(), None, time.monotonic() + most
    while True:
        world.look()
        left, now = apart(directory, coops), busy(directory)
        if left or now != last or not now[0]:
            since, last = time.monotonic(), now
        if time.monotonic() - since >= least:
            return
        if time.monotonic() > deadline:
            raise Failed(f"not everything arrives: {left} {now}")
        show()
        time.sleep(0.1)


def wait_for_orders(world, show, orders, most):
    """Waits until the venue or the clients are done with so many orders being in the run, for `wait_until_quiet` to begin."""
    deadline = time.monotonic() + most
    while progress(world.directory, "client").get("orders", 0) < orders:
        world.look()
        if time.monotonic() > deadline:
            raise Failed("the clients do not order")
        show()
        time.sleep(0.1)
