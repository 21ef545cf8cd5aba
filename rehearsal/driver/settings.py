"""The command line, and what a run is made of: all of it stands in DIR/settings.json, so that it can be run again."""
import argparse
import json
import os
import random

ROOT = os.path.dirname(os.path.dirname(os.path.dirname(os.path.abspath(__file__))))
BIN = os.path.join(ROOT, "target", "rehearsal")
FAULTS = ("drop-report", "send-twice", "last-qty", "unknown-status")
CUT = ["venue", "venue", "drop"]  # which session a cut takes, drawn from these
# Least and most milliseconds that a chunk is held, in each direction.
DELAYS = {"venue": [1, 60], "drop": [1, 90], "clients": [1, 20]}


def parser():
    made = argparse.ArgumentParser(prog="rehearse", description="Clients, a desk over the proved book and a venue, over FIX; then the venue's sheet beside the book.")
    made.add_argument("--orders", type=int, default=120, metavar="N", help="client orders (120)")
    made.add_argument("--seed", type=int, help="of all that is drawn (random)")
    made.add_argument("--kills", type=int, default=3, metavar="K", help="how often the desk is killed (3)")
    made.add_argument("--cuts", type=int, default=2, metavar="C", help="how often a session with the venue is cut (2)")
    made.add_argument("--seconds", type=int, default=15, metavar="T", help="within which the clients order (15)")
    made.add_argument("--coops", type=int, default=3, metavar="K", help="cooperatives, a session each (3)")
    made.add_argument("--habits", default="all", help="the venue's, by name with commas, all or none (all)")
    made.add_argument("--cancel-on-drop", action="store_true", help="the desk cancels a client's orders if its session drops; these are cut too")
    made.add_argument("--old-way", action="store_true", help="a desk that books by the ClOrdID as it comes, without journal, kills and cuts")
    made.add_argument("--fault", choices=FAULTS, help="a fault planted in the desk")
    made.add_argument("--no-sync", action="store_true", help="the journal's commits are left to the operating system")
    made.add_argument("--keep", metavar="DIR", help="where the run is kept (target/rehearsal/last, made anew each time)")
    made.add_argument("--again", metavar="DIR", help="runs a kept one again: its settings, and its journal by itself")
    made.add_argument("--brief", action="store_true", help="no page, no net position: figures and differences alone")
    return made


def misuse(made, options):
    """What no run can be made of."""
    if min(options.orders, options.seconds, options.coops) < 1 or min(options.kills, options.cuts) < 0:
        made.error("--orders, --seconds and --coops are 1 or more, --kills and --cuts 0 or more")
    if options.coops > 100 or options.orders > 100000:
        made.error("at most 100 cooperatives and 100000 orders")
    if options.old_way and options.fault:
        made.error("the old way is fault enough")


def drawn(options):
    """The settings of a new run, with its times drawn from the seed."""
    seed = options.seed if options.seed is not None else random.SystemRandom().randrange(1, 1 << 31)
    draw = random.Random(seed)
    names = ("orders", "seconds", "coops", "habits", "old_way", "fault", "no_sync", "cancel_on_drop")
    made = {name: getattr(options, name) for name in names}
    made["seed"] = seed
    kills, cuts = (0, 0) if options.old_way else (options.kills, options.cuts)
    span = options.seconds

    def times(count):
        return sorted(round(draw.uniform(0.1 * span, 1.05 * span), 3) for _ in range(count))

    made["kills"] = [{"at": at, "away": round(draw.uniform(0, 0.6), 3), "aimed": draw.random() < 0.5} for at in times(kills)]
    made["cuts"] = [{"at": at, "session": draw.choice(CUT + ["clients"] * options.cancel_on_drop)} for at in times(cuts)]
    made["delays"] = DELAYS
    made["seeds"] = {who: draw.randrange(1, 1 << 60) for who in ("venue", "client", "relay")}
    return made


def load(directory):
    with open(os.path.join(directory, "settings.json"), encoding="utf-8") as kept:
        return json.load(kept)


def store(settings, directory):
    with open(os.path.join(directory, "settings.json"), "w", encoding="utf-8") as kept:
        json.dump(settings, kept, indent=1, sort_keys=True)
