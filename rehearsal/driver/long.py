"""Random seeds, one run after the other, for so many minutes: their figures added up. A run with a difference is kept under its seed.
    long.py MINUTES [FIRST-SEED]"""
import json
import os
import random
import subprocess
import sys
import time
from collections import Counter

ROOT = os.path.dirname(os.path.dirname(os.path.dirname(os.path.abspath(__file__))))
KEPT = os.path.join(ROOT, "target", "rehearsal")
ADDED = ("orders", "requests", "fills", "events", "venue_messages", "reports_told", "told_again", "rejects_told", "refused", "kills", "cuts",
         "possdup", "possresend", "first_on_drop", "first_on_orders", "differences")


def one(seed):
    """A run; its status, and its figures if it came to an end."""
    draw = random.Random(seed)
    directory = os.path.join(KEPT, "long")
    command = [os.path.join(ROOT, "rehearse"), "--brief", "--seed", str(seed), "--keep", directory, "--orders", str(draw.randrange(40, 240)),
               "--kills", str(draw.randrange(0, 8)), "--cuts", str(draw.randrange(0, 5)), "--seconds", str(draw.randrange(6, 20)),
               "--coops", str(draw.randrange(1, 6))] + ["--cancel-on-drop"] * draw.randrange(2)
    done = subprocess.run(command, capture_output=True, text=True, check=False)
    figures = os.path.join(directory, "figures.json")
    counted = None
    if os.path.exists(figures):
        with open(figures, encoding="utf-8") as kept:
            counted = json.load(kept)
    if done.returncode != 0:
        os.rename(directory, f"{directory}-{seed}-{int(time.time())}")
        print(done.stdout + done.stderr, flush=True)
    return done.returncode, counted


def main():
    minutes = float(sys.argv[1])
    seeds = random.Random(int(sys.argv[2]) if len(sys.argv) > 2 else None)
    begun, runs, failed = time.monotonic(), 0, 0
    sums, deeds, alarms = Counter(), Counter(), Counter()
    while time.monotonic() - begun < minutes * 60:
        seed = seeds.randrange(1, 1 << 31)
        status, counted = one(seed)
        runs, failed = runs + 1, failed + (status != 0)
        if counted:
            sums.update({name: counted[name] for name in ADDED})
            deeds.update(counted["deeds"])
            alarms.update(counted["alarms"])
        print(f"{time.monotonic() - begun:6.0f} s  seed {seed}  status {status}  {(counted or {}).get('orders', '-')} orders", flush=True)
    print(f"runs {runs}, failed {failed}, minutes {(time.monotonic() - begun) / 60:.1f}")
    for name in ADDED:
        print(f"{name} {sums[name]}")
    print("deeds: " + ", ".join(f"{name} {number}" for name, number in sorted(deeds.items())))
    print("alarms: " + ", ".join(f"{name}: {number}" for name, number in sorted(alarms.items())))
    return 1 if failed else 0


if __name__ == "__main__":
    sys.exit(main())
