"""The course of a run."""
import json
import os
import shutil
import signal
import subprocess
import sys
import tempfile
import time

from . import compare, figures, quiet, settings, show
from .world import Failed, World, free_ports

SHEETS = ("desk.tsv", "desk-page.txt", "desk-net.tsv", "desk-alarms.tsv")


def build():
    for library in ("gateway", "fix"):
        if not os.path.exists(os.path.join(settings.ROOT, "target", "staticlib", f"lib{library}.a")):
            raise Failed(f"no target/staticlib/lib{library}.a: 'tools/staticlib {library}' makes it")
    done = subprocess.run(["make", "-s", "-C", os.path.join(settings.ROOT, "rehearsal")], capture_output=True, text=True, check=False)
    if done.returncode != 0:
        raise Failed("it does not build:\n" + done.stdout + done.stderr)


def fresh(directory):
    """An empty directory; one that was a run is made anew, anything else stays."""
    if os.path.isdir(directory) and os.listdir(directory):
        if not os.path.exists(os.path.join(directory, "settings.json")):
            raise Failed(f"{directory} is there and is no kept run")
        shutil.rmtree(directory)
    os.makedirs(directory, exist_ok=True)


def perform(world, progress):
    """Orders, kills and cuts, until all has arrived and everybody has ended."""
    given, begun = world.settings, time.monotonic()

    def tell():
        now = time.monotonic()
        venue, client = quiet.progress(world.directory, "venue"), quiet.progress(world.directory, "client")
        progress.show(now, f"{now - begun:5.0f} s  orders {client.get('orders', 0)}  requests {client.get('requests', 0)}  fills "
                           f"{venue.get('fills', 0)}  told {client.get('reports', 0)}  kills {world.killed}  cuts {world.cuts}")

    world.start_all()
    begun = time.monotonic()
    blows = [(one["at"], lambda one=one: world.kill_desk(one["away"], one["aimed"])) for one in given["kills"]]
    blows += [(one["at"], lambda one=one: world.cut(one["session"])) for one in given["cuts"]]
    for at, blow in sorted(blows, key=lambda blow: blow[0]):
        while time.monotonic() - begun < at:
            world.look()
            tell()
            time.sleep(0.02)
        blow()
    while time.monotonic() - begun < given["seconds"]:
        world.look()
        tell()
        time.sleep(0.1)
    quiet.wait_for_orders(world, tell, given["orders"], 60)
    settle(world, tell)
    return time.monotonic() - begun


def settle(world, tell):
    world.tell("client", signal.SIGUSR1)
    time.sleep(1)
    world.tell("venue", signal.SIGUSR2)
    deadline = time.monotonic() + 30
    while quiet.progress(world.directory, "venue").get("settled") != 1:
        world.look()
        if time.monotonic() > deadline:
            raise Failed("the venue does not settle")
        time.sleep(0.1)
    quiet.wait_until_quiet(world, tell)
    for name in ("desk", "client", "venue", "relay"):
        world.end(name)


def replay(given, directory):
    """The journal by itself, without sessions: a desk started on a copy must come to the same sheets. The desk compares each answer, too."""
    with tempfile.TemporaryDirectory() as copy:
        shutil.copy(os.path.join(directory, "journal.sqlite"), copy)
        world = World(given, copy)
        try:
            ports = free_ports(3)
            world.start("desk", world.desk_arguments(copy, ports))
            world.await_port("desk", ports[0])
            world.end("desk")
        finally:
            world.close()
        for name in SHEETS:
            with open(os.path.join(directory, name), "rb") as one, open(os.path.join(copy, name), "rb") as other:
                if one.read() != other.read():
                    yield compare.Difference("journal", f"the journal alone gives another {name}")


def rehearse(given, directory, brief):
    fresh(directory)
    settings.store(given, directory)
    world, progress = World(given, directory), show.Progress(directory)
    try:
        took = perform(world, progress)
    finally:
        world.close()
        progress.end()
    run = compare.Run(directory, given)
    found = compare.differences(run)
    if not given["old_way"]:
        found += list(replay(given, directory))
    counted = figures.collect(run, world, took)
    counted["differences"] = len(found)
    with open(os.path.join(directory, "figures.json"), "w", encoding="utf-8") as kept:
        json.dump(counted, kept, indent=1, sort_keys=True)
    if not brief:
        show.evening(run)
    print(f"seed {given['seed']}: " + "\n".join(figures.lines(counted)))
    show.verdict(run, found)
    return 1 if found else 0


def again(directory):
    """A kept run: its settings; its journal is compared with its sheets first."""
    given = settings.load(directory)
    if not given["old_way"]:
        found = list(replay(given, directory))
        if found:
            raise Failed(found[0].text)
        print(f"the kept journal of {directory} gives the same books")
    return given


def main():
    made = settings.parser()
    options = made.parse_args()
    settings.misuse(made, options)
    signal.signal(signal.SIGTERM, lambda *_: sys.exit(143))
    signal.signal(signal.SIGHUP, lambda *_: sys.exit(129))
    try:
        build()
        given = again(options.again) if options.again else settings.drawn(options)
        directory = os.path.abspath(options.keep or os.path.join(settings.BIN, "last"))
        if options.again and os.path.abspath(options.again) == directory:
            directory += "-again"
        return rehearse(given, directory, options.brief)
    except Failed as why:
        print(f"rehearse: {why}", file=sys.stderr)
        return 1
    except (OSError, ValueError, KeyError) as why:
        print(f"rehearse: {type(why).__name__}: {why}", file=sys.stderr)
        return 1
    except KeyboardInterrupt:
        print("rehearse: interrupted", file=sys.stderr)
        return 130
