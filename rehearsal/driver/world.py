"""The processes of a run. None outlives the driver: each is ended in `close`, and by the kernel if the driver dies."""
import ctypes
import os
import signal
import socket
import subprocess
import time

from .settings import BIN

CUTS = {"venue": signal.SIGUSR1, "drop": signal.SIGUSR2, "clients": signal.SIGHUP}
PR_SET_PDEATHSIG = 1
LIBC = ctypes.CDLL(None)


class Failed(Exception):
    """The run cannot go on."""


def free_ports(count):
    held = [socket.socket() for _ in range(count)]
    for one in held:
        one.bind(("127.0.0.1", 0))
    ports = [one.getsockname()[1] for one in held]
    for one in held:
        one.close()
    return ports


def listens(port):
    """Whether somebody listens there, read from the kernel's table: a connection would be taken for a session."""
    with open("/proc/net/tcp", encoding="ascii") as table:
        rows = [line.split() for line in table][1:]
    return any(row[3] == "0A" and int(row[1].split(":")[1], 16) == port for row in rows)


def cpu_seconds(pid):
    """The processor time that a process has used."""
    with open(f"/proc/{pid}/stat", encoding="ascii") as told:
        after_name = told.read().rpartition(")")[2].split()
    return (int(after_name[11]) + int(after_name[12])) / os.sysconf("SC_CLK_TCK")


def die_with_driver():
    LIBC.prctl(PR_SET_PDEATHSIG, signal.SIGKILL)


class World:
    """Venue, relay, desk and clients in a directory."""

    def __init__(self, settings, directory):
        self.settings, self.directory = settings, directory
        self.running, self.logs, self.cpu, self.killed, self.cuts = {}, {}, {}, 0, 0
        self.venue, self.to_venue, self.to_drop, self.desk, self.to_desk = free_ports(5)

    def start(self, name, arguments):
        log = self.logs.setdefault(name, open(os.path.join(self.directory, name + ".out"), "ab"))
        self.running[name] = subprocess.Popen([os.path.join(BIN, name)] + [str(one) for one in arguments], stdout=log, stderr=log,
                                              stdin=subprocess.DEVNULL, preexec_fn=die_with_driver)

    def await_port(self, name, port):
        deadline = time.monotonic() + 30
        while not listens(port):
            self.look()
            if time.monotonic() > deadline:
                raise Failed(f"{name} does not listen")
            time.sleep(0.02)

    def start_all(self):
        given, seeds = self.settings, self.settings["seeds"]
        self.start("venue", ["--dir", self.directory, "--port", self.venue, "--seed", seeds["venue"], "--habits", given["habits"]])
        maps = (("venue", self.to_venue, self.venue), ("drop", self.to_drop, self.venue), ("clients", self.to_desk, self.desk))
        relay = ["--seed", seeds["relay"]]
        for way, near, far in maps:
            relay += ["--map", "{}:{}:{}:{}".format(near, far, *given["delays"][way])]
        self.start("relay", relay)
        self.await_port("venue", self.venue)
        self.await_port("relay", self.to_desk)
        self.start_desk()
        self.start("client", ["--dir", self.directory, "--port", self.to_desk, "--seed", seeds["client"], "--orders", given["orders"],
                              "--coops", given["coops"], "--seconds", given["seconds"]])

    def desk_arguments(self, directory, ports):
        given = self.settings
        made = ["--dir", directory, "--client-port", ports[0], "--venue-port", ports[1], "--drop-port", ports[2], "--coops", given["coops"]]
        made += ["--old-way"] if given["old_way"] else []
        made += ["--no-sync"] if given["no_sync"] else []
        made += ["--cancel-on-drop"] if given["cancel_on_drop"] else []
        return made + (["--fault", given["fault"]] if given["fault"] else [])

    def start_desk(self):
        self.start("desk", self.desk_arguments(self.directory, (self.desk, self.to_venue, self.to_drop)))
        self.await_port("desk", self.desk)

    def aim(self):
        """Waits until the desk has just handed a message to the venue's session: what it has sent and not yet noted is then the point."""
        store = os.path.join(self.directory, "store-desk", "FIX.4.4-GATEWAY-VENUE.body")
        size, deadline = os.path.getsize(store), time.monotonic() + 0.7
        while os.path.getsize(store) == size and time.monotonic() < deadline:
            time.sleep(0.0002)

    def kill_desk(self, away, aimed):
        if aimed:
            self.aim()
        self.look()  # one that has ended by itself is not killed
        desk = self.running.pop("desk")
        desk.kill()
        desk.wait()
        self.killed += 1
        time.sleep(away)
        self.start_desk()

    def cut(self, session):
        self.running["relay"].send_signal(CUTS[session])
        self.cuts += 1

    def tell(self, name, number):
        self.running[name].send_signal(number)

    def look(self):
        """Nobody ends by himself."""
        for name, process in self.running.items():
            if process.poll() is not None:
                raise Failed(f"{name} ended with status {process.returncode}: {self.said(name)}")

    def said(self, name):
        with open(os.path.join(self.directory, name + ".out"), encoding="utf-8", errors="replace") as log:
            return " / ".join(log.read().strip().splitlines()[-3:])

    def end(self, name):
        """Ends one as it should end, so that it writes its sheet."""
        process = self.running.pop(name)
        self.cpu[name] = cpu_seconds(process.pid)
        process.terminate()
        try:
            status = process.wait(30)
        except subprocess.TimeoutExpired:
            process.kill()
            process.wait()
            raise Failed(f"{name} does not end")
        if status != 0:
            raise Failed(f"{name} ended with status {status}: {self.said(name)}")

    def close(self):
        for process in self.running.values():
            process.kill()
        for process in self.running.values():
            process.wait()
        self.running = {}
        for log in self.logs.values():
            log.close()
