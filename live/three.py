"""Three brokers in processes of their own, over a network that loses, repeats and reorders, killed in mid-run.

    live/run [PROGRAM] [--events N] [--kills K] [--loss PART] [--seconds S] [--seed X]

A (publishers P and Q) and B (subscribers all and dear) talk over M. A is killed with SIGKILL at least K times while it
publishes, and M about a third as often; each is started again at once, A over the log that it left. At the end the
output of B is compared with what it has to be: of each publisher each subscriber got exactly the events that match its
filter, once each and in order; and each event that A ever told as logged is among those that were logged. Prints what
was lost and how often each was killed, and ends with 1 where anything differs.
"""
import argparse
import json
import os
import random
import shutil
import signal
import socket
import subprocess
import sys
import tempfile
import threading
import time

from relay import Relay

TOP = os.path.dirname(os.path.dirname(os.path.abspath(__file__)))
TOPOLOGY = """brokers = ["A", "M", "B"]
links = [["A", "M"], ["M", "B"]]

[[publisher]]
name = "P"
at = "A"

[[publisher]]
name = "Q"
at = "A"

[[subscriber]]
name = "all"
at = "B"

[[subscriber]]
name = "dear"
at = "B"
filter = "price > 50"

[settings]
gap = 20
idle = 100
retry = 40
quiet = 200
reclaim = 4096

[addresses]
A = "127.0.0.1:{A}"
M = "127.0.0.1:{M}"
B = "127.0.0.1:{B}"
"""


def views(relay, names):
    """The port by which each name knows each: its own, or one of the relay that leads there."""
    sockets = {name: socket.socket(socket.AF_INET, socket.SOCK_DGRAM) for name in names}
    for it in sockets.values():
        it.bind(("127.0.0.1", 0))
    real = {name: it.getsockname() for name, it in sockets.items()}
    seen = {by: {of: real[of][1] if by == of else relay.port_to(real[of]) for of in names} for by in names}
    for it in sockets.values():
        it.close()
    return seen


class Process:
    """A process in a folder of its own, killed and started again; what it prints is gathered over all its runs."""

    def __init__(self, home, name, command, text):
        self.folder, self.name, self.command = os.path.join(home, name), name, command
        self.lines, self.kills, self.process, self.reader = [], 0, None, None
        os.mkdir(self.folder)
        with open(os.path.join(self.folder, "input"), "w") as it:
            it.write(text)

    def __str__(self):
        status = self.process.poll()
        return f"{self.name} runs" if status is None else f"{self.name} ended with status {status}"

    def start(self):
        with open(os.path.join(self.folder, "input"), "rb") as text:
            self.process = subprocess.Popen(self.command, cwd=self.folder, stdin=text, stdout=subprocess.PIPE)
        self.reader = threading.Thread(target=self._read, args=(self.process.stdout,), daemon=True)
        self.reader.start()

    def _read(self, out):
        for line in out:
            if line.endswith(b"\n"):
                self.lines.append(line[:-1].decode())

    def stop(self):
        self.process.send_signal(signal.SIGKILL)
        self.process.wait()
        if self.reader:
            self.reader.join()

    def kill(self):
        self.stop()
        self.kills += 1
        self.start()


class Broker(Process):
    """A broker that serves a scenario."""

    def __init__(self, program, home, name, scenario):
        super().__init__(home, name, [program, "serve", "1000000", name], scenario)


def publishes(count):
    """The steps of the schedule, and the events of each publisher in order."""
    steps, events = [], {"P": [], "Q": []}
    for k in range(1, count // 2 + 1):
        for publisher in "PQ":
            event = {"n": k, "price": (k * (37 if publisher == "P" else 53)) % 101}
            events[publisher].append(event)
            steps.append(f"publish {publisher} {k} {json.dumps(event, separators=(',', ':'))}\n")
    return "".join(steps), events


def got(lines, subscriber, publisher):
    """What B told that a subscriber got from a publisher: ticks with events."""
    found = []
    for line in lines:
        words = line.split(" ", 4)
        if words[:3] == ["got", subscriber, publisher]:
            found.append((int(words[3]), json.loads(words[4])))
    return found


def check(told_by_a, told_by_b, events):
    """What differs, in words."""
    wrong = []
    for publisher, whole in events.items():
        ticks = {}
        for subscriber, test in (("all", lambda e: True), ("dear", lambda e: e["price"] > 50)):
            came = got(told_by_b, subscriber, publisher)
            wanted = [e for e in whole if test(e)]
            if [e for _, e in came] != wanted:
                wrong.append(f"{subscriber} got {len(came)} events of {publisher}, and {len(wanted)} match, or others")
            if any(a[0] >= b[0] for a, b in zip(came, came[1:])):
                wrong.append(f"{subscriber} got events of {publisher} out of order")
            if subscriber == "all":
                ticks = {e["n"]: t for t, e in came}
        for line in told_by_a:
            words = line.split()
            if words[:2] == ["logged", publisher] and ticks.get(int(words[2])) != int(words[3]):
                wrong.append(f"{line}: told as logged, and not got at this tick")
    return wrong


def built(program):
    """Where the program is: the one given, or else the one that ./gryphon runs, made before any clock may run."""
    if program is None:
        made = subprocess.run([os.path.join(TOP, "tools", "program")], stdout=subprocess.PIPE, text=True)
        return made.stdout.rstrip("\n") if made.returncode == 0 else sys.exit(made.returncode)
    program = os.path.abspath(program)
    ended = subprocess.run([program, "replay"], stdin=subprocess.DEVNULL, stdout=subprocess.DEVNULL)
    if ended.returncode:
        sys.exit(f"live: {program} ended with status {ended.returncode} for no input")
    return program


def options(events=2000, kills=10, seconds=110):
    """The words of the command, and the relay that they ask for."""
    about = sys.modules["__main__"].__doc__
    parser = argparse.ArgumentParser(description=about, formatter_class=argparse.RawDescriptionHelpFormatter)
    parser.add_argument("program", nargs="?")
    parser.add_argument("--events", type=int, default=events)
    parser.add_argument("--kills", type=int, default=kills)
    parser.add_argument("--loss", type=float, default=0.2)
    parser.add_argument("--seconds", type=float, default=seconds)
    parser.add_argument("--seed", type=int, default=1)
    asked = parser.parse_args()
    asked.program = built(asked.program)
    return asked, Relay(asked.loss, asked.loss / 4, asked.loss / 2, asked.seed)


def main():
    asked, relay = options()
    chance = random.Random(asked.seed)
    seen = views(relay, "AMB")
    steps, events = publishes(asked.events)
    home = tempfile.mkdtemp(prefix="gryphon-live-")
    brokers = {}
    for name in "AMB":
        scenario = TOPOLOGY.format(**seen[name]) + "---\n" + (steps if name == "A" else "")
        brokers[name] = Broker(asked.program, home, name, scenario)
    begun = time.monotonic()
    for it in brokers.values():
        it.start()
    a, m, b = brokers["A"], brokers["M"], brokers["B"]
    last = len(events["P"])
    next_kill = begun + 0.5
    done = lambda: all(len(got_by(b.lines, p)) >= last for p in events)
    ended = None
    while time.monotonic() - begun < asked.seconds:
        relay.step(0.02)
        now = time.monotonic()
        if now >= next_kill:
            next_kill = now + chance.uniform(0.3, 0.9)
            if a.kills < asked.kills:
                a.kill()
            if m.kills < asked.kills // 3:
                m.kill()
            if done() and a.kills >= asked.kills:
                ended = now
                break
        for it in brokers.values():
            if it.process.poll() is not None:
                print(f"live: {it}")
                for other in brokers.values():
                    other.stop()
                return 1
    for it in brokers.values():
        it.stop()
    wrong = check(a.lines, b.lines, events)
    if ended is None:
        wrong.append(f"not everything came within {asked.seconds:g} seconds")
    print(f"live: {relay}")
    print(f"live: A was killed {a.kills} times, M {m.kills} times")
    if ended is not None:
        print(f"live: {asked.events} events in {ended - begun:.1f} seconds")
    for it in wrong:
        print(f"live: WRONG: {it}")
    shutil.rmtree(home)
    if not wrong:
        print("live: each subscriber got exactly the logged events that match its filter, once each and in order")
    return 1 if wrong else 0


def got_by(lines, publisher):
    start = f"got all {publisher} "
    return [line for line in lines if line.startswith(start)]


if __name__ == "__main__":
    sys.exit(main())
