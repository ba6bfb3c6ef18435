#!/usr/bin/env python3
"""A subscriber: takes each event of it that a broker hands over, exactly once and in the order of each publisher.

    examples/subscriber.py FOLDER SUBSCRIBER TAKEN [--remove] [--until N]
    examples/subscriber.py --help

FOLDER is where `tools/serve` runs the subscriber's broker: it has the output of each run of the broker in a file of its
own, run-000001.out and so on. This program follows these files as they grow, and appends each event of SUBSCRIBER to
the file TAKEN, one JSON object a line with the publisher, the tick and the event:

    {"publisher":"prices","tick":1764500000000,"event":{"price":82,"sym":"IBM"}}

It runs until it is ended, or until TAKEN has N lines. Both it and the broker may be killed at any moment, by any
signal, and started again. Then TAKEN has each event once, none is left out, and the ticks of each publisher rise. A
start reads all files of FOLDER again; with --remove each is removed once it was read and the next one has begun, which
is right where the broker has no other subscriber.

Why that is so. The ticks of a publisher rise, and a broker hands its events over in this order. A broker that was
started again may begin with events that it handed over before, and leaves none out that nobody took down: what it
acknowledges it has printed before. So an event is taken exactly where its tick is above the last one taken of its
publisher, and what remains is to take an event and to remember its tick in one step, which happens whole or not at all.
Here this step is one line of TAKEN: a line without its end was not taken, and is cut off at the next start.

To do something else with an event, replace `Taken`. With a database, `take` is one transaction that does the work and
stores the tick of the publisher, and `last` reads these ticks. An effect that no transaction holds, as a mail or a
payment elsewhere, comes at least once: give publisher and tick along with it, so that its receiver can leave a repeat
out. To do first the work and then remember, or the other way round, in two steps, repeats an event or loses it when
this program is killed between them.

What this does not cover: a power cut of this machine, since a broker does not sync what it prints, and the loss of
FOLDER or TAKEN.
"""
import argparse
import fcntl
import json
import os
import re
import signal
import sys
import time

RUN = re.compile(r"run-(\d{6,})\.out\Z")
PAUSE = 0.05


class Taken:
    """The file of the events that were taken: what an event does here, and the last tick of each publisher."""

    def __init__(self, path):
        self.last, self.count = {}, 0
        self.file = os.open(path, os.O_RDWR | os.O_CREAT | os.O_APPEND, 0o644)
        try:
            fcntl.flock(self.file, fcntl.LOCK_EX | fcntl.LOCK_NB)
        except BlockingIOError:
            sys.exit("subscriber.py: another process takes events into " + path)
        with open(path, "rb") as lines:
            end = 0
            for line in lines:
                if not line.endswith(b"\n"):
                    break
                taken = json.loads(line)
                self.last[taken["publisher"]] = taken["tick"]
                self.count, end = self.count + 1, end + len(line)
        os.ftruncate(self.file, end)

    def take(self, publisher, tick, event):
        """Takes an event and remembers its tick, in one write of one line."""
        line = '{"publisher":"%s","tick":%d,"event":%s}\n' % (publisher, tick, event)
        data = line.encode()
        if os.write(self.file, data) != len(data):
            sys.exit("subscriber.py: the disk is full")
        self.last[publisher] = tick
        self.count += 1


def runs_in(folder):
    """The files of a broker's output, by number."""
    try:
        found = (RUN.match(name) for name in os.listdir(folder))
    except FileNotFoundError:
        return {}
    return {int(it[1]): os.path.join(folder, it[0]) for it in found if it}


def run_behind(folder, run):
    """The first run behind this one that is there, its number and its file; None where there is none."""
    for number, path in sorted(runs_in(folder).items()):
        if number > run:
            try:
                return number, open(path, "rb")
            except FileNotFoundError:
                continue
    return None


def lines_of(folder, removes=False):
    """Each whole line of each run in turn, as it comes; None each time that there is none for now."""
    found = run_behind(folder, 0)
    while found is None:
        yield None
        found = run_behind(folder, 0)
    run, file, part = *found, b""
    while True:
        # a later run begins once this one has ended, so what is then read of it is all
        after = run_behind(folder, run)
        for line in file:
            part += line
            if part.endswith(b"\n"):
                yield part[:-1].decode()
                part = b""
        if after is None:
            yield None
        else:
            # a last line without its end was not printed whole: the next run prints it again
            file.close()
            if removes:
                os.remove(file.name)
            run, file, part = *after, b""


def events_of(folder, subscriber, removes):
    """What the broker hands over to a subscriber: publisher, tick and event as JSON; None where there is none yet."""
    for line in lines_of(folder, removes):
        words = line.split(" ", 4) if line is not None else [""]
        if line is None:
            yield None
        elif words[0] == "got" and words[1] == subscriber:
            yield words[2], int(words[3]), words[4]


def follow(folder, subscriber, taken, removes, until):
    """Takes each event that is not taken yet."""
    for found in events_of(folder, subscriber, removes):
        if until is not None and taken.count >= until:
            return
        if found is None:
            time.sleep(PAUSE)
            continue
        publisher, tick, event = found
        if tick > taken.last.get(publisher, 0):
            taken.take(publisher, tick, event)


def main():
    parser = argparse.ArgumentParser(add_help=False)
    parser.add_argument("--help", "-h", action="store_true")
    parser.add_argument("--remove", action="store_true")
    parser.add_argument("--until", type=int)
    parser.add_argument("words", nargs="*")
    asked = parser.parse_args()
    signal.signal(signal.SIGPIPE, signal.SIG_DFL)
    if asked.help:
        print(__doc__.strip())
        return 0
    if len(asked.words) != 3:
        print("usage: examples/subscriber.py FOLDER SUBSCRIBER TAKEN [--remove] [--until N]", file=sys.stderr)
        return 1
    folder, subscriber, path = asked.words
    try:
        follow(folder, subscriber, Taken(path), asked.remove, asked.until)
    except KeyboardInterrupt:
        return 130
    except OSError as fault:
        sys.exit("subscriber.py: %s: %s" % (fault.filename or path, fault.strerror))
    return 0


if __name__ == "__main__":
    sys.exit(main())
