#!/usr/bin/env python3
"""A publisher in a process of its own: submits events to the broker that keeps its log, by notes (docs/use/client.md).

    examples/publisher.py [--from N] HOST:PORT OWN:PORT PUBLISHER < EVENTS
    examples/publisher.py --selftest
    examples/publisher.py --help

HOST:PORT is the broker's address, OWN:PORT the one that the scenario has for the publisher under clients, PUBLISHER its
number, from 0 in the order of the scenario. EVENTS has a JSON object a line, and each line is submitted as it comes, so
EVENTS may be a stream, as `tail -f` gives it. Its first line is event number N, 1 where N is not given; what is logged
already is passed over. Begin again with the same events under the same numbers, or with a number up to which all is
logged.

Ends with 0 once all are logged. Where the words or a line are wrong, the host has no tick left, or waits for more or
for less than there is, it says so and ends with 1. Where nobody answers for five seconds it says so, and goes on.
"""
import json
import signal
import socket
import struct
import sys
import time

SUBMIT, NEXT, SPENT = 1, 2, 3
PATIENCE = 5  # seconds
HEAD, NUMBER, LENGTH = ">2sBBH", "Q", "H"  # the head is letters, version, kind and publisher


def value_bytes(value):
    if isinstance(value, bool):
        return struct.pack(">BB", 3, value)
    if isinstance(value, int) and -(2**63) <= value < 2**63:
        return struct.pack(">Bq", 1, value)
    if isinstance(value, str) and len(value.encode()) <= 1024:
        return struct.pack(">BH", 2, len(value.encode())) + value.encode()
    raise ValueError("a value is no integer of 64 bits, no text of at most 1,024 bytes and no truth value")


def event_bytes(line):
    """The bytes, by docs/use/events.md, of the event that a line spells as JSON; ValueError where it spells none."""
    # -0 is no integer of an event
    event = json.loads(line.decode(), parse_int=lambda text: None if text == "-0" else int(text))
    if not isinstance(event, dict) or len(event) > 32:
        raise ValueError("no object of at most 32 names")
    pairs = sorted((name.encode(), value) for name, value in event.items())
    if any(not 1 <= len(name) <= 64 for name, _ in pairs):
        raise ValueError("a name has not 1 to 64 bytes")
    spelled = b"".join(bytes([len(name)]) + name + value_bytes(value) for name, value in pairs)
    if 1 + len(spelled) > 8192:
        raise ValueError("the event has more than 8,192 bytes")
    return bytes([len(pairs)]) + spelled


def events_in(lines, first):
    """Each event with its number, as its line comes."""
    for number, line in enumerate(lines, first):
        try:
            yield number, event_bytes(line)
        except (ValueError, RecursionError) as fault:
            sys.exit(f"publisher.py: line {number - first + 1} is no event: {getattr(fault, 'msg', fault)}")


def submit_bytes(publisher, number, event):
    return struct.pack(HEAD + NUMBER + LENGTH, b"GP", 1, SUBMIT, publisher, number, len(event)) + event


def answer_in(note, publisher):
    """The number that the host waits for, None where it has no tick left, 0 where this is no answer to publisher."""
    if note == struct.pack(HEAD, b"GP", 1, SPENT, publisher):
        return None
    number = int.from_bytes(note[6:14], "big")
    is_next = note[:6] == struct.pack(HEAD, b"GP", 1, NEXT, publisher) and len(note) == 14 and number <= 2**62 + 1
    return number if is_next else 0


class Client:
    """A client of a publisher: submits an event until a later one is waited for."""

    def __init__(self, post, host, publisher, first):
        self.post, self.host, self.publisher = post, host, publisher
        self.next = first  # the event that the host waits for, as far as this client knows
        self.least = None  # the greatest number at or before an event that is submitted, of what was answered
        self.heard = time.monotonic()
        self.is_silent = False

    def submit(self, number, event):
        """Submits an event until it is logged."""
        pause, self.heard = 1, time.monotonic()
        while number >= self.next:
            try:
                self.post.sendto(submit_bytes(self.publisher, number, event), self.host)
            except OSError:
                pass  # a loss like any other
            self.hear(number, pause)
            pause = min(2 * pause, 50)
            self.look(number)

    def hear(self, number, milliseconds):
        """Waits for an answer that says more than this number, for so long."""
        end = time.monotonic() + milliseconds / 1000
        while (left := end - time.monotonic()) > 0 and self.next <= number:
            self.post.settimeout(left)
            try:
                answer = answer_in(self.post.recv(65535), self.publisher)
            except OSError:
                continue  # nothing came
            if answer is None:
                sys.exit(f"publisher.py: the host has no tick left for event {number}")
            if answer > number:
                self.next, self.heard, self.is_silent, self.least = answer, time.monotonic(), False, None
            elif answer:
                # of an earlier event, which came late, or of a host that has not got so far
                self.least = max(answer, self.least or 0)

    def look(self, number):
        """Says so where nothing is answered, or nothing but that an earlier event is waited for."""
        if self.next > number or time.monotonic() - self.heard < PATIENCE:
            return
        if self.least is not None and self.least < number:
            sys.exit(f"publisher.py: the host waits for event {self.least}, and this is event {number}: see --from")
        if not self.is_silent and self.least is None:
            where = "%s:%d" % self.host
            hint = "does its broker serve a scenario that has this client?"
            print(f"publisher.py: no answer from {where} for {PATIENCE} seconds; {hint}", file=sys.stderr)
            self.is_silent = True


def publish(post, host, publisher, events, first):
    """Submits each event in turn."""
    client, number = Client(post, host, publisher, first), first - 1
    for number, event in events:
        client.submit(number, event)
    if client.next > number + 1:
        sys.exit(f"publisher.py: the host waits for event {client.next}, and the last one here is {number}")


def address(text):
    host, port = text.split(":")
    socket.inet_pton(socket.AF_INET, host)
    if not 1 <= int(port) <= 65535:
        raise ValueError
    return host, int(port)


def selftest():
    """The example of docs/use/client.md: a Submit of 32 bytes, and the 14 bytes of its answer."""
    submit = bytes.fromhex("47500101 0102 0000000000000003 0010 01 05 7072696365 01 0000000000000052")
    answer = bytes.fromhex("47500102 0102 0000000000000004")
    if submit_bytes(258, 3, event_bytes(b'{"price":82}')) != submit or answer_in(answer, 258) != 4:
        sys.exit("publisher.py: the bytes of the example DIFFER")
    print("publisher.py: the bytes of the example ok")


def main(words):
    if words == ["--selftest"]:
        return selftest()
    if words in (["-h"], ["--help"]):
        signal.signal(signal.SIGPIPE, signal.SIG_DFL)
        return print(__doc__.strip())
    try:
        first = 1
        if words[:1] == ["--from"]:
            first, words = int(words[1]), words[2:]
        host, own, publisher = words
        host, own, publisher = address(host), address(own), int(publisher)
        if not 0 <= publisher < 64 or not 1 <= first <= 2**62:
            raise ValueError
    except (LookupError, ValueError, OSError):
        sys.exit("usage: examples/publisher.py [--from N] HOST:PORT OWN:PORT PUBLISHER < EVENTS | --help")
    with socket.socket(socket.AF_INET, socket.SOCK_DGRAM) as post:
        try:
            post.bind(own)
        except OSError as fault:
            sys.exit(f"publisher.py: {words[1]}: {fault.strerror}")
        try:
            publish(post, host, publisher, events_in(sys.stdin.buffer, first), first)
        except KeyboardInterrupt:
            sys.exit(130)


if __name__ == "__main__":
    main(sys.argv[1:])
