"""What a log's two files hold, as docs/inside/log.md has it."""
import os
import struct


def bytes_in(path):
    """The bytes of a file, none where there is no file."""
    if not os.path.exists(path):
        return b""
    with open(path, "rb") as it:
        return it.read()


def generation_in(lane):
    """The generation of a lane, 0 of the first version, and -1 where it is shut."""
    if len(lane) <= 6 or lane[5] != 1:
        return -1
    return 0 if lane[4] == 1 else int.from_bytes(lane[6:14], "big")


def first_gate(lane):
    """The place of a lane's first record gate: behind its base, in the second version."""
    return 5 if lane[4] == 1 else 32 + 10 * int.from_bytes(lane[30:32], "big")


def present_in(path):
    """The lane that is present, of a log whose first lane is the file of this name; no bytes where none is open."""
    name, number = path.rsplit("-", 1)
    lanes = [bytes_in(path), bytes_in(f"{name}-{int(number) + 1}")]
    lane = max(lanes, key=generation_in)
    return lane if generation_in(lane) >= 0 else b""


def records_in(path):
    """The records in the present lane of a log, up to one that is not whole: the kind (1 Event, 2 Mark, 3 Cut, 4 Join),
    the tick, and the number and bytes of an event, or the subscriber of a join and None. What was cut when the lane was
    filled is not there any more."""
    lane = present_in(path)
    if not lane:
        return []
    found, gate = [], first_gate(lane)
    while lane[gate : gate + 1] == b"\x01":
        kind, size, event = lane[gate + 1 : gate + 2], 0, (None, None)
        if kind == b"\x01" and len(lane) >= gate + 22:
            number, size = struct.unpack_from(">QI", lane, gate + 10)
            event, size = (number, lane[gate + 22 : gate + 22 + size]), 12 + size
        elif kind == b"\x04":
            size, event = 2, (int.from_bytes(lane[gate + 10 : gate + 12], "big"), None)
        if gate + 10 + size >= len(lane):
            break
        found.append((kind[0], int.from_bytes(lane[gate + 2 : gate + 10], "big"), *event))
        gate += 10 + size
    return found


def in_lane(path):
    """The numbers and bytes of the events in the present lane of a log."""
    return [(number, event) for kind, _, number, event in records_in(path) if kind == 1]
