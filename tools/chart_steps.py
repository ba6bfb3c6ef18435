"""Gives each line of a report to the step that told it, for tools/chart, and so finds the rows of the chart."""
from chart_read import Refused, runs_of


class Frame:
    """A frame: who sent it to whom, what it carries, the row it was sent in, and those it was delivered in."""

    def __init__(self, line, row):
        self.number, self.sender, self.receiver, self.publisher, body, self.kind = line.args
        self.ranges = [(1, body)] if self.kind == 'expect' else [ticks(run) for run in runs_of(body)]
        self.body, self.text, self.row, self.arrivals = body, line.text, row, []
        self.label = line.text.split(' ', 1)[1].replace(' %s %s ' % (self.sender, self.receiver), ' ', 1)


class Row:
    """A row of the chart: a step or a plain line at the left, and a mark with a text at a broker."""

    def __init__(self, kind, left='', broker=None, text='', title=''):
        self.kind, self.left, self.broker, self.text, self.title = kind, left, broker, text, title
        self.frame = None


def ticks(run):
    """The first and the last tick of a run."""
    first, last = run[1:].split('-')
    return int(first), int(last)


def joined(ranges):
    """The same ticks in rising ranges that do not touch."""
    found = []
    for first, last in sorted(ranges):
        if found and first <= found[-1][1] + 1:
            found[-1] = (found[-1][0], max(last, found[-1][1]))
        else:
            found.append((first, last))
    return found


class OneList:
    """The one list of a subscriber over all publishers: the events that wait, and how far each publisher was heard."""

    def __init__(self, publishers):
        self.publishers, self.heard, self.waiting = list(publishers), dict.fromkeys(publishers, 0), []

    def hear(self, line):
        """A line that tells the subscriber an event, or that its horizon moved."""
        _, publisher, tick = line.args[:3]
        if line.word == 'horizon':
            self.heard[publisher] = tick
        else:
            self.waiting.append((tick, self.publishers.index(publisher), line.args))
            self.waiting.sort()

    def is_next(self, line):
        """This is the first event that waits, and every publisher was heard up to it."""
        return bool(self.waiting) and self.waiting[0][2] == line.args and line.args[2] <= min(self.heard.values())


def within(ranges, outer):
    """Each range lies in one of the outer ones."""
    outer = joined(outer)
    return all(any(low <= first and last <= high for low, high in outer) for first, last in ranges)


class Run:
    """The run so far: rows, frames, what is known at each broker, and what the present step learned and told."""

    def __init__(self, topology, source, report):
        self.topology, self.source, self.report = topology, source, report
        self.rows, self.frames, self.known = [], {}, {}
        self.lists = {name: OneList(topology.hosts) for name in topology.totals}
        self.step, self.taken, self.before, self.fresh = None, [], {}, {}
        self.rules = {'clock': lambda line: False, 'publish': self.of_publish, 'deliver': self.of_deliver,
                      'wake': self.of_wake, 'crash': self.of_crash, 'join': self.of_join, 'sweep': self.of_sweep,
                      'show': self.of_show, 'bytes': self.of_bytes}

    def carry_out(self, steps, lines):
        at = 0
        for step in steps:
            self.begin(step)
            while at < len(lines) and self.fits(lines[at]):
                self.take(lines[at])
                at += 1
            tells = step.word in ('publish', 'join', 'crash', 'sweep', 'show', 'bytes')
            if not self.taken and (tells or step.word == 'deliver' and step.args[0] not in self.frames):
                wanted = 'here should stand what line %d of %s tells' % (step.file_line, self.source)
                raise Refused(self.report, at + 1, wanted)
        if at < len(lines):
            raise Refused(self.report, lines[at].number, 'no step tells this line')

    def begin(self, step):
        self.step, self.taken, self.before, self.fresh = step, [], {}, {}
        row = Row(step.word, step.text, title=step.text)
        if step.word == 'wake':
            row.broker, row.text = step.args[0], 'wake'
        if step.word == 'deliver' and step.args[0] in self.frames:
            frame = self.frames[step.args[0]]
            frame.arrivals.append(len(self.rows))
            if frame.kind == 'know':
                self.learn(frame.receiver, frame.publisher, frame.ranges)
        self.rows.append(row)

    def horizon(self, broker, publisher):
        """All up to this tick is known."""
        known = self.known.get((broker, publisher), [])
        return known[0][1] if known and known[0][0] <= 1 else 0

    def learn(self, broker, publisher, ranges):
        self.before[publisher], self.fresh[publisher] = self.horizon(broker, publisher), ranges
        self.known[broker, publisher] = joined(self.known.get((broker, publisher), []) + ranges)

    def fits(self, line):
        """The present step can tell this line next. The lines of one order stand behind all its others."""
        if line.word == 'ordered':
            return self.of_lists(line)
        if self.taken and self.taken[-1].word == 'ordered':
            return False
        if line.word == 'refused':
            return not self.taken and line.args[0] == self.step.number
        return self.rules[self.step.word](line)

    def of_lists(self, line):
        """The one list of a subscriber goes on, behind a horizon of it that this step has moved."""
        moved = any(one.word == 'horizon' and one.args[0] == line.args[0] for one in self.taken)
        return moved and line.args[0] in self.lists and self.lists[line.args[0]].is_next(line)

    def rises(self, line):
        """No frame of this step went to the same broker with these ticks or later ones."""
        new = Frame(line, 0)
        same = [Frame(one, 0) for one in self.taken if one.word == 'sent']
        return all(old.ranges[-1][1] < new.ranges[0][0] for old in same
                   if (old.receiver, old.publisher, old.kind) == (new.receiver, new.publisher, new.kind))

    def learned(self, line, broker, publisher):
        """A broker that learned ticks of a publisher tells this."""
        if line.word in ('got', 'horizon'):
            subscriber, of, tick = line.args[:3]
            at = self.horizon(broker, publisher)
            moved = self.before[publisher] < tick <= at and (line.word == 'got' or tick == at)
            return moved and of == publisher and self.topology.places[subscriber] == broker
        if line.word != 'sent' or line.args[5] != 'know' or line.args[1] != broker or line.args[3] != publisher:
            return False
        below = self.topology.up[publisher].get(line.args[2]) == broker
        return below and within(Frame(line, 0).ranges, self.fresh[publisher]) and self.rises(line)

    def of_publish(self, line):
        publisher, number = self.step.args[:2]
        host = self.topology.hosts[publisher]
        if not self.taken:
            if line.word == 'crashed':
                return line.args == [host] and self.step.args[2].startswith('stop')
            return line.word in ('logged', 'already', 'gap', 'exhausted') and line.args[:2] == [publisher, number]
        if self.taken[0].word == 'crashed':
            return line.word in ('kept', 'lost', 'opened') and self.topology.hosts[line.args[0]] == host
        return self.taken[0].word == 'logged' and self.learned(line, host, publisher)

    def of_join(self, line):
        publisher = self.step.args[1]
        if not self.taken:
            return line.word in ('joined', 'already-joined', 'exhausted-join') and line.args[:2] == self.step.args
        return self.taken[0].word == 'joined' and self.learned(line, self.topology.hosts[publisher], publisher)

    def of_deliver(self, line):
        frame = self.frames.get(self.step.args[0])
        if frame is None:
            return False
        if line.word == 'dropped':
            return not self.taken and line.args[0] == frame.receiver
        if frame.kind == 'know':
            return self.learned(line, frame.receiver, frame.publisher)
        if line.word != 'sent' or line.args[1] != frame.receiver or line.args[3] != frame.publisher:
            return False
        new, up = Frame(line, 0), self.topology.up[frame.publisher]
        if frame.kind == 'want':
            answer = new.kind == 'know' and new.receiver == frame.sender
            asked = new.kind == 'want' and new.receiver == up[frame.receiver]
            return (answer or asked) and within(new.ranges, frame.ranges) and self.rises(line)
        further = new.kind == 'expect' and up[new.receiver] == frame.receiver and new.body == frame.body
        return (further or new.kind == 'want' and new.receiver == up[frame.receiver]) and self.rises(line)

    def of_wake(self, line):
        broker = self.step.args[0]
        if line.word in ('mark', 'cut'):
            own = self.topology.hosts[line.args[0]] == broker
            return own and all((one.word, one.args) != (line.word, line.args) for one in self.taken)
        if line.word == 'reclaimed':
            last = self.taken[-1] if self.taken else None
            return last is not None and last.word == 'cut' and last.args[0] == line.args[0]
        if line.word in ('got', 'horizon') or line.word == 'sent' and line.args[5] == 'know':
            publisher = line.args[1] if line.word != 'sent' else line.args[3]
            return publisher in self.fresh and self.learned(line, broker, publisher)
        if line.word != 'sent' or line.args[1] != broker:
            return False
        up, to = self.topology.up[line.args[3]], line.args[2]
        asks, expects = up[broker] == to, up[broker] is None and up[to] == broker
        return (asks if line.args[5] == 'want' else expects) and self.rises(line)

    def of_crash(self, line):
        if not self.taken:
            return line.word == 'crashed' and line.args == self.step.args
        return line.word == 'opened' and self.topology.hosts[line.args[0]] == self.step.args[0]

    def of_sweep(self, line):
        return not self.taken or self.taken[-1].word not in ('swept', 'refused')

    def of_show(self, line):
        return line.word in ('log', 'doubt') if self.taken else line.word == 'frames'

    def of_bytes(self, line):
        return not self.taken and line.word == 'bytes' and line.args[0] == self.step.args[0]

    def place(self, line):
        """The broker at which a line stands, if it stands at one."""
        if line.word in ('got', 'horizon', 'ordered'):
            return self.topology.places[line.args[0]]
        if line.word in ('crashed', 'doubt', 'dropped'):
            return line.args[0]
        if line.word == 'sent':
            return line.args[1]
        if line.word in ('joined', 'already-joined', 'exhausted-join'):
            return self.topology.hosts[line.args[1]]
        return None if line.word in ('refused', 'frames', 'bytes', 'swept') else self.topology.hosts[line.args[0]]

    def take(self, line):
        """The line is of the present step: what it says is noted, and it gets a row or that of its step."""
        broker = self.place(line)
        if self.taken or broker is None or self.step.word in ('deliver', 'wake', 'sweep'):
            self.rows.append(Row(line.word))
        row = self.rows[-1]
        row.kind, row.broker, row.title = line.word, broker, line.text
        row.text, row.left = (line.text, row.left) if broker else ('', line.text)
        self.taken.append(line)
        if line.word in ('logged', 'joined', 'mark'):
            publisher = line.args[1 if line.word == 'joined' else 0]
            self.learn(broker, publisher, [(self.horizon(broker, publisher) + 1, line.args[-1])])
        elif line.word == 'crashed':
            self.known = {place: known for place, known in self.known.items() if place[0] != broker}
        elif line.word == 'opened' and line.args[2]:
            self.known[broker, line.args[0]] = [(1, line.args[2])]
        elif line.word == 'sent':
            self.send(line, row)
        elif line.word in ('got', 'horizon') and line.args[0] in self.lists:
            self.lists[line.args[0]].hear(line)
        elif line.word == 'ordered':
            del self.lists[line.args[0]].waiting[0]

    def send(self, line, row):
        """A frame was sent; what a sweep sends arrives in it, but for what is to be expected."""
        frame = row.frame = self.frames[line.args[0]] = Frame(line, len(self.rows) - 1)
        if self.step.word == 'sweep' and frame.kind != 'expect':
            frame.arrivals.append(len(self.rows) - 0.65)
            if frame.kind == 'know':
                self.learn(frame.receiver, frame.publisher, frame.ranges)
