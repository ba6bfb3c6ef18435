"""Reads a scenario, topology and steps, and the report of its replay, for tools/chart."""
import json
import re
import tomllib
from collections import namedtuple

Topology = namedtuple('Topology', 'brokers hosts places filters lates totals up')
Step = namedtuple('Step', 'number file_line word args text')
Line = namedtuple('Line', 'number word args text')

BLANK = {'brokers': ['A', 'B'], 'links': [['A', 'B']], 'publisher': [{'name': 'P', 'at': 'A'}],
         'subscriber': [{'name': 'S', 'at': 'B'}]}
NAME = re.compile(r'[A-Za-z0-9_.-]{1,64}\Z')
NUMBER = re.compile(r'[0-9]{1,19}\Z')
# The words of steps and of lines. P, S and B are names of publishers, subscribers and brokers, n is a number, and * is
# the rest.
STEPS = ('clock n', 'publish P n *', 'wake B', 'deliver n', 'crash B', 'join S P', 'sweep', 'show', 'bytes n')
LINES = ('logged P n n', 'already P n', 'gap P n next n', 'exhausted P n', 'kept P n n', 'lost P n n', 'mark P n',
         'cut P n', 'reclaimed P n', 'joined S P n', 'already-joined S P', 'exhausted-join S P',
         'opened P last n settled n cut n', 'got S P n *', 'horizon S P n', 'ordered S P n *', 'sent n B B know P *',
         'sent n B B want P *', 'sent n B B expect P n', 'crashed B', 'swept n', 'refused line n hosts-subscriber B',
         'refused line n no-frame n of n', 'refused line n clock-range n', 'frames n',
         'log P last n settled n cut n kept n', 'doubt B P n', 'bytes n *', 'dropped B *', 'damaged P n')


class Refused(Exception):
    """What cannot be read: its file, its line (0 for the whole file), and why."""

    def __init__(self, path, line, why):
        super().__init__('%s: %s' % ('%s:%d' % (path, line) if line else path, why))


def checked(path, text, table, key, kind):
    """The value of a key, of this type."""
    value = table.get(key, [] if kind is list else None)
    if not isinstance(value, kind):
        raise Refused(path, line_of(text, key), 'no %s that can be read' % key)
    return value


def line_of(text, word):
    """The first line in which a word stands, or 1."""
    place = text.find(str(word))
    return text.count('\n', 0, place) + 1 if place >= 0 else 1


def named_at(path, text, tables, brokers, kind):
    """The broker of each publisher or subscriber by name."""
    places = {}
    for table in tables:
        if not isinstance(table, dict):
            raise Refused(path, line_of(text, kind), 'no table of a ' + kind)
        name, at = checked(path, text, table, 'name', str), checked(path, text, table, 'at', str)
        if not NAME.match(name) or name in places or at not in brokers:
            at_line = line_of(text, '"%s"' % name)
            raise Refused(path, at_line, 'the %s %s has no name of its own, or no broker' % (kind, name))
        places[name] = at
    return places


def ways_up(path, text, brokers, links, host):
    """The next broker towards the host, for each broker."""
    up, reached = {host: None}, [host]
    for broker in reached:
        for link in links:
            for one, other in (link, link[::-1]):
                if one == broker and other not in up:
                    up[other] = broker
                    reached.append(other)
    if len(up) != len(brokers) or len(links) != len(brokers) - 1:
        raise Refused(path, line_of(text, 'links'), 'the links make no tree of the brokers')
    return up


def read_topology(path, text):
    """The topology part of a scenario."""
    try:
        table = tomllib.loads(text) if text.strip(' \t\r\n') else BLANK
    except (ValueError, RecursionError) as fault:
        at = re.search(r'at line (\d+)', str(fault))
        raise Refused(path, int(at[1]) if at else max(1, text.count('\n')), 'no TOML: %s' % fault) from None
    brokers = checked(path, text, table, 'brokers', list)
    links = checked(path, text, table, 'links', list)
    named = all(isinstance(name, str) and NAME.match(name) and brokers.count(name) == 1 for name in brokers)
    if not brokers or not named:
        raise Refused(path, line_of(text, 'brokers'), 'no list of brokers, each with a name of its own')
    for link in links:
        if not isinstance(link, list) or len(link) != 2 or any(end not in brokers for end in link):
            raise Refused(path, line_of(text, 'links'), 'a link that is not of two brokers')
    subscribers = checked(path, text, table, 'subscriber', list)
    hosts = named_at(path, text, checked(path, text, table, 'publisher', list), brokers, 'publisher')
    places = named_at(path, text, subscribers, brokers, 'subscriber')
    filters = {one['name']: str(one['filter']) for one in subscribers if 'filter' in one}
    lates, totals = ([one['name'] for one in subscribers if one.get(key) is True] for key in ('late', 'total'))
    ups = {host: ways_up(path, text, brokers, links, host) for host in [brokers[0], *hosts.values()]}
    up = {name: ups[host] for name, host in hosts.items()}
    return Topology(brokers, hosts, places, filters, lates, totals, up)


def fields(shape, text, topology):
    """What stands in a line of this shape, or None."""
    kinds = {'P': topology.hosts, 'S': topology.places, 'B': topology.brokers}
    words, found = shape.split(' '), []
    given = text.split(None, len(words) - 1) if '*' in words else text.split()
    if len(given) != len(words):
        return None
    for kind, word in zip(words, given):
        if kind == 'n' and NUMBER.match(word):
            found.append(int(word))
        elif kind in kinds and word in kinds[kind] or kind == '*':
            found.append(word)
        elif kind != word or kind in 'nPSB':
            return None
    return found


def is_event(text):
    """The text is a JSON object, perhaps behind the words of a stop."""
    try:
        return isinstance(json.loads(re.sub(r'^stop +[1-4] +pick +[0-9]{1,3} +', '', text.replace('\t', ' '))), dict)
    except (ValueError, RecursionError):
        return False


def read_scenario(path, text):
    """The topology, the steps, and the first sentence of the comment on them."""
    lines = [line.removesuffix('\r') for line in text.split('\n')]
    cut = lines.index('---') if '---' in lines else len(lines)
    topology = read_topology(path, '\n'.join(lines[:cut]))
    steps, comment = [], []
    for number, line in enumerate(lines[cut + 1:], 1):
        line = line.strip(' \t')
        if line.startswith('#') and not steps:
            comment.append(line.strip('# '))
        if line and not line.startswith('#'):
            found = [(shape.split()[0], fields(shape, line, topology)) for shape in STEPS]
            word, args = next((one for one in found if one[1] is not None), ('', None))
            if args is None or word == 'publish' and not is_event(args[-1]):
                raise Refused(path, cut + 1 + number, 'no step: ' + line[:60])
            steps.append(Step(number, cut + 1 + number, word, args, line))
    return topology, steps, re.split(r'(?<=\.)\s', ' '.join(comment))[0]


def runs_of(text):
    """The runs of a frame, behind the number of its joins."""
    return re.sub('^joins [0-9]{1,2} ', '', text).split()


def read_report(path, text, topology):
    """The lines of a report."""
    lines = []
    for number, line in enumerate(text.split('\n')[:-1] if text.endswith('\n') else text.split('\n'), 1):
        found = [(shape, fields(shape, line, topology)) for shape in LINES]
        shape, args = next((one for one in found if one[1] is not None), ('', None))
        runs = runs_of(args[-1]) if shape.startswith('sent') and shape.endswith('*') and args else []
        if args is None or any(not re.match(r'[SDFCA][0-9]{1,19}-[0-9]{1,19}\Z', run) for run in runs):
            raise Refused(path, number, 'no line of a report on these brokers: ' + line[:60])
        word = shape.split()[0]
        lines.append(Line(number, word, args + [shape.split()[4]] if word == 'sent' else args, line))
    return lines
