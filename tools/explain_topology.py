"""Where the fault of a topology part is, and why: for tools/explain."""
import re
import tomllib

from explain_text import NAME, NAMES, Fault, filter_fault, lines_of, listed, nearest, no_separator, separator

KEYS = {'': ('brokers', 'links', 'publisher', 'subscriber', 'addresses', 'clients', 'settings'),
        'publisher': ('name', 'at'), 'subscriber': ('name', 'at', 'filter', 'late', 'total'),
        'settings': ('gap', 'idle', 'retry', 'quiet', 'cache', 'reclaim')}
TYPES = {
    'brokers': 'it is an array of names, as brokers = ["A", "B"]',
    'links': 'it is an array of links, each of two names of brokers, as links = [["A", "B"]]',
    'publisher': 'each publisher is a table: a line [[publisher]], then its name and at',
    'subscriber': 'each subscriber is a table: a line [[subscriber]], then its name and at, and perhaps a filter',
    'addresses': 'it is a table: a line [addresses], then a line as A = "127.0.0.1:7001" for each broker',
    'clients': 'it is a table: a line [clients], then a line as P = "127.0.0.1:7501" for each publisher that has one',
    'settings': 'it is a table: a line [settings], then lines as retry = 250',
    'name': 'a name is a text in quotes', 'at': 'it is the name of a broker, a text in quotes',
    'filter': "a filter is a text in quotes, as filter = \"sym = 'IBM'\"",
    'late': 'it is true or false', 'total': 'it is true or false',
}
# What a part of nothing but blanks stands for.
BLANK = {'brokers': ['A', 'B'], 'links': [['A', 'B']], 'publisher': [{'name': 'P', 'at': 'A'}],
         'subscriber': [{'name': 'S', 'at': 'B'}]}
LIMITS = {'brokers': '64 brokers', 'publisher': '64 publishers', 'subscriber': '1,024 subscribers',
          'publishers': '64 publishers', 'subscribers': '1,024 subscribers', 'late': '64 late subscribers'}
ADDRESS = 'it is four numbers of 0 to 255 and a port of 1 to 65535, as "127.0.0.1:7001"'
HEAD = re.compile(r'\s*\[\[?\s*([A-Za-z0-9_-]+)\s*\]\]?')
KEY = re.compile(r'\s*(?:"([^"]*)"|\'([^\']*)\'|([A-Za-z0-9_-]+))\s*[=.]')


class Topology:
    """A topology part: what TOML reads in it, and the lines of its keys."""

    def __init__(self, lines):
        self.lines, self.places, self.heads = lines, {}, {}
        try:
            self.table = tomllib.loads('\n'.join(lines)) if ''.join(lines).strip(' \t') else BLANK
        except (ValueError, RecursionError):
            self.table = {}
        table, index = '', 0
        for number, line in enumerate(lines, 1):
            head, key = HEAD.match(line), KEY.match(line)
            if head:
                table = head[1]
                index = sum(1 for it in self.heads if it[0] == table)
                self.heads[table, index] = number
            elif key:
                name = next(it for it in key.groups() if it is not None)
                self.places.setdefault((table, index, name), (number, key.start(key.lastindex)))

    def tables(self, kind):
        """The tables of publishers or of subscribers."""
        found = self.table.get(kind, [])
        return [it for it in found if isinstance(it, dict)] if isinstance(found, list) else []

    def brokers(self):
        """The names of the brokers."""
        found = self.table.get('brokers', [])
        return [it for it in found if isinstance(it, str)] if isinstance(found, list) else []

    def names(self, kind):
        """The names of the publishers or of the subscribers."""
        return [it['name'] for it in self.tables(kind) if isinstance(it.get('name'), str)]

    def late_names(self):
        """The names of the late subscribers."""
        return [it['name'] for it in self.tables('subscriber') if it.get('late') is True]

    def key(self, table, index, name):
        """The line and column of a key, or of the head of its table."""
        found = self.places.get((table, index, name))
        return found or (self.heads[table, index], 0) if found or (table, index) in self.heads else self.word(name)

    def word(self, text, times=1):
        """The line and column where a text stands, or stands again."""
        for number, line in enumerate(self.lines, 1):
            for match in re.finditer(r'(?<![\w.-])%s(?![\w.-])' % re.escape(text), line.split(' #')[0]):
                times -= 1
                if not times:
                    return number, match.start()
        return None, None


def is_printed(text, shown):
    """A text is printed so: each byte that is no visible character of ASCII as a question mark."""
    return ''.join(chr(it) if 33 <= it <= 126 else '?' for it in text.encode()) == shown


def not_toml(part, lines):
    """The part is no TOML."""
    found = no_separator(lines)
    if found:
        return found
    for number, line in enumerate(part.lines, 1):
        # what is read in place of bytes that are no UTF-8
        if '\ufffd' in line:
            return Fault(number, line.index('\ufffd'), 'the topology part is no UTF-8 here', '')
    try:
        tomllib.loads('\n'.join(part.lines))
    except (ValueError, RecursionError) as fault:
        at = re.search(r'\(at line (\d+), column (\d+)\)', str(fault))
        sentence = 'the topology part is no TOML: ' + re.sub(r' \(at .*\)', '', str(fault)).lower()
        line, column = (int(at[1]), int(at[2]) - 1) if at else (len(part.lines), None)
        hint = 'names and other texts stand in quotes' if 'invalid value' in sentence else ''
        return Fault(line, column, sentence, hint)
    hint = 'an inline table stands in one line, with no line end at `=`'
    return Fault(None, None, 'the topology part is no TOML', hint)


def bad_key(part, lines, key):
    """A key that no topology has."""
    for (table, index, name), (line, column) in part.places.items():
        known = KEYS.get(table, ())
        if is_printed(name, key) and name not in known and (known or table in ('', 'settings')):
            where = 'a `[[%s]]`' % table if table in ('publisher', 'subscriber') else '`[%s]`' % table
            hint = key_hint(name, known) if table else no_separator(lines) and no_separator(lines).hint
            hint = hint or key_hint(name, known)
            return Fault(line, column, '%s has no key `%s`' % (where if table else 'a topology', key), hint)
    for (table, index), line in part.heads.items():
        if is_printed(table, key):
            return Fault(line, 0, 'a topology has no table `%s`' % key, key_hint(table, KEYS['']))
    return Fault(*part.word(key), 'there is no key `%s`' % key, 'the keys are ' + listed(KEYS['']))


def key_hint(name, known):
    """A hint at the key that may be meant."""
    for kind in ('publisher', 'subscriber'):
        if name == kind + 's':
            return 'each has a table of its own, headed `[[%s]]`' % kind
    return nearest(name, known) or 'the keys are ' + listed(known)


def bad_type(part, lines, key):
    """A value of another type than its key wants."""
    wanted = {'name': str, 'at': str, 'filter': str, 'late': bool, 'total': bool}
    for kind in ('publisher', 'subscriber'):
        for index, table in enumerate(part.tables(kind)):
            if key in wanted and key in table and not isinstance(table[key], wanted[key]):
                return Fault(*part.key(kind, index, key), 'the value of `%s` has another type' % key, TYPES[key])
    for kind in ('addresses', 'clients', 'settings'):
        if (kind, 0, key) in part.places:
            hint = 'a setting is a number' if kind == 'settings' else ADDRESS
            return Fault(*part.places[kind, 0, key], 'the value of `%s` has another type' % key, hint)
    return Fault(*part.key('', 0, key), 'the value of `%s` has another type' % key, TYPES.get(key, ''))


def twice(part, lines, name):
    """A name that stands twice."""
    if part.brokers().count(name) > 1:
        return Fault(*part.word(name, 2), 'two brokers are named `%s`' % name, '')
    for kind in ('publisher', 'subscriber'):
        places = [at for at, it in enumerate(part.tables(kind)) if it.get('name') == name]
        if len(places) > 1:
            return Fault(*part.key(kind, places[1], 'name'), 'two %ss are named `%s`' % (kind, name), '')
    return Fault(*part.word(name, 2), '`%s` stands twice' % name, '')


def unknown(part, lines, name):
    """The name of no broker, or under clients of no publisher."""
    brokers = part.brokers()
    hint = nearest(name, brokers) or 'the brokers are ' + (listed(brokers) or 'none')
    if any(is_printed(str(it), name) for link in part.table.get('links', []) for it in link):
        if name not in brokers:
            return Fault(*in_links(part, name), 'there is no broker `%s`' % name, hint)
    for kind in ('publisher', 'subscriber'):
        for index, table in enumerate(part.tables(kind)):
            if is_printed(str(table.get('at')), name) and table['at'] not in brokers:
                return Fault(*part.key(kind, index, 'at'), '`at` names a broker, and there is no `%s`' % name, hint)
    if name in part.table.get('addresses', {}) and name not in brokers:
        return Fault(*part.key('addresses', 0, name), '`[addresses]` is of brokers, and there is no `%s`' % name, hint)
    publishers = part.names('publisher')
    hint = nearest(name, publishers) or 'the publishers are ' + (listed(publishers) or 'none')
    return Fault(*part.key('clients', 0, name), '`[clients]` is of publishers, and there is no `%s`' % name, hint)


def in_links(part, name):
    """The line and column of a name in the links."""
    line, _ = part.key('', 0, 'links')
    for number, text in list(enumerate(part.lines, 1))[(line or 1) - 1:]:
        place = text.find('"%s"' % name)
        if place >= 0:
            return number, place
    return line, None


def not_tree(part, lines):
    """The links do not make the brokers a tree."""
    brokers = part.brokers()
    links = [tuple(it) for it in part.table.get('links', [])]
    place = part.key('', 0, 'links') if 'links' in part.table else part.key('', 0, 'brokers')
    if not brokers:
        return Fault(*place, 'there is no broker', 'name at least one: brokers = ["A"]')
    reached = [brokers[0]]
    for broker in reached:
        reached += {b for link in links for a, b in (link, link[::-1]) if a == broker and b not in reached}
    apart = [it for it in brokers if it not in reached]
    if apart:
        hint = 'link %s to one of the others' % listed(apart)
        return Fault(*place, 'the links are no tree: %s is not linked to %s' % (apart[0], brokers[0]), hint)
    hint = 'a tree has one link fewer than brokers: %d, and there are %d' % (len(brokers) - 1, len(links))
    return Fault(*place, 'the links are no tree: they go in a circle', hint)


def bad_filter(part, lines, name, word, at):
    """The filter of a subscriber cannot be read."""
    index = part.names('subscriber').index(name)
    text = part.tables('subscriber')[index].get('filter', '')
    column, sentence, hint = filter_fault(text, word, int(at))
    line, _ = part.key('subscriber', index, 'filter')
    written = part.lines[line - 1] if line else ''
    start = written.find(text, written.find('filter'))
    # a text with escapes, or over several lines, does not stand in the line as it reads
    place = start + column if text and start >= 0 else written.find('=') + 3 if not text else None
    return Fault(line, place, 'filter of %s: %s' % (name, sentence), hint)


def bad_address(part, lines, name):
    """An address that is none, or that a broker lacks."""
    for kind, names in (('addresses', part.brokers()), ('clients', part.names('publisher'))):
        if name in names and name in part.table.get(kind, {}):
            return Fault(*part.key(kind, 0, name), 'what stands for %s is no address' % name, ADDRESS)
    hint = 'a broker that is to serve is reached by a line as %s = "127.0.0.1:7001" under [addresses]' % name
    return Fault(*part.key('', 0, 'brokers'), 'the broker %s has no address' % name, hint)


def missing(part, lines, key):
    """A key that a table lacks."""
    if key == 'brokers':
        found = no_separator(lines)
        return found or Fault(1, None, 'there is no `brokers`', TYPES['brokers'])
    for kind in ('publisher', 'subscriber'):
        for index, table in enumerate(part.tables(kind)):
            if key not in table:
                place = part.key(kind, index, key)
                return Fault(*place, 'this %s has no `%s`' % (kind, key), TYPES[key])
    return Fault(None, None, 'a `%s` is missing' % key, '')


def bad_name(part, lines, name):
    """A name that is none."""
    for it in part.brokers():
        if not NAME.match(it):
            return Fault(*part.key('', 0, 'brokers'), '`%s` is no name of a broker' % it, NAMES)
    for kind in ('publisher', 'subscriber'):
        for index, table in enumerate(part.tables(kind)):
            if not NAME.match(table.get('name', 'x')):
                return Fault(*part.key(kind, index, 'name'), '`%s` is no name of a %s' % (table['name'], kind), NAMES)
    return Fault(None, None, '`%s` is no name' % name, NAMES)


def bad_range(part, lines, key):
    """A setting that is out of its range."""
    ranges = {'cache': '1 to 1,000,000', 'reclaim': '64 to 1,000,000,000 bytes'}
    among = ranges.get(key, '1 to 1,000,000,000 milliseconds')
    return Fault(*part.key('settings', 0, key), 'the setting `%s` is out of range' % key, 'it is ' + among)


def too_many(part, lines, what):
    """More of something than a topology may have."""
    place = part.key('', 0, what) if what == 'brokers' else part.word(what.rstrip('s'))
    return Fault(*place, 'a topology has at most ' + LIMITS.get(what, 'so many'), '')


FAULTS = {'not-toml': not_toml, 'bad-key': bad_key, 'bad-type': bad_type, 'twice': twice, 'unknown': unknown,
          'not-tree': not_tree, 'bad-filter': bad_filter, 'too-many': too_many, 'bad-address': bad_address,
          'missing': missing, 'bad-name': bad_name, 'bad-range': bad_range}


def topology_fault(text, word, about):
    """The fault of a topology part that is refused with this word, about so many more words."""
    lines = lines_of(text)
    part = Topology(lines[:separator(lines)])
    return FAULTS[word](part, lines, *about)
