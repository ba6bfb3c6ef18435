"""Where in a scenario or a match text a refusal is, and why: for tools/explain."""
import difflib
import json
import re
from collections import namedtuple

# A place in a text, lines from 1 and columns from 0 in letters, None where there is none; a sentence; a hint or ''.
Fault = namedtuple('Fault', 'line column sentence hint', defaults=(None, None, '', ''))

NAME = re.compile(r'[A-Za-z0-9_.-]{1,64}\Z')
NAMES = 'a name has 1 to 64 letters, digits, `_`, `.` and `-`'
MOST_BYTES, MOST_LINES, MOST_NUMBER = 4_194_304, 100_000, 2**62
# What stands behind the word of each step.
STEPS = {'clock': ['moment'], 'publish': ['publisher', 'number', 'event'], 'wake': ['broker'], 'deliver': ['frame'],
         'crash': ['broker'], 'join': ['subscriber', 'publisher'], 'sweep': [], 'show': [], 'bytes': ['frame']}
RANGES = {'moment': (0, MOST_NUMBER), 'number': (1, MOST_NUMBER), 'frame': (0, MOST_NUMBER), 'call': (1, 4),
          'image': (0, 255)}


def lines_of(text):
    """The lines of a text, without their ends."""
    return [line.removesuffix('\r') for line in text.split('\n')]


def separator(lines):
    """How many lines stand before the separator; None where there is none."""
    return lines.index('---') if '---' in lines else None


def is_counted(line):
    """The line is neither blank nor a comment."""
    return bool(line.strip(' \t')) and not line.lstrip(' \t').startswith('#')


def nearest(word, known):
    """A hint at the known word that is nearest to this one."""
    found = difflib.get_close_matches(word, known, 1, 0.6) or [it for it in known if it.lower() == word.lower()]
    return 'is `%s` meant?' % found[0] if found else ''


def listed(names, most=8):
    """Names in a row, not too many."""
    names = list(names)
    return ', '.join(names[:most]) + (' and %d more' % (len(names) - most) if len(names) > most else '')


def words_in(line):
    """The words of a line with their columns."""
    return [(match.start(), match[0]) for match in re.finditer(r'[^ \t]+', line)]


def no_separator(lines):
    """What is said of a text that has steps and no separator, or None."""
    if separator(lines) is not None:
        return None
    for number, line in enumerate(lines, 1):
        if line.strip() == '---' or re.fullmatch(r'-{2,}', line.strip()):
            return Fault(number, 0, 'the separator is a line of exactly three dashes', 'this line is not quite that')
        first = (line.split() or [''])[0]
        if first in STEPS and '=' not in line.split('"')[0]:
            hint = 'put a line `---` between the topology and the steps'
            return Fault(number, 0, 'this is a step, and there is no separator before it', hint)
    return None


# Events


def event_fault(line, column, why):
    """What is wrong with the event that a line has from this column on."""
    text = line[column:].rstrip(' \t')
    sentences = {
        'not-json': 'the event is no JSON text',
        'not-object': 'an event is a JSON object, as {"price":82,"sym":"IBM"}',
        'too-many': 'an event has at most 32 names',
        'bad-name': 'the name of a value has 1 to 64 bytes',
        'bad-value': 'a value is an integer of 64 bits, a text, true or false',
        'too-long': 'a text has at most 1,024 bytes, and an event 8,192',
    }
    sentence = sentences.get(why, why)
    try:
        event = json.loads(text, parse_float=Odd, parse_constant=Odd, parse_int=integer)
    except (ValueError, RecursionError) as fault:
        at = getattr(fault, 'pos', 0)
        hint = 'names and texts stand in double quotes' if "'" in text or not text.startswith('{') else ''
        return column + min(at, len(text)), sentence, hint
    for name, value in sorted(event.items()) if isinstance(event, dict) else ():
        found = value_fault(name, value)
        if found[0] == why:
            return column + max(0, text.find(json.dumps(name, ensure_ascii=False))), sentence, found[1]
    return column, sentence, ''


class Odd(str):
    """A number that is no integer of an event, as it is spelled."""


def integer(text):
    """An integer, where an event may have it."""
    return int(text) if text != '-0' and len(text) < 25 and -2**63 <= int(text) < 2**63 else Odd(text)


def value_fault(name, value):
    """The word for what is wrong with a value of an event, and a hint."""
    if not 1 <= len(name.encode()) <= 64:
        return 'bad-name', 'this name has %d bytes' % len(name.encode())
    if isinstance(value, Odd):
        hint = 'there are integers only, of 64 bits: take cents, or a text' if '.' in value else ''
        return 'bad-value', '%s: %s' % (value, hint or 'no integer of 64 bits')
    if value is None:
        return 'bad-value', 'leave the name out in place of null: a filter can ask IS NULL'
    if isinstance(value, (list, dict)):
        return 'bad-value', 'a list or an object cannot stand inside an event'
    if isinstance(value, str) and len(value.encode()) > 1024:
        return 'too-long', 'this text has %d bytes' % len(value.encode())
    return '', ''


# Filters


def filter_fault(text, word, at):
    """What is wrong with a filter at this place in bytes: the column in the filter, a sentence and a hint."""
    data = text.encode()
    column = len(data[:at].decode(errors='replace'))
    rest, before = text[column:], text[:column].rstrip()
    if word == 'too-long':
        return 0, 'a filter has at most 4,096 bytes', ''
    if word == 'too-deep':
        return column, 'parentheses and NOT nest at most 64 levels deep', ''
    if word == 'number-range':
        return column, 'an integer has 64 bits with its sign', ''
    if word == 'bad-token':
        return column, *token_fault(rest)
    if not rest.strip():
        return column, 'the filter ends where something is still wanted', 'behind %s' % last_word(before)
    return column, 'this does not fit here', expected_hint(before, rest)


def last_word(text):
    """The last word of a text in quotes of its own, or what to say where there is none."""
    return '`%s`' % text.split()[-1] if text.split() else 'its beginning'


def token_fault(rest):
    """What is said where no word of a filter begins."""
    if rest.startswith('"'):
        return 'a text stands in single quotes', "write 'IBM' and not \"IBM\""
    if rest.startswith("'"):
        return 'this text has no closing quote', "a quote inside a text is written twice: 'it''s'"
    if re.match(r'-?\d+\.\d', rest):
        return 'there are integers only', 'take cents, or another unit, in place of a fraction'
    if re.match(r'-?\d+[A-Za-z_$]', rest):
        return 'a letter follows a number at once', ''
    if rest[:2] in ('==', '!=', '&&', '||'):
        wanted = {'==': '=', '!=': '<>', '&&': 'AND', '||': 'OR'}[rest[:2]]
        return 'there is no sign `%s`' % rest[:2], 'write `%s`' % wanted
    return 'no word of a filter begins with `%s`' % rest[:1], 'the signs are = <> < <= > >= and ( ) ,'


def expected_hint(before, rest):
    """A hint on what was wanted where something else stands."""
    if rest.startswith('=') and before.endswith('='):
        return 'equality is written with one `=`'
    if re.match(r'[A-Za-z_$]', rest) and re.search(r'[\w\')]$', before):
        return 'two tests are joined by AND or OR; a text stands in single quotes'
    if re.search(r'(?i)\b(like|in|is)$', before):
        return {'like': "LIKE takes a text: sym LIKE 'I%'", 'in': "IN takes a list: sym IN ('IBM', 'HP')",
                'is': 'IS takes NULL or NOT NULL'}[before[-4:].strip().lower().split()[-1]]
    return 'a filter is tests such as price > 80, joined by AND, OR and NOT'


# Steps


def step_fault(line, names, why):
    """What is wrong with a line of a schedule, with the names of each kind: its column, a sentence and a hint."""
    given = words_in(line)
    column, word = given[0]
    if word not in STEPS:
        return column, 'no step begins with `%s`' % word, nearest(word, STEPS) or 'the steps are ' + listed(STEPS)
    wanted, at = list(STEPS[word]), 1
    while wanted:
        kind = wanted.pop(0)
        if at == len(given):
            return len(line.rstrip()), '`%s`: the %s is missing' % (word, kind), shape(word)
        column, part = given[at]
        if kind == 'event' and part != 'stop':
            return event_fault(line, column, why or 'not-json')
        if kind == 'event':
            wanted += ['call', 'word pick', 'image', 'event']
        found = part_fault(kind, part, names)
        if found:
            return column, *found
        at += 1
    if at < len(given):
        column, part = given[at]
        hint = 'a comment stands in a line of its own' if part.startswith('#') else shape(word)
        return column, '`%s`: a word too many' % word, hint
    return column, 'this is no step', shape(word)


def shape(word):
    """How a step is written."""
    return 'it is written `%s`' % ' '.join([word, *('N' if it in RANGES else it.upper() for it in STEPS[word])])


def part_fault(kind, part, names):
    """What is wrong with a word of a step, a sentence and a hint; None where nothing is."""
    if kind in RANGES:
        least, most = RANGES[kind]
        if not re.fullmatch('[0-9]{1,19}', part):
            return 'the %s is not a number' % kind, 'a number is digits alone, with no sign, point or blank'
        if not least <= int(part) <= most:
            return 'the %s is out of range' % kind, 'it is %d to %s' % (least, most if most < 256 else '2^62')
    if kind in names and part not in names[kind]:
        called = 'late subscriber' if kind == 'subscriber' else kind
        hint = nearest(part, names[kind]) or 'the %ss are %s' % (called, listed(names[kind]) or 'none')
        return 'there is no %s `%s`' % (called, part), hint
    if kind == 'word pick' and part != 'pick':
        return 'the word `pick` is missing', 'a stop is written `stop CALL pick IMAGE`'
    return None
