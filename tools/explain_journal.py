"""Where in the journals behind a scenario a refusal is, and why: for tools/explain."""
import re

from explain_text import Fault, lines_of, nearest

# What each line of a journal says behind its word, and what of it is a broker of the line's process, or any broker.
FORMS = {'process': 'B...', 'quiet': 'M', 'in': 'B M HEX', 'say': 'LINE', 'out': 'FROM TO HEX'}
OURS, ANY = ('B', 'FROM'), ('TO',)
MOMENT = re.compile(r'[0-9]{1,19}\Z')
BYTES = re.compile(r'([0-9a-f]{2})+\Z')


def bar(lines):
    """How many lines stand before the line between a scenario and journals; None where there is none."""
    return lines.index('===') if '===' in lines else None


def scenario_in(text):
    """The scenario before journals, and how many lines it has: all of a text that has none."""
    lines = lines_of(text)
    end = bar(lines)
    return (text, len(lines)) if end is None else ('\n'.join(lines[:end] + ['']), end)


def journal_fault(text, number, brokers):
    """What is wrong with a line of journals, by its number behind the line `===`."""
    lines = lines_of(text)
    at = bar(lines) + number
    word, *rest = lines[at].split(' ')
    begun = [it for it in range(bar(lines) + 1, at) if lines[it].startswith('process ')]
    if word not in FORMS:
        return Fault(at + 1, 0, 'a line of a journal begins with %s' % ', '.join(FORMS), nearest(word, FORMS))
    shape = '`%s %s`: ' % (word, FORMS[word])
    if word == 'process':
        unknown = next((it for it in rest if it not in brokers), '')
        return Fault(at + 1, len(word) + 1, shape + ('the scenario has no broker `%s`' % unknown if unknown else
                                                     'one space and a broker, once or more'), nearest(unknown, brokers))
    if not begun:
        return Fault(at + 1, 0, 'this line is in no journal', 'a journal begins with a line `process B...`')
    if word == 'say':
        return Fault(at + 1, len(word), shape + 'nothing is said', '')
    names = FORMS[word].split(' ')
    if len(rest) != len(names):
        return Fault(at + 1, 0, shape + 'one space before each word, and no other words', '')
    column = len(word) + 1
    for name, found in zip(names, rest):
        fault = word_fault(word, name, found, lines[begun[-1]].split(' ')[1:], brokers)
        if fault:
            return Fault(at + 1, column, shape + fault, nearest(found, brokers) if name in ANY else '')
        column += len(found) + 1
    return Fault(at + 1, 0, shape + 'the line is refused', '')


def word_fault(word, name, found, ours, brokers):
    """What is wrong with a word of such a line, if something is."""
    if name in OURS and found not in ours:
        return 'broker `%s` is not in this process, which has %s' % (found, ', '.join(ours))
    if name in ANY and found not in brokers:
        return 'the scenario has no broker `%s`' % found
    if name == 'M' and not MOMENT.match(found):
        return 'M is a number of 1 to 19 digits'
    if name == 'HEX' and not BYTES.match(found) and (word, found) != ('in', '-'):
        return 'HEX has two of 0-9a-f for each byte' + (', or is `-`' if word == 'in' else '')
    return ''
