"""What the words and the exit statuses of gryphon mean: for tools/explain and tools/serve."""
import re

STATUSES = {
    3: 'the input could not be read',
    4: 'the output could not be written: its reader has gone, or the disk is full',
    5: 'the disk of a log failed, or is full; what was printed as logged is logged',
    6: 'a file of gryphon-log is no log; the last line printed has its publisher and the place of the first bad byte',
    7: 'out of memory',
    8: 'an address of this scenario could not be bound; another process may be using it, or it is of another machine',
    70: 'the program could not be made',
}


def sentence(status):
    """What a status other than 0, 1, 2 and 9 means."""
    if status < 0 or status > 128:
        return 'ended by signal %d' % (-status if status < 0 else status - 128)
    return 'status %d: %s' % (status, STATUSES.get(status, 'this is no status of gryphon'))


def is_number(word, most):
    """The word is a number from 1 to the most, perhaps with a plus sign before it."""
    return bool(re.fullmatch(r'\+?[0-9]{1,19}', word)) and 1 <= int(word) <= most


COMMANDS = 'replay, serve, trace, publish, audit, match, cover'


def usage_fault(words):
    """Why the program answers these words with its usage line; an empty text where it does not."""
    words = words[:-1] if words[-1:] == ['--'] else words
    if not words:
        return 'name a command: %s or soak' % COMMANDS
    command, *rest = words
    if command in ('replay', 'audit', 'match', 'cover'):
        return rest and '`%s` takes no further words, and reads its text from standard input' % command
    if command == 'soak':
        is_right = len(rest) == 1 and is_number(rest[0], 2000)
        return '' if is_right else '`soak N`: N is a number, 1 to 2,000'
    if command in ('serve', 'trace'):
        return serve_fault(command, rest)
    if command == 'publish':
        return publish_fault(rest)
    return 'there is no command `%s`: they are %s and soak' % (command, COMMANDS)


def serve_fault(command, rest):
    """Why these words cannot stand behind `serve` or `trace`."""
    shape = '`%s TURNS BROKER...`: ' % command
    if not rest:
        return shape + 'TURNS and a BROKER are missing'
    if not is_number(rest[0], 1_000_000):
        return shape + 'TURNS is a number, 1 to 1,000,000'
    if len(rest) == 1:
        return shape + 'a BROKER is missing'
    return shape + 'there are no flags' if any(it.startswith('-') for it in rest) else ''


def publish_fault(rest):
    """Why these words cannot stand behind `publish`."""
    shape = '`publish P TURNS`: '
    if len(rest) < 2:
        return shape + ('TURNS is missing' if rest else 'P and TURNS are missing')
    if len(rest) > 2:
        return shape + 'a word too many'
    return '' if is_number(rest[1], 1_000_000) else shape + 'TURNS is a number, 1 to 1,000,000'
