"""Draws the rows and frames of a run as SVG, for tools/chart."""
import re
import unicodedata
from math import hypot
from xml.sax.saxutils import escape

LEFT, COLUMN, ROW, LETTER = 280, 270, 22, 6.05
COLOURS = {'know': '#1f5fa8', 'want': '#9a5800', 'expect': '#6b3fa0', 'lost': '#b3202c', 'again': '#666666',
           'got': '#1b7a3d', 'ordered': '#00696f', 'crashed': '#b3202c', 'refused': '#b3202c', 'dropped': '#b3202c',
           'exhausted': '#b3202c', 'gap': '#b3202c', 'damaged': '#b3202c', 'horizon': '#1b7a3d', 'cut': '#6b3fa0',
           'reclaimed': '#6b3fa0', 'kept': '#1b7a3d', 'wake': '#666666'}
LEGEND = (('know', 'know: what is known of ticks; S silence, D an event, F final'),
          ('want', 'want: C ticks that are asked for, A ticks that are acknowledged'),
          ('expect', 'expect: all up to this tick is to be asked for'),
          ('lost', 'a frame that no step delivers'),
          ('again', 'a frame that is delivered once more'))


def wide(letter):
    return 2 if unicodedata.east_asian_width(letter) in 'WF' else 1


def shortened(text, width):
    """As much of a text as fits into so many pixels, with no letter that XML forbids."""
    text = clean(text)
    room = int(width / LETTER)
    if sum(map(wide, text)) <= room:
        return text
    kept = ''
    for letter in text:
        room -= wide(letter)
        if room < 1:
            break
        kept += letter
    return kept + '…'


def clean(text):
    """A text with a question mark for each letter that XML forbids, and a blank for a tab."""
    return re.sub('[\x00-\x1f\x7f-\x9f\ud800-\udfff\ufffe\uffff]', '?', text.replace('\t', ' '))


def words(x, y, text, width, more=''):
    return '<text x="%g" y="%g"%s>%s</text>' % (x, y, more and ' ' + more, escape(shortened(text, width)))


def backed(x, y, text, width, colour, ends=False):
    """A text on white, which begins or ends at x, so that it can be read where arrows pass."""
    size = LETTER * sum(map(wide, shortened(text, width)))
    place = (x - size if ends else x, y - 9.5, size)
    ground = '<rect x="%.1f" y="%.1f" width="%.1f" height="12" fill="white"/>' % place
    return ground + words(x, y, text, width, 'fill="%s"%s' % (colour, ' text-anchor="end"' if ends else ''))


def line(x, y, to_x, to_y, colour, dash=''):
    dash = ' stroke-dasharray="%s"' % dash if dash else ''
    return '<line x1="%.1f" y1="%.1f" x2="%.1f" y2="%.1f" stroke="%s"%s/>' % (x, y, to_x, to_y, colour, dash)


def head(x, y, to_x, to_y, colour):
    """The head of an arrow."""
    length = hypot(to_x - x, to_y - y) or 1
    a, b = (to_x - x) / length, (to_y - y) / length
    back_x, back_y, c, d = to_x - 8 * a, to_y - 8 * b, 3.5 * a, 3.5 * b
    corners = [(to_x, to_y), (back_x + d, back_y - c), (back_x - d, back_y + c)]
    return '<polygon points="%s" fill="%s"/>' % (' '.join('%.1f,%.1f' % corner for corner in corners), colour)


def cross(x, y, colour, size=4):
    return line(x - size, y - size, x + size, y + size, colour) + line(x - size, y + size, x + size, y - size, colour)


def group(title, parts):
    return '<g><title>%s</title>%s</g>' % (escape(clean(title)), ''.join(parts))


class Chart:
    """Places on the chart, and what was drawn there."""

    def __init__(self, topology, rows, frames):
        self.topology, self.rows, self.frames = topology, rows, frames
        ends = [self.ends_at(broker) for broker in topology.brokers]
        self.top = 100 + 13 * max(map(len, ends)) + ROW
        self.bottom = self.top + ROW * max(1, len(rows))
        self.width = LEFT + 40 + COLUMN * max(2, len(topology.brokers))
        self.column = {broker: LEFT + 40 + COLUMN * place for place, broker in enumerate(topology.brokers)}
        self.ends = dict(zip(topology.brokers, ends))

    def ends_at(self, broker):
        """What is said of the publishers and subscribers at a broker, in at most five lines."""
        t = self.topology
        said = ['publisher ' + name for name, at in t.hosts.items() if at == broker]
        for name, at in t.places.items():
            if at == broker:
                one = ', late' * (name in t.lates) + ', one list' * (name in t.totals)
                said.append('subscriber ' + name + one + (': ' + t.filters[name] if name in t.filters else ''))
        return said if len(said) <= 5 else said[:4] + ['and %d more' % (len(said) - 4)]

    def y(self, row):
        return self.top + ROW * row

    def heads(self):
        """The columns: name, publishers and subscribers, and the line of each broker."""
        drawn = []
        for broker, x in self.column.items():
            parts = [line(x, 92 + 13 * len(self.ends[broker]), x, self.bottom, '#bbbbbb'),
                     '<rect x="%g" y="62" width="200" height="20" rx="3" fill="#f2f2f2" stroke="#888888"/>' % (x - 30),
                     words(x - 22, 76, broker, 180, 'font-weight="bold"')]
            parts += [words(x - 30, 96 + 13 * place, said, COLUMN - 14) for place, said in enumerate(self.ends[broker])]
            drawn.append(group('broker ' + '; '.join([broker] + self.ends[broker]), parts))
        return drawn

    def arrows(self, frame):
        """The arrows of a frame: to each delivery of it, or to nowhere."""
        x, to_x, y = self.column[frame.sender], self.column[frame.receiver], self.y(frame.row)
        colour = COLOURS[frame.kind]
        if not frame.arrivals:
            end = x + (0.75 if to_x > x else -0.75) * COLUMN
            parts = [line(x, y, end, y + 12, COLOURS['lost'], '5 3'), cross(end, y + 12, COLOURS['lost'])]
            return [group(frame.text + ' (never delivered)', parts)]
        drawn = []
        for place, row in enumerate(frame.arrivals):
            shade, dash = (COLOURS['again'], '1.5 3') if place else (colour, '')
            parts = [line(x, y, to_x, self.y(row), shade, dash), head(x, y, to_x, self.y(row), shade)]
            drawn.append(group(frame.text + (' (delivered again)' if place else ''), parts))
        return drawn

    def row(self, row, y):
        """The step of a row, and the mark at a broker."""
        parts = []
        colour = COLOURS.get(row.kind, '#222222')
        if row.kind == 'clock':
            parts.append(line(12, y + 8, self.width - 12, y + 8, '#e2e2e2'))
        if row.left:
            told = row.kind in ('refused', 'frames', 'bytes', 'swept')
            shade = colour if told else '#444444'
            parts.append(words(24 if told else 12, y + 3.5, row.left, LEFT - 36, 'fill="%s"' % shade))
        if row.frame:
            x, right = self.column[row.broker], self.column[row.frame.receiver] > self.column[row.broker]
            shade = COLOURS[row.frame.kind if row.frame.arrivals else 'lost']
            parts.append(backed(x + (8 if right else -8), y - 3.5, row.frame.label, COLUMN - 24, shade, not right))
        elif row.broker:
            x = self.column[row.broker]
            inside = 'white' if row.kind == 'wake' else colour
            dot = '<circle cx="%g" cy="%g" r="3" fill="%s" stroke="%s"/>' % (x, y, inside, colour)
            mark = cross(x, y, colour, 6) if row.kind == 'crashed' else dot
            parts += [mark, backed(x + 10, y + 3.5, row.text, COLUMN - 30, colour)]
        return group(row.title or row.left, parts)

    def legend(self):
        """What the arrows mean that stand on this chart."""
        frames = self.frames.values()
        used = {frame.kind for frame in frames}
        used |= {'lost' for frame in frames if not frame.arrivals}
        used |= {'again' for frame in frames if len(frame.arrivals) > 1}
        drawn, y = [], self.bottom + 24
        for kind, says in LEGEND:
            if kind in used:
                dash = {'lost': '5 3', 'again': '1.5 3'}.get(kind, '')
                end = cross if kind == 'lost' else lambda x, y, colour: head(0, y, x, y, colour)
                drawn += [line(14, y, 60, y, COLOURS[kind], dash), end(60, y, COLOURS[kind])]
                drawn.append(words(74, y + 3.5, says, 560))
                y += 16
        return drawn, y


def drawn(topology, rows, frames, name, about):
    """The whole chart."""
    chart = Chart(topology, rows, frames)
    legend, height = chart.legend()
    title = escape(shortened(name, (chart.width - 40) / 1.5))
    about = about or 'A replay.'
    parts = ['<svg xmlns="http://www.w3.org/2000/svg" width="%d" height="%d" viewBox="0 0 %d %d" role="img" '
             'font-family="monospace" font-size="10" fill="#222222">' % (chart.width, height, chart.width, height),
             '<title>%s</title>' % escape(clean(name)), '<desc>%s</desc>' % escape(clean(about)),
             '<rect width="100%" height="100%" fill="white"/>',
             '<text x="12" y="26" font-size="15" font-weight="bold">%s</text>' % title,
             words(12, 46, about, chart.width - 24, 'fill="#444444"')]
    parts += chart.heads()
    for frame in frames.values():
        parts += chart.arrows(frame)
    parts += [chart.row(row, chart.y(place)) for place, row in enumerate(rows)]
    return '\n'.join(parts + legend + ['</svg>', ''])
