"""Lines of rbacaudit as a table: columns below a head, which fit a screen, with colors and the words of rules."""

from __future__ import annotations

import operator
import re
from collections.abc import Iterable, Iterator, Sequence
from dataclasses import dataclass, field

from .escapes import escaped
from .fields import REMARK, Row, Shape, powers_of, words_of

AHEAD = 500     # how many rows tell the widths of columns
WIDEST = 400    # a longer name doesn't fill the screen with blanks
LEAST = 3
LISTS = ('VERBS', 'GROUPS', 'RESOURCES', 'NAMES', 'URLS')
# A blank at an end of a field, or behind another.
BLANK = re.compile('(?<![^\t ]) | (?![^\t])')
TWO_COLUMNS = re.compile('[\u1100-\u115f\u2e80-\ua4ff\uac00-\ud7bf\uf900-\ufaff\ufe30-\ufe6f\uff00-\uff60\uffe0-\uffe6'
                         '\U0001f300-\U0001faff\U00020000-\U0003ffff]')
NO_COLUMN = re.compile('[\u0300-\u036f\ufe00-\ufe0f]')


def columns_of(text: str) -> int:
    """How many columns of a terminal a text takes."""
    return len(text) if text.isascii() else len(text) + len(TWO_COLUMNS.findall(text)) - len(NO_COLUMN.findall(text))


def cut(text: str, room: int) -> tuple[str, int]:
    """A text that is cut to less than these columns, with a sign that it is, and how many it then has."""
    taken = 0
    for at, character in enumerate(text):
        wide = columns_of(character)
        if taken + wide >= room:
            return text[:at] + '…', taken + 1
        taken += wide
    return text + '…', taken + 1


def narrowed(widths: Sequence[int], screen: int) -> list[int]:
    """Widths of columns that fit a screen: the widest give way. The last column has what is left over."""
    found = list(widths)
    lacking = sum(found) + 2 * (len(found) - 1) - screen
    found[-1] -= min(lacking, 0)
    while lacking > 0 and max(found) > LEAST:
        widest = max(found)
        places = [at for at, width in enumerate(found) if width == widest]
        least = max([LEAST, *(width for width in found if width < widest)])
        each = widest - max(least, widest - -(-lacking // len(places)))
        for at in places:
            found[at] -= min(each, lacking)
            lacking -= min(each, lacking)
    return found


def codes_of(command: str, cells: Sequence[str]) -> str:
    """The codes of a row's color: green for what is gained, red for what is lost, bold for powers."""
    color = ''
    if command == 'diff':
        color = '32' if cells[0] == '+' else '31'
    elif command == 'diff --summary' and '0' in cells[3:5] and cells[3] != cells[4]:
        color = '31' if cells[3] == '0' else '32'
    return ';'.join(code for code in ('1' if powers_of(command, cells) else '', color) if code)


def painted(line: str, codes: str) -> str:
    """A line in the color of these codes, if there are any."""
    return '\033[%sm%s\033[0m' % (codes, line) if codes else line


@dataclass
class Table:
    """How a table is written, and the rules whose words stand below rows: their lists by source and place."""
    has_head: bool = True
    is_painted: bool = False
    is_on_terminal: bool = False
    screen: int = 0     # the most columns of a line, or 0 for any number
    rules: dict[tuple[str, str], list[list[str]]] = field(default_factory=dict)

    def take_rules(self, lines: Iterable[str]) -> None:
        """Takes lines of rules."""
        for cells in (line.split('\t') for line in lines):
            if len(cells) == 10:
                source, place, *lists = self.seen('\t'.join([*cells[2:4], *(cell[1:-1] for cell in cells[5:])])).split('\t')
                self.rules[source, place] = [words_of('[%s]' % words) for words in lists]

    def seen(self, line: str) -> str:
        """A line in which no name hides, or looks like two fields."""
        if self.is_on_terminal:
            line = escaped(line)
        return BLANK.sub(r'\\x20', line) if ' ' in line else line

    def texts_of(self, rows: Iterable[Row]) -> Iterator[str]:
        """The table. What is no row stands below the rows before it, and a head below that."""
        held: list[Row] = []
        widths: list[int] = []
        for shape, cells in rows:
            if shape is REMARK:
                yield from self.begin(held)[1]
                yield cells[0] + '\n'
                held, widths = [], []
            elif widths:
                yield self.text_of(shape, cells, widths)
            else:
                held.append((shape, cells))
                if len(held) == AHEAD:
                    widths, texts = self.begin(held)
                    held = []
                    yield from texts
        yield from self.begin(held)[1]

    def begin(self, rows: Sequence[Row]) -> tuple[list[int], list[str]]:
        """The widths of columns that the first rows tell, and the head with these rows."""
        heads = [[head for head, _, _ in shape.fields] for shape, _ in rows[:1] if self.has_head]
        widths = self.widths_of([*heads, *(cells for _, cells in rows)])
        return widths, [self.line_of(head, widths) + '\n' for head in heads] + [self.text_of(*row, widths) for row in rows]

    def widths_of(self, rows: Iterable[Sequence[str]]) -> list[int]:
        """The widths of the columns that these rows have."""
        widths = [min(max(map(columns_of, column)), WIDEST) for column in zip(*rows)]
        return narrowed(widths, self.screen) if self.screen and widths else widths

    def text_of(self, shape: Shape, cells: list[str], widths: list[int]) -> str:
        """A row, and below it the words of the rule that it names."""
        line = self.line_of(cells, widths)
        lines = [painted(line, codes_of(shape.command, cells) if self.is_painted else '')]
        if self.rules and len(cells) == {'can-i': 5, 'who-can': 6}.get(shape.command):
            lines += self.word_lines(self.rules.get((cells[-3], cells[-2]), []))
        return '\n'.join([*lines, ''])

    def line_of(self, cells: Sequence[str], widths: Sequence[int]) -> str:
        """Cells, each below the one above it and, on a screen, cut."""
        # (most rows need no more than this)
        if ''.join(cells).isascii() and not (self.screen and any(map(operator.gt, map(len, cells), widths))):
            return '  '.join(map(str.ljust, cells, widths)).rstrip(' ')
        parts = []
        for text, width in zip(cells, widths):
            wide = columns_of(text)
            if self.screen and wide > width:
                text, wide = cut(text, width)
            parts.append(text + ' ' * (width - wide))
        return '  '.join(parts).rstrip(' ')

    def word_lines(self, lists: Sequence[Sequence[str]]) -> Iterator[str]:
        """The words of a rule, which go on below where the screen ends. Lists that are empty are left out."""
        line, used = '    ', 4
        pieces = [(at == 0, (head + ' ' if at == 0 else '') + word + (',' if at < len(words) - 1 else ''))
                  for head, words in zip(LISTS, lists) for at, word in enumerate(words)]
        for place, (begins_list, piece) in enumerate(pieces):
            wide = columns_of(piece)
            if place and self.screen and used + wide + 2 > self.screen:
                yield line
                line, used = '      ', 6
            elif place and begins_list:
                line, used = line + '  ', used + 2
            if self.screen and used + wide > self.screen:
                piece, wide = cut(piece, self.screen - used)
            line, used = line + piece, used + wide
        if pieces:
            yield line
