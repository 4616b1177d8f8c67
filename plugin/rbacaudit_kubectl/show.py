"""rbacaudit-show: the lines of rbacaudit's commands as a table, as JSON, or as names."""

from __future__ import annotations

import binascii
import functools
import json
import os
import re
import signal
from collections.abc import Iterable, Iterator, Sequence
from dataclasses import dataclass

from . import VERSION
from .escapes import bytes_of, escaped
from .escapes import text_of as text_of_bytes
from .fields import LACKS, NUMBER, REMARK, SHAPES, Row, Shape, text_of, words_of
from .options import FORMATS, SHOWN, VALUES, Option, tokens_of
from .table import Table
from .terminal import Ended, Refused, has_colors, print_text, report

PROGRAM = 'rbacaudit-show'
OPTIONS = (*SHOWN, Option('--rules', 'FILE'), Option('--indirect'), Option('-h,--help'), Option('-V,--version'))
CHOICES = {'--output': ('-o', 'format', FORMATS[:4]), '--color': ('--color', 'color', VALUES['--color'])}

# ---- reading

# What is no row: the answers of can-i, and the last line of a matrix.
REMARKS = (('can-i', re.compile('yes|no')), ('matrix', re.compile(r'end|next\t[A-Za-z0-9_-]+')))
UNKNOWN = ('no command of rbacaudit prints this: expected lines of can-i, who-can, rules, matrix, lint, powers, '
           'paths, diff or unused; rbacaudit-show --help lists their fields')


@dataclass
class Reader:
    """Knows of which command lines are. All have to be of one, and their rows of one shape."""
    is_indirect: bool = False   # whether lines that could also be of paths aren't
    command: str = ''
    shape: Shape | None = None
    fault: str = ''             # of the line at which reading ended

    def rows_of(self, lines: Iterable[str]) -> Iterator[Row]:
        """The rows of lines, and what is none, until a line that is neither."""
        for number, line in enumerate(lines, 1):
            cells = self.shape.cells_of(line) if self.shape else []
            if not cells and self.is_remark(line):
                yield REMARK, [line]
                continue
            for shape in () if self.shape else SHAPES:
                is_meant = shape.command == self.command if self.command else not (self.is_indirect and shape.command == 'paths')
                cells = cells or (shape.cells_of(line) if is_meant and len(shape.fields) == line.count('\t') + 1 else [])
                if cells and not self.shape:
                    self.shape, self.command = shape, shape.command
            if not cells or not self.shape:
                self.fault = 'standard input line %d: %s' % (number, self.fault_of(line))
                return
            yield self.shape, cells

    def is_remark(self, line: str) -> bool:
        """Whether a line is a remark of the command, which it may be the first to tell."""
        for command, form in REMARKS:
            if self.command in ('', command) and form.fullmatch(line):
                self.command = command
                return True
        return False

    def fault_of(self, line: str) -> str:
        """What is wrong with a line, and what was expected."""
        if not self.command:
            return 'this is JSON, as universe prints it: expected lines of another command' if line.startswith('{') else UNKNOWN
        shape = self.shape or next(shape for shape in SHAPES if shape.command == self.command)
        return 'no line of %s as before: expected %s%d fields: %s%s' % (
            self.command, 'yes, no, or ' if self.command == 'can-i' else '', len(shape.fields),
            ' '.join(head for head, _, _ in shape.fields), ', or end, or next and a token' if self.command == 'matrix' else '')


# ---- names and JSON

def names_of(rows: Iterable[Row]) -> Iterator[str]:
    """Who or what lines are about, once if several in a row are about the same."""
    last = ''
    for shape, cells in rows:
        name = last if shape is REMARK else cells[shape.about]
        if name not in (last, 'total'):
            yield name + '\n'
        last = name


ENCODER = json.JSONEncoder(ensure_ascii=False, separators=(',', ':'))
SURROGATE = re.compile('[\ud800-\udfff]')


def value_of(cell: str, kind: str) -> object:
    """The value of a field in JSON."""
    if kind == 'list':
        return [text_of(word) for word in words_of(cell)]
    if kind in ('number', 'count', 'place'):
        return None if cell == '-' else int(cell)
    if kind == 'any' and cell == '*':
        return None
    return cell if kind == 'sign' else text_of(cell)


def json_of(value: object) -> str:
    """A value as JSON, in which what isn't to be seen is a code, wherever it goes, and no UTF-8 is U+FFFD."""
    return escaped(SURROGATE.sub('\ufffd', ENCODER.encode(value)), as_json=True)


def member_of(key: str, kind: str, cell: str) -> str:
    """A field in the object of its line, and beside it the bytes of texts that aren't UTF-8."""
    value = value_of(cell, kind)
    texts = value if isinstance(value, list) else [value] if isinstance(value, str) else []
    member = '"%s":%s' % (key, json_of(value))
    if not any(map(SURROGATE.search, texts)):
        return member
    beside = [binascii.b2a_base64(bytes_of(text), newline=False).decode() for text in texts]
    return '%s,"%s_bytes":%s' % (member, key, json_of(beside if kind == 'list' else beside[0]))


# (the same short fields come in many lines)
member_of_short = functools.lru_cache(maxsize=4096)(member_of)


def keys_of(shape: Shape, cells: Sequence[str]) -> Iterator[tuple[str, str]]:
    """The key and the kind of each field of a line."""
    for _, kind, key in shape.fields:
        # (the detail of these findings is the place of a rule or of a document)
        is_place = kind == 'detail' and cells[0] in ('L3', 'L7') and re.fullmatch(NUMBER, cells[4])
        is_list = kind == 'has' and LACKS[cells[0]]
        named = ('who' if cells[0] == 'subject' else 'verb') if kind == 'acted' else key
        yield named, 'number' if is_place else 'list' if is_list else kind


def objects_of(rows: Iterable[Row]) -> Iterator[str]:
    """An object for each line."""
    for shape, cells in rows:
        if shape is REMARK:
            word, _, token = cells[0].partition('\t')
            yield '{%s}\n' % {'next': '"next":"%s"' % token, 'end': '"end":true', 'yes': '"allowed":true', 'no': '"allowed":false'}[word]
            continue
        members = [member_of_short(key, kind, cell) if len(cell) < 100 else member_of(key, kind, cell)
                   for (key, kind), cell in zip(keys_of(shape, cells), cells)]
        if cells[0] == 'total':
            members[:3] = ['"total":true']
        yield '{%s}\n' % ','.join(members)


# ---- the command

def read_options(words: Sequence[str]) -> dict[str, str]:
    """The words of the command line: the value of each option, by its name."""
    found = {'--output': 'table', '--color': 'auto', '--rules': ''}
    for token in tokens_of(OPTIONS, words):
        if not token.option and token.name:
            raise Refused('there is no option %s; rbacaudit-show --help lists them' % token.name)
        if not token.option:
            raise Refused('there is no word %s in this command: rbacaudit-show reads from a pipe, or from a file as in rbacaudit-show < FILE' % token.words[0])
        name = token.option.long
        if name in ('--help', '--version'):
            from .help import help_of_show
            print_text(help_of_show() if name == '--help' else '%s %s\n' % (PROGRAM, VERSION))
            raise Ended(0)
        if token.value is None:
            raise Refused(token.name + (' needs a format: table, wide, json or name' if name == '--output' else ' needs a value'))
        found[name] = token.value if token.option.value else 'yes'
        check_value(name, found[name])
    return found


def check_value(name: str, value: str) -> None:
    """Refuses a value that means nothing."""
    told, what, choices = CHOICES.get(name, ('', '', (value,)))
    if value not in choices:
        raise Refused('there is no %s %s: %s takes %s or %s' % (what, value, told, ', '.join(choices[:-1]), choices[-1]))
    if name == '--rules' and value and (not os.path.isfile(value) or not os.access(value, os.R_OK)):
        raise Refused("can't read " + value)


def table_of(form: str, headers: bool, color: str) -> Table:
    """A table that is as wide as the screen, or of the form `wide`."""
    on_terminal, screen = os.isatty(1), 0
    if form == 'table' and on_terminal:
        from shutil import get_terminal_size
        screen = get_terminal_size().columns
    return Table(headers, has_colors(color, os.environ), on_terminal, screen)


def show(lines: Iterable[bytes], form: str, *, headers: bool = True, color: str = 'auto', rules: str | None = None,
         indirect: bool = False) -> int:
    """Writes lines in a form, as they come, and gives the status. `rules` are lines of rules for a table."""
    reader, on_terminal = Reader(indirect), os.isatty(1)
    given = (text_of_bytes(line).removesuffix('\n') for line in lines)
    if form == 'json':
        texts = objects_of(reader.rows_of(given))
    elif form == 'name':
        texts = names_of(reader.rows_of(map(escaped, given) if on_terminal else given))
    else:
        table = table_of(form, headers, color)
        table.take_rules((rules or '').split('\n'))
        texts = table.texts_of(reader.rows_of(map(table.seen, given)))
    with open(1, 'w', encoding='utf-8', errors='surrogateescape', newline='\n', closefd=False) as out:
        for text in texts:
            out.write(text)
            if on_terminal:
                out.flush()
    if reader.fault:
        report(reader.fault, PROGRAM)
    return 2 if reader.fault else 0


def lines_in(number: int) -> Iterator[bytes]:
    """The lines of an open file, by its number."""
    try:
        with open(number, 'rb', closefd=False) as file:
            yield from file
    except OSError as fault:
        raise Refused("can't read standard input: %s" % fault.strerror) from None


def run(words: Sequence[str]) -> int:
    """Shows what standard input has."""
    options, rules = read_options(words), ''
    if os.isatty(0):
        raise Refused('lines come from a pipe or a file: rbacaudit rules u:kim *.json | rbacaudit-show')
    if options['--rules']:
        with open(options['--rules'], encoding='utf-8', errors='surrogateescape', newline='\n') as file:
            rules = file.read()
    return show(lines_in(0), options['--output'], headers='--no-headers' not in options, color=options['--color'], rules=rules,
                indirect='--indirect' in options)


def main(words: Sequence[str]) -> int:
    """The program rbacaudit-show: its status."""
    for number in (signal.SIGPIPE, signal.SIGINT):
        signal.signal(number, signal.SIG_DFL)
    try:
        return run(words)
    except Ended as end:
        return end.status
    except Refused as fault:
        report(str(fault), PROGRAM)
    except OSError as fault:
        report("can't write: %s" % fault.strerror, PROGRAM)
    return 2
