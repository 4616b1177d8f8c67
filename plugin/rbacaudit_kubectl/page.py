"""rbacaudit-page: rows of `rbacaudit matrix` as one HTML file for any current browser, without server and network.

The page is put together from the files of page/. Rows go into it as JSON that is plain ASCII without <, > and &, so no
name can end the script or become markup. It may run its own script alone, by a Content-Security-Policy with its hash.
"""

from __future__ import annotations

import argparse
import binascii
import hashlib
import html
import json
import os
import re
import shutil
import signal
import sys
import zlib
from array import array
from collections.abc import Iterable, Iterator, Sequence
from contextlib import suppress
from itertools import chain, islice

from .escapes import escape_title, script_class
from .fields import BINDING, FIELD, PRINCIPAL, ROLE, STEP
from .page_rows import ROW_FORM, Rows
from .terminal import Progress, Refused, report

PROGRAM = 'rbacaudit-page'
MOST_LINES = 500_000
MOST_PLAIN = 200_000    # how much JSON a page has that isn't packed
PIECE = 50_000          # how many items of a list are written at once
CHANGE = re.compile('[+-]\t(?:%s|r:%s(?:\t%s){5}\t-)' % (ROW_FORM, ROLE, FIELD))
WHO, FINDING, TYPE = re.compile(PRINCIPAL), re.compile('%s(?:\t%s){4}' % (FIELD, FIELD)), re.compile('%s\t%s' % (FIELD, FIELD))
NAMED, NOTICE = re.compile('(?:%s\t){3}%s\t%s' % (FIELD, PRINCIPAL, BINDING)), re.compile(r'[^\x00-\x08\x0a-\x1f\x7f]+')
REACH = re.compile('%s\t(?:-|[1-9][0-9]{0,8})(?:\t[0-9]{1,9}){7}' % PRINCIPAL)
ABOUT = re.compile('(context|server|version|time|only): (.+)')
HERE = os.path.dirname(os.path.realpath(__file__))
# The files of the page: in the sources, and where make install puts them.
FOLDERS = [os.path.normpath(os.path.join(HERE, names)) for names in ('../../page', '../../../share/rbacaudit/page')]
SCRIPTS = ('data.js', 'sets.js', 'scopes.js', 'facts.js', 'tables.js', 'views.js', 'rows.js', 'paths.js', 'watch.js', 'grid.js', 'main.js')
HELP = """\
Write rows of rbacaudit matrix as one HTML file: who has what, what is worth watching, and all rows,
to be searched, filtered and saved. Any current browser opens the file, without a server and
without the network.

  rbacaudit matrix --once *.json | rbacaudit-page --output access.html
"""
MORE = """\
The rows are read from standard input, with their last line, end or next. More than a browser holds
are refused (man rbacaudit-page). --paths may be given more than once: its files may have %d lines
in all. Without --output the page goes to standard output. Exit status: 0 the page is written; 2 an
error.
""" % MOST_LINES
# Each option with its value and what it means.
OPTIONS = (
    ('lint', 'FILE', 'findings to show with the rows: lines of rbacaudit lint'),
    ('diff', 'FILE', 'changes to show with the rows: lines of rbacaudit diff'),
    ('paths', 'FILE', 'paths to show with the rows: lines of rbacaudit paths or who-can --indirect'),
    ('reach', 'FILE', 'how far principals reach whose paths are here only in part (see man)'),
    ('unasked', 'FILE', 'principals whose paths the page lacks: u:NAME or g:NAME'),
    ('named', 'FILE', 'holders limited to object names: verb, API group, resource, who, binding'),
    ('namespaced', 'FILE', 'types that have namespaces: API group and resource'),
    ('notices', 'FILE', 'lines to show at the top, such as what the rows lack'),
    ('about', 'FILE', 'the about.txt of an export, to show cluster, server and time'),
    ('title', 'TEXT', 'the title of the page (default: %(default)s)'),
    ('output', 'FILE', 'write the page into this file, whole or not at all'))


def read_options(words: Sequence[str]) -> argparse.Namespace:
    """The words of the command line."""
    parser = argparse.ArgumentParser(prog=PROGRAM, description=HELP, epilog=MORE, allow_abbrev=False,
                                     formatter_class=argparse.RawDescriptionHelpFormatter)
    for name, value, text in OPTIONS:
        parser.add_argument('--' + name, metavar=value, help=text, action='append' if name == 'paths' else 'store',
                            default={'title': 'Who can do what', 'paths': []}.get(name))
    parser.add_argument('--plain', action='store_true', help='pack nothing, for Firefox before version 113')
    parser.add_argument('--watched', action='store_true', help='print the watch list: step, verb, API group and resource')
    return parser.parse_args(words)


# ---- the files of the page

def part(name: str) -> str:
    """The text of a file of the page."""
    for folder in FOLDERS:
        with suppress(FileNotFoundError), open(os.path.join(folder, name), encoding='utf-8') as file:
            return file.read()
    raise Refused('there is no %s in %s: make install puts it there' % (name, ' or '.join(FOLDERS)))


def watched() -> list[tuple[str, str, str, str]]:
    """What is watched: the step, the verb, the API group and the resource of each pair, as fields."""
    return [(step['id'], verb, group or '-', resource) for step in json.loads(part('watched.json')) for verbs, types, *_ in step['pairs']
            for resource, _, group in (type_.partition('.') for type_ in types) for verb in verbs]


def hash_of(text: str) -> str:
    """The hash of a style or a script, as a policy has it."""
    return 'sha256-' + binascii.b2a_base64(hashlib.sha256(text.encode()).digest(), newline=False).decode()


# ---- the page

def beside(given: argparse.Namespace) -> tuple[dict[str, object], dict[str, object]]:
    """What is shown beside the rows, and of this what may be large: nothing where no file is given."""
    def lines(path: str | None, form: re.Pattern[str], what: str) -> list[str] | None:
        return None if path is None else listed(path, form, what)

    answers = Answers()
    for path in given.paths:
        answers.read(path)
    findings, changes = lines(given.lint, FINDING, 'rbacaudit lint'), lines(given.diff, CHANGE, 'changes')
    named, types = lines(given.named, NAMED, 'holders by name'), lines(given.namespaced, TYPE, 'API group and resource')
    known = {pair[1:] for pair in watched()} if named else set()
    for number, line in enumerate(named or (), 1):
        # (one that the watch list isn't about would be lost)
        if tuple(line.split('\t')[:3]) not in known:
            raise Refused('%s line %d: the watch list lacks this verb and resource: rbacaudit-page --watched prints all that it has'
                          % (given.named, number))

    def split(lines: list[str] | None) -> list[list[str]] | None:
        return None if lines is None else [line.split('\t') for line in lines]

    small: dict[str, object] = {'namespaced': split(types), 'notices': lines(given.notices, NOTICE, 'text') or [],
                                'unasked': lines(given.unasked, WHO, 'principals'), 'about': {} if given.about is None else about(given.about)}
    return small, {'findings': split(findings), 'changes': None if changes is None else coded(changes, 8),
                   'reach': split(lines(given.reach, REACH, 'how far principals reach')),
                   'paths': answers.coded() if given.paths else None, 'named': None if named is None else coded(named, 5)}


def pieces_of(value: object) -> Iterator[str]:
    """JSON for a script element, in pieces: ASCII alone, and nothing that HTML could take for markup. An iterator is a list."""
    if isinstance(value, dict):
        yield '{'
        for number, (key, item) in enumerate(value.items()):
            yield '%s"%s":' % (',' if number else '', key)
            yield from pieces_of(item)
        yield '}'
    elif isinstance(value, list) and any(isinstance(item, Iterator) for item in value):
        for number, item in enumerate(value):
            yield ',' if number else '['
            yield from pieces_of(item)
        yield ']'
    elif isinstance(value, Iterator):
        begin = '['
        while items := list(islice(value, PIECE)):
            yield begin + in_script(items)[1:-1]
            begin = ','
        yield ']' if begin == ',' else '[]'
    else:
        yield in_script(value)


def in_script(value: object) -> str:
    return json.dumps(value, separators=(',', ':')).replace('<', '\\u003c').replace('>', '\\u003e').replace('&', '\\u0026')


def page(title: str, small: dict[str, object], large: dict[str, object], is_plain: bool) -> Iterator[str]:
    """The page, in pieces. What may be large is packed if it is, unless all has to be plain."""
    style, script = part('page.css'), ''.join(map(part, SCRIPTS))
    fixed = {'watched': json.loads(part('watched.json')), 'cluster': json.loads(part('cluster.json')), 'unseen': script_class()}
    parts = {'title': html.escape(escape_title(title)), 'style': style, 'style-hash': hash_of(style), 'script': script,
             'script-hash': hash_of(script)}
    first, last = (re.sub(r'\{\{([a-z-]+)\}\}', lambda found: parts[str(found[1])], half) for half in part('page.html').split('{{data}}'))
    return chain([first, in_script({**small, **fixed})[:-1], ','], pieces_packed(large, is_plain), [last])


def pieces_packed(large: dict[str, object], is_plain: bool) -> Iterator[str]:
    """JSON for the rest of a dictionary, after what has its first brace: as it is, or packed."""
    begin, size, rest = list[str](), 0, pieces_of(large)
    next(rest)      # its brace
    while size <= MOST_PLAIN and (piece := next(rest, '')):
        begin.append(piece)
        size += len(piece)
    if is_plain or size <= MOST_PLAIN:
        return chain(begin, rest)
    return iter(['"packed":"', packed(chain(begin, rest)), '"}'])


def packed(pieces: Iterable[str]) -> str:
    """Pieces of JSON but for its first brace, compressed, in base64."""
    pack = zlib.compressobj()
    data = pack.compress(b'{') + b''.join(pack.compress(piece.encode()) for piece in pieces) + pack.flush()
    return binascii.b2a_base64(data, newline=False).decode()


def made(given: argparse.Namespace, lines: Iterable[bytes] | None) -> Iterator[str]:
    """What is to be written, in pieces: the watch list, or the page of what is read."""
    if given.watched:
        return iter(['\t'.join(pair) + '\n' for pair in watched()])
    if lines is None and os.isatty(0) or given.output is None and os.isatty(1):
        raise Refused('rows come from a pipe or a file, and the page goes into a file: '
                      'rbacaudit matrix --once *.json | rbacaudit-page --output access.html')
    # (a file that can't be written is refused before rows are read for it)
    if given.output is not None and os.path.isdir(given.output):
        raise Refused('%s is a folder: name a file in it' % given.output)
    folder = os.path.dirname(os.path.realpath(given.output or '.'))
    if not os.path.isdir(folder):
        raise Refused('there is no folder %s for the page' % folder)
    (small, large), progress, rows = beside(given), Progress(PROGRAM, 40), Rows()
    try:
        is_whole = rows.read(open(0, 'rb', closefd=False) if lines is None else lines, progress)
    finally:
        progress.erase()
    return page(given.title, {'whole': is_whole, **small}, {'rows': rows.coded(), **large}, given.plain)


# ---- lines

def lines_of(lines: Iterable[bytes], name: str) -> Iterator[tuple[str, str]]:
    """Each line with its place, for messages."""
    for number, line in enumerate(lines, 1):
        place = '%s line %d' % (name, number)
        try:
            yield place, line.decode().removesuffix('\n')
        except UnicodeDecodeError:
            raise Refused(place + ': not UTF-8') from None


def listed(path: str, form: re.Pattern[str], what: str) -> list[str]:
    """The lines of a file, each of which has to have this form."""
    found: list[str] = []
    with open(path, 'rb') as file:
        for place, line in lines_of(file, path):
            if len(found) == MOST_LINES:
                raise Refused('%s has more than %d lines, too many for a page' % (path, MOST_LINES))
            if not form.fullmatch(line):
                raise Refused('%s: no line of %s' % (place, what))
            found.append(line)
    return found


def about(path: str) -> dict[str, str]:
    """What the about.txt of an export says of where, when and of what namespace it is."""
    with open(path, encoding='utf-8', errors='replace') as file:
        return {found[1]: found[2] for found in map(ABOUT.fullmatch, file.read().split('\n')) if found}


def coded(lines: Sequence[str], fields: int) -> dict[str, object]:
    """Lines as a list of words for each field, and a column of places in it, in base64."""
    words, columns = [], []
    for column in zip(*(line.split('\t') for line in lines)) if lines else [()] * fields:
        places: dict[str, int] = {}
        numbers = [places.setdefault(word, len(places)) for word in column]
        packed = array('B' if len(places) <= 1 << 8 else 'H' if len(places) <= 1 << 16 else 'I', numbers)
        if sys.byteorder == 'big':
            packed.byteswap()
        words.append(list(places))
        columns.append(binascii.b2a_base64(packed.tobytes(), newline=False).decode())
    return {'count': len(lines), 'words': words, 'columns': columns}


# ---- paths

PATHS, WAYS = 'rbacaudit paths', 'rbacaudit who-can --indirect'
PLACE, WHERE = '[1-9][0-9]{0,8}', r'(?!-\t)' + FIELD
# Whoever takes over another, with the grant that allows it: a user or a group, a role, and everything.
HOLDERS = ((PRINCIPAL + '\t-', (BINDING, ROLE, ROLE, PLACE, PLACE)), ('%s\t%s' % (ROLE, WHERE), ('-', ROLE, ROLE, PLACE, '-')),
           (r'\*\t' + WHERE, ('-',) * 5))


def path_forms() -> dict[str, re.Pattern[str]]:
    """What a line of paths and one of who-can --indirect look like."""
    node = '(?:%s)' % '|'.join(holder for holder, _ in HOLDERS)
    taken = '|'.join('\t'.join((holder, STEP, *why)) for holder, why in HOLDERS)
    own = '|'.join('\t'.join(('0', holder, '-', '-', '-', *why)) for holder, why in HOLDERS)
    taking = '|'.join('\t'.join((PLACE, holder, node, STEP, *why)) for holder, why in HOLDERS)
    return {PATHS: re.compile('%s\t%s\t(?:%s)' % (PLACE, node, taken)), WAYS: re.compile('%s|%s' % (own, taking))}


class Answers:
    """What the files after --paths have: all lines, which of them are one answer, and the files without lines."""

    def __init__(self) -> None:
        self.forms, self.lines, self.empty = path_forms(), list[str](), list[str]()
        self.found: list[tuple[str | None, str, int]] = []  # the file's name, if it is one of who-can; about whom it is, if not; its first line
        self.asked: dict[str, str] = {}     # where the answer about each principal begins
        self.steps: dict[str, int] = {}     # of the last answer: how far each node so far is
        self.most = 0

    def read(self, path: str) -> None:
        """Reads a file: of paths, one answer or several; or of who-can --indirect, whose first line has no steps."""
        if path == '-':
            raise Refused('--paths -: standard input has the rows: write the lines into a file')
        form, before = '', len(self.lines)
        with open(path, 'rb') as file:
            for place, line in lines_of(file, path):
                kind = form or (WAYS if line.startswith('0\t') else PATHS)
                if not self.forms[kind].fullmatch(line):
                    raise Refused('%s: no line of %s' % (place, form or 'rbacaudit paths or who-can --indirect'))
                if len(self.lines) == MOST_LINES:
                    raise Refused('%s: --paths has more than %d lines, too many for a page: give the paths of fewer principals, or some steps of them, '
                                  'by paths --steps' % (place, MOST_LINES))
                number, node, where, other, there = line.split('\t', 5)[:5]
                is_first, other = not form, other + '\t' + there
                if is_first or kind == PATHS and number == '1' and (other != self.found[-1][1] or self.most > 1):
                    self.begin(os.path.basename(path) if kind == WAYS else None, other, place)
                form = kind
                self.take(line, int(number), node + '\t' + where, other, place)
        if len(self.lines) == before:
            self.empty.append(os.path.basename(path))

    def begin(self, name: str | None, other: str, place: str) -> None:
        """Begins an answer; one of paths is about a principal that no other answer is about."""
        if name is None and not other.endswith('\t-'):
            raise Refused(place + ': no principal comes before this line')
        if name is None and other in self.asked:
            raise Refused('%s: the paths of this principal are there already, from %s on' % (place, self.asked[other]))
        self.steps, self.most = {other: 0} if name is None else {}, 0
        if name is None:
            self.asked[other] = place
        self.found.append((name, other, len(self.lines)))

    def take(self, line: str, steps: int, node: str, other: str, place: str) -> None:
        """Takes a line of the last answer: the page leads from it to a line above."""
        if steps < self.most or steps and self.steps.get(other) != steps - 1:
            raise Refused(place + ': no line above is one step nearer: give all lines that were printed, in their order')
        if node in self.steps:
            raise Refused(place + ': the same as a line above')
        self.steps[node] = self.most = steps
        self.lines.append(line)

    def coded(self) -> dict[str, object]:
        """For the page. An answer has its file's name or whom it is about, its first line, and the one after its last."""
        ends = [first for *_, first in self.found[1:]] + [len(self.lines)]
        return {'answers': [[name, other.removesuffix('\t-') if name is None else None, first, end] for (name, other, first), end in zip(self.found, ends)],
                'empty': self.empty, 'lines': coded(self.lines, 11)}


# ---- what is written

def replace(path: str, pieces: Iterable[bytes]) -> None:
    """Puts data in the place of a file, whole or not at all; what is no file, such as a pipe, is written to."""
    path = os.path.realpath(path)
    if os.path.exists(path) and not os.path.isfile(path):
        with open(path, 'wb') as out:
            out.writelines(pieces)
        return
    new = '%s.%d.new' % (path, os.getpid())
    try:
        with open(new, 'xb') as out:
            out.writelines(pieces)
        with suppress(FileNotFoundError):
            shutil.copymode(path, new)
        os.replace(new, path)
    finally:
        with suppress(FileNotFoundError):
            os.remove(new)


def main(words: Sequence[str], rows: Iterable[bytes] | None = None) -> int:
    """The program rbacaudit-page: its status. Rows stand for standard input, and then signals are the caller's."""
    for number in () if rows is not None else (signal.SIGINT, signal.SIGTERM, signal.SIGHUP):
        signal.signal(number, lambda number, _: sys.exit(128 + number))     # (so that nothing half written stays behind)
    given = read_options(words)
    try:
        pieces = (piece.encode() for piece in made(given, rows))
    except (Refused, OSError) as fault:
        report('%s: %s' % (fault.filename or 'standard input', fault.strerror) if isinstance(fault, OSError) else str(fault), PROGRAM)
        return 2
    try:
        if given.output is not None and not given.watched:
            replace(given.output, pieces)
        else:
            with open(1, 'wb', closefd=False) as out:
                out.writelines(pieces)
    except OSError as fault:
        report("the %s can't be written: %s" % ('watch list' if given.watched else 'page', fault.strerror), PROGRAM)
        return 2
    return 0
