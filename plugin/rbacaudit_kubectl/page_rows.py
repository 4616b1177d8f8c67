"""The rows of a matrix as a page holds them: what is had together stands once, with who has it where.

Rows are read one by one, and none is kept. What stays of them, and goes into the page as `rows`:

- `words`: for each field of a row its words, in the order of FIELDS.
- `entries`: requests without who and where. Four columns say where the verb, the API group, the resource and the name are among the
  words. Entries are in the order of the matrix.
- `sets`: lists of different entries, in order, each list once: how many entries each has, and the entries.
- `runs`: rows that follow one another, of one principal in one namespace: three columns with the principal, the namespace, and
  how many grants the run has.
- `grants`: a binding, and the set of what it gives in that run; two columns.
- `count`: how many rows there are.

A list of numbers has the differences: each number less the one before, the first one as it is. The rows of a run are the entries of its
grants in order; of one entry, in the order of the grants. Rows that aren't in the order of a matrix are in several runs, so these are
always the same rows in the same order.
"""

from __future__ import annotations

import operator
import re
import time
from array import array
from collections.abc import Iterable, Iterator, Sequence
from itertools import islice

from .escapes import bytes_of, text_of
from .fields import FIELD, PRINCIPAL
from .fields import text_of as text_of_field
from .terminal import Progress, Refused

FIELDS = ('who', 'namespace', 'verb', 'group', 'resource', 'name', 'binding')
ROW_FORM = PRINCIPAL + '(?:\t%s){5}\t(?:Cluster)?RoleBinding/%s' % (FIELD, FIELD)
ROW = re.compile(ROW_FORM)
EACH = 20_000           # how many rows are read between two texts of a line of progress
LONGEST_RUN = 65_536    # the rows of a run are held until it ends, so longer ones are parted
MOST_PARTS = 4_000_000  # what a browser holds: entries of sets, grants, and runs and words, each of which takes the room of two
MOST_TEXT = 200_000_000     # the bytes of all words
NO_PREFIX = b'\n\n'     # no line begins so


def key_of(tail: bytes) -> bytes:
    """A key by which entries are in the order of a matrix: text by text, and byte by byte."""
    return b'\0'.join(bytes_of(text_of_field(field)) for field in text_of(tail).split('\t'))


def rank_of(binding: bytes) -> bytes:
    """A key by which bindings are in order: those of the cluster, then by namespace and name."""
    kind, _, name = text_of_field(text_of(binding[:-1])).partition('/')
    return bytes_of('0' + name if kind.startswith('Cluster') else '1' + name.replace('/', '\0', 1))


def is_rising(keys: Sequence[bytes]) -> bool:
    """Whether each key is greater than the one before."""
    return all(map(operator.lt, keys, islice(keys, 1, None)))


def differences(numbers: Iterable[int]) -> Iterator[int]:
    """Each number less the one before."""
    before = 0
    for number in numbers:
        yield number - before
        before = number


def texts_of(words: Iterable[bytes]) -> Iterator[str]:
    """The texts of words."""
    return (word.decode().removesuffix('\n') for word in words)


class Rows:
    """What stays of the rows that were read."""

    def __init__(self, most_parts: int = MOST_PARTS, most_text: int = MOST_TEXT) -> None:
        self.most_parts, self.most_text = most_parts, most_text
        self.count = self.number = 0        # of rows, and of the lines that were read before
        self.last = ''
        self.who, self.namespaces, self.tails, self.bindings = dict[bytes, int](), dict[bytes, int](), dict[bytes, int](), dict[bytes, int]()
        self.keys = list[bytes]()           # of the tails: those are the entries in the order in which they came
        self.binders = list[bytes]()        # the bindings, by their numbers, each with the end of its line
        self.sets = dict[bytes, int]()      # each as the bytes of an array of tails
        self.members = self.text = 0        # of all sets; bytes of all words
        self.runs = array('I'), array('I'), array('I')
        self.grants = array('I'), array('I')
        self.run = 0, 0                     # the principal and the namespace of the rows that are held
        self.held, self.bound = list[int](), list[int]()    # their tails and bindings

    # ---- reading

    def read(self, lines: Iterable[bytes], progress: Progress) -> bool:
        """Reads a matrix; whether its last line says that these are all rows. Without such a line it is refused."""
        prefix, rest, began = NO_PREFIX, iter(lines), time.monotonic()
        while block := list(islice(rest, EACH)):
            prefix = self.read_block(block, prefix)
            self.number += len(block)
            self.count = self.number - bool(self.last)
            if len(self.held) >= LONGEST_RUN:
                self.end_run()
            self.check_parts()
            if self.count % EACH == 0 and not self.last:
                seconds = int(time.monotonic() - began)
                progress.draw('{:,} rows read'.format(self.count) + (', %d s' % seconds if seconds else ''))
        if not self.last:
            raise Refused('standard input has no last line, end or next, so rows may be missing: did rbacaudit matrix fail? '
                          'A filter before the page has to let that line through')
        self.check_parts()
        return self.last == 'end'

    def read_block(self, block: Sequence[bytes], prefix: bytes) -> bytes:
        """Reads some lines; a line of the same run begins with this prefix, and the next one may begin with what is returned."""
        tails, bindings, held, bound, size = self.tails, self.bindings, self.held, self.bound, len(prefix)
        for at, line in enumerate(block):
            if not line.startswith(prefix):
                prefix = self.begin_run(line, self.number + at + 1)
                size = len(prefix)
                if self.last:
                    continue
            tail, _, binding = line[size:].rpartition(b'\t')
            entry, binder = tails.get(tail), bindings.get(binding)
            if entry is None or binder is None:
                entry, binder = self.take(line, tail, binding, self.number + at + 1)
            held.append(entry)
            bound.append(binder)
        return prefix

    def checked(self, line: bytes, number: int) -> str:
        """The text of a line, which is a row."""
        try:
            text = line.decode().removesuffix('\n')
        except UnicodeDecodeError:
            raise Refused('standard input line %d: not UTF-8' % number) from None
        if self.last:
            raise Refused('standard input line %d: follows the last line of a matrix, %s: give one matrix' % (number, self.last.split('\t')[0]))
        if text != 'end' and not text.startswith('next\t') and not ROW.fullmatch(text):
            raise Refused('standard input line %d: no row of a matrix' % number)
        return text

    def begin_run(self, line: bytes, number: int) -> bytes:
        """Begins a run with a row, or ends all with a last line; how the other rows of the run begin."""
        text = self.checked(line, number)
        self.end_run()
        if not text.startswith(('u:', 'g:')):
            self.last = text
            return NO_PREFIX
        who, namespace, _ = line.split(b'\t', 2)
        self.run = self.place(self.who, who), self.place(self.namespaces, namespace)
        return who + b'\t' + namespace + b'\t'

    def take(self, line: bytes, tail: bytes, binding: bytes, number: int) -> tuple[int, int]:
        """The places of a tail and a binding, one of which may be new."""
        self.checked(line, number)
        if tail not in self.tails:
            self.keys.append(key_of(tail))
        binding = binding.removesuffix(b'\n') + b'\n'   # (a last line may lack its end)
        if binding not in self.bindings:
            self.binders.append(binding)
        return self.place(self.tails, tail), self.place(self.bindings, binding)

    def place(self, places: dict[bytes, int], word: bytes) -> int:
        """The place of a word, which may be new."""
        if word not in places:
            self.text += len(word)
        return places.setdefault(word, len(places))

    # ---- runs

    def end_run(self) -> None:
        """Takes the rows that are held as a run, or as several."""
        held, bound = self.held, self.bound
        if held and bound.count(bound[0]) == len(bound):
            if array('I', held).tobytes() in self.sets or is_rising([self.keys[entry] for entry in held]):
                self.add_run({bound[0]: held})
            else:
                self.part_run()
        elif held and is_rising([self.keys[entry] for entry in held]):
            found: dict[int, list[int]] = {}
            for entry, binding in zip(held, bound):
                found.setdefault(binding, []).append(entry)
            self.add_run(found)
        elif held:
            self.part_run()
        held.clear()
        bound.clear()

    def part_run(self) -> None:
        """Takes rows of which some have one request, or aren't in order: a row that isn't after the one before begins another run."""
        ranks = {binding: rank_of(self.binders[binding]) for binding in set(self.bound)}
        before, found = (b'', b''), dict[int, list[int]]()
        for entry, binding in zip(self.held, self.bound):
            now = self.keys[entry], ranks[binding]
            if found and now <= before:
                self.add_run({one: found[one] for one in sorted(found, key=ranks.__getitem__)})
                found = {}
            before = now
            found.setdefault(binding, []).append(entry)
        self.add_run({one: found[one] for one in sorted(found, key=ranks.__getitem__)})

    def add_run(self, found: dict[int, list[int]]) -> None:
        """Adds a run: what each binding gives in it."""
        for column, number in zip(self.runs, (*self.run, len(found))):
            column.append(number)
        for binding, entries in found.items():
            key, known = array('I', entries).tobytes(), len(self.sets)
            self.grants[0].append(binding)
            self.grants[1].append(self.sets.setdefault(key, known))
            self.members += len(entries) if len(self.sets) > known else 0

    # ---- limits

    def check_parts(self) -> None:
        """Refuses what no browser holds."""
        words = len(self.who) + len(self.namespaces) + len(self.tails) + len(self.bindings)
        parts = self.members + len(self.grants[0]) + 2 * (len(self.runs[0]) + words)
        if parts > self.most_parts or self.text > self.most_text:
            size = '%d parts' % self.most_parts if parts > self.most_parts else '%d bytes of names' % self.most_text
            raise Refused('the first %d rows make more than %s, too many for a page in a browser: %s' % (self.count, size, self.advice()))

    def advice(self) -> str:
        """What makes rows fewer that are too many for a page."""
        names, words, grant = list(self.namespaces), self.binders, 0
        for namespace, length in zip(*self.runs[1:]):
            if names[namespace] != b'-' and any(words[binding].startswith(b'Cluster') for binding in self.grants[0][grant:grant + length]):
                return 'matrix --once lists once what holds in the whole cluster'
            grant += length
        if any(not tail.endswith(b'\t-') for tail in self.tails):
            return 'leave out the names of objects, by "names": [""] in a Universe document'
        return ('make the page of one namespace, as kubectl rbacaudit page -n NS does, or a Universe document with fewer principals, namespaces or '
                'resources')

    # ---- for the page

    def coded(self) -> dict[str, object]:
        """The rows as the page has them, which are taken from here: lists of numbers and of words come as they are read."""
        order = array('I', sorted(range(len(self.keys)), key=self.keys.__getitem__))
        ranks = array('I', bytes(4 * len(order)))
        for rank, entry in enumerate(order):
            ranks[entry] = rank
        self.keys.clear()
        columns = [Column(tail.split(b'\t')[at] for tail in self.tails) for at in range(4)]
        self.tails.clear()
        members = (ranks[entry] for key in self.sets for entry in array('I', key))
        return {'count': self.count,
                'words': [texts_of(words) for words in (self.who, self.namespaces, *(column.places for column in columns), self.binders)],
                'entries': [differences(map(column.numbers.__getitem__, order)) for column in columns],
                'sets': [differences(len(key) // 4 for key in self.sets), differences(members)],
                'runs': [differences(column) for column in self.runs], 'grants': [differences(column) for column in self.grants]}


class Column:
    """A column of fields: the place of each word, and for each field that of its word."""

    def __init__(self, fields: Iterable[bytes]) -> None:
        self.places = dict[bytes, int]()
        self.numbers = array('I', (self.places.setdefault(field, len(self.places)) for field in fields))
