"""The paths of a page: whom and what everybody with a power can take over, as far as time and room allow."""

from __future__ import annotations

import os
import re
import time
from collections import deque
from collections.abc import Iterator, Sequence

from .answer import Asking, ask_well
from .escapes import bytes_of, text_of
from .fields import rows_of
from .fields import text_of as text_of_field
from .kubectl import GROUPS
from .processes import Child
from .terminal import Ended

SECONDS = 60            # how long principals are asked about
MOST_WHOLE = 150_000    # the lines of answers that the page has whole
MOST_LINES = 200_000    # of all answers: with more a page opens slowly
MOST_PLACES = 3         # to how many places of everything the paths stay, of an answer that isn't whole
AT_ONCE = 4             # how many questions are asked at the same time
LONGEST_WORD = 131_071  # bytes
EVERYTHING = re.compile(r'^([0-9]+)\t(\*\t[^\t]+)', re.M)
# How a line begins that leads to a user, a group, a service account, and a role.
ACCOUNT = re.compile(r'^[0-9]+\tu:system:serviceaccount:[^:\t]+:[^:\t]+\t', re.M)
USER, GROUP, ROLE = (re.compile(r'^[0-9]+\t' + begin, re.M) for begin in ('u:', 'g:', '(?:Cluster)?Role/'))


def reach_of(key: str, text: str) -> str:
    """How far an answer reaches, as rbacaudit-page takes it: WHO; in how many steps everything in the whole cluster; and how many namespaces
    with everything, users, groups, service accounts, roles, lines and steps there are."""
    everything = dict((where[2:], steps) for steps, where in EVERYTHING.findall(text))
    whole, places = everything.pop('*', '-'), len(everything)
    users, groups, accounts, roles = (len(form.findall(text)) for form in (USER, GROUP, ACCOUNT, ROLE))
    last = text[text.rfind('\n', 0, -1) + 1:]
    return '\t'.join(map(str, (key, whole, places, users - accounts, groups, accounts, roles, text.count('\n'), last.split('\t')[0])))


def shortened(text: str) -> str:
    """The lines of an answer that lead to everything, in the whole cluster or else in some namespaces; without such, some first lines."""
    found = EVERYTHING.findall(text)
    nodes = [node for node in found if node[1] == '*\t*'] or found[:MOST_PLACES]
    begins, whole = set[int](), '\n' + text
    for steps, node in nodes:
        for left in range(int(steps), 0, -1):
            begin = whole.index('\n%d\t%s\t' % (left, node))
            begins.add(begin)
            node = '\t'.join(whole[begin:whole.index('\n', begin + 1)].split('\t', 5)[3:5])
    if not begins:
        return ''.join(text.splitlines(True)[:MOST_PLACES])
    return ''.join(text[begin:text.index('\n', begin) + 1] for begin in sorted(begins))


class Paths:
    """The answers of `paths` about each principal of some lines of `powers`; `reach` has how far those go that aren't whole, and `unasked` the
    principals without an answer, as printed."""

    def __init__(self, asking: Asking, seconds: float = SECONDS) -> None:
        self.asking, self.seconds = asking, seconds
        self.files = [*asking.question.files, *asking.files('cluster.json', 'namespaced.json', 'accounts.json', GROUPS)]
        self.answers, self.reach, self.unasked, self.lines = list[str](), list[str](), list[str](), 0

    def ask(self) -> None:
        """Asks about whoever has the most powers first."""
        found = by_powers(rows_of(ask_well(self.asking, ['powers', '--', *self.files], self.files).out))
        keys = [key for key in found if is_word(key)]
        self.unasked += (key for key in found if not is_word(key))
        waiting, running, ends = deque(keys), deque[tuple[str, str, Child]](), time.monotonic() + self.seconds
        while waiting or running:
            while waiting and len(running) < min(AT_ONCE, os.cpu_count() or 1) and time.monotonic() < ends:
                running.append(self.start(waiting.popleft(), len(keys) - len(waiting)))
            if not running:
                break
            self.take(*running.popleft())
            self.asking.session.progress.draw('asking about paths, %d of %d' % (len(keys) - len(waiting), len(keys)))
        self.asking.session.progress.erase()
        self.unasked += waiting

    def start(self, key: str, number: int) -> tuple[str, str, Child]:
        """Begins to ask about one."""
        path = self.asking.session.path('paths-%d' % number)
        with open(path, 'wb') as file:
            return key, path, self.asking.session.start(['rbacaudit', 'paths', '--', text_of_field(key), *self.files], stdout=file)

    def take(self, key: str, path: str, child: Child) -> None:
        """Takes an answer, if there is room for it."""
        status = self.asking.session.end(child)
        if status:
            raise Ended(status)
        with open(path, 'rb') as file:
            text = text_of(file.read())
        os.remove(path)
        if text and self.lines + text.count('\n') > MOST_WHOLE:
            self.reach.append(reach_of(key, text))
            text = shortened(text)
        if self.lines + text.count('\n') > MOST_LINES:
            self.reach.pop()
            self.unasked.append(key)
        else:
            self.lines += text.count('\n')
            self.answers.append(text)


def is_word(key: str) -> bool:
    """Whether a command can be asked about a key: Linux gives a program no word that is longer, and none with a zero byte."""
    text = bytes_of(text_of_field(key))
    return len(text) <= LONGEST_WORD and b'\0' not in text


def by_powers(rows: Sequence[Sequence[str]]) -> list[str]:
    """The principals of lines of powers: who has the most in the whole cluster first, and then who has the most in all."""
    counts: dict[str, tuple[int, int]] = {}
    for _, who, where, *_ in rows:
        whole, count = counts.get(who, (0, 0))
        counts[who] = whole + (where == '*'), count + 1
    return sorted(counts, key=lambda who: (-counts[who][0], -counts[who][1], who))


def words_for(paths: Paths) -> Iterator[str]:
    """The options of rbacaudit-page for these answers. (The page shows the name of a file without lines.)"""
    session = paths.asking.session
    yield from ('--paths', session.write('kubectl rbacaudit paths', ''.join(paths.answers)))
    yield from ('--reach', session.write('reach', ''.join(line + '\n' for line in paths.reach)))
    yield from ('--unasked', session.write('unasked', ''.join(key + '\n' for key in paths.unasked)))
