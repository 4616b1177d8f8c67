"""Questions to rbacaudit, what is said of its faults, and how an answer is shown."""

from __future__ import annotations

import json
import os
import re
import select
from collections.abc import Callable, Iterable, Iterator
from dataclasses import dataclass, field
from typing import Any, TypeVar

from .escapes import bytes_of, text_of
from .export import Export, look_at_about, open_export
from .options import Options
from .processes import PIPE, Child, Done, Session
from .question import Question, choose_namespace
from .terminal import Ended, print_text

TYPE_CHECKING = False
if TYPE_CHECKING:
    from .manifests import Manifests

T = TypeVar('T')
FAULT = re.compile(r'^rbacaudit: file (\d+)(?: item (\d+))?(?:: (.*)| .*)$', re.M)
MOST_COUNTED = 1000000
REPEATED = re.compile(rb'^[^\t\n]*\t(?!-\t)[^\t\n]*\t.*\tClusterRoleBinding/[^\t\n]*$', re.M)
LONG = 1    # the seconds after which a terminal says what is awaited
WHOLE = ('sarif', 'dot')    # forms without lines, whose texts are escaped already
LAST = re.compile(rb'^(?:end|next\t.*)$', re.M)


@dataclass
class Asking:
    """What is asked, and of what."""
    session: Session
    options: Options
    question: Question
    export: Export | None = None
    manifests: dict[str, Manifests] = field(default_factory=dict)     # by the path of the list that rbacaudit reads

    def files(self, *parts: str) -> list[str]:
        """The files of the export for these parts; without any, for those that the question reads."""
        return self.export.files(*(parts or self.question.parts()[0])) if self.export else []

    @property
    def all_files(self) -> list[str]:
        """The files that rbacaudit reads for the question: the FILEs, and then those of the export."""
        return [*self.question.files, *self.files()]


def open_asking(session: Session, options: Options, question: Question) -> Asking:
    """A question with what it is asked of: an export or a cluster."""
    return Asking(session, options, question, open_export(session, options, question, options.export))


# ---- calls of rbacaudit

def ask(asking: Asking, line: list[str], files: list[str]) -> Done:
    """Asks, and reports a fault. `files` are those of the line, as rbacaudit counts them."""
    done = asking.session.capture(['rbacaudit', *line])
    report_fault(asking, done.err, files)
    return done


def ask_well(asking: Asking, line: list[str], files: list[str]) -> Done:
    """The same, where a fault ends the run."""
    done = ask(asking, line, files)
    if done.status > 1:
        raise Ended(done.status)
    return done


def report_fault(asking: Asking, said: str, files: list[str]) -> None:
    """Passes on the fault that rbacaudit has ended with; one of a file by the file's name and object, with what to do."""
    asking.session.say(said)
    found = FAULT.search(said)
    if found and int(found[1]) <= len(files):
        name_file(asking, files[int(found[1]) - 1], found)
    if re.search('^rbacaudit: M11 ', said, re.M):
        from .advice import advise_on_grants
        advise_on_grants(asking)
    if re.search('^rbacaudit: P4 ', said, re.M):
        from .advice import advise_on_universe
        advise_on_universe(asking, files)


def name_file(asking: Asking, path: str, found: re.Match[str]) -> None:
    """Says which file and object a fault is of."""
    from .advice import advise, find_culprit
    item, fault, name = int(found[2] or 0), found[3] or '', path
    culprit = '' if fault.startswith(('M1 ', 'I')) else find_culprit(path, item)
    if culprit:
        culprit = ('; item %d of it is %s' % (item, culprit)) if item else ', ' + culprit
    manifests = asking.manifests.get(path)
    if manifests:
        name = manifests.named + ' as kubectl reads it'
        origin = manifests.origins[item - 1] if item else manifests.named
        culprit += ', in ' + origin if origin != manifests.named else ''
    elif asking.export and asking.export.is_fresh and os.path.dirname(path) == asking.export.folder:
        name = os.path.basename(path) + ' of the fresh export'
        culprit += '; kubectl rbacaudit export DIR would keep it'
    asking.session.report('file %s is %s%s' % (found[1], name, culprit))
    advise(asking, path, fault, item or None)


# ---- how an answer is shown

def ask_shown(asking: Asking, line: list[str], files: list[str], counts: Counts | None = None, awaited: Callable[[], str] | None = None) -> int:
    """Asks, and shows what rbacaudit prints as it comes; the status. `awaited` tells what comes, if that takes its time."""
    def take(child: Child) -> int:
        if awaited:
            wait_for(asking, child, awaited)
        return show_lines(asking, lines_of(child, counts))
    is_plain = counts is None and asking.options.format == 'tsv' and not os.isatty(1)
    status, shown = ask_as_it_comes(asking, line, files, None if is_plain else take)
    return max(status, shown) if status <= 1 else status


def wait_for(asking: Asking, child: Child, awaited: Callable[[], str]) -> None:
    """Returns when a child has begun to print. If that takes more than a second, a terminal says what is awaited."""
    if os.isatty(2) and not select.select([child.stdout], [], [], LONG)[0]:
        asking.session.progress.draw(awaited())
        select.select([child.stdout], [], [])
        asking.session.progress.erase()


def ask_as_it_comes(asking: Asking, line: list[str], files: list[str], take: Callable[[Child], int] | None) -> tuple[int, int]:
    """Asks, and lets a filter take what rbacaudit prints as it comes, or nobody; both statuses."""
    status, taken, said = run_beside(asking.session, line, take or (lambda _: 0), stdout=PIPE if take else None)
    # (a filter that has ended takes no more lines)
    if not taken or not said.startswith('rbacaudit: write failed'):
        report_fault(asking, said, files)
    return status, taken


def run_beside(session: Session, line: list[str], use: Callable[[Child], T], **how: Any) -> tuple[int, T, str]:
    """Runs rbacaudit beside what uses its standard files: its status, what that gives, and what it said."""
    with open(session.path('said'), 'w+b') as said:
        child = session.start(['rbacaudit', *line], stderr=said, **how)
        used = use(child)
        status = session.end(child)
        said.seek(0)
        return status, used, text_of(said.read())


def lines_of(child: Child, counts: Counts | None = None) -> Iterator[bytes]:
    """The lines that a child prints, as soon as it has written them."""
    assert child.stdout is not None
    rest = b''
    while data := child.stdout.read1(1 << 16):  # type: ignore[attr-defined]
        whole, newline, rest = (rest + data).rpartition(b'\n')
        lines = (whole + newline).splitlines(True)
        if counts:
            counts.take(lines)
        yield from lines
    if rest:
        yield rest


def show_lines(asking: Asking, lines: Iterable[bytes], rules: str | None = None) -> int:
    """Shows lines by -o; the status is 2 if that failed."""
    options = asking.options
    if options.format in ('table', 'wide', 'json', 'name'):
        from .show import show
        return show(lines, options.format, headers=not options.headless, color=options.color or 'auto', rules=rules)
    if os.isatty(1):
        for line in lines:
            print_text(text_of(line))
    else:
        with open(1, 'wb', buffering=1 << 16, closefd=False) as out:
            out.writelines(lines)
    return 0


def show_text(asking: Asking, text: str, rules: str | None = None) -> int:
    """Shows an answer that was kept."""
    if asking.options.format in WHOLE:
        print_text(text, as_json=True)
        return 0
    return show_lines(asking, bytes_of(text).splitlines(True), rules)


@dataclass
class Counts:
    """Rows of a matrix, and those that --once leaves out: of the first million."""
    rows: int = 0
    repeated: int = 0

    def take(self, lines: list[bytes]) -> None:
        if self.rows < MOST_COUNTED:
            text = b''.join(lines)
            self.rows += len(lines) - len(LAST.findall(text))
            self.repeated += len(REPEATED.findall(text))


# ---- answers

def open_question(session: Session, options: Options, question: Question) -> Asking:
    """What a question is asked of, an export or a cluster, once what is odd about it has been said."""
    choose_namespace(session, options, question, look_at_about(options.export).namespace if options.export else '')
    if question.command == 'matrix' and question.files:
        from .remarks import look_for_universes
        look_for_universes(session, question.files, question.once)
    asking = open_asking(session, options, question)
    if question.command in ('can-i', 'who-can', 'rules', 'paths'):
        from .remarks import remark_on_question
        remark_on_question(asking)
    return asking


def answer(asking: Asking) -> int:
    """Answers, and then says so if the cluster may answer differently."""
    question, form, stale = asking.question, asking.options.format, ''
    files = asking.all_files
    line = [*question.line, *files]
    if question.command != 'lint':
        from .remarks import find_stale
        stale = ', '.join(find_stale(asking))
    has_words = question.why and question.command in ('can-i', 'who-can') and form in ('table', 'wide')
    if form in WHOLE or has_words or (stale and question.command in ('who-can', 'rules', 'powers', 'paths')):
        done = ask(asking, line, files)
        text = whole_of(asking, done) if form in WHOLE else done.out
        status = show_text(asking, text, find_rules(asking, done) if has_words and not done.status else None) or done.status
    else:
        status = list_rows(asking, line, files) if question.command == 'matrix' else ask_shown(asking, line, files)
        done = Done(status)
    if stale and status <= 1:
        from .remarks import remark_on_stale
        remark_on_stale(asking, stale, line, done)
    return status


def whole_of(asking: Asking, done: Done) -> str:
    """An answer in a form that has no lines: nothing of one that isn't whole."""
    from .fields import rows_of
    if done.status > 1:
        return ''
    if asking.options.format == 'sarif':
        from .sarif import of_lint
        return of_lint(asking, rows_of(done.out))
    from .dot import graph_of
    return graph_of(asking.question.places[0], rows_of(done.out))


def list_rows(asking: Asking, line: list[str], files: list[str]) -> int:
    """Answers with a matrix, and then says so if --once leaves out more than half of its rows."""
    counts = None if asking.question.once else Counts()
    status = ask_shown(asking, line, files, counts)
    if counts and not status and 2 * counts.repeated > counts.rows:
        asking.session.report('%d of the first %d rows repeat for a namespace what somebody may do in the whole cluster; --once leaves them '
                              'out' % (counts.repeated, counts.rows))
    return status


# ---- the words of rules

def find_rules(asking: Asking, done: Done) -> str | None:
    """The lines of `rules` for the rules that an answer names, or nothing where a FILE can't be read twice, or rbacaudit refuses them. They
    are those of a made-up user, to whom bindings that are put over the same files give the roles."""
    files = asking.question.files
    if not all(os.path.isfile(path) and os.access(path, os.R_OK) for path in files):
        return None
    probe = json.dumps({'apiVersion': 'v1', 'kind': 'List', 'items': [*bindings_of(done.out)]}, ensure_ascii=False)
    line = ['rules', '--', 'u:/', *files, asking.session.write('probe.json', probe), *asking.files('cluster.json', 'namespaced.json')]
    found = asking.session.capture(['rbacaudit', *line])
    return None if found.status else found.out


def bindings_of(answer: str) -> Iterable[dict[str, object]]:
    """Bindings that give one user the roles with the rules of these lines. (a Role with a further / in its namespace or name is left out:
    nobody can tell in which)"""
    from .fields import text_of as text_of_field
    rows = (line.split('\t') for line in answer.split('\n'))
    for number, source in enumerate(dict.fromkeys(cells[-3] for cells in rows if len(cells) > 4)):
        kind, *places = source.split('/', 1 if source.startswith('C') else -1)
        if len(places) < 3:
            namespace, name = (text_of_field(place) if place else '' for place in ['', *places][-2:])
            yield {'apiVersion': 'rbac.authorization.k8s.io/v1', 'kind': kind + 'Binding', 'metadata': {'name': '/%d' % number, 'namespace': namespace},
                   'roleRef': {'kind': kind, 'name': name}, 'subjects': [{'kind': 'User', 'name': '/'}]}
