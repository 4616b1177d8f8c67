"""report: one document for an auditor, made of rbacaudit's answers; or the page."""

from __future__ import annotations

import json
import os
import shlex
from collections import Counter
from collections.abc import Iterator, Sequence
from dataclasses import dataclass
from typing import Any

from . import page
from .answer import Asking, ask_well, open_asking
from .documents import objects_in, text_in
from .escapes import bytes_of, on_one_line
from .export import find_about
from .fields import in_key, rows_of, text_of
from .kubectl import GROUPS
from .options import choose_format, read_options
from .page_command import write_page
from .processes import Session
from .question import Question, check_cluster
from .remarks import named_keys, stale_in
from .sarif import LINT
from .show import Reader, json_of, objects_of
from .table import BLANK
from .terminal import Refused, print_text

# The kinds of an export, with the file of each.
KINDS = {'ClusterRole': 'cluster.json', 'ClusterRoleBinding': 'cluster.json', 'Role': 'namespaced.json', 'RoleBinding': 'namespaced.json',
         'Namespace': 'namespaces.json', 'ServiceAccount': 'accounts.json', 'Group': GROUPS}
LEVELS = ('error', 'warning', 'note')
# Whoever may do this has everything in the whole cluster.
EVERYTHING = ['who-can', '--indirect', '-A', '--', '*', '*.*']
# (a text, and what stands in it, or nothing)
MISSES = [(text, '') for text in (
    'Only Group documents tell who is in a group: each line about a group holds for every member.',
    'Only RBAC counts. Other authorizers of a server may allow more, and admission may refuse more.',
    "What admission decides isn't followed: a container that takes over its node, what a volume or the labels of a namespace give.",
    "Types that other controllers turn into pods don't count as a way to run pods.")]
GAP, ALONE = 'A part of the export is missing: %s.', 'The export has the namespace %s alone.'
OF_SYSTEM = "Findings about Kubernetes' own objects are left out: %s."
TAKEOVERS = ('%d users and groups have everything in the whole cluster (0 steps), and %d take it over step by step. Each line has the first step of '
             'a shortest path: whom or what WHO takes over, and by which binding. A star as TO is everything.')
STALE = 'Aggregated roles are stale: the cluster grants what is written in them, and this report has what they gather.'


@dataclass(frozen=True)
class Report:
    """What a report has. All texts of rows are fields."""
    about: dict[str, str]
    counts: dict[str, int | None]           # of objects of each kind: nothing if the export has no file of them
    takeovers: list[list[str]]              # lines of who-can --indirect
    powers: dict[tuple[str, str], list[str]]    # by who and where
    findings: list[list[str]]
    stale: list[str]
    groups: list[str]
    misses: list[tuple[str, str]]


# ---- what it is made of

def report_of(asking: Asking) -> Report:
    """Asks for all of it."""
    roles = asking.files('cluster.json', 'namespaced.json')

    def lines(words: list[str], files: list[str] = roles) -> str:
        return ask_well(asking, [*words, *files], files).out

    assert asking.export is not None
    path = find_about(asking.session, asking.options, asking.export)
    about = page.about(path) if path else {}
    takeovers, powers = rows_of(lines(EVERYTHING, asking.files())), dict[tuple[str, str], list[str]]()
    for step, who, where, *_ in rows_of(lines(['powers', '--'])):
        powers.setdefault((who, where), []).append(step)
    linted, findings = lines(['lint', '--']), rows_of(lines(['lint', '--skip-system', '--']))
    findings.sort(key=lambda row: LEVELS.index(level_of(row)))
    stale, left_out = stale_in(linted), len(rows_of(linted)) - len(findings)
    told = {in_key('g:' + text_in(it, 'metadata', 'name')) for it in objects_in(*asking.files(GROUPS))}
    groups = sorted((key for key in named_keys(asking) or () if key.startswith('g:') and not key.startswith('g:system:') and key not in told), key=bytes_of)
    misses = [*((GAP, gap) for gap in asking.export.gaps), *[(ALONE, asking.export.only)] * bool(asking.export.only), *[(STALE, '')] * bool(stale),
              *[(OF_SYSTEM, str(left_out))] * bool(left_out), *MISSES]
    ordered = {key: powers[key] for key in sorted(powers, key=place_of_power)}
    return Report(about, counts_of(asking), takeovers, ordered, findings, stale, groups, misses)


def place_of_power(key: tuple[str, str]) -> tuple[bytes, bool, bytes]:
    """By who, and the whole cluster first."""
    return bytes_of(key[0]), key[1] != '*', bytes_of(key[1])


def level_of(finding: Sequence[str]) -> str:
    """How severe a finding is, as SARIF has it."""
    return next(rule.level for rule in LINT if rule.id == finding[0])


def counts_of(asking: Asking) -> dict[str, int | None]:
    """How many objects the export has of each kind, and how many API resource lists: nothing where none were read."""
    kinds = Counter(text_in(it, 'kind') for it in objects_in(*asking.files(*dict.fromkeys(KINDS.values()))))
    counts = {kind: kinds[kind] if kinds[kind] or asking.files(name) else None for kind, name in KINDS.items() if name != GROUPS or asking.files(name)}
    return {**counts, 'APIResourceList': len(asking.files('api')) or None}


# ---- as JSON

def json_report(report: Report) -> str:
    """One object. Its lines are objects as -o json of their commands prints them."""
    def objects(rows: list[list[str]], is_indirect: bool = False) -> list[dict[str, Any]]:
        reader = Reader(is_indirect)
        found = [json.loads(text) for text in objects_of(reader.rows_of('\t'.join(row) for row in rows))]
        if reader.fault:
            raise Refused(reader.fault)
        return found

    powers = [{'who': text_of(who), 'where': None if where == '*' else text_of(where), 'powers': steps}
              for (who, where), steps in report.powers.items()]
    findings = [{'level': level_of(row), **it} for row, it in zip(report.findings, objects(report.findings))]
    misses = [text % name if name else text for text, name in report.misses]
    return json_of({'about': report.about, 'counts': report.counts, 'takeovers': objects(report.takeovers, True), 'powers': powers,
                    'findings': findings, 'stale_aggregates': [*map(text_of, report.stale)], 'groups': [*map(text_of, report.groups)],
                    'misses': misses}) + '\n'


# ---- as Markdown

def code(text: str) -> str:
    """A name as Markdown shows it as it is: in a span of code, with neither what ends that nor what ends a cell. (about.txt and incomplete.txt of
    somebody else's export may have characters that a terminal obeys)"""
    return '`%s`' % BLANK.sub(r'\\x20', on_one_line(text)).replace('`', '\\x60').replace('|', '\\x7c') if text != '-' else ''


def table(heads: str, rows: Sequence[Sequence[str]]) -> Iterator[str]:
    """A table of cells that are Markdown."""
    for cells in [heads.split(), ['---'] * len(heads.split()), *rows] if rows else ():
        yield '| %s |' % ' | '.join(cells)
    yield '' if rows else 'None.\n'


def markdown(report: Report, folder: str) -> Iterator[str]:
    """The lines of the document. Commands have no name of the export, so they can be copied."""
    export = ' --export ' + on_one_line(shlex.quote(folder)) if folder else ''

    def part(title: str, said: str, heads: str, rows: Sequence[Sequence[str]], *commands: str) -> Iterator[str]:
        yield '\n## %s\n' % title
        yield from [said + '\n'] * bool(said)
        yield from table(heads, rows)
        yield from ('    kubectl rbacaudit ' + command % export for command in commands)

    yield '# Access report'
    yield from part('What was read', '', 'WHAT VALUE', [[name, code(text)] for name, text in report.about.items()] +
                    [[kind, 'not read' if count is None else str(count)] for kind, count in report.counts.items()], 'universe%s')
    people = [row for row in report.takeovers if row[1].startswith(('u:', 'g:'))]
    has = len([row for row in people if row[0] == '0'])
    yield from part('Who takes over the whole cluster', TAKEOVERS % (has, len(people) - has), 'STEPS WHO TO WHERE STEP BINDING',
                    [[row[0], code(row[1]), *map(code, row[3:7])] for row in people],
                    "who-can --indirect%s -A '*' '*.*'", 'paths%s WHO')
    yield from part('Powers of users and groups', 'Ways to take over somebody else or to gain permissions. `*` is the whole cluster.', 'WHO WHERE POWERS',
                    [[code(who), code(where), ', '.join(steps)] for (who, where), steps in report.powers.items()], 'powers%s', 'access%s WHO')
    yield from part('Findings', '', 'LEVEL CODE NAME OBJECT PLACE DETAIL',
                    [[level_of(row), *row[:2], *map(code, row[2:])] for row in report.findings], 'lint%s')
    yield from part('Stale aggregates', STALE if report.stale else '', 'ROLE', [[code(role)] for role in report.stale], 'lint%s --only L6')
    yield from part("Groups whose members aren't known", "Bindings name these groups, which aren't Kubernetes' own.", 'GROUP',
                    [[code(group)] for group in report.groups], 'rules%s g:GROUP')
    yield '\n## What this report misses\n'
    yield from ('- ' + (text % code(name) if name else text) for text, name in report.misses)


# ---- the command

def report_command(session: Session, words: list[str]) -> int:
    """The command report: 0 if it is written."""
    options = read_options('report', words)
    choose_format(options, 'report')
    is_page = options.format == 'html'
    if is_page and os.isatty(1):
        raise Refused('the page goes into a file: kubectl rbacaudit report -o html > access.html')
    session.need_rbacaudit()
    check_cluster(session, options)
    question = Question('matrix' if is_page else 'report')
    question.shows_paths = is_page
    asking = open_asking(session, options, question)
    if is_page:
        return write_page(asking)
    report = report_of(asking)
    print_text(json_report(report) if options.format == 'json' else ''.join(line + '\n' for line in markdown(report, options.export)))
    return 0
