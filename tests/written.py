"""What the tests of rbacaudit-page share: rows, names of strangers, the filter, and a page taken
apart.
"""

import base64
import contextlib
import html.parser
import itertools
import json
import os
import re
import struct
import subprocess
import sys
import tempfile
import zlib

from common import TOP, checked

FILTER = os.path.join(TOP, 'plugin', 'rbacaudit-page')


def rows_of(text):
    """Rows written with spaces: who, namespace, verb, group, resource, name, binding."""
    return [line.replace(' ', '\t') for line in text.strip().splitlines()]


SMALL = rows_of("""
g:devs - get - /metrics - ClusterRoleBinding/scrapers
g:devs dev create - pods - RoleBinding/dev/devs
g:devs dev get - pods - RoleBinding/dev/devs
g:devs dev get - secrets - RoleBinding/dev/devs
g:devs prod get - pods - RoleBinding/prod/readers
u:ann - create - pods/exec - ClusterRoleBinding/ops
u:ann - get - secrets - ClusterRoleBinding/ops
u:ann dev create - pods/exec - ClusterRoleBinding/ops
u:ann dev get - secrets - ClusterRoleBinding/ops
u:ann dev update - configmaps app RoleBinding/dev/ann
u:system:serviceaccount:dev:ci dev deletecollection apps deployments - RoleBinding/dev/ci
u:system:serviceaccount:dev:ci dev patch apps deployments - RoleBinding/dev/ci
""")
FINDINGS = ['L2\tunused-role\tRole/dev/old\t-\t-', 'L3\tredundant-rule\tRole/dev/ops\t2\t1',
            'L3\tredundant-rule\tRole/dev/web\t4\t3',
            'L99\tnew-code\tRole/dev/web\t1\t\\x2d']
CHANGES = ['+\tu:ann\tdev\tget\t-\tpods\t-\tRoleBinding/dev/ann',
           '-\tu:bob\t*\t*\tapps\t*\t\\x2a\tClusterRoleBinding/bobs']
# Of those who may do something only to objects of certain names: beside SMALL, ann and devs have
# some of it outright. The last binding doesn't tell its namespace.
NAMED = [line.replace(' ', '\t') for line in (
    'get - secrets g:devs RoleBinding/dev/one', 'get - secrets g:devs RoleBinding/prod/one',
    'get - secrets u:ann RoleBinding/dev/one', 'get - secrets u:zoe RoleBinding/dev/one',
    'list - secrets u:zoe RoleBinding/dev/two', 'list - secrets u:zoe ClusterRoleBinding/all',
    'create - pods/exec g:devs RoleBinding/dev/one', 'create - pods g:devs ClusterRoleBinding/pods',
    'impersonate - users u:system:serviceaccount:dev:ci ClusterRoleBinding/one-user',
    'create - serviceaccounts/token u:zoe RoleBinding/a/b/c')]
# Paths of three principals, and READERS: who may read secrets in prod, or can take over somebody who may,
# by who-can --indirect. Kim takes over everything in two steps, devs everything in dev, and ops a
# role. The lines of everything and of a role show what their grants lack.
KIM = rows_of("""
1 u:system:serviceaccount:dev:ci - u:kim - exec RoleBinding/dev/debug Role/dev/debug Role/dev/debug 1 2
2 * * u:system:serviceaccount:dev:ci - bind ClusterRoleBinding/ci ClusterRole/all ClusterRole/part 3 1
2 u:lee - u:system:serviceaccount:dev:ci - impersonate ClusterRoleBinding/ci ClusterRole/ci ClusterRole/ci 1 1
""")
DEVS = rows_of("""
1 * dev g:devs - bind RoleBinding/dev/devs ClusterRole/owner ClusterRole/owner 2 1
2 u:system:serviceaccount:dev:ci - * dev impersonate - - - - -
2 u:system:serviceaccount:dev:web - * dev impersonate - - - - -
""")
OPS = rows_of("""
1 ClusterRole/runner prod g:ops - bind RoleBinding/prod/ops Role/prod/ops Role/prod/ops 1 1
2 u:system:serviceaccount:prod:db - ClusterRole/runner prod run - ClusterRole/runner ClusterRole/runner 2 -
""")
READERS = rows_of("""
0 ClusterRole/runner prod - - - - ClusterRole/runner ClusterRole/runner 1 -
0 u:system:serviceaccount:prod:db - - - - RoleBinding/prod/db Role/prod/db Role/prod/db 1 1
1 g:ops - ClusterRole/runner prod bind RoleBinding/prod/ops Role/prod/ops Role/prod/ops 1 1
1 u:lee - u:system:serviceaccount:prod:db - token RoleBinding/prod/lee Role/prod/lee Role/prod/lee 1 1
2 u:kim - u:lee - impersonate ClusterRoleBinding/kim ClusterRole/kim ClusterRole/kim 1 1
""")
# Names of strangers as a field prints them, and what is seen of them.
NAMES = {
    '</script><script>alert(1)</script>': '</script><script>alert(1)</script>',
    '"><img src=x onerror=alert(2)>': '"><img src=x onerror=alert(2)>',
    'javascript:alert(3)': 'javascript:alert(3)', '<!--': '<!--', '-->': '-->',
    ']]>&lt;&amp;': ']]>&lt;&amp;', '{{data}}': '{{data}}',
    '`${alert(4)}`': '`${alert(4)}`', '__proto__': '__proto__', 'é中': 'é中',
    'a\\x09b\\\\x41\\x7f': 'aU+0009b\\x41U+007F',
    'x\u202eyes\u2066': 'xU+202EyesU+2066',
    'in\u200bvi\ufeffs\u00adible': 'inU+200BviU+FEFFsU+00ADible',
    'b\u00a0l\u3000k': 'bU+00A0lU+3000k',
    'line\u2028end\u0085': 'lineU+2028endU+0085', '\U000e0041tag': 'U+E0041tag',
    '\ufff9r': 'U+FFF9r', '\\x2d': '-',
    '\u2800b': 'U+2800b', ' two  blanks ': 'U+0020twoU+0020U+0020blanksU+0020',
    'm' * 1048576: 'm' * 200 + '…' + 'm' * 100 + ' 1,048,576 characters'}


def made(rows, *words, last='end', **how):
    """Status, output and error of the filter over rows."""
    given = ''.join(row + '\n' for row in [*rows, *([last] if last is not None else [])])
    ended = subprocess.run([sys.executable, how.get('path', FILTER), *words], input=given.encode(),
                           stdout=subprocess.PIPE,
                           stderr=subprocess.PIPE, timeout=120)
    return ended.returncode, ended.stdout.decode(), ended.stderr.decode()


@contextlib.contextmanager
def file_of(lines, name='lines'):
    with tempfile.TemporaryDirectory() as room:
        path = os.path.join(room, name)
        with open(path, 'w', encoding='utf-8') as file:
            file.write(''.join(line + '\n' for line in lines))
        yield path


def same(name, got, wanted):
    checked(name, got == wanted, 'got %.2000r, wanted %.2000r' % (got, wanted))


def contents(*path):
    with open(os.path.join(TOP, *path), encoding='utf-8') as file:
        return file.read()


def steps():
    """The table of steps of docs/BEHAVIOUR.md: the step, its verbs, its types, whether a
    ClusterRoleBinding alone gives it (or one in kube-system too), and whether it counts rules for any
    names."""
    table = contents('docs', 'BEHAVIOUR.md').partition('## `powers`')[2].partition('\n## ')[0]
    lines = [line.split('|')[1:-1] for line in table.splitlines() if line.startswith('| `')]
    return [(step.strip(' `'), *(re.findall('`(.*?)`', cell) for cell in (verbs, types)),
             {'a ClusterRoleBinding': True, 'any binding': False,
              'a ClusterRoleBinding, or a RoleBinding in `kube-system`': 'kube-system'}[granted.strip()],
             {'any': True, 'none': False}[names.strip()])
            for step, verbs, types, granted, names in lines]


def strangers():
    """Rows in which each name stands in each field that may have it."""
    for name in NAMES:
        yield '\t'.join(['g:' + name, name, name, name, name, name, 'RoleBinding/' + name])
        yield '\t'.join(['u:ann', '-', 'get', '-', '/' + name, '-', 'ClusterRoleBinding/' + name])


def worked_paths():
    """The questions of tests/rows_paths.json that paths and who-can --indirect answer, with their
    lines."""
    for row in json.loads(contents('tests', 'rows_paths.json'))['lines']:
        for words, _, lines in row['asks']:
            if not words.startswith('powers'):
                yield words, lines


def path_strangers():
    """Answers of paths in which each name stands in each field that may have it; the longest, in one
    line."""
    for name in NAMES:
        role, binding = 'Role/%s/%s' % (name, name), 'RoleBinding/%s/%s' % (name, name)
        lines = (['1', '*', name, 'g:' + name, '-', 'bind', binding, role, role, '1', '1'],
                 ['1', role, name, 'g:' + name, '-', 'bind', 'ClusterRoleBinding/' + name,
                  'ClusterRole/' + name, 'ClusterRole/' + name, '1', '1'],
                 ['2', 'u:' + name, '-', role, name, 'run', '-', role, role, '1', '-'],
                 ['3', '*', '*', 'u:' + name, '-', 'bind', binding, role, role, '1', '1'])
        yield from ('\t'.join(line) for line in lines[:4 if len(name) < 1000 else 1])


def named_strangers():
    """Lines of --named in which each name stands in each field that may have it."""
    for name in NAMES:
        yield '\t'.join(['create', '-', 'serviceaccounts/token', 'g:' + name,
                         'RoleBinding/%s/%s' % (name, name)])
        yield '\t'.join(['get', '-', 'secrets', 'u:' + name, 'ClusterRoleBinding/' + name])


class Parts(html.parser.HTMLParser):
    """The elements of a page with their attributes, and the texts of its title, style and
    scripts."""

    def __init__(self, text):
        super().__init__(convert_charrefs=True)
        self.elements, self.texts, self.open = [], {}, None
        self.feed(text)
        self.close()

    def handle_starttag(self, tag, attrs):
        self.elements.append((tag, dict(attrs)))
        self.open = (tag, dict(attrs).get('type')) if tag in ('title', 'style', 'script',
                                                              'h1') else None

    def handle_endtag(self, tag):
        self.open = None

    def handle_data(self, data):
        if self.open:
            self.texts[self.open] = self.texts.get(self.open, '') + data

    def data(self):
        """What the page holds, with what is packed."""
        data = json.loads(self.texts['script', 'application/json'])
        packed = data.pop('packed', None)
        return data if packed is None else {**data, **json.loads(zlib.decompress(base64.b64decode(packed)))}


def sums(differences):
    """Numbers from their differences."""
    return [*itertools.accumulate(differences)]


def parts_of(lengths, items):
    """Items as parts of these lengths."""
    ends = sums(lengths)
    return [items[end - length:end] for length, end in zip(lengths, ends)]


def rows_in(coded):
    """The rows that a page's sets stand for: those of a run in order of their entries, and of its
    grants."""
    words, entries = coded['words'], [*zip(*map(sums, coded['entries']))]
    sets = parts_of(sums(coded['sets'][0]), sums(coded['sets'][1]))
    who, namespaces, lengths = map(sums, coded['runs'])
    grants = parts_of(lengths, [*zip(*map(sums, coded['grants']))])
    rows = []
    for at, of_run in enumerate(grants):
        for entry, number in sorted((entry, number) for number, (_, of_set) in enumerate(of_run) for entry in sets[of_set]):
            places = who[at], namespaces[at], *entries[entry], of_run[number][0]
            rows.append('\t'.join(of_field[place] for of_field, place in zip(words, places)))
    return rows


def lines_in(coded):
    """The lines that a page's tables of words and columns stand for."""
    columns = []
    for words, column in zip(coded['words'], coded['columns']):
        width, letter = next((width, letter) for width, letter in ((1, 'B'), (2, 'H'), (4, 'I'))
                             if len(words) <= 1 << 8 * width)
        numbers = base64.b64decode(column)
        columns.append([words[number] for number in struct.unpack('<%d%s' % (len(numbers) // width,
                                                                             letter), numbers)])
    return ['\t'.join(fields) for fields in zip(*columns)]
