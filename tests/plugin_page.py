"""`kubectl rbacaudit page`, under dash and under bash, with the stand-in for kubectl of
plugin_room.py.

tests/rbacaudit_page.py runs this.
"""

import json
import os
import pty
import re
import select
import signal
import subprocess
import sys
import time

from common import PROGRAM, TOP, V1
from escalation import paths, powers
from paths import read_files
from plugin_questions import stale_roles
from plugin_room import CAUTION, NO_SPACE, PLUGIN, RBAC, REFUSAL, in_each_shell, served
from written import DEVS, FILTER, KIM, OPS, Parts, lines_in, rows_in, same

sys.path.append(os.path.join(TOP, 'plugin'))
from rbacaudit_kubectl.page_paths import reach_of, shortened  # noqa: E402

TITLE = 'Who can do what'
# Another binding for one who is an admin already, and a universe of one verb.
AGAIN = {'apiVersion': V1, 'kind': 'ClusterRoleBinding', 'metadata': {'name': 'again'},
         'subjects': [{'kind': 'User', 'name': 'dana@example.com'}],
         'roleRef': {'kind': 'ClusterRole', 'name': 'cluster-admin'}}
GETS = {'apiVersion': 'rbacaudit/v1', 'kind': 'Universe', 'verbs': ['get']}


def role(name, *rules, **where):
    """A role whose rules are a verb, a group, resources and names."""
    parts = [{'verbs': [verb], 'apiGroups': [group], 'resources': resources, 'resourceNames': names}
             for verb, group, resources, names in rules]
    return {'apiVersion': V1, 'kind': 'Role' if where else 'ClusterRole',
            'metadata': {'name': name, **where}, 'rules': parts}


def binding(name, kind, *subjects, **where):
    """A binding of the role of the same name."""
    return {'apiVersion': V1, 'kind': 'RoleBinding' if where else 'ClusterRoleBinding',
            'metadata': {'name': name, **where},
            'roleRef': {'apiGroup': RBAC, 'kind': kind, 'name': name},
            'subjects': [{'apiGroup': RBAC, 'kind': kind, 'name': name}
                         for kind, name in subjects]}


# Rules with names beside those of the example, by which dana may do all, and the developers all in
# shop-staging, where ann lists all secrets.
ANN, BOB, DANA = ('User', 'ann'), ('User', 'bob'), ('User', 'dana@example.com')
DEVELOPERS = ('Group', 'shop-developers')
BY_NAME = {'cluster': [
    role('one-secret', ('get', '', ['secrets'], ['db-password'])),
    role('one-user', ('impersonate', '', ['users'], ['kim@example.com']),
         ('impersonate', 'authentication.k8s.io', ['userextras/scopes'], ['x'])),
    binding('one-user', 'ClusterRole', ('Group', 'helpers'), DANA)],
    'namespaced': [
        binding('one-secret', 'ClusterRole', ANN, ('User', 'tab\t"bed"'), DEVELOPERS, DANA,
                namespace='shop'),
        binding('one-secret', 'ClusterRole', BOB, ANN, DEVELOPERS, namespace='shop-staging'),
        role('lists', ('list', '', ['secrets'], []), namespace='shop-staging'),
        binding('lists', 'Role', ANN, namespace='shop-staging')]}
NAMED = [line.replace(' ', '\t') for line in (
    'impersonate - users g:helpers ClusterRoleBinding/one-user',
    'get - secrets u:ann RoleBinding/shop/one-secret',
    'get - secrets u:tab\\x09"bed" RoleBinding/shop/one-secret',
    'get - secrets g:shop-developers RoleBinding/shop/one-secret',
    'get - secrets u:bob RoleBinding/shop-staging/one-secret')]
# The program, but for a who-can.
NO_HOLDERS = """#!/bin/sh
[ "$1" != who-can ] || exit 2
exec '%s' "$@"
"""


def on_page(text):
    """The title of a page, and its rows, findings, changes and holders by name as lines, without
    the last line of the matrix."""
    parts = Parts(text)
    data = parts.data()
    findings = ['\t'.join(finding) for finding in data['findings']]
    changes = data['changes'] and lines_in(data['changes'])
    return (parts.texts['title', None], rows_in(data['rows']), findings, changes,
            lines_in(data['named']))


def lines_of(it, *words):
    return it.run(*words)[1].splitlines()


def once(rows):
    """The rows of a plain matrix that --once leaves, by its definition."""
    fields = [row.split('\t') for row in rows]
    return ['\t'.join(row) for row in fields
            if row[1] == '-' or not row[6].startswith('ClusterRoleBinding/')]


def exported(it):
    """Makes an export with files beside it. The rows of its universe, those of every binding with
    one more, and its findings."""
    os.symlink(FILTER, os.path.join(it.bin, 'rbacaudit-page'))
    it.run('export', 'prod')
    it.write(it.run('universe', '--export', 'prod')[1], 'universe.json')
    it.write(json.dumps(AGAIN), 'again.json')
    it.write(json.dumps(GETS), 'my verbs.json')
    it.write('{}', 'bad.json')
    *rows, _ = lines_of(it, 'matrix', '--export', 'prod', 'universe.json')
    *every, _ = lines_of(it, 'matrix', '--every', '--export', 'prod', 'universe.json', 'again.json')
    it.write('+\t%s\n' % rows[0], 'chan ges')
    findings = lines_of(it, 'lint', '--export', 'prod')
    listed = once(rows), once(every)
    it.checked('there is something to show, and to leave out',
               len(rows) > len(listed[0]) > 5 and len(listed[1]) > len(listed[0]) and findings,
               (len(every), len(rows), findings))
    return *listed, findings


@in_each_shell
def plugin_pages(it):
    """A page has the rows of the universe that `universe` writes, and the findings; with FILEs and
    options, of a fresh export too, and of one that lacks a part."""
    rows, every, findings = exported(it)
    gets = [row for row in rows if row.split('\t')[2] == 'get']
    gained = ['+\t' + rows[0]]
    for line, wanted in (
            (['--export', 'prod'], (TITLE, rows, findings, None, [])),
            ([], (TITLE, rows, findings, None, [])),
            (['--every', '--export=prod', 'again.json', '--title', "it's <b>"],
             ("it's <b>", every, findings, None, [])),
            (['my verbs.json', '--export', 'prod', '--title=-x', '--diff', 'chan ges'],
             ('-x', gets, findings, gained, [])),
            (['--diff=chan ges', '--', 'my verbs.json'],
             (TITLE, gets, findings, gained, []))):
        status, out, err = got = it.run('page', *line)
        it.checked('page %s' % ' '.join(line),
                   (status, err) == (0, '') and on_page(out) == wanted, repr(got)[:2000])
    status, out, err = got = it.run('page', trouble=['forbid accounts'])
    it.checked('a part is missing', (status, out) == (2, '') and err.endswith(REFUSAL), got)
    status, out, err = got = it.run('page', '--partial', trouble=['forbid accounts'])
    it.checked('a part is missing, --partial',
               status == 0 and err.endswith(CAUTION) and on_page(out)[1] == rows, repr(got)[:2000])


@in_each_shell
def plugin_names(it):
    """Whoever may do something watched only to objects of certain names is on the page, but not who
    may do the like to all objects there; without such rules nothing is asked for it."""
    os.symlink(FILTER, os.path.join(it.bin, 'rbacaudit-page'))
    plain = served()
    it.serve({name: {**plain[name], 'items': plain[name]['items'] + items}
              for name, items in BY_NAME.items()})
    it.run('export', 'prod')
    for name, line in (('an export', ['--export', 'prod']), ('a cluster', []),
                       ('another universe', ['--export', 'prod', 'my verbs.json'])):
        it.write(json.dumps({**GETS, 'verbs': ['watch']}), 'my verbs.json')
        status, out, err = got = it.run('page', *line)
        it.checked('by name, of %s' % name,
                   (status, err) == (0, '') and on_page(out)[-1] == NAMED, repr(got)[-4000:])
    for name in ('cluster.json', 'namespaced.json'):
        text = it.read('prod', name)
        it.write(text.replace('"resourceNames"', '"resource\\u004eames"'), 'prod', name)
    status, out, err = got = it.run('page', '--export', 'prod')
    it.checked('by name, spelled with an escape', on_page(out)[-1] == NAMED, repr(got)[-4000:])
    stand_in(it, NO_HOLDERS % PROGRAM)
    it.checked('no page if they can\'t be asked for', it.run('page', '--export', 'prod')[:2]
               == (2, ''), 'a page')
    plain['namespaced']['items'] = [item for item in plain['namespaced']['items']
                                    if 'resourceNames' not in json.dumps(item)]
    it.serve(plain)
    status, out, err = got = it.run('page')
    it.checked('without resourceNames nothing is asked',
               (status, err) == (0, '') and on_page(out)[-1] == [], repr(got)[-4000:])


@in_each_shell
def plugin_refusals(it):
    """What gets no page; words are refused before a call to a cluster."""
    exported(it)
    it.lines('calls')
    for line, said in ((['--wrong'], 'page has no --wrong'),
                       (['--title', 'a', '--title=b'], '--title is given twice'),
                       (['--diff'], '--diff needs a value'),
                       (['--title='], '--title needs a value'),
                       (['--diff', 'a', '--diff', 'b'], '--diff is given twice'),
                       (['--diff', 'nothing'], "can't read nothing"),
                       (['--title', '--every'], '--title needs a value'),
                       (['--output', 'a', '--output=b'], '--output is given twice'),
                       (['-n'], '-n needs a value'), (['-n', 'a', '-nb'], '-n is given twice'),
                       (['--export', 'nothing'], 'there is no folder nothing')):
        status, out, err = got = it.run('page', *line)
        it.checked('refused: page %s' % ' '.join(line),
                   (status, out) == (2, '') and said in err, got)
    ours, terminal = pty.openpty()
    ended = subprocess.run([it.shell, PLUGIN, 'page'], cwd=it.work, env=it.environment(),
                           stdin=subprocess.DEVNULL, stdout=terminal, stderr=subprocess.PIPE,
                           timeout=60)
    os.close(ours)
    os.close(terminal)
    it.checked('refused: a page on a terminal', (ended.returncode, ended.stderr) == (
        2, b'kubectl-rbacaudit: the page goes into a file: '
        b'kubectl rbacaudit page --output access.html\n'), ended)
    it.checked('nothing was read for it', not it.lines('calls'), 'a call')
    it.checked('help', '--every' in it.run('page', '--help')[1], 'no help')
    it.expect('rows as changes', ['page', '--export', 'prod', '--diff', 'my verbs.json'], 2, '',
              'rbacaudit-page: my verbs.json line 1: no line of changes\n')
    it.write('{"apiVersion": "rbacaudit/v1", "kind": "Universe", "verb": ["get"]}', 'mistyped')
    status, out, err = got = it.run('page', '--export', 'prod', 'again.json', 'mistyped')
    it.checked('a mistyped universe', status == 0 and out and err == 'kubectl-rbacaudit: mistyped: '
               'a Universe document has no field verb, so it is ignored\n', got)
    it.expect('a bad FILE', ['page', '--export', 'prod', 'bad.json'], 2, '',
              'rbacaudit: file 2: M2 not an object\nkubectl-rbacaudit: file 2 is bad.json\n')


@in_each_shell
def plugin_types(it):
    """The page is told which types have namespaces: also of a Universe document of one's own."""
    exported(it)
    for line, wanted, others in (
            ([], {'-\tpods', 'apps\tdeployments', '-\tpods/odd', '-\t\\x2d', 'odd"group\ta"b\\\\c\\x09d/é\\x7f\\\\x2d'},
             {'-\tnodes', 'metrics.k8s.io\tnodes', '-\tnodes/metrics'}),
            (['types.json'], {'-\tnodes'}, {'-\tpods'})):
        it.write(json.dumps({**GETS, 'resources': [{'resource': 'nodes', 'namespaced': True}]}),
                 'types.json')
        out = it.run('page', '--export', 'prod', *line)[1]
        found = {'\t'.join(it) for it in Parts(out).data()['namespaced']}
        it.checked('types with namespaces %s' % line, wanted <= found and not others & found, found)


@in_each_shell
def plugin_notices(it):
    """The page says which part is missing, that it is of one namespace, which aggregates are stale;
    and of which cluster and when it is."""
    os.symlink(FILTER, os.path.join(it.bin, 'rbacaudit-page'))
    it.write(json.dumps(stale_roles()), 'ring.json')
    it.run('export', 'prod')
    lacking = ('A part of the export is missing, so rows may be missing too: there is no '
               'accounts.json: ')
    stale = ('Stale aggregates (L6 of lint): ClusterRole/a, ClusterRole/b, ClusterRole/late. The '
             'cluster grants what is written in them, and this page has what they gather.')
    one = 'This page has the namespace shop and the whole cluster alone.'
    for line, trouble, wanted in (
            ([], [], []), (['--export', 'prod'], [], []),
            (['--export', 'prod', 'ring.json', '-n', 'shop'], [], [one, stale]),
            (['--partial'], ['forbid accounts'], [lacking])):
        out = it.run('page', *line, trouble=trouble)[1]
        data = Parts(out).data()
        it.checked('notices of %s' % line, [text.startswith(begin) for text, begin
                                            in zip(data['notices'], wanted, strict=True)]
                   == [True] * len(wanted), data['notices'])
        it.checked('about %s' % line, data['about']['context'] == 'far away' and
                   data['about']['server'] == 'https://10.0.0.1:6443'
                   and data['about']['time'].endswith('Z') and 'only' not in data['about'],
                   data['about'])
    it.run('export', '-n', 'shop', 'part')
    data = Parts(it.run('page', '--export', 'part')[1]).data()
    it.checked('of one namespace', data['about']['only'] == 'shop', data['about'])


@in_each_shell
def plugin_places(it):
    """The page of one namespace has its rows and those of the whole cluster; also where a Universe
    document of one's own has others. A namespace that isn't there is reported."""
    rows, _, _ = exported(it)
    it.write(json.dumps({**GETS, 'namespaces': ['shop-staging']}), 'mine.json')
    for line, namespace, verbs in ((['-n', 'shop'], 'shop', None),
                                   (['--namespace=shop-staging'], 'shop-staging', None),
                                   (['-nshop', 'mine.json'], 'shop', ['get'])):
        wanted = [row for row in rows if row.split('\t')[1] in ('-', namespace)
                  and (verbs is None or row.split('\t')[2] in verbs)]
        it.checked('%s has rows of both kinds' % line,
                   {row.split('\t')[1] for row in wanted} == {'-', namespace}, wanted)
        status, out, err = got = it.run('page', '--export', 'prod', *line)
        it.checked('page %s' % ' '.join(line), (status, err) == (0, '')
                   and on_page(out)[1] == wanted, repr(got)[:2000])
    odd = 'no"such\\ pl\tace'
    status, out, err = got = it.run('page', '--export', 'prod', '-n', odd)
    it.checked('a namespace that is not there', (status, err) == (
        0, NO_SPACE % odd) and {row.split('\t')[1] for row in on_page(out)[1]} == {'-'},
        repr(got)[:2000])
    it.run('export', '-n', 'shop', 'part')
    status, out, err = got = it.run('page', '--export', 'part', '-n', 'shop')
    it.checked('of an export of that namespace', (status, err) == (0, '') and out,
               repr(got)[:2000])
    it.expect('of an export of another', ['page', '--export', 'part', '-n', 'shop-staging'], 2, '',
              'kubectl-rbacaudit: the export has the namespace shop alone\n' + REFUSAL)


# The program, but a matrix is endless, or ends with a fault, or with rows alone.
NO_MATRIX = """#!/bin/sh
[ "$1" != matrix ] || [ "$2" != --once ] || { %s; }
exec '%s' "$@"
"""
ENDLESS = "exec yes 'u:ann	-	get	-	pods	-	ClusterRoleBinding/b'"
FAULTY = "echo 'rbacaudit: file 2: P4 universe too large' >&2; exit 2"
CUT = "printf 'u:ann\t-\tget\t-\tpods\t-\tClusterRoleBinding/b\n'; exit 137"


@in_each_shell
def plugin_files(it):
    """--output writes its file whole or not at all: not where there are too many rows, which are
    read through a pipe, or a matrix has failed."""
    exported(it)
    it.run('page', '--export', 'prod', '--output', 'whole.html')
    it.checked('--output writes the page', it.read('whole.html')
               == it.run('page', '--export', 'prod')[1], 'another page')
    for name, body, said in (
            ('too many rows', ENDLESS, ' rows make more than 4000000 parts, too many for a page in a browser: '),
            ('a fault of the matrix', FAULTY, 'kubectl-rbacaudit: file 2 is my verbs.json\n'),
            ('a matrix that is cut off', CUT, 'rows may be missing')):
        stand_in(it, NO_MATRIX % (body, PROGRAM))
        status, out, err = got = it.run('page', '--export', 'prod', '--output', 'new.html',
                                        'my verbs.json')
        it.checked(name, (status, out) == (2, '') and said in err and 'write failed' not in err,
                   got)
        it.checked('%s: no file' % name, 'new.html' not in it.files('.'), it.files('.'))


# The program, but a matrix gives some rows, and then some more, and hangs.
SLOW = """for at in 1 2; do yes 'u:ann	-	get	-	pods	-	ClusterRoleBinding/b' | head -n 20000; sleep 1.2; done; echo $$ > '%s'; exec sleep 300"""
# The program, but whoever is asked about can take over 100,000 others.
MANY_PATHS = """#!/bin/sh
[ "$1" != paths ] || exec awk -v "who=$3" 'BEGIN { for (at = 0; at < 100000; at++)
    printf "1\\tu:%%d\\t-\\t%%s\\t-\\timpersonate\\tClusterRoleBinding/b\\tClusterRole/r\\tClusterRole/r\\t1\\t1\\n", at, who }'
exec '%s' "$@"
"""


def stand_in(it, text):
    """Puts another program in the place of rbacaudit."""
    os.remove(os.path.join(it.bin, 'rbacaudit'))
    it.write(text, it.at('bin'), 'rbacaudit')
    os.chmod(os.path.join(it.bin, 'rbacaudit'), 0o755)


@in_each_shell
def plugin_progress(it):
    """While rows are read a line says how many there are, and for how long; a page that is interrupted leaves nothing behind."""
    exported(it)
    before = it.files('.')
    for name, number in (('Ctrl-C', signal.SIGINT), ('TERM', signal.SIGTERM)):
        place = it.at('hangs-' + name)
        stand_in(it, NO_MATRIX % (SLOW % place, PROGRAM))
        ours, terminal = pty.openpty()
        child = subprocess.Popen([it.shell, PLUGIN, 'page', '--export', 'prod', '--output', 'new.html'], cwd=it.work, env=it.environment(),
                                 stdin=subprocess.DEVNULL, stdout=subprocess.PIPE, stderr=terminal)
        os.close(terminal)
        said, until = '', time.monotonic() + 60
        while not (it.read(place).strip() and '40,000' in said) and time.monotonic() < until:
            if select.select([ours], [], [], 0.1)[0]:
                said += os.read(ours, 10000).decode()
        lines = [text for text in said.split('\r') if 'rows read' in text]
        it.checked('%s: rows and seconds' % name, [re.sub(r', \d+ s$', '', text) for text in lines] == [
            'rbacaudit-page: 20,000 rows read', 'rbacaudit-page: 40,000 rows read'] and bool(re.search(r', \d+ s$', lines[-1])), lines)
        began = time.monotonic()
        child.send_signal(number)
        status, out = child.wait(60), child.stdout.read()
        child.stdout.close()
        os.close(ours)
        it.checked('%s: ends' % name, (status % 256, out, time.monotonic() - began < 10) == (128 + number, b'', True), (status, out))
        hung = int(it.read(place))
        it.checked('%s: no matrix is left' % name, not os.path.exists('/proc/%d' % hung), hung)
        it.checked('%s: no file is left' % name, it.files('.') == before, it.files('.'))


@in_each_shell
def plugin_reach(it):
    """The page has the paths of everybody with a power, by the definition of tests/escalation.py; and says about whom there was no room."""
    os.symlink(FILTER, os.path.join(it.bin, 'rbacaudit-page'))
    it.run('export', 'prod')
    given = read_files([os.path.join(it.work, 'prod', name + '.json') for name in ('cluster', 'namespaced', 'accounts')])
    wanted = {who: [*paths(given, who)] for who in {line.split('\t')[1] for line in powers(given)}}
    it.checked('there are principals with a power', len(wanted) > 2, wanted)
    status, out, err = got = it.run('page', '--export', 'prod')
    data = Parts(out).data()
    lines = lines_in(data['paths']['lines'])
    it.checked('the paths of each', {who: lines[first:end] for _, who, first, end in data['paths']['answers']}
               == {who: found for who, found in wanted.items() if found}, got)
    it.checked('everybody was asked about', (status, err, data['unasked']) == (0, '', []), got)
    stand_in(it, MANY_PATHS % PROGRAM)
    status, out, err = got = it.run('page', '--export', 'prod')
    data = Parts(out).data()
    answers = {who: end - first for _, who, first, end in data['paths']['answers']}
    it.checked('who has the most powers in the whole cluster is asked about first, and there is room for a part of the others',
               (status, [*answers][0], answers) == (0, 'u:dana@example.com', {**dict.fromkeys(wanted, 3), 'u:dana@example.com': 100000}), answers)
    it.checked('how far the others reach', sorted(data['reach']) == sorted(
        [who, '-', '0', '100000', '0', '0', '0', '100000', '1'] for who in answers if answers[who] == 3) and data['unasked'] == [], data['reach'])


@in_each_shell
def plugin_strange_reach(it):
    """Names that no command line can have keep nobody from a page, which says that they weren't asked about."""
    names = ['m' * 131_069, 'm' * 131_070, 'a\0b']
    plain = served()
    it.serve({'cluster': {**plain['cluster'], 'items': [*plain['cluster']['items'], role('taker', ('impersonate', '', ['users'], [])), binding(
        'taker', 'ClusterRole', *(('User', name) for name in names))]}})
    it.run('export', 'prod')
    status, out, err = got = it.run('page', '--export', 'prod')
    data = Parts(out).data()
    it.checked('the longest name is asked about, and no other', (status, err, sorted(data['unasked'])) == (0, '', ['u:a\\x00b', 'u:' + names[1]])
               and 'u:' + names[0] in [who for _, who, _, _ in data['paths']['answers']], repr(got)[:500])


def plugin_parts():
    """Of an answer that isn't whole, the lines that lead to everything stay, and its numbers are told."""
    for name, lines, left, reach in (
            ('everything in the whole cluster', KIM, KIM[:2], 'u:kim 2 0 1 0 1 0 3 2'),
            ('everything in a namespace', DEVS, DEVS[:1], 'g:devs - 1 0 0 2 0 3 2'),
            ('no everything', OPS, OPS, 'g:ops - 0 0 0 1 1 2 2')):
        text = ''.join(line + '\n' for line in lines)
        same('parts: %s: what stays' % name, shortened(text), ''.join(line + '\n' for line in left))
        same('parts: %s: how far' % name, reach_of(lines[0].split('\t')[3], text), reach.replace(' ', '\t'))


@in_each_shell
def plugin_stale(it):
    """Stale aggregates are reported, of a fresh export too; those of a FILE are among them."""
    os.symlink(FILTER, os.path.join(it.bin, 'rbacaudit-page'))
    it.write(json.dumps(stale_roles()), 'ring.json')
    said = ('kubectl-rbacaudit: stale aggregates (L6 of lint): ClusterRole/a, ClusterRole/b, '
            'ClusterRole/late; the cluster grants what is written in them, and this page has what they gather\n')
    status, out, err = got = it.run('page', 'ring.json')
    it.checked('a page with stale aggregates of a FILE', (status, err) == (0, said) and out,
               repr(got)[:2000])
    it.serve({'cluster': stale_roles()})
    it.run('export', 'prod')
    for line in ([], ['--export', 'prod']):
        status, out, err = got = it.run('page', *line)
        it.checked('a page with stale aggregates %s' % line, (status, err) == (0, said) and out,
                   repr(got)[:2000])
