"""unused of the kubectl plugin: audit logs of every kind, how its answer is shown, how far it is, and what is refused.

The answers over the log that is written here are worked by hand. server_log/ has some events of a real API server, with the roles that they are about;
their answers are the rules' words without those of the events.
"""

import gzip
import json
import os
import pty
import re
import select
import shutil
import signal
import subprocess
import threading
import time

from common import TOP, V1
from plugin_exports import hear_signals
from plugin_room import CAUTION, PLUGIN, REFUSAL, in_each_shell, of_kinds
from plugin_terminal import on_terminal

SERVER_LOG = os.path.join(TOP, 'tests', 'server_log')


def tabs(text):
    """Lines that are written with blanks."""
    return ''.join(line.strip().replace(' ', '\t') + '\n' for line in text.strip().splitlines())


# ---- a small log, and what isn't used by it

def role(kind, name, *rules, namespace=None):
    metadata = {'name': name, **({'namespace': namespace} if namespace else {})}
    return {'apiVersion': V1, 'kind': kind, 'metadata': metadata, 'rules': [*rules]}


def binding(kind, name, to, *users, namespace=None):
    metadata = {'name': name, **({'namespace': namespace} if namespace else {})}
    return {'apiVersion': V1, 'kind': kind, 'metadata': metadata, 'roleRef': {'kind': to[0], 'name': to[1]},
            'subjects': [{'kind': 'User', 'name': user} for user in users]}


def rule(verbs, resources, group='', **more):
    return {'verbs': verbs.split(), 'apiGroups': [group], 'resources': resources.split(), **more}


ROLES = [role('ClusterRole', 'ops', rule('get list', 'nodes'), {'verbs': ['get'], 'nonResourceURLs': ['/metrics', '/healthz/*']}, rule('delete', 'pods', resourceNames=['a', '*'])),
         role('ClusterRole', 'old', rule('get', 'pods')), role('ClusterRole', 'system:x', rule('get', 'pods')),
         binding('ClusterRoleBinding', 'ops', ('ClusterRole', 'ops'), 'kim', 'lee'), binding('ClusterRoleBinding', 'old', ('ClusterRole', 'old'), 'kim'),
         binding('ClusterRoleBinding', 'system:x', ('ClusterRole', 'system:x'), 'eve'), binding('ClusterRoleBinding', 'none', ('ClusterRole', 'old')),
         role('Role', 'shop', rule('get list', 'secrets pods'), rule('create', 'pods'), namespace='shop'),
         binding('RoleBinding', 'shop', ('Role', 'shop'), 'max', namespace='shop')]


def event(user, verb, resource=None, *, uri='', namespace=None, name=None, **more):
    place = {'namespace': namespace} if namespace else {}
    target = {'objectRef': {'resource': resource, **place, **({'name': name} if name else {})}} if resource else {'requestURI': uri}
    return json.dumps({'kind': 'Event', 'apiVersion': 'audit.k8s.io/v1', 'stage': 'ResponseComplete', 'verb': verb, 'user': {'username': user}, **target, **more})


FORBIDDEN = {'annotations': {'authorization.k8s.io/decision': 'forbid'}}
LOG = [event('kim', 'get', 'nodes', name='n1'), event('kim', 'get', uri='/healthz/etcd?verbose'), event('kim', 'delete', 'pods', namespace='shop', name='a'),
       event('lee', 'list', 'nodes', **FORBIDDEN), event('max', 'list', 'secrets', namespace='shop'), event('max', 'get', 'pods', namespace='shop', name='b'),
       event('max', 'create', 'pods', namespace='dev', name='c')]
LINES = tabs(r'''
binding ClusterRoleBinding/old ClusterRole/old - - - - - - -
subject ClusterRoleBinding/ops ClusterRole/ops - - 2 u:lee - - -
permission ClusterRoleBinding/ops ClusterRole/ops ClusterRole/ops 1 - list - nodes *
permission ClusterRoleBinding/ops ClusterRole/ops ClusterRole/ops 2 - get - /metrics -
permission ClusterRoleBinding/ops ClusterRole/ops ClusterRole/ops 3 - delete - pods \x2a
binding ClusterRoleBinding/system:x ClusterRole/system:x - - - - - - -
permission RoleBinding/shop/shop Role/shop/shop Role/shop/shop 1 - get - secrets *
permission RoleBinding/shop/shop Role/shop/shop Role/shop/shop 1 - list - pods *
rule RoleBinding/shop/shop Role/shop/shop Role/shop/shop 2 - - - - -''')
OWN_LINES = ''.join(line for line in LINES.splitlines(True) if 'system:x' not in line)
HEAD, OWN_HEAD = ('Not used: %s bindings; of the others, 1 subject, 1 rule and 5 permissions.%s\n' % it
                  for it in (('2 of 5', ''), ('1 of 4', ' Bindings named system:.. are left out.')))
TABLE = r'''
LINE        BINDING                 ROLE             SOURCE           RULE  SUBJECT  WHO/VERB  GROUP  RESOURCE  NAME
binding     ClusterRoleBinding/old  ClusterRole/old  -                -     -        -         -      -         -
subject     ClusterRoleBinding/ops  ClusterRole/ops  -                -     2        u:lee     -      -         -
permission  ClusterRoleBinding/ops  ClusterRole/ops  ClusterRole/ops  1     -        list      -      nodes     *
permission  ClusterRoleBinding/ops  ClusterRole/ops  ClusterRole/ops  2     -        get       -      /metrics  -
permission  ClusterRoleBinding/ops  ClusterRole/ops  ClusterRole/ops  3     -        delete    -      pods      \x2a
permission  RoleBinding/shop/shop   Role/shop/shop   Role/shop/shop   1     -        get       -      secrets   *
permission  RoleBinding/shop/shop   Role/shop/shop   Role/shop/shop   1     -        list      -      pods      *
rule        RoleBinding/shop/shop   Role/shop/shop   Role/shop/shop   2     -        -         -      -         -
'''
OBJECTS = [dict(zip('line binding role source rule subject verb group resource name'.split(), cells)) for cells in (
    ('permission', 'RoleBinding/shop/shop', 'Role/shop/shop', 'Role/shop/shop', 1, None, 'get', '', 'secrets', None),
    ('permission', 'RoleBinding/shop/shop', 'Role/shop/shop', 'Role/shop/shop', 1, None, 'list', '', 'pods', None),
    ('rule', 'RoleBinding/shop/shop', 'Role/shop/shop', 'Role/shop/shop', 2, None, '', '', '', ''))]
ASK = ['unused', '--export', 'prod', '--log']


def made(it):
    """An export with these roles, and the log as one and in parts."""
    it.serve({'cluster': of_kinds(ROLES, 'ClusterRole', 'ClusterRoleBinding'), 'namespaced': of_kinds(ROLES, 'Role', 'RoleBinding')})
    it.run('export', 'prod')
    write(it, 'all.log', LOG)
    for number, line in enumerate(LOG):
        write(it, '%d.log' % number, [line], end='')


def write(it, name, lines, end='\n'):
    it.write('\n'.join(lines) + end, name)


def pack(it, name, packed):
    with open(os.path.join(it.work, name), 'rb') as file, gzip.open(os.path.join(it.work, packed), 'wb') as out:
        out.write(file.read())


# ---- answers

@in_each_shell
def answers(it):
    """The worked answers, as lines, tables, objects and names, with the status."""
    made(it)
    ask = [*ASK, 'all.log']
    it.expect('lines', ask, 1, LINES)
    it.expect('without bindings of Kubernetes', [*ask, '--skip-system'], 1, OWN_LINES)
    for options, head in (([], HEAD), (['--skip-system'], OWN_HEAD)):
        got = it.run(*ask, *options, '-o', 'table')
        it.checked('a head %s' % options, got[0] == 1 and got[1].startswith(head + '\nLINE  ') and got[2] == '', got)
    it.expect('a table', [*ask, '--skip-system', '-o', 'wide'], 1, OWN_HEAD + TABLE)
    got = it.run(*ask, '-o', 'table', '--no-headers')
    it.checked('without a head', got[0] == 1 and [line.split() for line in got[1].splitlines()] == [line.split('\t') for line in LINES.splitlines()], got)
    status, out, err = got = it.run(*ask, '-o', 'json')
    objects = [json.loads(line) for line in out.splitlines()]
    it.checked('objects', (status, objects[-3:], [*map(list, objects[-3:])], err) == (1, OBJECTS, [*map(list, OBJECTS)], '') and len(objects) == 9
               and (objects[1]['who'], objects[1]['subject'], objects[1]['source']) == ('u:lee', 2, '') and 'verb' not in objects[1]
               and (objects[4]['name'], objects[3]['name'], objects[2]['name']) == ('*', '', None), got)
    it.expect('names', [*ask, '-o', 'name'], 1, ''.join('%s\n' % name for name in (
        'ClusterRoleBinding/old', 'ClusterRoleBinding/ops', 'ClusterRoleBinding/system:x', 'RoleBinding/shop/shop')))
    got = it.run(*ask, '-o', 'table', '--color', 'always')
    it.checked('powers are bold', re.findall('\x1b\\[1m.*secrets', got[1]) and got[1].count('\x1b[1m') == 1, got)
    got = on_terminal(it, *ask)
    it.checked('a table on a terminal', got[0] == 1 and got[1].startswith(HEAD + '\nLINE') and got[2] == '', got)
    got = on_terminal(it, *ask, '-o', 'tsv')
    it.checked('lines on a terminal', got == (1, LINES, ''), got)
    write(it, 'used.log', [event('kim', 'get', 'pods', namespace='x')])
    it.write(json.dumps(of_kinds(ROLES[1:2] + [binding('ClusterRoleBinding', 'old', ('ClusterRole', 'old'), 'kim')], 'ClusterRole', 'ClusterRoleBinding')), 'cluster.json')
    os.makedirs(os.path.join(it.work, 'used'))
    shutil.move(os.path.join(it.work, 'cluster.json'), os.path.join(it.work, 'used', 'cluster.json'))
    it.write('{"apiVersion": "v1", "kind": "List"}', 'used', 'namespaced.json')
    used = ['unused', '--export', 'used', '--log', 'used.log']
    it.expect('all is used', used, 0)
    it.expect('all is used: a table', [*used, '-o', 'table'], 0, 'Not used: 0 of 1 binding; of the others, 0 subjects, 0 rules and 0 permissions.\n')
    it.expect('another FILE', [*used, 'prod/cluster.json', '-o', 'name'], 1, 'ClusterRoleBinding/ops\nClusterRoleBinding/system:x\n')
    shutil.copy(os.path.join(it.work, 'prod', 'namespaced.json'), os.path.join(it.work, 'more.json'))
    got = it.run(*used, '-o', 'table', 'more.json')
    it.checked('bindings of a FILE are counted', got[1].startswith('Not used: 1 of 2 bindings; of the others, 0 subjects, '), got)
    it.lines('calls')
    it.expect('a fresh export', ['unused', '--log', 'all.log'], 1, LINES)
    it.checked('it needs two calls', len(it.lines('calls')) == 2, 'others')


@in_each_shell
def of_a_server(it):
    """Events of a real API server: what isn't used of a Role, of two of Kubernetes' own, and of view, is what its rules have beside the events."""
    asked = ['unused', '--export', SERVER_LOG, '--log', os.path.join(SERVER_LOG, 'audit.log')]
    status, out, err = got = it.run(*asked)
    others, of_view = ([line for line in out.splitlines(True) if ('\tClusterRoleBinding/ci-view\t' in line) == is_of_view] for is_of_view in (False, True))
    it.checked('a Role, and others', (status, ''.join(others), err) == (1, OF_SERVER, ''), got)
    parts = [line.split('\t')[0] for line in of_view]
    it.checked('view', (parts.count('rule'), parts.count('permission'), len(parts)) == (5, 90, 95), of_view)
    it.checked('view: none that is used', not [line for line in of_view if line.endswith(('\tget\t-\tpods\t*\n', '\tlist\t-\tpods\t*\n', '\tget\tapps\tdeployments\t*\n'))], of_view)
    got = it.run(*asked, '-o', 'table')
    it.checked('a head', got[1].startswith('Not used: 1 of 6 bindings; of the others, 1 subject, 6 rules and 111 permissions.\n'), got[1][:200])
    got = it.run(*asked, '-o', 'table', '--skip-system')
    it.checked('a head without those of Kubernetes', got[1].startswith(
        'Not used: 1 of 4 bindings; of the others, 0 subjects, 6 rules and 107 permissions. Bindings named system:.. are left out.\n'), got[1][:200])


BASIC, INFO = ('permission ClusterRoleBinding/{0} ClusterRole/{0} ClusterRole/{0} 1 - '.format(name) for name in ('system:basic-user', 'system:public-info-viewer'))
OF_DEPLOYER = 'permission RoleBinding/shop/ci-deploys Role/shop/deployer Role/shop/deployer %d - %s %s %s *\n'
# By rule: the API group, and of each verb the resources that no event has.
DEPLOYER = ((1, '-', (('list', 'configmaps pods/log'), ('watch', 'pods configmaps pods/log'), ('create', 'pods pods/log'), ('update', 'pods configmaps pods/log'),
                      ('patch', 'pods pods/log'), ('delete', 'pods/log'))),
            (2, 'apps', tuple((verb, 'deployments') for verb in ('list', 'watch', 'update', 'delete'))))
OF_SERVER = tabs('''
rule ClusterRoleBinding/cluster-admin ClusterRole/cluster-admin ClusterRole/cluster-admin 2 - - - - -
binding ClusterRoleBinding/imp ClusterRole/imp - - - - - - -
''' + BASIC + '''create authorization.k8s.io selfsubjectrulesreviews *
subject ClusterRoleBinding/system:public-info-viewer ClusterRole/system:public-info-viewer - - 2 g:system:unauthenticated - - -
''' + ''.join('%sget - %s -\n' % (INFO, url) for url in ('/livez', '/readyz', '/version/'))
                 + ''.join(OF_DEPLOYER % (number, verb, group, resource) for number, group, verbs in DEPLOYER for verb, resources in verbs
                           for resource in resources.split()))


# ---- logs

@in_each_shell
def logs(it):
    """One log or several, in any order, packed or not, as files and as pipes: the same answer."""
    made(it)
    parts = ['%d.log' % number for number in range(len(LOG))]
    for number, name in enumerate(parts):
        pack(it, name, name + '.gz')
    pack(it, 'all.log', 'all.log.gz')
    pack(it, 'all.log', 'packed')
    shutil.copy(os.path.join(it.work, 'all.log'), os.path.join(it.work, 'plain.gz'))
    it.write('', 'empty')
    it.write('', 'empty.gz')
    it.write('\n \n', 'blank')
    with open(os.path.join(it.work, 'joined.gz'), 'wb') as out:
        for name in parts:
            with open(os.path.join(it.work, name + '.gz'), 'rb') as file:
                out.write(file.read())
            out.write(gzip.compress(b'\n'))

    def given(*names):
        return ['unused', '--export', 'prod', *(word for name in names for word in ('--log', name))]

    for name, line in (('parts without newlines at their ends', given(*parts)), ('the other way', given(*reversed(parts))),
                       ('packed parts', given(*(name + '.gz' for name in parts))), ('some packed', given(*parts[:3], *(name + '.gz' for name in parts[3:]))),
                       ('packed', given('all.log.gz')), ('packed, by another name', given('packed')), ('a name that misleads', given('plain.gz')),
                       ('packed one behind the other', given('joined.gz')), ('twice', given('all.log', 'all.log')), ('beside empty ones', given('empty', 'empty.gz', 'all.log', 'blank')),
                       ('=', ['unused', '--export=prod', '--log=all.log'])):
        it.expect(name, line, 1, LINES)
    with open(os.path.join(it.work, 'all.log'), 'rb') as file:
        text = file.read()
    it.expect('standard input', given('-'), 1, LINES, stdin=None, input=text)
    it.expect('standard input beside others', given(*parts[:2], '-', *parts[3:]), 1, LINES, stdin=None, input=LOG[2].encode())
    with open(os.path.join(it.work, 'all.log'), 'rb') as file:
        it.expect('a file as standard input', given('-'), 1, LINES, stdin=file)
    for name, data in (('pipe', text), ('pipe.gz', gzip.compress(text))):
        os.mkfifo(os.path.join(it.work, name))
        writer = threading.Thread(target=lambda name=name, data=data: put_into(os.path.join(it.work, name), data))
        writer.start()
        it.expect(name, given(name), 1, LINES)
        writer.join()
    everything = ''.join('binding\t%s\t%s%s\n' % (one, one.replace('Binding', ''), '\t-' * 7) for one in (
        'ClusterRoleBinding/old', 'ClusterRoleBinding/ops', 'ClusterRoleBinding/system:x', 'RoleBinding/shop/shop'))
    for name in ('empty', 'empty.gz'):
        it.expect('an empty log: %s' % name, given(name), 1, everything, 'kubectl-rbacaudit: the logs are empty, so nothing counts as used\n')
    it.expect('a log without events', given('blank'), 1, everything)


def put_into(path, data):
    with open(path, 'wb') as file:
        file.write(data)


BAD = 'rbacaudit: log 1: line %d: G1 not JSON\nkubectl-rbacaudit: line %d of all logs is line %d of %s\n'


@in_each_shell
def faults(it):
    """A bad line is named by its log and its place there; what can't be read is refused, and then nothing is written."""
    made(it)
    write(it, 'bad.log', [*LOG[:2], '{', LOG[2]])
    it.write(LOG[0][:40], 'half.log')
    for name in ('bad.log', 'all.log'):
        pack(it, name, name + '.gz')

    def given(*names):
        return ['unused', '--export', 'prod', *(word for name in names for word in ('--log', name))]

    for names, number, at in ((['bad.log'], 3, 3), (['all.log', 'bad.log'], 10, 3), (['0.log', '1.log', 'bad.log'], 5, 3), (['bad.log.gz', 'all.log'], 3, 3),
                              (['all.log', 'half.log', 'bad.log'], 8, 1), (['0.log', 'half.log'], 2, 1)):
        bad = next(name for name in names if name[0] in 'bh')
        for form in ('tsv', 'table', 'json', 'name'):
            it.expect('a bad line: %s %s' % (names, form), [*given(*names), '-o', form], 2, '', BAD % (number, number, at, bad))
    it.expect('a bad line on standard input', given('0.log', '-'), 2, '', BAD % (2, 2, 1, 'standard input'), stdin=None, input=b'[\n' + LOG[0].encode())
    it.write('{"kind": "Event"}\n' * 3 + LOG[0], 'other.log')
    got = it.run(*given('other.log'))
    it.checked('no event', got[:2] == (2, '') and re.match(r'rbacaudit: log 1: line 1: G2 .*\nkubectl-rbacaudit: line 1 of all logs is line 1 of other\.log\n', got[2]), got)
    with open(os.path.join(it.work, 'all.log.gz'), 'rb') as file:
        packed = file.read()
    for name, data in (('cut.gz', packed[:-20]), ('odd.gz', packed[:30] + b'\xff' * 30 + packed[60:]), ('more.gz', packed + b'more')):
        put_into(os.path.join(it.work, name), data)
        for more in ([], ['--log', 'all.log']):
            got = it.run(*given(name), *more)
            it.checked('%s: %s' % (name, more), got[:2] == (2, '') and got[2].startswith("kubectl-rbacaudit: can't read all of %s, so nothing is answered: " % name)
                       and got[2].count('\n') == 1, got)
    os.makedirs(os.path.join(it.work, 'folder'))
    for line, said in ((given('none.log'), 'there is no none.log'), (given('folder'), 'folder is a folder: name the logs in it, each after --log'),
                       (given('-', 'all.log', '-'), 'standard input can be read once: give - as one LOG alone'),
                       (['unused', '--export', 'prod'], 'unused needs --log LOG, an audit log of the API server; kubectl rbacaudit unused --help says more'),
                       (['unused', '--export', 'prod', '--log'], '--log needs a value'), (['unused', '--export', 'prod', '--log='], '--log needs a value'),
                       (given('--skip-system'), '--log needs a value; if --skip-system is the value, write --log=--skip-system'),
                       ([*given('all.log'), '-o', 'sarif'], 'unused has no format sarif: -o takes table, wide, json, name or tsv'),
                       ([*given('all.log'), '--context', 'x'], 'an export answers without a cluster: with --export, give no option of kubectl')):
        it.expect('refused: %s' % line, line, 2, '', 'kubectl-rbacaudit: %s\n' % said)
    got = it.run(*given('all.log'), '--steps', 'run')
    it.checked('an option of others', got[:2] == (2, '') and '--steps' in got[2], got)
    it.write('[', 'bad.json')
    got = it.run(*given('all.log'), 'bad.json')
    it.checked('a bad FILE', got[:2] == (2, '') and got[2].startswith('rbacaudit: file 1: M1 not JSON\nkubectl-rbacaudit: file 1 is bad.json'), got)
    missing = 'kubectl-rbacaudit: there is no namespaced.json in prod\n'
    os.remove(os.path.join(it.work, 'prod', 'namespaced.json'))
    it.expect('a part is missing', given('all.log'), 2, '', missing + REFUSAL)
    it.expect('a part is missing, --partial', [*given('all.log'), '--partial'], 1, ''.join(line for line in LINES.splitlines(True) if 'shop' not in line), missing + CAUTION)


@in_each_shell
def stale(it):
    """Stale aggregates are reported, since a cluster grants what is written in them."""
    aggregated = {**role('ClusterRole', 'a', rule('get', 'pods')), 'aggregationRule': {'clusterRoleSelectors': [{'matchLabels': {'x': 'y'}}]}}
    it.serve({'cluster': of_kinds([aggregated, binding('ClusterRoleBinding', 'a', ('ClusterRole', 'a'), 'kim')], 'ClusterRole', 'ClusterRoleBinding'),
              'namespaced': of_kinds([])})
    it.run('export', 'prod')
    write(it, 'all.log', LOG)
    it.expect('stale aggregates', [*ASK, 'all.log'], 0, '', 'kubectl-rbacaudit: stale aggregates (L6 of lint): ClusterRole/a; the cluster grants what is written '
              'in them, and these lines have what they gather\n')


# ---- how far it is, and signals

def begun(it, *words):
    """A run with a terminal as standard error; and that terminal."""
    ours, terminal = pty.openpty()
    child = subprocess.Popen([it.shell, PLUGIN, *words], cwd=it.work, env=it.environment(), stdin=subprocess.PIPE, stdout=subprocess.PIPE, stderr=terminal,
                             preexec_fn=hear_signals)
    os.close(terminal)
    return child, ours


def heard(terminal, until):
    """What a terminal gets, until this is among it."""
    said, end = '', time.monotonic() + 60
    while until not in said and time.monotonic() < end:
        if select.select([terminal], [], [], 0.1)[0]:
            try:
                said += os.read(terminal, 10000).decode()
            except OSError:
                return said
    return said


@in_each_shell
def progress(it):
    """On a terminal a line says how many bytes are read, and is gone before the answer; a run that is interrupted answers nothing."""
    made(it)
    size = os.path.getsize(os.path.join(it.work, 'all.log'))
    child, terminal = begun(it, *ASK, 'all.log')
    out = child.communicate(timeout=60)[0].decode()
    said = heard(terminal, '\r%60s\r' % '')
    line = '\rkubectl-rbacaudit: {0:,.1f} of {0:,.1f} MB of logs read'.format(size / 1e6)
    it.checked('a file', (child.returncode, out, said) == (1, LINES, line + '\r%60s\r' % ''), (out, said))
    many = (LOG[0] + '\n') * 3000
    it.write(many * 3, 'many.log')
    pack(it, 'many.log', 'many.gz')
    size = sum(os.path.getsize(os.path.join(it.work, name)) for name in ('many.log', 'many.gz'))
    child, terminal = begun(it, *ASK, 'many.gz', '--log', 'many.log')
    child.communicate(timeout=110)
    texts = re.findall(r'kubectl-rbacaudit: ([\d,.]+) of ([\d,.]+) MB of logs read', heard(terminal, '\r%60s\r' % ''))
    read = [float(one) for one, _ in texts]
    it.checked('files, one packed', texts and {of_all for _, of_all in texts} == {'%.1f' % (size / 1e6)} and read == sorted(read) and read[-1] <= size / 1e6 + 0.05, texts)
    for number in (signal.SIGINT, signal.SIGTERM, signal.SIGHUP):
        child, terminal = begun(it, *ASK, '-')
        child.stdin.write(many.encode())
        child.stdin.flush()
        said = heard(terminal, 'MB of logs read')
        it.checked('a pipe', re.search(r'kubectl-rbacaudit: \d\.\d MB of logs read', said), said)
        child.send_signal(number)
        out = child.communicate(timeout=60)[0]
        it.checked('signal %d' % number, (child.returncode % 256, out) == (128 + number, b''), (child.returncode, out))
        os.close(terminal)
    got = it.run(*ASK, 'many.log')
    it.checked('no line elsewhere', got[0] == 1 and got[2] == '', got[2])


CHECKS = [answers, of_a_server, logs, faults, stale, progress]
