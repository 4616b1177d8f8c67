"""How the kubectl plugin shows answers: columns on a terminal, lines in a pipe, formats, colors, the words of rules; and summaries of diff.

Tables, words and summaries are written by hand from docs/FORMATS.md, and so are the powers, from their definition. JSON is read by Python's parser.
"""

import json
import os
import pty
import random
import re
import shutil
import subprocess
import sys

from common import PROGRAM, V1, checked
from plugin_room import PLUGIN, in_each_shell, of_kinds
from plugin_terminal import (ANSWERS, SEEN_BINDING, SEEN_ROLE, SEEN_TYPE, SEEN_USER, TYPE, USER, hostile, in_tmux,
                             on_terminal)
from show import NAMES, colored, field_of, is_same, objects_in
from written import steps as steps_of_behaviour

PACKAGE = os.path.join(os.path.dirname(PLUGIN), 'rbacaudit_kubectl')
RBAC = 'rbac.authorization.k8s.io'
ADMISSION = 'admissionregistration.k8s.io'
CSR = 'certificatesigningrequests/'
# The powers: each with its verbs and types, and where a binding has to be that gives it: anywhere, in the cluster alone, or there and in one namespace.
POWERS = [
    ('impersonate', 'impersonate', 'users groups', 'cluster'), ('impersonate', 'impersonate', 'serviceaccounts', ''),
    ('token', 'create', 'serviceaccounts/token', ''), ('run', 'create', 'pods jobs.batch', ''),
    ('run', 'create update patch', 'replicationcontrollers daemonsets.apps deployments.apps replicasets.apps statefulsets.apps cronjobs.batch controllerrevisions.apps', ''),
    ('exec', 'create get', 'pods/attach pods/exec', ''), ('exec', 'update patch', 'pods pods/ephemeralcontainers', ''),
    ('secrets', 'get list watch update patch delete deletecollection', 'secrets', ''), ('nodes', 'create get', 'nodes/proxy', 'cluster'),
    ('bind', 'bind', 'clusterroles.%s roles.%s' % (RBAC, RBAC), ''), ('escalate', 'escalate', 'clusterroles.' + RBAC, 'cluster'), ('escalate', 'escalate', 'roles.' + RBAC, ''),
    ('certificates', 'update patch', CSR + 'approval.certificates.k8s.io', 'cluster'),
    ('certificates', 'create', ' '.join(CSR + it + '.certificates.k8s.io' for it in ('nodeclient', 'selfnodeclient')), 'cluster'),
    ('webhooks', 'create update patch', ' '.join('%s.%s' % (it, ADMISSION) for it in (
        'mutatingwebhookconfigurations', 'validatingwebhookconfigurations', 'mutatingadmissionpolicies', 'mutatingadmissionpolicybindings')), 'cluster'),
    ('apiservices', 'create update patch', 'apiservices.apiregistration.k8s.io', 'cluster'), ('bootstrap', 'create update patch', 'secrets', 'kube-system'),
    ('volumes', 'create', 'persistentvolumes', 'cluster'), ('namespaces', 'update patch', 'namespaces', '')]
ORDER = list(dict.fromkeys(power for power, *_ in POWERS))


# ---- objects

def role(name, *rules, namespace=None):
    place = {'namespace': namespace} if namespace else {}
    return {'apiVersion': V1, 'kind': 'Role' if namespace else 'ClusterRole', 'metadata': {'name': name, **place}, 'rules': [*rules]}


def rule(verbs, resources, group='', names=()):
    return {'verbs': verbs.split(), 'apiGroups': [group], 'resources': resources.split(), **({'resourceNames': [*names]} if names else {})}


def bound(name, to, *users, namespace=None, of='ClusterRole'):
    place = {'namespace': namespace} if namespace else {}
    return {'apiVersion': V1, 'kind': 'RoleBinding' if namespace else 'ClusterRoleBinding', 'metadata': {'name': name, **place},
            'roleRef': {'kind': of, 'name': to}, 'subjects': [{'kind': 'User', 'name': user} for user in users]}


def exported(it, name, *items):
    """Makes an export of these objects."""
    it.serve({'cluster': of_kinds(items, 'ClusterRole', 'ClusterRoleBinding'), 'namespaced': of_kinds(items, 'Role', 'RoleBinding')})
    it.run('export', name)


# ---- formats

def lines_of(text):
    """The lines of a text, whose names may have characters that others take for the end of a line."""
    return text.split('\n')[:-1]


@in_each_shell
def formats(it):
    """Each answer in each format, with its status; through a pipe its lines are the same, whatever is written."""
    exported(it, 'none')
    exported(it, 'prod', *hostile()['items'])
    it.write(json.dumps({'apiVersion': 'rbacaudit/v1', 'kind': 'Universe', 'names': [''], 'verbs': ['delete'], 'namespaces': [''],
                         'resources': [{'resource': TYPE}]}), 'u.json')
    changes = ['diff', '--export', 'none', '--export', 'prod']
    it.write(json.dumps(hostile()), 'm\u202e.json')
    for line in [*([*line, '--export', 'prod'] for line, *_ in ANSWERS), changes, [*changes, '--summary'], ['lint', 'm\u202e.json']]:
        plain, out = it.run(*line), it.run(*line)[1]
        for words in (['-o', 'tsv'], ['-otsv', '--color', 'always'], ['--output=tsv', '--no-headers']):
            it.checked('%s %s' % (line, words), it.run(*line, *words) == plain, it.run(*line, *words))
        status, shown, err = got = it.run(*line, '-o', 'json')
        it.checked('%s: JSON' % line, (status, err) == plain[::2] and is_same(lines_of(out), objects_in(shown.encode())), got)
        for words, most in (([], 80), (['-o', 'json'], None), (['--output', 'wide'], None)):
            got = on_terminal(it, *line, *words, columns=80)
            wide = max((len(row) for row in got[1].splitlines()), default=0)
            it.checked('%s: on a terminal %s' % (line, words), (got[0], got[2]) == plain[::2] and (not most or wide <= most)
                       and not re.search('[\u009b\u200b\u202e\u2028\U000e0041]', got[1]), got)
        status, table, err = got = it.run(*line, '-o', 'table', '--no-headers')
        rows = [re.split(' {2,}', row) for row in lines_of(table) if not row.startswith('    ')]
        it.checked('%s: a table' % line, (status, err) == plain[::2] and rows == [row.split('\t') for row in lines_of(out)], got)
    got = it.run('who-can', '--export', 'prod', '-A', 'delete', TYPE, '-o', 'name')
    it.checked('names', got[:2] == (0, 'u:%s\n' % USER), got)


@in_each_shell
def hostile_names(it):
    """Each odd name comes back from JSON as it is."""
    names = [name for name in NAMES if name and '\ud800' > name.ljust(1)[0] or name > '\udfff']
    exported(it, 'none')
    exported(it, 'prod', role('all', rule('get', 'pods')), *(bound('b%d' % at, 'all', name) for at, name in enumerate(names)))
    for words, wanted in ((['who-can', '-A', '--export', 'prod', 'get', 'pods'], {('u:' + name, 'ClusterRoleBinding/b%d' % at) for at, name in enumerate(names)}),
                          (['diff', '--export', 'none', '--export', 'prod'], {('u:' + name, 'ClusterRoleBinding/b%d' % at) for at, name in enumerate(names)})):
        for more in ([], ['--summary']) if words[0] == 'diff' else ([],):
            status, out, err = got = it.run(*words, *more, '-o', 'json')
            found = [line for line in objects_in(out.encode()) if 'who' in line]
            it.checked('odd names: %s' % [*words, *more], {(line['who'], line['binding']) for line in found} == wanted and len(found) == len(names), got)
    words = [name for name in NAMES if name and name != '*' and not name.startswith('/')]
    exported(it, 'words', role('all', {'verbs': words, 'apiGroups': NAMES, 'resources': ['x'], 'resourceNames': NAMES}), bound('b', 'all', 'kim'))
    status, out, err = got = it.run('rules', 'u:kim', '--export', 'words', '-o', 'json')
    [line] = objects_in(out.encode())
    it.checked('odd words', [line[key] for key in ('verbs', 'api_groups', 'resource_names')] == [words, NAMES, NAMES], got)
    it.checked('odd words on a terminal', on_terminal(it, 'rules', 'u:kim', '--export', 'words', '-o', 'json')[1] == out, got)


HOLDERS = '''\
WHO                              BINDING
u:dana@example.com               ClusterRoleBinding/admins
u:system:serviceaccount:shop:ci  RoleBinding/shop/ci-deploys
'''
# (31 and 27 columns, and two between: the first gives 4, and then each gives 8)
HOLDERS_40 = '''\
WHO                  BINDING
u:dana@example.com   ClusterRoleBinding…
u:system:serviceac…  RoleBinding/shop/c…
'''


@in_each_shell
def on_terminals(it):
    """Columns as wide as the screen, and what asks for something else there."""
    it.run('export', 'prod')
    line = ['who-can', '--export', 'prod', '-n', 'shop', 'update', 'deployments.apps']
    plain = ''.join('\t'.join(row.split()) + '\n' for row in HOLDERS.splitlines()[1:])
    for columns, words, wanted in ((200, [], HOLDERS), (0, [], HOLDERS), (40, [], HOLDERS_40), (40, ['-o', 'wide'], HOLDERS), (200, ['--no-headers'], HOLDERS.partition('\n')[2]),
                                   (40, ['-o', 'tsv'], plain), (40, ['-oname'], ''.join(row.partition('\t')[0] + '\n' for row in plain.splitlines()))):
        got = on_terminal(it, *line, *words, columns=columns)
        it.checked('%d columns %s' % (columns, words), got == (0, wanted, ''), got)
    got = on_terminal(it, 'can-i', '--export', 'prod', '--as', 'dana@example.com', '-A', 'get', 'pods', '-q')
    it.checked('quiet', got == (0, '', ''), got)
    got = on_terminal(it, 'universe', '--export', 'prod')
    it.checked('a universe is JSON', got[0] == 0 and json.loads(got[1])['kind'] == 'Universe', got)
    got = on_terminal(it, 'diff', '--export', 'prod', '--export', 'prod')
    it.checked('nothing changes', got == (0, '', ''), got)


# What kim's grants lack to delete pods in shop.
LACKING = '''\
no
WHAT       HAS               BINDING                                  ROLE                     SOURCE                           RULE  SUBJECT
namespace  shop-staging      RoleBinding/shop-staging/developers-own  Role/shop-staging/owner  Role/shop-staging/owner          1     1
verb       [get,list,watch]  RoleBinding/shop/developers-view         ClusterRole/shop-view    ClusterRole/shop-view-workloads  1     1
'''


@in_each_shell
def lacking(it):
    """On a terminal a no says what grants lack, unless a format or -q asks for less; elsewhere with --why-not alone."""
    it.run('export', 'prod')
    line = ['can-i', '--export', 'prod', '--as', 'kim@example.com', '--groups', 'shop-developers', '-n', 'shop', 'delete', 'pods']
    for words, wanted in (([], LACKING), (['-o', 'wide'], LACKING), (['--why'], LACKING), (['--why-not'], LACKING), (['-q'], ''), (['-o', 'tsv'], 'no\n'),
                          (['-ojson'], '{"allowed":false}\n'), (['-o', 'name'], '')):
        got = on_terminal(it, *line, *words, columns=200)
        it.checked('a terminal %s' % words, got == (1, wanted, ''), got)
    got = on_terminal(it, *line[:-2], 'list', 'pods', columns=200)
    it.checked('a yes lacks nothing', got == (0, 'yes\n', ''), got)
    for words, wanted in (([], 'no\n'), (['-o', 'table'], 'no\n'), (['--why-not', '-o', 'table'], LACKING)):
        it.expect('a pipe %s' % words, [*line, *words], 1, wanted, '')
    got = it.run(*line, '--why-not', '-o', 'json')
    it.checked('as JSON', [json.loads(text) for text in got[1].splitlines()][1:] == [
        {'what': 'namespace', 'has': 'shop-staging', 'binding': 'RoleBinding/shop-staging/developers-own', 'role': 'Role/shop-staging/owner',
         'source': 'Role/shop-staging/owner', 'rule': 1, 'subject': 1},
        {'what': 'verb', 'has': ['get', 'list', 'watch'], 'binding': 'RoleBinding/shop/developers-view', 'role': 'ClusterRole/shop-view',
         'source': 'ClusterRole/shop-view-workloads', 'rule': 1, 'subject': 1}], got)


@in_each_shell
def refused(it):
    """What isn't known, before anything is read."""
    every, hosted = 'table, wide, json, name or tsv', 'table, wide, json, name, tsv or sarif'
    for words, said in ((['who-can', 'get', 'pods', '-o', 'yaml'], 'who-can has no format yaml: -o takes ' + every),
                        (['lint', '--output=x y'], 'lint has no format x y: -o takes ' + hosted), (['matrix', '-o'], '-o needs a value'),
                        (['matrix', '-o='], '-o needs a value'), (['rules', 'u:x', '-o', 'json', '-ojson'], '-o is given twice'),
                        (['matrix', '--color'], '--color needs a value'), (['matrix', '--color=red'], 'there is no color red: --color takes auto, always or never'),
                        (['diff', '--fail-on', 'all'], "diff can't fail on all: --fail-on takes changes, gains or powers"),
                        (['diff', '--fail-on', 'gains', '--fail-on=gains'], '--fail-on is given twice'), (['diff', '--fail-on'], '--fail-on needs a value'),
                        (['diff', '--export', 'x', '-o', 'sum'], 'diff has no format sum: -o takes ' + hosted),
                        (['universe', '-o', 'json'], 'universe has no -o; kubectl rbacaudit --help lists its options')):
        it.expect('refused: %s' % words, words, 2, '', 'kubectl-rbacaudit: %s\n' % said)
    it.checked('asks no cluster', not it.lines('calls'), 'calls')
    for words in (['--', '-o', 'json'], ['--as', '-o', 'json']):
        status, out, err = got = it.run('can-i', *words)
        it.checked('no option: %s' % words, (status, out) == (2, '') and 'has no format' not in err, got)


@in_each_shell
def without_filter(it):
    """The plugin has its tables and formats from its package, whether rbacaudit-show is there or not."""
    it.run('export', 'prod')
    alone = it.at('alone')
    os.mkdir(alone)
    shutil.copy(PLUGIN, alone)
    shutil.copytree(PACKAGE, os.path.join(alone, os.path.basename(PACKAGE)))
    line = ['lint', '--export', 'prod', '--only', 'L2']
    got = on_terminal(it, *line, plugin=os.path.join(alone, os.path.basename(PLUGIN)))
    it.checked('a table', (got[0], got[1].split('\n')[0]) == (1, 'CODE  NAME         OBJECT           PLACE  DETAIL'), got)


@in_each_shell
def statuses(it):
    """The status is rbacaudit's, and 2 where showing fails; a reader that goes away ends it."""
    it.run('export', 'prod')
    dana, nobody = ['--as', 'dana@example.com'], ['--as', 'system:anonymous']
    for words, status in ((['can-i', *dana, '-A', 'get', 'pods'], 0), (['can-i', *nobody, '-A', 'get', 'pods'], 1), (['lint'], 1), (['lint', 'gone.json'], 2)):
        for format_ in ('table', 'json', 'name', 'tsv'):
            got = it.run(*words, '--export', 'prod', '-o', format_)
            it.checked('%s -o %s' % (words, format_), got[0] == status and bool(got[2]) == (status == 2), got)
    for words in (['lint'], ['who-can', '-A', 'get', 'pods', '--why'], ['diff', '--export', 'prod', '--summary']):
        with open('/dev/full', 'wb') as full:
            ended = subprocess.run([it.shell, PLUGIN, *words, '--export', 'prod', '-o', 'json'], cwd=it.work, env=it.environment(), stdin=subprocess.DEVNULL,
                                   stdout=full, stderr=subprocess.PIPE, timeout=60)
        it.checked('a full disk: %s' % words, ended.returncode == 2, ended)
    it.write(json.dumps({'apiVersion': 'rbacaudit/v1', 'kind': 'Universe', 'names': ['n%05d' % at for at in range(3000)]}), 'u.json')
    for format_ in ('table', 'json', 'tsv'):
        ended = subprocess.run(['bash', '-c', '"$@" | head -n 1', 'x', it.shell, PLUGIN, 'matrix', '--once', '--export', 'prod', '-o', format_, 'u.json'], cwd=it.work,
                               env=it.environment(), stdin=subprocess.DEVNULL, stdout=subprocess.PIPE, stderr=subprocess.PIPE, timeout=60)
        lines = ended.stderr.decode().splitlines()
        it.checked('head -o %s' % format_, ended.stdout.count(b'\n') == 1 and (not lines or lines[0].startswith('rbacaudit: write failed')) and len(lines) < 2, ended)


# ---- the words of rules

WHY = '''\
WHO                              BINDING                      ROLE                       SOURCE                     RULE  SUBJECT
u:dana@example.com               ClusterRoleBinding/admins    ClusterRole/cluster-admin  ClusterRole/cluster-admin  1     1
    VERBS *  GROUPS *  RESOURCES *
u:system:serviceaccount:shop:ci  RoleBinding/shop/ci-deploys  Role/shop/deployer         Role/shop/deployer         1     1
    VERBS get,list,watch,update,patch  GROUPS apps  RESOURCES deployments
'''
CAN = '''\
yes
BINDING                            ROLE                   SOURCE                           RULE  SUBJECT
RoleBinding/shop/developers-view   ClusterRole/shop-view  ClusterRole/shop-view-workloads  2     1
    VERBS get,list,watch  GROUPS apps  RESOURCES deployments
'''.replace('view   Cl', 'view  Cl').replace('BINDING  ', 'BINDING ')


@in_each_shell
def words_below(it):
    """The words of the rule below each line of --why, in a table alone; they are had from rbacaudit, and not where a FILE can't be read twice."""
    it.run('export', 'prod')
    line = ['who-can', '--export', 'prod', '-n', 'shop', '--why', 'update', 'deployments.apps']
    kim = ['can-i', '--export', 'prod', '--as', 'kim@example.com', '--groups', 'shop-developers', '-n', 'shop', '--why', 'list', 'deployments.apps']
    for words, wanted in ((line, WHY), (kim, CAN)):
        for got in (on_terminal(it, *words, columns=200), it.run(*words, '-o', 'table'), it.run(*words, '-o', 'wide')):
            it.checked('words: %s' % words[0], got == (0, wanted, ''), got)
        for format_ in ('tsv', 'json', 'name'):
            got = it.run(*words, '-o', format_)
            it.checked('words: none in %s' % format_, got[0] == 0 and 'VERBS' not in got[1], got)
    got = it.run('can-i', '--export', 'prod', '--as', 'kim@example.com', '-n', 'shop', '--why', 'list', 'pods', '-owide')
    it.checked('words: of no', got[:2] == (1, 'no\n'), got)
    more = json.dumps(bound('more', 'shop-view-logs', 'eve')).encode()
    out = 'BINDING                  ROLE                        SOURCE                      RULE  SUBJECT\n' \
        'ClusterRoleBinding/more  ClusterRole/shop-view-logs  ClusterRole/shop-view-logs  1     1\n'
    eve = ['can-i', '--export', 'prod', '--as', 'eve', '-A', '--why', '--subresource', 'log', 'get', 'pods', '-o', 'table']
    it.write(more.decode(), 'more.json')
    below = '    VERBS get  GROUPS -  RESOURCES pods/log\n'
    got = it.run(*eve, 'more.json')
    it.checked('words: a FILE', got[:2] == (0, 'yes\n' + out + below), got)
    ours, theirs = os.pipe()
    os.write(theirs, more)
    os.close(theirs)
    got = it.run(*eve, '/dev/stdin', stdin=ours)
    os.close(ours)
    it.checked('words: a pipe', got[:2] == (0, 'yes\n' + out), got)


@in_each_shell
def odd_words(it):
    """Roles and words of odd names, and a role whose name says nothing for sure."""
    odd = 'a"\\\t/b\u202e,'
    exported(it, 'prod', role(odd, rule('get', 'pods')), bound('b', odd, 'kim'), role('x/y', rule('list', 'pods'), namespace='shop'),
             bound('c', 'x/y', 'kim', namespace='shop', of='Role'), *hostile()['items'])
    shown = field_of(odd).replace('\u202e', '\\xe2\\x80\\xae')
    got = on_terminal(it, 'can-i', '--as', 'kim', '--export', 'prod', '-A', '--why', 'get', 'pods', columns=150)
    it.checked('words of an odd role', got[0] == 0 and ('ClusterRole/' + shown) in got[1] and got[1].endswith('\n    VERBS get  GROUPS -  RESOURCES pods\n'), got)
    got = on_terminal(it, 'can-i', '--as', 'kim', '--export', 'prod', '-n', 'shop', '--why', 'list', 'pods', columns=150)
    it.checked('words of a role that may be two', got[0] == 0 and 'Role/shop/x/y' in got[1] and 'VERBS' not in got[1], got)
    got = on_terminal(it, 'who-can', '--export', 'prod', '-A', '--why', 'delete', TYPE, '-o', 'wide')
    it.checked('odd words', got[1].splitlines()[1:] == [
        '  '.join(('u:' + SEEN_USER, 'ClusterRoleBinding/' + SEEN_BINDING, 'ClusterRole/' + SEEN_ROLE, 'ClusterRole/' + SEEN_ROLE, '1     1')),
        '    VERBS delete  GROUPS -  RESOURCES ' + SEEN_TYPE], got)


# ---- colors

CHANGED = '''\
CHANGE  WHO    NAMESPACE  VERB  GROUP  RESOURCE  NAME  BINDING
+       u:eve  *          get   -      secrets   *     ClusterRoleBinding/new
-       u:kim  *          get   -      pods      *     ClusterRoleBinding/old
'''


@in_each_shell
def colors(it):
    """Gains, losses and powers in color on a terminal, and where that is asked for."""
    exported(it, 'before', role('pods', rule('get', 'pods')), bound('old', 'pods', 'kim'))
    exported(it, 'after', role('secrets', rule('get', 'secrets')), bound('new', 'secrets', 'eve'))
    line = ['diff', '--export', 'before', '--export', 'after']
    painted = colored(CHANGED, ['1;32', '31'])
    for words, more, wanted in (([], {'TERM': 'xterm'}, painted), ([], {'TERM': 'dumb'}, CHANGED), ([], {'TERM': 'xterm', 'NO_COLOR': '1'}, CHANGED),
                                (['--color', 'never'], {'TERM': 'xterm'}, CHANGED), (['--color=always'], {'NO_COLOR': '1'}, painted)):
        got = on_terminal(it, *line, *words, columns=100, more=more)
        it.checked('colors: %s %s' % (words, more), got == (1, wanted, ''), got)
    for words, wanted in (([], CHANGED), (['--color', 'always'], painted)):
        got = it.run(*line, *words, '-o', 'table')
        it.checked('colors in a pipe: %s' % words, got == (1, wanted, ''), got)
    got = it.run(*line, '--color=always')
    it.checked('colors: none in lines', '\x1b' not in got[1] and got[0] == 1, got)


# The program, but a comparison takes its time.
SLOW = """#!/bin/sh
[ "$1" != diff ] || sleep 1.5
exec '%s' "$@"
"""


@in_each_shell
def awaited(it):
    """If a comparison takes more than a second, a terminal says how many lines can come: here 2 subjects with 2 verbs, 2 resources and 3 names,
    and a subject with one verb and one resource."""
    exported(it, 'before', role('pods', rule('get', 'pods')), role('none', rule('get', 'nodes')), bound('old', 'pods', 'kim'))
    exported(it, 'after', role('many', rule('get list', 'pods secrets', names=('a', 'b', 'c')), namespace='dev'),
             bound('new', 'many', 'eve', 'ann', namespace='dev', of='Role'))
    for name, text, wanted in (('at once', "#!/bin/sh\nexec '%s' \"$@\"\n", []), ('slow', SLOW, ['kubectl-rbacaudit: comparing; at most 25 lines are to come'])):
        os.remove(os.path.join(it.bin, 'rbacaudit'))
        it.write(text % PROGRAM, it.at('bin'), 'rbacaudit')
        os.chmod(os.path.join(it.bin, 'rbacaudit'), 0o755)
        ours, terminal = pty.openpty()
        done = subprocess.run([it.shell, PLUGIN, 'diff', '--export', 'before', '--export', 'after', '-o', 'json'], cwd=it.work, env=it.environment(),
                              stdin=subprocess.DEVNULL, stdout=subprocess.PIPE, stderr=terminal, check=False, timeout=60)
        os.write(terminal, b'end')
        said = ''
        while not said.endswith('end'):
            said += os.read(ours, 10000).decode()
        os.close(terminal)
        os.close(ours)
        it.checked('a comparison that is %s' % name, (done.returncode, done.stdout.count(b'\n')) == (1, 25)
                   and [part for part in said.split('\r') if part.strip()] == [*wanted, 'end'], (said, done))


# ---- summaries

def word_matches(word, text):
    return word in ('*', text)


def has_name(verb, type_):
    """Whether a request has an object's name: not to delete many at once, nor to create, but for what is below an object that is there."""
    is_of_node = type_.partition('.')[0] in (CSR + 'nodeclient', CSR + 'selfnodeclient')
    return {'create': '/' in type_ and not is_of_node, 'deletecollection': False}.get(verb, True)


def powers_of(change):
    """The powers of a line of diff, by their definition: a set of names."""
    _, _, namespace, verb, group, resource, name, _ = change
    found = set()
    for power, verbs, types, place in POWERS:
        for type_ in types.split():
            plural, _, of = type_.partition('.')
            sub = plural.partition('/')[2]
            if (namespace != '-' and (namespace == '*' or place in ('', namespace)) and word_matches(group, of or '-')
                    and any(word_matches(verb, it) and (name in ('*', '-') or has_name(it, type_)) for it in verbs.split())
                    and (word_matches(resource, plural) or sub and resource == '*/' + sub)):
                found.add(power)
    return found


def summary_of(lines):
    """The lines of a summary, from those of diff."""
    changes = [line.split('\t') for line in lines.splitlines()]
    counted = {}
    for change in changes:
        for about in ((change[1], change[2], change[7]), ('total', '-', '-')):
            counted.setdefault(about, {'+': [], '-': []})[change[0]].append(powers_of(change))
    total = counted.pop(('total', '-', '-'), {'+': [], '-': []})
    for about, found in [*sorted(counted.items(), key=lambda item: [text.encode() for text in item[0]]), (('total', '-', '-'), total)]:
        yield '\t'.join([*about, *(str(len(found[sign])) for sign in '+-'),
                         *('[%s]' % ','.join(power for power in ORDER if any(power in it for it in found[sign])) for sign in '+-')]) + '\n'


ALL = '[%s]' % ','.join(ORDER)
MIXED = [
    role('all', rule('*', '*', '*'), {'verbs': ['get'], 'nonResourceURLs': ['/x', '/y/*']}), bound('admins', 'all', 'dana'),
    role('dev', rule('get list', 'secrets'), rule('create', 'pods'), rule('get', 'configmaps'), namespace='shop'),
    role('few', rule('get', 'secrets', names=['x']), rule('create', 'serviceaccounts/token', names=['ci']), rule('bind', 'roles', RBAC, ['x', 'y']),
         rule('escalate', 'clusterroles', RBAC), rule('impersonate', 'users')),
    role('proxy', rule('get', '*/proxy'), rule('get', 'pods/*')), bound('dev', 'dev', 'kim', namespace='shop', of='Role'),
    bound('few', 'few', 'kim', namespace='shop'), bound('few', 'few', 'kim'), bound('proxy', 'proxy', 'lee'), bound('proxy', 'proxy', 'lee', namespace='shop')]
# (what a ClusterRoleBinding of a role has, a RoleBinding to it has too, so its line is there all the same: each permission is compared with the other side)
SUMMARY = [
    'u:dana * ClusterRoleBinding/admins 1 0 %s []' % ALL, 'u:dana - ClusterRoleBinding/admins 2 0 [] []',
    'u:kim * ClusterRoleBinding/few 6 0 [impersonate,token,secrets,bind,escalate] []',
    'u:kim shop RoleBinding/shop/dev 4 0 [run,secrets] []', 'u:kim shop RoleBinding/shop/few 6 0 [token,secrets,bind] []',
    'u:lee * ClusterRoleBinding/proxy 2 0 [nodes] []', 'u:lee shop RoleBinding/shop/proxy 2 0 [] []',
    'total - - 23 0 %s []' % ALL]


def tabbed(lines):
    return ''.join(line.replace(' ', '\t') + '\n' for line in lines)


def reversed_summary(lines):
    """The same summary where the sides are exchanged."""
    fields = [line.split() for line in lines]
    return [' '.join([*line[:3], line[4], line[3], line[6], line[5]]) for line in fields]


@in_each_shell
def summaries(it):
    """What a summary counts, in each format; and what ends with status 1."""
    exported(it, 'none')
    exported(it, 'prod', *MIXED)
    gained, lost = ['diff', '--export', 'none', '--export', 'prod'], ['diff', '--export', 'prod', '--export', 'none']
    it.expect('a summary of gains', [*gained, '--summary'], 1, tabbed(SUMMARY))
    it.expect('a summary of losses', [*lost, '--summary'], 1, tabbed(reversed_summary(SUMMARY)))
    it.expect('a summary of nothing', ['diff', '--export', 'prod', '--export', 'prod', '--summary'], 0, 'total\t-\t-\t0\t0\t[]\t[]\n')
    status, out, err = got = it.run(*gained, '--summary', '-o', 'json')
    wanted = [dict(zip(('who', 'namespace', 'binding', 'gained', 'lost', 'powers_gained', 'powers_lost'), (
        who, {'*': None, '-': ''}.get(place, place), binding, int(more), int(less), more_powers[1:-1].split(',') if more_powers != '[]' else [], [])))
        for who, place, binding, more, less, more_powers, _ in map(str.split, SUMMARY[:-1])]
    wanted.append({'total': True, 'gained': 23, 'lost': 0, 'powers_gained': ORDER, 'powers_lost': []})
    it.checked('a summary as JSON', (status, objects_in(out.encode()), err) == (1, wanted, ''), got)
    got = it.run(*gained, '--summary', '-o', 'name')
    it.checked('a summary as names', got == (1, 'u:dana\nu:kim\nu:lee\n', ''), got)
    got = on_terminal(it, *lost, '--summary', '-owide')
    table = [re.split(' {2,}', row) for row in got[1].splitlines()]
    it.checked('a summary on a terminal', (got[0], table[0][3:], table[1:]) == (
        1, ['GAINED', 'LOST', 'POWERS_GAINED', 'POWERS_LOST'], [line.split() for line in reversed_summary(SUMMARY)]), got)
    exported(it, 'less', *(item for item in MIXED if item['metadata']['name'] not in ('admins', 'few')))
    exported(it, 'pods', *(item for item in MIXED if item['metadata']['name'] != 'few'), role('pods', rule('get', 'pods')), bound('pods', 'pods', 'kim'))
    for before, after, statuses_ in (('none', 'prod', (1, 1, 1)), ('prod', 'none', (1, 0, 0)), ('prod', 'prod', (0, 0, 0)), ('prod', 'pods', (1, 1, 0)),
                                     ('less', 'prod', (1, 1, 1))):
        line = ['diff', '--export', before, '--export', after]
        for what, status in zip(('changes', 'gains', 'powers'), statuses_):
            for words in ([], ['--summary'], ['-ojson']):
                got = it.run(*line, '--fail-on', what, *words)
                it.checked('%s to %s fails on %s %s' % (before, after, what, words), got == (status, *it.run(*line, *words)[1:]), got)
    it.write('[', 'prod', 'cluster.json')
    status, out, err = got = it.run(*gained, '--summary', '--fail-on', 'powers')
    it.checked('an error of a summary', (status, out) == (2, '') and 'M1 not JSON' in err, got)


@in_each_shell
def random_summaries(it):
    """Random changes: the summary is what their lines say."""
    chosen = random.Random(7)
    verbs = sorted({verb for _, verbs, *_ in POWERS for verb in verbs.split()} | {'*', 'use'})
    types = sorted({type_ for _, _, types, *_ in POWERS for type_ in types.split()} | {'services', '*', '*.apps', '*/exec', '*/token', 'pods/*', 'a,secrets', '*,pods'})

    def some_rule():
        type_ = chosen.choice(types)
        plural, _, group = type_.partition('.')
        return {'verbs': chosen.sample(verbs, 2), 'apiGroups': [chosen.choice([group, group, group, '*', 'apps'])], 'resources': [plural],
                **({'resourceNames': [chosen.choice(['', '*', 'x'])]} if chosen.random() < 0.3 else {})}

    def some():
        for at in range(25):
            yield role('r%d' % at, *(some_rule() for _ in range(chosen.randrange(4))))
            yield bound('b%d' % at, 'r%d' % at, *chosen.sample(['kim', 'k', 'k!', 'lee'], 2), namespace=chosen.choice([None, 'dev', '*', 'dev-1', 'kube-system']))

    for turn in range(3):
        before, after = 'before%d' % turn, 'after%d' % turn
        exported(it, before, *some())
        exported(it, after, *some())
        lines = it.run('diff', '--export', before, '--export', after)[1]
        wanted = ''.join(summary_of(lines))
        got = it.run('diff', '--export', before, '--export', after, '--summary')
        it.checked('a random summary', got == (1, wanted, '') and lines.count('\n') > 100, (got, wanted))


TABLE = '''import json, sys
sys.path.insert(0, sys.argv[1])
from rbacaudit_kubectl.fields import STEPS, has_name
print(json.dumps([[name, verb, type_, where, has_name(verb, type_)] for name, verbs, types, where in STEPS for type_ in types.split() for verb in verbs.split()]))
'''
SUMMARY_OF = '''import sys
sys.path.insert(0, sys.argv[1])
from rbacaudit_kubectl.changes import summarize
print(summarize([line.split(chr(9)) for line in sys.stdin.read().splitlines()]), end='')
'''


def python(script, given=''):
    """What a script prints that has the package of the plugin."""
    return subprocess.run([sys.executable, '-c', script, os.path.dirname(PLUGIN)], input=given.encode(), stdout=subprocess.PIPE, timeout=120,
                          check=True).stdout.decode()


def steps():
    """The table of steps is that of docs/BEHAVIOUR.md, and the powers are what it says."""
    wanted = [(power, verb, type_, place, has_name(verb, type_)) for power, verbs, types, place in POWERS for type_ in types.split() for verb in verbs.split()]
    of_place = {True: 'cluster', False: ''}
    said = [(power, verb, type_, of_place.get(place, place), named) for power, verbs, types, place, named in steps_of_behaviour() for type_ in types for verb in verbs]
    for name, table in (('docs/BEHAVIOUR.md', said), ('fields.py', [*map(tuple, json.loads(python(TABLE)))])):
        checked('%s: the powers' % name, sorted(table) == sorted(wanted) and [*dict.fromkeys(power for power, *_ in table)] == ORDER, repr(table))
    chosen = random.Random(3)
    words = [sorted({word for change in POWERS for word in of(change)} | {'*', 'x'}) for of in (
        lambda it: it[1].split(), lambda it: [type_.partition('.')[2] or '-' for type_ in it[2].split()], lambda it: [type_.partition('.')[0] for type_ in it[2].split()])]
    words[2] += ['*/exec', '*/token', '*/approval', '*/nodeclient', '*/proxy', '*/', 'pods/*', 'secrets,x']
    changes = [['+', 'u:a', chosen.choice(['*', 'dev', '-', '\\x2a', 'kube-system']), *(chosen.choice(it) for it in words), chosen.choice(['*', '-', 'x', '\\x2a']), 'RoleBinding/dev/%d' % (at % 7)]
               for at in range(20000)]
    changes.sort(key=lambda it: '\t'.join(it[1:]).encode())
    lines = ''.join('\t'.join(change) + '\n' for change in changes)
    wanted = [*summary_of(lines)]
    got = python(SUMMARY_OF, lines)
    checked('a summary', got.splitlines(True) == wanted, repr(got[:500]))


# ---- a terminal that shows what it got

@in_each_shell
def in_terminals(it):
    """What a terminal of 80 and of 200 columns shows: a table, words below it, and a summary."""
    exported(it, 'none')
    exported(it, 'prod', *MIXED, *hostile()['items'])
    for columns in (80, 200):
        got = in_tmux(it, [it.shell, PLUGIN, 'can-i', '--export', 'prod', '--as', 'dana', '-A', '--why', 'get', 'pods'], columns)
        it.checked('in tmux: %d columns' % columns, [line.split() for line in got] == [
            ['yes'], ['BINDING', 'ROLE', 'SOURCE', 'RULE', 'SUBJECT'], ['ClusterRoleBinding/admins', 'ClusterRole/all', 'ClusterRole/all', '1', '1'],
            ['VERBS', '*', 'GROUPS', '*', 'RESOURCES', '*'], ['status', '0']], got)
        got = in_tmux(it, [it.shell, PLUGIN, 'diff', '--export', 'prod', '--export', 'none'], columns)
        it.checked('in tmux: changes, %d columns' % columns, max(map(len, got)) <= columns and got[-1] == 'status 1' and len(got) == 27 and any(
            line.startswith('-       u:dana') for line in got), got)
        got = in_tmux(it, [it.shell, PLUGIN, 'diff', '--export', 'none', '--export', 'prod', '--summary'], columns)
        it.checked('in tmux: a summary, %d columns' % columns, len(got) == len(SUMMARY) + 3 and got[-1] == 'status 1' and re.match(r'total +- +- +25 +0 ', got[-2])
                   and got[0].split()[:3] == ['WHO', 'NAMESPACE', 'BINDING'], got)


def in_a_terminal():
    if shutil.which('tmux'):
        in_terminals()


CHECKS = [formats, hostile_names, on_terminals, lacking, refused, without_filter, statuses, words_below, odd_words, colors, awaited, summaries, random_summaries, steps, in_a_terminal]
