"""lint and diff with -o sarif: what code hosts are told, and where.

sarif.py reads the answers strictly. What is expected is written by hand from docs/FORMATS.md and the files of examples/.
"""

import json
import os
import shutil
import subprocess

import sarif
from common import TOP, V1, skipped
from local_kubectl import yaml
from plugin_changes import a_list, read
from plugin_manifests import ALONE, bound, put, role, with_manifests, without_cluster
from plugin_room import OWN, PLUGIN, SHELLS, example, in_each_shell, of_kinds, room

RUN = {'lint': ['L1', 'L2', 'L3', 'L4', 'L5', 'L6', 'L7'], 'diff': ['gained-permission', 'lost-permission']}


def results_of(it, name, got, status, said=None):
    """The results of an answer, which has to end with this status, and be SARIF."""
    run, faults = sarif.read(got[1])
    it.checked('%s: SARIF' % name, got[0] == status and not faults, (got[0], faults[:5], got[1][:500], got[2]))
    if said is not None:
        it.checked('%s: standard error' % name, got[2] == said, got[2])
    return run.get('results', [])


def place_of(location):
    """The file and the line of a location, or nothing, and its object."""
    [logical] = location['logicalLocations']
    physical = location.get('physicalLocation')
    return (physical and '%s:%d' % (physical['artifactLocation']['uri'], physical['region']['startLine']), logical['fullyQualifiedName'])


def seen(results):
    """Of each result its rule, level and message, and the file, the line and the object that it is about."""
    return [(it['ruleId'], it['level'], it['message']['text'], *place_of(it['locations'][0])) for it in results]


def related(results):
    return [[place_of(location) for location in it.get('relatedLocations', [])] for it in results]


def same(it, name, got, wanted):
    it.checked(name, got == wanted, '%.3000r, wanted %.3000r' % (got, wanted))


# ---- what is in examples/

FINDINGS = [
    ('L1', 'warning', 'RoleBinding/shop/old-deploys refers to Role/shop/deployer-v1, which does not exist. So the binding grants nothing.',
     'lint.json:83', 'RoleBinding/shop/old-deploys'),
    ('L2', 'note', 'No binding uses Role/shop/night-batch.', 'lint.json:17', 'Role/shop/night-batch'),
    ('L3', 'note', 'Rule 2 of Role/shop/deployer is redundant: rule 1 allows everything that rule 2 allows.', 'lint.json:8', 'Role/shop/deployer'),
    ('L4', 'error', 'Rule 1 of ClusterRole/team-lead allows bind: whoever has this rule can bind roles with permissions that they do not have.',
     'lint.json:25', 'ClusterRole/team-lead'),
    ('L5', 'error', 'Subject 1 of ClusterRoleBinding/metrics, the service account scraper, has no namespace. So it names nobody.',
     'lint.json:110', 'ClusterRoleBinding/metrics'),
    ('L6', 'warning', 'The rules written in ClusterRole/shop-view differ from the rules that it gathers from other roles.', 'lint.json:41', 'ClusterRole/shop-view'),
    ('L7', 'warning', 'RoleBinding/shop/ci-deploys is defined 2 times. Only this definition counts.', 'lint.json:74', 'RoleBinding/shop/ci-deploys')]
# (the binding of the CI account is as before, so its role is what changes)
CHANGES = [
    ('gained-permission', 'warning', 'The user system:serviceaccount:shop:ci gains 1 permission in the namespace shop, '
     'granted by RoleBinding/shop/ci-deploys: get secrets.', 'manifests/change/deployer.yaml:5', 'Role/shop/deployer'),
    ('lost-permission', 'note', 'The group shop-support loses 2 permissions in the namespace shop, '
     'granted before by RoleBinding/shop/support: get pods, get pods/log.', 'manifests/main/support.yaml:15', 'RoleBinding/shop/support')]
BESIDE = [[('manifests/change/deployer.yaml:18', 'RoleBinding/shop/ci-deploys')], [('manifests/main/support.yaml:5', 'Role/shop/support')]]


@with_manifests
def examples(it):
    """The files of examples/: findings, none, and changes."""
    shutil.copytree(os.path.join(TOP, 'examples'), it.work, dirs_exist_ok=True)
    got = without_cluster(it, 'lint', '-o', 'sarif', 'lint.json')
    same(it, 'lint.json', seen(results_of(it, 'lint.json', got, 1, read('lint.json', '6 roles, 6 bindings, 0 other objects') + OWN + ALONE)), FINDINGS)
    run = sarif.read(got[1])[0]
    driver = run['tool']['driver']
    same(it, 'lint: the tool', (driver['name'], driver['semanticVersion'], [rule['id'] for rule in driver['rules']], run['automationDetails'],
                               run['invocations']), ('rbacaudit', '0.1.0', RUN['lint'], {'id': 'rbacaudit-lint/'}, [{'executionSuccessful': True}]))
    for spelling in (['-osarif'], ['-o=sarif'], ['--output', 'sarif'], ['--output=sarif']):
        same(it, 'lint %s' % spelling, without_cluster(it, 'lint', 'lint.json', *spelling), got)
    got = without_cluster(it, 'lint', '--only', 'L2,L4', '-o', 'sarif', 'lint.json')
    same(it, 'lint --only', seen(results_of(it, 'lint --only', got, 1)), [FINDINGS[1], FINDINGS[3]])
    got = without_cluster(it, 'lint', '--only', 'L5', '-o', 'sarif', 'shop.json')
    same(it, 'no finding', results_of(it, 'no finding', got, 0), [])
    if not yaml:
        skipped('PyYAML', 'changes as SARIF')
        return
    pair = ['--from', 'manifests/main', '--to', 'manifests/change']
    got = without_cluster(it, 'diff', '-o', 'sarif', *pair)
    found = results_of(it, 'diff', got, 1)
    same(it, 'diff', (seen(found), related(found)), (CHANGES, BESIDE))
    run = sarif.read(got[1])[0]
    same(it, 'diff: the tool', ([rule['id'] for rule in run['tool']['driver']['rules']], run['automationDetails']), (RUN['diff'], {'id': 'rbacaudit-diff/'}))
    got = without_cluster(it, 'diff', *pair, '-o', 'sarif', '--fail-on', 'powers')
    same(it, 'diff --fail-on', seen(results_of(it, 'diff --fail-on', got, 1)), CHANGES)
    got = without_cluster(it, 'diff', '--from', 'manifests/main', '--to', 'manifests/main', '-o', 'sarif')
    same(it, 'no change', results_of(it, 'no change', got, 0), [])


def shop(*names):
    """An export of the shop: its objects, those of other files of examples/ in the place of theirs."""
    found = {}
    for name in ('shop.json', *names):
        found.update(((item['kind'], item['metadata'].get('namespace'), item['metadata']['name']), item) for item in example(name)['items'])
    return {'cluster.json': of_kinds(found.values(), 'ClusterRole', 'ClusterRoleBinding'), 'namespaced.json': of_kinds(found.values(), 'Role', 'RoleBinding')}


# What examples/shop-change.json does to examples/shop.json: it lets developers list secrets, by a role that theirs gathers; it lets the CI
# account have all configmaps; and it takes a URL from a role.
SHOP = [
    ('gained-permission', 'warning', 'The group shop-developers gains 1 permission in the namespace shop, '
     'granted by RoleBinding/shop/developers-view: list secrets.', None, 'RoleBinding/shop/developers-view'),
    ('gained-permission', 'warning', 'The user system:serviceaccount:shop:ci gains 2 permissions in the namespace shop, '
     'granted by RoleBinding/shop/ci-deploys: get configmaps, update configmaps.', None, 'RoleBinding/shop/ci-deploys'),
    ('lost-permission', 'note', 'The user system:serviceaccount:monitoring:prometheus loses 1 permission, '
     'granted before by ClusterRoleBinding/monitoring-scrapes: get /healthz/*.', None, 'ClusterRoleBinding/monitoring-scrapes')]
# Over an export, two of these bindings have roles of the change, so that is where they are shown.
OVER = [SHOP[0], SHOP[1][:3] + ('rbac/change.json:8', 'Role/shop/deployer'), SHOP[2][:3] + ('rbac/change.json:29', 'ClusterRole/metrics-reader')]
OF_EXPORT = [[], [(None, 'RoleBinding/shop/ci-deploys')], [(None, 'ClusterRoleBinding/monitoring-scrapes')]]


@in_each_shell
def exports(it):
    """Objects of an export or a cluster have no file; those of a change of it have."""
    put(it, {'%s/%s' % (folder, name): value for folder, names in (('old', []), ('new', ['shop-change.json'])) for name, value in shop(*names).items()})
    with open(os.path.join(TOP, 'examples', 'shop-change.json'), encoding='utf-8') as file:
        put(it, {'rbac/change.json': file.read()})
    it.run('export', 'prod')
    got = it.run('lint', '--export', 'prod', '--only', 'L2,L4', '--skip-system', '-o', 'sarif')
    same(it, 'lint of an export', seen(results_of(it, 'lint of an export', got, 1, '')), [
        ('L2', 'note', 'No binding uses ClusterRole/odd.', None, 'ClusterRole/odd'),
        ('L4', 'error', 'Rule 1 of Role/shop-staging/owner allows bind: whoever has this rule can bind roles with permissions that they do not have.',
         None, 'Role/shop-staging/owner'),
        ('L4', 'error', 'Rule 1 of Role/shop-staging/owner allows escalate: whoever has this rule can write roles with permissions that they do not have.',
         None, 'Role/shop-staging/owner')])
    same(it, 'lint of a cluster', it.run('lint', '--only', 'L2,L4', '--skip-system', '-o', 'sarif'), got)
    for name, line, wanted in (('two exports', ['--export', 'new'], (SHOP, [[], [], []])), ('a change of an export', ['--with', 'rbac'], (OVER, OF_EXPORT))):
        found = results_of(it, name, it.run('diff', '--export', 'old', *line, '-o', 'sarif'), 1)
        same(it, name, (seen(found), related(found)), wanted)


# ---- where it stands

# Files as they are called, and their addresses.
ADDRESSES = {'a b.json': 'a%20b.json', 'c#1?.json': 'c%231%3F.json', '100%.json': '100%25.json', 'x:y.json': 'x%3Ay.json', 'caf\u00e9.json': 'caf%C3%A9.json',
             'a,b "c".json': 'a%2Cb%20%22c%22.json', os.fsdecode(b'\xff.json'): '%FF.json', '-x.json': '-x.json', 'back\\slash.json': 'back%5Cslash.json'}


@with_manifests
def files(it):
    """Addresses: from the folder in which the plugin is called, and else from the root; a kustomization; what is no file."""
    unused = role('r', 'a')
    put(it, {'m/%s' % name: unused for name in ADDRESSES})
    put(it, {'k/kustomization.yaml': {'resources': ['r.json']}, 'k/r.json': unused, it.at('beside/r.json'): unused, 'm/in/r.json': unused})
    os.symlink('in', os.path.join(it.work, 'm', 'link'))
    outside = 'file://' + it.at('beside').replace(' ', '%20') + '/r.json'
    for given, address in (*(('m/' + name, 'm/' + wanted) for name, wanted in ADDRESSES.items()), ('m/in', 'm/in/r.json'), ('./m//in/../in/', 'm/in/r.json'),
                           ('m/link/r.json', 'm/link/r.json'), (os.path.join(it.work, 'm/in'), 'm/in/r.json'), ('../beside', outside),
                           (it.at('beside/r.json'), outside), ('k', 'k/kustomization.yaml')):
        got = without_cluster(it, 'lint', '-o', 'sarif', '--', given)
        same(it, 'the address of %r' % given, seen(results_of(it, repr(given), got, 1)),
             [('L2', 'note', 'No binding uses Role/a/r.', address + ':1', 'Role/a/r')])
    text = json.dumps(unused).encode()
    for given in ('-', '/dev/stdin'):
        got = without_cluster(it, 'lint', '-o', 'sarif', given, stdin=None, input=text)
        same(it, 'no file: %s' % given, seen(results_of(it, given, got, 1)), [('L2', 'note', 'No binding uses Role/a/r.', None, 'Role/a/r')])
    got = without_cluster(it, 'diff', '--from', '-', '--to', 'm/in', '-o', 'sarif', stdin=None, input=json.dumps(bound('r', 'a', 'ann')).encode())
    same(it, 'a side without a file', seen(results_of(it, 'a side without a file', got, 1)), [
        ('gained-permission', 'warning', 'Whoever has Role/a/r gains 1 permission in the namespace a: get pods.', 'm/in/r.json:1', 'Role/a/r')])


# Roles as people write them, and at which line each has its name: a comment, quotes, another order, one line, a list, another namespace.
LINES = """\
# Roles
kind: ConfigMap
apiVersion: v1
metadata: {name: first}
data:
  role.yaml: |
    kind: Role
    metadata:
      name: second
      namespace: a
---
apiVersion: rbac.authorization.k8s.io/v1
kind: Role   # of many
metadata:
  labels:
    name: third
  namespace: a

  name: "first"
rules: []
--- # the next
metadata:
    namespace: b
    name: 'first' # of b
apiVersion: rbac.authorization.k8s.io/v1
kind: "Role"
---
{apiVersion: rbac.authorization.k8s.io/v1, kind: Role, metadata: {name: hidden, namespace: a}}
---
apiVersion: rbac.authorization.k8s.io/v1
kind: Role
metadata: {namespace: a, name: second}
---
apiVersion: v1
kind: List
items:
- apiVersion: rbac.authorization.k8s.io/v1
  kind: RoleBinding
  metadata:
    name: listed
    namespace: a
  roleRef:
    apiGroup: rbac.authorization.k8s.io
    kind: Role
    name: gone
- kind: Role
  apiVersion: rbac.authorization.k8s.io/v1
  metadata:
    name: third
"""
FOUND = {'Role/a/first': 19, 'Role/b/first': 24, 'Role/a/hidden': 28, 'Role/a/second': 32, 'RoleBinding/a/listed': 40, 'Role/default/third': 49}


@with_manifests
def lines(it):
    """The line of an object is that of its name, where PyYAML can be imported; otherwise it is the first."""
    items = [role('x', 'a'), bound('y', 'b', 'kim', 'Role', 'gone'), {**role('z', 'c'), 'metadata': {'labels': {'name': 'x'}, 'name': 'z', 'namespace': 'c'}}]
    wanted = {'Role/a/x': 2 + 1 + 1 + 5, 'RoleBinding/b/y': 0, 'Role/c/z': 0}
    text = json.dumps(a_list('List', 'v1', *items), indent=2)
    for name in wanted:
        [wanted[name]] = [at for at, line in enumerate(text.split('\n'), 1) if line.strip(' ,') == '"name": "%s"' % name[-1]
                          and line.startswith(' ' * 8 + '"')]
    if yaml:
        cases = [('m.json', text, wanted), ('m.yaml', LINES, FOUND), ('windows.yaml', LINES.replace('\n', '\r\n'), FOUND)]
    else:
        cases = [('m.json', text, dict.fromkeys(wanted, 1))]
        skipped('PyYAML', 'lines of objects')
    for name, text, wanted in cases:
        put(it, {name: text})
        got = without_cluster(it, 'lint', '--only', 'L1,L2', '-o', 'sarif', name)
        found = {object_: place for _, _, _, place, object_ in seen(results_of(it, name, got, 1))}
        same(it, 'lines of ' + name, found, {object_: '%s:%d' % (name, line) for object_, line in wanted.items()})


# ---- which object a change is about

TO = 'The user %s gains 1 permission in the namespace a, granted by RoleBinding/a/%s: %s.'
FROM = TO.replace('gains', 'loses').replace('granted', 'granted before')


def change(sign, user, name, what, place, object_):
    rule, level, text = ('gained-permission', 'warning', TO) if sign == '+' else ('lost-permission', 'note', FROM)
    return rule, level, text % (user, name, what), place + ':1', object_


@with_manifests
def changed(it):
    """A change is shown at the binding; at its role, if only that has changed; and on the side that has it."""
    old = {'r': role('r', 'a'), 's': role('s', 'a'), 'b': bound('b', 'a', 'ann', 'Role', 'r'), 'c': bound('c', 'a', 'cat', 'Role', 's'),
           'd': bound('d', 'a', 'dan', 'Role', 's')}
    # (r gains a verb, b is as before; c gets another subject; d goes; e comes with a role of its own)
    new = {**{name: old[name] for name in 'sb'}, 'r': role('r', 'a', 'get', 'watch'), 'c': bound('c', 'a', 'tim', 'Role', 's'), 't': role('t', 'a', 'list'),
           'e': bound('e', 'a', 'eve', 'Role', 't')}
    for side, objects in (('old', old), ('new', new)):
        put(it, {'%s/%s.json' % (side, name): value for name, value in objects.items()})
    wanted = [change('+', 'ann', 'b', 'watch pods', 'new/r.json', 'Role/a/r'), change('+', 'eve', 'e', 'list pods', 'new/e.json', 'RoleBinding/a/e'),
              change('+', 'tim', 'c', 'get pods', 'new/c.json', 'RoleBinding/a/c'), change('-', 'cat', 'c', 'get pods', 'old/c.json', 'RoleBinding/a/c'),
              change('-', 'dan', 'd', 'get pods', 'old/d.json', 'RoleBinding/a/d')]
    beside = [[('new/b.json:1', 'RoleBinding/a/b')], [('new/t.json:1', 'Role/a/t')], [('new/s.json:1', 'Role/a/s')], [('old/s.json:1', 'Role/a/s')],
              [('old/s.json:1', 'Role/a/s')]]
    pair = ['--from', 'old', '--to', 'new', '-o', 'sarif']
    found = results_of(it, 'two states', without_cluster(it, 'diff', *pair), 1)
    same(it, 'two states', (seen(found), related(found)), (wanted, beside))
    back = results_of(it, 'the way back', without_cluster(it, 'diff', '--from', 'new', '--to', 'old', '-o', 'sarif'), 1)
    same(it, 'the way back', [(rule, place) for rule, _, _, place, _ in seen(back)],
         [('gained-permission', 'old/c.json:1'), ('gained-permission', 'old/d.json:1'), ('lost-permission', 'new/r.json:1'),
          ('lost-permission', 'new/e.json:1'), ('lost-permission', 'new/c.json:1')])
    put(it, {'prod/cluster.json': a_list('List', 'v1'), 'prod/namespaced.json': a_list('List', 'v1', *old.values())})
    for options in ([], ['--partial']):
        found = results_of(it, 'over an export', without_cluster(it, 'diff', '--export', 'prod', *options, *pair), 1)
        same(it, 'over an export %s' % options, (seen(found), related(found)), (wanted, beside))
    # Without the state before, the file after the change shows what is lost too, as far as it has the binding or its role.
    found = results_of(it, 'put over an export', without_cluster(it, 'diff', '--export', 'prod', '--with', 'new', '-o', 'sarif'), 1)
    same(it, 'put over an export', [(it_[0], it_[3]) for it_ in seen(found)], [('gained-permission', 'new/b.json:1'), ('gained-permission', 'new/e.json:1'),
                                                                              ('gained-permission', 'new/c.json:1'), ('lost-permission', 'new/c.json:1')])
    found = results_of(it, 'taken from an export', without_cluster(it, 'diff', '--export', 'prod', '--without', 'old/d.json', '-o', 'sarif'), 1)
    same(it, 'taken from an export', (seen(found), related(found)), ([wanted[4]], [[]]))


# ---- what messages say

# Names of strangers: how a message has each, and how the name of an object. What hides is escaped in both.
HOSTILE = {'[x](https://evil.example)': ('\\x5bx\\x5d(https://evil.example)', '[x](https://evil.example)'), '{0}': ('\\x7b0\\x7d', '{0}'),
           'x\u202eyes\u2066': ('x\\xe2\\x80\\xaeyes\\xe2\\x81\\xa6',) * 2, 'back\\slash': ('back\\\\slash',) * 2, '"': ('"', '"'), "'": ("'", "'"),
           'line\nbreak\ttab\x7f': ('line\\x0abreak\\x09tab\\x7f',) * 2, 'caf\u00e9\U0001f600': ('caf\u00e9\U0001f600',) * 2, '\U000e0041': ('\\xf3\\xa0\\x81\\x81',) * 2,
           '\u200b' * 400: ('\\xe2\\x80\\x8b' * 400,) * 2, '&lt;<b>': ('&lt;<b>',) * 2, '%s%d\\n': ('%s%d\\\\n',) * 2, '-': ('-', '-'), '*': ('*', '*'),
           '\u034f\u2800\u3164\ufe0f': ('\\xcd\\x8f\\xe2\\xa0\\x80\\xe3\\x85\\xa4\\xef\\xb8\\x8f',) * 2}
BLANK = 'a "b" c'


def hostile_roles(it):
    put(it, {'m/%d.json' % at: role(name, 'b') for at, name in enumerate(HOSTILE)})
    put(it, {'m/blank.json': role(BLANK, 'b')})


def hostile_results():
    wanted = [('L2', 'note', 'No binding uses Role/b/%s.' % said, 'm/%d.json:1' % at, 'Role/b/' + name) for at, (said, name) in enumerate(HOSTILE.values())]
    return sorted([*wanted, ('L2', 'note', 'No binding uses "Role/b/a \\x22b\\x22 c".', 'm/blank.json:1', 'Role/b/' + BLANK)])


@with_manifests
def names(it):
    """Names of strangers: a message hides nothing, has no link of theirs, and is JSON."""
    hostile_roles(it)
    got = without_cluster(it, 'lint', '--only', 'L2', '-o', 'sarif', 'm')
    # (plugin names are cut where they are long, and then have no file)
    found = sorted(tuple('m/9.json:1' if part is None else part for part in line) for line in seen(results_of(it, 'names', got, 1)))
    same(it, 'names', found, hostile_results())


def permissions(subject, group, resource, *verbs, names=(), urls=()):
    """A ClusterRole, a binding of it to this subject, and what it grants."""
    rule = {'verbs': list(verbs), **({'nonResourceURLs': list(urls)} if urls else {'apiGroups': [group], 'resources': [resource], 'resourceNames': list(names)})}
    name = 'of-%s-%s' % (verbs[0], resource or 'url')
    return [{'apiVersion': V1, 'kind': 'ClusterRole', 'metadata': {'name': name}, 'rules': [rule]},
            {'apiVersion': V1, 'kind': 'ClusterRoleBinding', 'metadata': {'name': name}, 'roleRef': {'kind': 'ClusterRole', 'name': name}, 'subjects': [subject]}]


GAINS = [
    ('The group a b', '"a b"', 'The group "a b" gains 1 permission, granted by ClusterRoleBinding/of-get-url: get /metrics.'),
    ('twelve', 'ann', 'The user ann gains 12 permissions in all namespaces, granted by ClusterRoleBinding/of-v00-deployments: '
     + ', '.join('v%02d deployments.apps' % at for at in range(10)) + ' and 2 more.'),
    ('named', 'bob', 'The user bob gains 2 permissions in all namespaces, granted by ClusterRoleBinding/of-get-secrets: '
     'get secrets named *, get secrets named db.')]


@in_each_shell
def permission_texts(it):
    """What somebody gains: a URL, more than ten permissions, objects by name."""
    user, group = ({'kind': 'User', 'name': 'ann'}, {'kind': 'Group', 'name': 'a b'})
    after = [*permissions(group, '', '', 'get', urls=['/metrics']), *permissions(user, 'apps', 'deployments', *('v%02d' % at for at in range(12))),
             *permissions({'kind': 'User', 'name': 'bob'}, '', 'secrets', 'get', names=['db', '*'])]
    put(it, {'old/cluster.json': a_list('List', 'v1'), 'old/namespaced.json': a_list('List', 'v1'),
             'new/cluster.json': a_list('List', 'v1', *after), 'new/namespaced.json': a_list('List', 'v1')})
    found = results_of(it, 'permissions', it.run('diff', '--export', 'old', '--export', 'new', '-o', 'sarif'), 1, '')
    same(it, 'permissions', [text for _, _, text, _, _ in seen(found)], [text.replace('named *,', 'named \\x2a,') for _, _, text in GAINS])


def prints(results):
    return {(it['ruleId'], it['partialFingerprints']['primaryLocationLineHash']) for it in results}


@in_each_shell
def fingerprints(it):
    """What tells a result from others stays the same when others come and go, files move, and more is gained."""
    put(it, {'one/r.json': role('r', 'a'), 'two/x/r.json': role('r', 'a'), 'two/a.json': role('a', 'a'), 'two/b.json': a_list('List', 'v1', role('b', 'a'), role('b', 'a'))})
    one, two = (prints(results_of(it, folder, without_cluster(it, 'lint', '-o', 'sarif', folder), 1)) for folder in ('one', 'two'))
    it.checked('of findings', len(one) == 1 and one < two and len(two) == 4, (one, two))
    put(it, {'old/r.json': role('none', 'a'), 'get/r.json': a_list('List', 'v1', role('r', 'a'), bound('r', 'a', 'ann')),
             'all/r.json': a_list('List', 'v1', role('r', 'a', 'get', 'list'), bound('r', 'a', 'ann'), bound('q', 'a', 'bob', 'Role', 'r'))})
    one, two = (prints(results_of(it, side, without_cluster(it, 'diff', '--from', 'old', '--to', side, '-o', 'sarif'), 1)) for side in ('get', 'all'))
    # (whoever has the role that goes is one of them)
    it.checked('of changes', len(one) == 2 and one < two and len(two) == 3, (one, two))


MOST = 25000


def many():
    """More results than GitHub takes: findings of an export, and changes from it to another."""
    with room(SHELLS[0]) as it:
        roles = [{'apiVersion': V1, 'kind': 'ClusterRole', 'metadata': {'name': 'r%d' % at}, 'rules': []} for at in range(MOST + 7)]
        [_, lost], [granted, gained] = (permissions({'kind': 'User', 'name': 'ann'}, '', 'pods', verb) for verb in ('get', 'watch'))
        lost = {**lost, 'roleRef': {**lost['roleRef'], 'name': 'of-get-pods'}}
        gained['subjects'] = [{'kind': 'User', 'name': 'u%d' % at} for at in range(MOST - 1)]
        lost['subjects'] = [{'kind': 'User', 'name': 'a%d' % at} for at in range(3)]
        put(it, {'lint/cluster.json': a_list('List', 'v1', *roles), 'lint/namespaced.json': a_list('List', 'v1'), 'old/namespaced.json': a_list('List', 'v1'),
                 'old/cluster.json': a_list('List', 'v1', _, lost), 'new/cluster.json': a_list('List', 'v1', granted, gained),
                 'new/namespaced.json': a_list('List', 'v1')})
        said = 'kubectl-rbacaudit: %d more results are left out, because code hosts take at most 25000\n'
        got = it.run('lint', '--export', 'lint', '-o', 'sarif')
        found = results_of(it, 'many findings', got, 1, said % 7)
        same(it, 'many findings', (len(found), sarif.read(got[1])[0]['invocations']), (MOST, [{'executionSuccessful': True, 'toolExecutionNotifications': [
            {'level': 'warning', 'message': {'text': '7 more results are left out, because code hosts take at most 25000.'}}]}]))
        found = results_of(it, 'many changes', it.run('diff', '--export', 'old', '--export', 'new', '-o', 'sarif'), 1, said % 2)
        same(it, 'what is gained comes first', [it_['ruleId'] for it_ in found], ['gained-permission'] * (MOST - 1) + ['lost-permission'])


@in_each_shell
def errors(it):
    """An error leaves nothing that looks like a run without results."""
    put(it, {'r.json': role('r', 'a'), 'bad.json': {**role('r', 'a'), 'rules': [{}]}, 'pod.json': {'apiVersion': 'v1', 'kind': 'Pod', 'metadata': {'name': 'p'}},
             'text.json': 'no JSON', 'half/cluster.json': a_list('List', 'v1'), 'broken/cluster.json': '{', 'broken/namespaced.json': '{'})
    for line in (['lint', 'bad.json'], ['lint', 'pod.json'], ['lint', 'text.json'], ['lint', 'none.json'], ['lint', '--export', 'half'], ['lint', '--export', 'broken'],
                 ['diff', '--from', 'r.json', '--to', 'bad.json'], ['diff', '--export', 'broken', '--with', 'r.json'], ['diff', '--from', 'r.json', '--to', 'none.json'],
                 ['diff', '--from', 'r.json', '--to', 'r.json', '--summary']):
        status, out, err = got = without_cluster(it, *line, '-o', 'sarif')
        it.checked('no SARIF: %s' % line, (status, out) == (2, '') and err, got)
    for line in (['can-i', '--as', 'kim', 'get', 'pods'], ['rules', 'u:kim'], ['paths', 'u:kim'], ['matrix'], ['who-can', 'get', 'pods'], ['who-can', '--indirect', 'get', 'pods'],
                 ['universe'], ['read', 'r.json']):
        status, out, err = got = without_cluster(it, *line, '-o', 'sarif')
        it.checked('%s has no SARIF' % line, (status, out) == (2, '') and err, got)
    with open('/dev/full', 'wb') as full:
        ended = subprocess.run([it.shell, PLUGIN, 'lint', '-o', 'sarif', 'r.json'], cwd=it.work, env=it.environment(), stdout=full, stderr=subprocess.PIPE, timeout=60)
    it.checked('a full disk', ended.returncode == 2, ended)


CHECKS = [examples, exports, files, lines, changed, names, permission_texts, fingerprints, many, errors]
