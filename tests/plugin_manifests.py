"""Manifests as teams keep them: what the kubectl plugin reads from files, folders, kustomizations and standard input.

Each check is made with the stand-in for kubectl, and then with kubectl itself where there is one; without network, where `unshare`
may take it away, and with a kubeconfig that can't be read.
"""

import contextlib
import json
import os
import re
import shutil
import subprocess
import sys
import textwrap

from common import TOP, V1, skipped
from local_kubectl import yaml
from plugin_changes import EMPTY, FOREIGN, GAINED, ROLE, a_list, binding, culprit, read
from plugin_room import OWN, PLUGIN, SHELLS, STAND_IN, document, in_each_shell, room, served

def without_network():
    """The command that takes the network away from another, where this machine lets it."""
    command = ['unshare', '--map-root-user', '--net']
    with contextlib.suppress(OSError):
        if subprocess.run([*command, 'true'], stderr=subprocess.DEVNULL, timeout=60).returncode == 0:
            return command
    skipped('unshare', 'manifests without a network')
    return []


NO_NETWORK = without_network()


def with_manifests(check):
    """A check with the stand-in under each shell, and once more with kubectl itself."""
    def checks():
        in_each_shell(check)()
        if not shutil.which('kubectl'):
            skipped('kubectl', 'manifests read by kubectl itself')
            return
        with room(SHELLS[0]) as it:
            os.remove(os.path.join(it.bin, 'kubectl'))
            check(it)
            it.checked('%s leaves nothing behind' % check.__name__, not it.left(), it.left())
    checks.__doc__ = check.__doc__
    return checks


def put(it, files):
    """Writes files below the folder to work in, by their paths: a value as JSON, a text as it is."""
    for path, value in files.items():
        os.makedirs(os.path.join(it.work, os.path.dirname(path)), exist_ok=True)
        it.write(value if isinstance(value, str) else json.dumps(value), path)


def without_cluster(it, *words, **how):
    """Runs the plugin where neither a network nor a kubeconfig is."""
    it.write('no kubeconfig', it.at('kubeconfig'))
    return it.run(*words, within=NO_NETWORK, environment={**it.environment(), 'HOME': it.path, 'KUBECONFIG': it.at('kubeconfig')}, **how)


def role(name, namespace=None, *verbs):
    """A Role that lets its holders do these verbs with pods."""
    metadata = {'name': name, **({'namespace': namespace} if namespace else {})}
    return {'apiVersion': V1, 'kind': 'Role', 'metadata': metadata,
            'rules': [{'apiGroups': [''], 'resources': ['pods'], 'verbs': list(verbs or ('get',))}]}


def bound(name, namespace, user, of='Role', role_name=None):
    """A RoleBinding of a user to the role of its own name, or another."""
    return {'apiVersion': V1, 'kind': 'RoleBinding', 'metadata': {'name': name, **({'namespace': namespace} if namespace else {})},
            'roleRef': {'kind': of, 'name': role_name or name}, 'subjects': [{'kind': 'User', 'name': user}]}


def names(text):
    """The kinds and names of the items of a List."""
    found = document(text)
    return found and [item['kind'] + '/' + item['metadata']['name'] for item in found['items']]


# ---- what is read

# A folder, in kubectl's order: what stands in `a` comes before `a-b.json`.
POD = {'apiVersion': 'v1', 'kind': 'Pod', 'metadata': {'name': 'p'}}
FOLDER = {'m/.hidden.json': role('hidden', 'shop'), 'm/a/x.yml': role('x', 'shop'),
          'm/a/y.json': a_list('List', 'v1', role('y', 'shop'), role('z', 'shop')),
          'm/a-b.json': json.dumps(role('one', 'shop')) + '\n' + json.dumps(role('two', 'shop')), 'm/b.yaml': json.dumps(bound('x', 'shop', 'kim')),
          'm/c, "d".json': role('comma', 'shop'), 'm/empty.json': '', 'm/notes.txt': 'nothing', 'm/pod.json': POD,
          'm/u.json': a_list('List', 'v1', {**POD, 'apiVersion': 'rbacaudit/v1', 'kind': 'Universe'}, {**POD, 'apiVersion': 'rbacaudit/v1', 'kind': 'EndOfFile'})}
IN_ORDER = ['Role/hidden', 'Role/x', 'Role/y', 'Role/z', 'Role/one', 'Role/two', 'RoleBinding/x', 'Role/comma', 'Pod/p', 'Universe/p', 'EndOfFile/p']
KUSTOMIZED = {'k/base/kustomization.yaml': {'resources': ['role.json']}, 'k/base/role.json': role('based'),
              'k/prod/kustomization.yml': {'resources': ['../base'], 'namespace': 'prod'}}


@with_manifests
def paths(it):
    """A file, a folder, a folder with a kustomization and standard input, as one List."""
    put(it, {**FOLDER, **KUSTOMIZED})
    os.symlink('m', os.path.join(it.work, 'link'))
    os.symlink('../m/a-b.json', os.path.join(it.work, 'm', 'z.json'))
    # (what a link within leads to is read once)
    in_folder = IN_ORDER
    for given, found, said in ((['m'], in_folder, 'm'), (['m/'], in_folder, 'm/'), (['link'], in_folder, 'link'), (['m/a'], in_folder[1:4], 'm/a'),
                               (['m/a-b.json'], ['Role/one', 'Role/two'], 'm/a-b.json'), (['m/c, "d".json'], ['Role/comma'], 'm/c, "d".json'),
                               (['k/base'], ['Role/based'], 'k/base'), (['k/prod/', 'm/a'], ['Role/based', *in_folder[1:4]], 'k/prod/, m/a')):
        status, out, err = got = without_cluster(it, 'read', *given)
        it.checked('read %s' % given, (status, names(out)) == (0, found) and err.startswith('kubectl-rbacaudit: read from %s: ' % said), got)
    text = json.dumps(role('x', 'shop')).encode()
    for given, found in (['-'], ['Role/x']), (['m/pod.json', '-'], ['Pod/p', 'Role/x']), (['/dev/stdin'], ['Role/x']):
        status, out, err = got = without_cluster(it, 'read', *given, stdin=None, input=text)
        it.checked('read %s' % given, (status, names(out)) == (0, found), got)
    odd = it.at('temporary, "odd"')
    os.mkdir(odd)
    status, out, err = got = it.run('read', 'm', environment={**it.environment(), 'TMPDIR': odd})
    it.checked('a temporary folder with a comma', (status, names(out)) == (0, in_folder), got)
    [item] = document(without_cluster(it, 'read', 'k/prod')[1])['items']
    it.checked('kustomize renders', item == role('based', 'prod'), item)
    status, out, err = got = without_cluster(it, 'read', '-n', 'test', 'k/base')
    it.checked('a namespace', document(out)['items'] == [role('based', 'test')]
               and err.endswith('these have no namespace, and count in test: Role/based\n'), got)


# The same as YAML has it: a comment, empty documents, an anchor, a list, and a custom resource.
YAML = '''# roles of the shop
---
---
apiVersion: rbac.authorization.k8s.io/v1
kind: Role
metadata: {name: deployer, namespace: shop}
rules:
- &pods
  apiGroups: [""]
  resources: [pods]
  verbs: [get]   # and no more
- *pods
---
apiVersion: v1
kind: List
items:
- apiVersion: rbac.authorization.k8s.io/v1
  kind: RoleBinding
  metadata: {name: deployer, namespace: shop}
  roleRef: {kind: Role, name: deployer}
  subjects: [{kind: User, name: kim}]
---
apiVersion: example.com/v1
kind: Certificate
metadata: {name: c}
'''


@with_manifests
def from_yaml(it):
    """YAML, in a file, in a folder and from standard input."""
    if yaml is None and STAND_IN in it.read(it.bin, 'kubectl'):
        skipped('PyYAML', 'YAML read by the stand-in for kubectl')
        return
    put(it, {'m/roles.yaml': YAML})
    rules = 2 * role('deployer')['rules']
    for given in ('m', 'm/roles.yaml', '-'):
        status, out, err = got = without_cluster(it, 'read', given, stdin=None, input=YAML.encode())
        said = read('standard input' if given == '-' else given, '1 role, 1 binding, 1 other object')
        items = document(out)['items']
        it.checked('YAML of %s' % given, (status, err) == (0, said) and items[0] == {**role('deployer', 'shop'), 'rules': rules}
                   and names(out)[1:] == ['RoleBinding/deployer', 'Certificate/c'], got)
    put(it, {'m/bad.yaml': 'kind: Role\n\tapiVersion: v1\n'})
    status, out, err = got = without_cluster(it, 'read', 'm')
    it.checked('bad YAML', (status, out) == (2, '') and 'error parsing m/bad.yaml: error converting YAML to JSON: ' in err
               and err.endswith("kubectl-rbacaudit: kubectl can't read m, so nothing is answered\n"), got)


WITHIN = ("kubectl-rbacaudit: %s has a kustomization, so what its files have isn't what is applied: give %s itself, "
          'or another folder that has a kustomization\n')
CHART = 'kubectl-rbacaudit: %s is a Helm chart: render it first, as in helm template %s | kubectl rbacaudit read -\n'
REFUSED = [
    ('gone', {}, 'kubectl-rbacaudit: there is no gone\n'),
    ('m', {'m/notes.txt': ''}, 'kubectl-rbacaudit: there is no manifest in m: no file within has a name that ends in .json, .yaml or .yml\n'),
    ('m', {'m/Chart.yaml': 'name: m', 'm/templates/role.yaml': 'kind: {{ .Values.kind }}'}, CHART % ('m', 'm')),
    ('m', {'m/charts/web/Chart.yaml': 'name: m', 'm/a.json': ROLE}, CHART % ('m/charts/web', 'm/charts/web')),
    ('k', KUSTOMIZED, WITHIN % ('k/base', 'k/base')),
    ('k/base/kustomization.yaml', KUSTOMIZED,
     'kubectl-rbacaudit: k/base/kustomization.yaml says how kustomize renders its folder: give the folder\n'),
    ('m', {'m/a\nb.json': ROLE}, 'kubectl-rbacaudit: a file or folder in m has a line break in its name: give it another\n'),
    ('m\nb.json', {'m\nb.json': ROLE}, 'kubectl-rbacaudit: m\\nb.json has a line break in its name: give it another\n')]


@with_manifests
def refusals(it):
    """What isn't read as a whole isn't read at all."""
    for given, files, said in REFUSED:
        put(it, files)
        for line in (['read', given], ['lint', given], ['diff', '--from', given, '--to', given]):
            got = without_cluster(it, *line)
            it.checked('%s %r' % (line, said), got == (2, '', said), got)
        for name in it.files('.'):
            shutil.rmtree(os.path.join(it.work, name), ignore_errors=True)
    # (nobody but the file's owner may have a runner's files printed, or a branch compared with itself)
    put(it, {'main/a.json': ROLE, 'secret.json': ROLE, 'm/in/a.json': ROLE})
    for target in ('../../secret.json', '../../main/a.json', it.at('work/secret.json'), '/proc/self/environ'):
        os.symlink(target, os.path.join(it.work, 'm', 'in', 'b.json'))
        for line in (['read', 'm'], ['lint', 'm'], ['diff', '--from', 'main', '--to', 'm'], ['diff', '--with', 'm/in']):
            got = without_cluster(it, *line)
            it.checked('a link to %s: %s' % (target, line), got[:2] == (2, '') and got[2].endswith(
                'kubectl-rbacaudit: m/in/b.json is a link that leads out of %s, so nothing is read\n' % line[-1]), got)
        os.remove(os.path.join(it.work, 'm', 'in', 'b.json'))
    put(it, {'m/in/b.json': {**ROLE, 'kind': 'x\n::error::y', 'apiVersion': V1}, 'm/in/c.json': '[::error::\n::error::]'})
    for given in ('m/in/b.json', 'm/in/c.json', 'm'):
        status, out, err = got = without_cluster(it, 'read', given)
        it.checked('no line begins with words of a file: %s' % given, (status, out) == (2, '') and err and '\n::' not in err, got)
    put(it, {'k/kustomization.yaml': {'resources': ['gone.json']}})
    status, out, err = got = without_cluster(it, 'read', 'k')
    it.checked('a bad kustomization', (status, out) == (2, '') and 'gone.json' in err and err.endswith(
        "kubectl-rbacaudit: kubectl can't read k, so nothing is answered\n"), got)
    for line, said in ((['read'], 'read needs a path'), (['read', '--export', 'x'], 'read has no --export'),
                       (['read', '-', '-'], 'standard input can be read once'),
                       (['lint', '-', '-'], 'standard input can be read once'), (['read', '-n'], '-n needs a value'),
                       (['lint', '--context', 'x', 'k'], 'manifests are read without a cluster')):
        status, out, err = got = without_cluster(it, *line)
        it.checked('%s: %s' % (line, said), (status, out) == (2, '') and said in err, got)


@in_each_shell
def without_kubectl(it):
    """Without kubectl no manifest is read, JSON or not: it alone says what a document means."""
    put(it, {'role.json': ROLE})
    for name, program in (('python3', sys.executable), (it.shell, shutil.which(it.shell))):
        os.symlink(program, os.path.join(it.bin, name))
    os.remove(os.path.join(it.bin, 'kubectl'))
    for line in (['read', 'role.json'], ['lint', 'role.json'], ['diff', '--from', 'role.json', '--to', 'role.json']):
        it.expect('without kubectl: %s' % line[0], line, 2, '', 'kubectl-rbacaudit: there is no kubectl on the PATH: it reads the manifests; '
                  'install it (https://kubernetes.io/docs/tasks/tools)\n', environment={**it.environment(), 'PATH': it.bin})


def spent(call):
    """The processor time that a call of programs takes."""
    before = os.times()
    call()
    after = os.times()
    return after.children_user + after.children_system - before.children_user - before.children_system


def speed():
    """Many files take at most twice the processor time that kubectl itself takes on them, and twice as many twice as long."""
    if not shutil.which('kubectl'):
        skipped('kubectl', 'how long many manifests take')
        return
    with room(SHELLS[0]) as it:
        os.remove(os.path.join(it.bin, 'kubectl'))
        text = 'apiVersion: %s\nkind: Role\nmetadata: {name: r%%d, namespace: shop, labels: {app: web}}\nrules:\n- {apiGroups: [""], resources: [pods], verbs: [get]}\n' % V1
        put(it, {'m/a/%d.yaml' % number: text % number for number in range(2000)})
        shutil.copytree(os.path.join(it.work, 'm', 'a'), os.path.join(it.work, 'm', 'b'))
        patch = ['kubectl', 'patch', '--local', '--type=merge', '-p', '{}', '-o', 'json', '-f', 'm/a', '-f', 'm/b']
        itself = spent(lambda: subprocess.run(patch, cwd=it.work, env={**os.environ, 'KUBECONFIG': os.devnull}, stdout=subprocess.DEVNULL, check=True, timeout=300))
        half, all_ = (spent(lambda path=path: it.run('read', path, timeout=300)) for path in ('m/a', 'm'))
        it.checked('4,000 files', all_ < 2 * itself and all_ < 2.5 * half, 'seconds: %.2f, of kubectl itself %.2f, of half of them %.2f' % (all_, itself, half))


# ---- what is answered

@with_manifests
def hidden(it):
    """What kubectl would create counts, wherever it stands: below the `items` of any document, behind another, in a hidden file."""
    admin = binding('ClusterRoleBinding', 'hidden')
    admin['roleRef']['name'] = 'cluster-admin'
    admin['subjects'] = [{'kind': 'User', 'name': 'eve'}]
    gained = ''.join('+\tu:eve\t%s\tClusterRoleBinding/hidden\n' % what for what in ('*\t*\t*\t*\t*', '-\t*\t-\t*\t-'))
    account = {'apiVersion': 'v1', 'kind': 'ServiceAccount', 'metadata': {'name': 'x'}}
    put(it, {'prod/%s.json' % part: served()[part] for part in ('cluster', 'namespaced')})
    for name, value in (('a.json', {**account, 'items': [admin]}), ('b.json', {**account, 'kind': 'List', 'apiVersion': 'apps/v1', 'items': [admin]}),
                        ('c.json', json.dumps(account) + json.dumps(admin)), ('.hidden.json', admin)):
        put(it, {'m/a-role.json': ROLE, 'm/' + name: value})
        status, out, err = got = without_cluster(it, 'diff', '--export', 'prod', '--with', 'm')
        it.checked('hidden in %s' % name, (status, out) == (1, GAINED + gained) and '1 role, 1 binding, ' in err, got)
        os.remove(os.path.join(it.work, 'm', name))


TAKEN = 'kubectl-rbacaudit: what %s has is taken from the export\n'
PUT = 'kubectl-rbacaudit: what %s has is taken from the export, and %s is put over it\n'
ABSENT = "kubectl-rbacaudit: the export doesn't have these, so nothing is taken away with them: %s\n"


def line(sign, user, namespace, verb, name):
    """A line of diff about pods, by a RoleBinding."""
    return '%s\tu:%s\t%s\t%s\t-\tpods\t*\tRoleBinding/%s/%s\n' % (sign, user, namespace, verb, namespace, name)


def list_role(name):
    return {'apiVersion': V1, 'kind': 'ClusterRole', 'metadata': {'name': name},
            'rules': [{'apiGroups': [''], 'resources': ['pods'], 'verbs': ['list']}]}


# A cluster in which many objects have one name, and the line that is lost without each.
SAME_NAME = [(role('x', 'a'), line('-', 'ann', 'a', 'get', 'x')), (role('x', 'b'), line('-', 'bob', 'b', 'get', 'x')),
             (role('x', 'default'), line('-', 'dan', 'default', 'get', 'x')), (list_role('x'), line('-', 'lee', 'a', 'list', 'of-cluster')),
             (bound('x', 'a', 'ann'), line('-', 'ann', 'a', 'get', 'x')), (bound('x', 'b', 'bob'), line('-', 'bob', 'b', 'get', 'x')),
             (bound('x', 'default', 'dan'), line('-', 'dan', 'default', 'get', 'x')),
             (bound('of-cluster', 'a', 'lee', 'ClusterRole', 'x'), line('-', 'lee', 'a', 'list', 'of-cluster'))]


@with_manifests
def taken_away(it):
    """--without takes away what it names by kind, namespace and name, before --with puts its objects."""
    put(it, {'prod/cluster.json': a_list('List', 'v1', *(item for item, _ in SAME_NAME if item['kind'].startswith('Cluster'))),
             'prod/namespaced.json': a_list('List', 'v1', *(item for item, _ in SAME_NAME if not item['kind'].startswith('Cluster')))})
    for item, lost in SAME_NAME:
        named = {'apiVersion': V1, 'kind': item['kind'], 'metadata': item['metadata']}
        put(it, {'gone.json': named if item['kind'].endswith('Role') else {**item, 'subjects': []}, 'same.json': item})
        name = '%s of %s' % (item['kind'], item['metadata'].get('namespace'))
        status, out, err = got = without_cluster(it, 'diff', '--export', 'prod', '--without', 'gone.json')
        it.checked('taken away: ' + name, (status, out) == (1, lost) and err.endswith(TAKEN % 'gone.json'), got)
        status, out, err = got = without_cluster(it, 'diff', '--export', 'prod', '--without', 'gone.json', '--with', 'same.json')
        it.checked('and put back: ' + name, (status, out) == (0, '') and err.endswith(PUT % ('gone.json', 'same.json')), got)
    put(it, {'gone.json': role('x')})
    said = 'kubectl-rbacaudit: these have no namespace, and count in %s: Role/x%s\n'
    for options, lost, more in (([], SAME_NAME[2][1], said % ('default', '; -n NS counts them in NS')), (['-nb'], SAME_NAME[1][1], said % ('b', ''))):
        status, out, err = got = without_cluster(it, 'diff', '--export', 'prod', *options, '--without', 'gone.json')
        it.checked('without a namespace %s' % options, (status, out) == (1, lost) and err == read('gone.json') + more + TAKEN % 'gone.json', got)
    put(it, {'gone.json': a_list('List', 'v1', *(role(name, 'a') for name in 'edcbx'), POD, list_role('y'))})
    got = without_cluster(it, 'diff', '--export', 'prod', '--without', 'gone.json')
    it.checked('not there', got == (1, SAME_NAME[0][1], read('gone.json', '6 roles, 0 bindings, 1 other object') + TAKEN % 'gone.json'
                                    + ABSENT % 'ClusterRole/y, Role/a/b, Role/a/c and 2 more'), got)
    put(it, {'gone.json': role('x', 'a'), 'other.json': POD})
    status, out, err = got = without_cluster(it, 'diff', '--export', 'prod', '--without', 'gone.json', '--with', 'other.json')
    it.checked('nothing is put', (status, out) == (1, SAME_NAME[0][1]), got)
    status, out, err = got = without_cluster(it, 'diff', '--export', 'prod', '--without', 'other.json', '--with', 'other.json')
    it.checked('neither has a role', (status, out) == (2, '') and err.endswith(
        'kubectl-rbacaudit: neither other.json nor other.json has a role or a binding, so nothing is compared: '
        'check each kind and apiVersion in them\n'), got)


# Bindings whose roles nobody knows: each to its role, in its file.
CHANGED = 'kubectl-rbacaudit: nobody knows the roles of these bindings, which come, go or change: %s\n'
SAME = ("kubectl-rbacaudit: nobody knows the roles of these bindings, which are the same on both sides, so the change doesn't touch them: %s\n")
DELETED = 'kubectl-rbacaudit: nobody knows whether the cluster keeps the roles of these bindings, which the change deletes: %s\n'
UNANSWERED = ('kubectl-rbacaudit: nothing is answered, because these bindings may grant anything: give a file with each role on both sides, or --export DIR, '
              'an export of a cluster that has it; --partial leaves these bindings out\n')
LEFT = 'kubectl-rbacaudit: these bindings are left out: the answer has only what the others grant\n'


def stands(key, to, file, number=1):
    """A binding as such a list has it, with the number of its line if PyYAML tells that."""
    return '%s to %s in %s%s' % (key, to, file, ' line %d' % number if yaml else '')


# A branch and a change of it, which takes Bob away, lets Ann watch, and moves Kim to a role of the cluster.
MAIN = {'main/rbac/roles.json': a_list('List', 'v1', role('r', 'a'), role('s', 'b')),
        'main/rbac/bindings.json': a_list('List', 'v1', bound('r', 'a', 'ann'), bound('s', 'b', 'bob'), bound('kim', 'a', 'kim', 'Role', 'r'))}
CHANGE = {'change/rbac/roles.json': role('r', 'a', 'get', 'watch'), 'change/rbac/b/ann.yaml': json.dumps(bound('r', 'a', 'ann')),
          'change/rbac/b/kim.yaml': json.dumps(bound('kim', 'a', 'kim', 'ClusterRole', 'view'))}
BOTH = (read('main/rbac', '2 roles, 3 bindings, 0 other objects') + read('change/rbac', '1 role, 2 bindings, 0 other objects'))
ANN, BOB, KIM = line('+', 'ann', 'a', 'watch', 'r'), line('-', 'bob', 'b', 'get', 's'), line('-', 'kim', 'a', 'get', 'kim')


@with_manifests
def states(it):
    """Two states of manifests, without a cluster, and as a change of one."""
    put(it, {**MAIN, **CHANGE})
    pair = ['--from', 'main/rbac', '--to', 'change/rbac']
    status, out, err = got = without_cluster(it, 'diff', *pair)
    # (Kim has the role view instead, which lets its holders get pods too)
    others = [line_ for line_ in out.splitlines(True) if not line_.startswith('+\tu:kim\ta\t')]
    it.checked('without a cluster', (status, others, err) == (1, [ANN, BOB], BOTH + OWN) and line('+', 'kim', 'a', 'list', 'kim') in out, got)
    got = without_cluster(it, 'diff', '--from=main/rbac', '--to=main/rbac')
    it.checked('the same', got == (0, '', 2 * read('main/rbac', '2 roles, 3 bindings, 0 other objects') + OWN), got)
    got = without_cluster(it, 'diff', *pair, '--no-defaults')
    it.checked("without Kubernetes' own", got == (2, '', BOTH + CHANGED % stands('RoleBinding/a/kim', 'ClusterRole/view', 'change/rbac/b/kim.yaml') + UNANSWERED), got)
    put(it, {'prod/cluster.json': list_role('view'),
             'prod/namespaced.json': a_list('List', 'v1', role('r', 'a'), role('s', 'b'), bound('r', 'a', 'ann'), bound('s', 'b', 'bob'),
                                            bound('kim', 'a', 'kim', 'Role', 'r'), role('t', 'a'), bound('t', 'a', 'tim'))})
    got = without_cluster(it, 'diff', '--export', 'prod', *pair)
    it.checked('what it does to a cluster', got == (1, ANN + BOB + KIM + line('+', 'kim', 'a', 'list', 'kim'),
                                                    BOTH + PUT % ('main/rbac', 'change/rbac')), got)
    missing = [bound('x', 'a', 'lee', *refers) for refers in (('Role', 'x'), ('ClusterRole', 'b'), ('ClusterRole', 'c'), ('Role', 'r'))]
    for number, item in enumerate(missing):
        item['metadata']['name'] = 'x%d' % number
    put(it, {'main/rbac/bindings.json': a_list('List', 'v1', *missing)})
    got = without_cluster(it, 'diff', *pair)
    it.checked('roles that nobody knows', got == (2, '', BOTH.replace('3 bindings', '4 bindings') + OWN + CHANGED % ', '.join(
        stands('RoleBinding/a/' + name, to, 'main/rbac/bindings.json') for name, to in (('x0', 'Role/a/x'), ('x1', 'ClusterRole/b'), ('x2', 'ClusterRole/c')))
        + UNANSWERED), got)
    status, out, err = got = without_cluster(it, 'diff', '--from', '-', '--to', 'change/rbac', stdin=None, input=json.dumps(role('r', 'a')).encode())
    others = [line_ for line_ in out.splitlines(True) if not line_.startswith('+\tu:kim\ta\t')]
    it.checked('from standard input', status == 1 and others == [line('+', 'ann', 'a', 'get', 'r'), line('+', 'ann', 'a', 'watch', 'r')]
               and err.startswith(read('standard input')), got)


# Names that JSON or a line of findings has to escape, and how a finding has each.
ODD_NAMES = {'plain': 'plain', 'a "b" <c> & d': 'a "b" <c> & d', 'back\\slash': 'back\\\\slash',
             'bell\a, tab\t, \x7f': 'bell\\x07, tab\\x09, \\x7f', 'é \u2028 \U0001f600': 'é \u2028 \U0001f600', 'line\nbreak': 'line\\x0abreak'}
ALONE = 'kubectl-rbacaudit: a role that L1 misses may be in the cluster: these are the manifests alone\n'


@with_manifests
def linted(it):
    """lint of manifests: each finding with the file that its object stands in, the last if there are several."""
    bind = {'apiGroups': ['rbac.authorization.k8s.io'], 'resources': ['roles'], 'verbs': ['bind']}
    files, findings = {}, []
    for number, (name, printed) in enumerate(ODD_NAMES.items()):
        files['m/%d.json' % number] = {**role(name, 'b'), 'rules': [bind]}
        findings += [line % (printed, number) for line in ('L2\tunused-role\tRole/b/%s\t-\t-\tm/%d.json',
                                                           'L4\tescalation\tRole/b/%s\t1\tbind\tm/%d.json')]
    other = {**role('plain', 'b'), 'apiVersion': 'example.com/v1'}
    put(it, {**files, 'm/within/pods.yaml': json.dumps(a_list('List', 'v1', POD, bound('gone', None, 'kim'), other)),
             'm/z.json': files['m/0.json']})
    findings = [finding.replace('m/0.json', 'm/z.json') for finding in findings]
    findings += ['L1\tdangling-role\tRoleBinding/default/gone\t-\tRole/default/gone\tm/within/pods.yaml',
                 'L7\treplaced-object\tRole/b/plain\t-\t1\tm/z.json']
    said = read('m', '7 roles, 1 binding, 2 other objects') + FOREIGN % ('m/within/pods.yaml', 'Role', 'plain', 'example.com/v1') + (
        'kubectl-rbacaudit: these have no namespace, and count in default: RoleBinding/gone\n')
    for options, more in (([], OWN), (['--no-defaults'], '')):
        status, out, err = got = without_cluster(it, 'lint', *options, 'm')
        it.checked('lint of a folder %s' % options, (status, sorted(out.split('\n')), err) == (1, sorted([''] + findings), said + more + ALONE), got)
    got = without_cluster(it, 'lint', '--only', 'L4,L7', '--', 'm/0.json', 'm/2.json')
    it.checked('lint of some files', got == (1, 'L4\tescalation\tRole/b/back\\\\slash\t1\tbind\tm/2.json\n'
                                             'L4\tescalation\tRole/b/plain\t1\tbind\tm/0.json\n',
                                             read('m/0.json, m/2.json', '2 roles, 0 bindings, 0 other objects') + OWN), got)
    put(it, {'bad.json': {**role('x', 'b'), 'rules': [{}]}})
    got = without_cluster(it, 'lint', 'm/0.json', 'bad.json')
    both = 'm/0.json, bad.json'
    it.checked('a bad object', got == (2, '', read(both, '2 roles, 0 bindings, 0 other objects') + OWN + 'rbacaudit: file 1 item 2: M5 bad rule 1\n'
                                       + culprit(1, both, 2, 'Role b/x, in bad.json')), got)
    deep = {}
    for _ in range(130):
        deep = {'x': deep}
    put(it, {'m/0.json': role('x', 'b'), 'bad.json': {**POD, 'spec': deep}})
    got = without_cluster(it, 'lint', 'm/0.json', 'bad.json')
    it.checked('a bad list', got == (2, '', read(both, '1 role, 0 bindings, 1 other object') + OWN + 'rbacaudit: file 1: M1 not JSON\n'
                                     'kubectl-rbacaudit: file 1 is %s as kubectl reads it\n' % both), got)
    put(it, {'pod.json': POD})
    got = without_cluster(it, 'lint', 'pod.json')
    it.checked('no role', got == (2, '', read('pod.json', '0 roles, 0 bindings, 1 other object')
                                  + EMPTY.replace('compared', 'checked') % 'pod.json'), got)


# ---- what documents show, as it is written

# helm as documents call it: what it prints of a chart is a file there.
HELM = '#!/bin/sh\n[ "$1 $2 $4" = "template shop -f" ] && [ -f "$5" ] && exec cat "$3/rendered.json"\n'


def shown(path, heading):
    """The blocks of commands below a heading of a document, each a text."""
    with open(os.path.join(TOP, path), encoding='utf-8') as file:
        part = file.read().partition(heading)[2]
    part = re.split(r'^(?:#|\*\*)', part, maxsplit=1, flags=re.M)[0]
    return [textwrap.dedent(block) for block in re.findall(r'(?:^    .*\n)+', part, re.M)]


def run_shown(it, command):
    """Status, standard output and standard error of commands of a document."""
    environment = {**it.environment(), 'HOME': it.path, 'KUBECONFIG': it.at('kubeconfig')}
    environment['PATH'] = os.pathsep.join([it.bin, os.path.dirname(PLUGIN), environment['PATH']])
    ended = subprocess.run([*NO_NETWORK, 'bash', '-c', command], cwd=it.work, env=environment, stdin=subprocess.DEVNULL,
                           stdout=subprocess.PIPE, stderr=subprocess.PIPE, timeout=60)
    return ended.returncode, ended.stdout.decode(), ended.stderr.decode()


@with_manifests
def recipes(it):
    """docs/RECIPES.md: what a merge does to a cluster, a chart, and several kustomizations."""
    put(it, {'prod/cluster.json': a_list('List', 'v1'), 'prod/namespaced.json': a_list('List', 'v1', role('r', 'a'), bound('r', 'a', 'ann')),
             it.at('kubeconfig'): 'none', os.path.join(it.bin, 'helm'): HELM})
    os.chmod(os.path.join(it.bin, 'helm'), 0o755)
    main, change = a_list('List', 'v1', role('r', 'a'), bound('r', 'a', 'ann')), role('r', 'a', 'watch')
    for side, value in (('main/', main), ('', change)):
        put(it, {side + 'rbac/roles.json': value, side + 'charts/shop/rendered.json': value, side + 'values/prod.yaml': '',
                 side + 'apps/x/overlays/prod/kustomization.yaml': {'resources': ['r.json']}, side + 'apps/x/overlays/prod/r.json': value,
                 side + 'apps/y/overlays/prod/kustomization.yaml': {'resources': ['y.json']},
                 side + 'apps/y/overlays/prod/y.json': bound('y', 'a', 'yan', 'Role', 'r')})
    [merge] = shown('docs/RECIPES.md', '### What a merge does to a cluster\n')
    chart, folders = shown('docs/RECIPES.md', '### Helm, Flux and Argo CD\n')
    lost, yan = line('-', 'ann', 'a', 'get', 'r'), line('-', 'yan', 'a', 'get', 'y') + line('+', 'yan', 'a', 'watch', 'y')
    for name, command, out in (('a merge', merge, lost), ('a chart', chart, lost), ('several folders', folders, lost + yan)):
        got = run_shown(it, 'set -e\n' + command)
        it.checked('RECIPES.md: ' + name, got[:2] == (1, out), got)


@with_manifests
def first_screen(it):
    """README.md: the three lines of a pipeline."""
    if not shutil.which('git'):
        skipped('git', 'the three lines of README.md')
        return
    put(it, {'rbac/roles.json': role('r', 'a'), 'rbac/bindings.json': bound('r', 'a', 'ann'), it.at('kubeconfig'): 'none'})
    commands = """git init -q -b main .; git add .; git -c user.name=kim -c user.email=kim@example.com commit -q -m Roles
                  git update-ref refs/remotes/origin/main main"""
    it.checked('a repository', run_shown(it, commands)[0] == 0, 'none')
    put(it, {'rbac/roles.json': role('r', 'a', 'get', 'watch')})
    [command] = shown('README.md', '**What does a pull request change?**')
    status, out, err = got = run_shown(it, command)
    # (git says where the branch is)
    it.checked('README.md: the three lines', command.count('\n') == 3 and status == 1
               and out.splitlines(True)[1:] == [line('+', 'ann', 'a', 'watch', 'r')], got)
    shutil.rmtree(os.path.join(it.work, 'main'))


CHECKS = [paths, from_yaml, refusals, without_kubectl, speed, hidden, taken_away, states, linted, recipes, first_screen]
