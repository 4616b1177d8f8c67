"""The command diff of the kubectl plugin: two exports, an export and the cluster, and a change that waits for review."""

import json
import os
import subprocess

from common import V1, V1BETA1, bare
from plugin_questions import stale_roles
from plugin_room import CAUTION, REFUSAL, in_each_shell, of_kinds, served

SECRETS = {'verbs': ['list'], 'apiGroups': [''], 'resources': ['secrets']}
# Its label lets developers list the secrets of the shop.
ROLE = {'apiVersion': V1, 'kind': 'ClusterRole', 'rules': [SECRETS],
        'metadata': {'name': 'shop-view-secrets', 'labels': {'shop.example.com/aggregate-to-view': 'true'}}}
GAINED = '+\tg:shop-developers\tshop\tlist\t-\tsecrets\t*\tRoleBinding/shop/developers-view\n'
LOST = GAINED.replace('+', '-', 1)
OVER = 'kubectl-rbacaudit: %s is put over the export: objects that the change deletes still count\n'
ALONE = 'kubectl-rbacaudit: the export has the namespace shop alone, and this answer knows no other\n'
OF_ONE = ('kubectl-rbacaudit: only one of the exports is of the namespace shop alone, '
          'so what it lacks counts as gained or lost\n')
NOTHING = 'kubectl-rbacaudit: nothing is answered; --partial answers from what is there\n'
ONE_ROLE = '1 role, 0 bindings, 0 other objects'
EMPTY = ('kubectl-rbacaudit: %s has neither a role nor a binding, so nothing is compared: '
         'check each kind and apiVersion in it\n')


UNREAD = "kubectl-rbacaudit: kubectl can't read %s, so nothing is answered\n"


def read(path, counts=ONE_ROLE):
    return 'kubectl-rbacaudit: read from %s: %s\n' % (path, counts)


def culprit(file, path, item, name):
    """What is said of an object that rbacaudit has refused."""
    return 'kubectl-rbacaudit: file %d is %s as kubectl reads it; item %d of it is %s\n' % (file, path, item, name)


def with_role():
    """What the stand-in serves once somebody has added the role."""
    cluster = served()['cluster']
    return {'cluster': {**cluster, 'items': [*cluster['items'], ROLE]}}


@in_each_shell
def sides(it):
    """From one export to another, and to the cluster as it is now."""
    it.run('export', 'my monday')
    it.expect('nothing has changed', ['diff', '--export', 'my monday'], 0)
    it.serve(with_role())
    it.run('export', 'friday')
    it.lines('calls')
    for line, out in ((['--export', 'my monday', '--export', 'friday'], GAINED), (['--export=my monday', '--export=friday'], GAINED),
                      (['--export', 'friday', '--export', 'my monday'], LOST)):
        it.expect('diff %s' % line, ['diff', *line], 1, out)
    it.expect('the same export twice', ['diff', '--export', 'friday', '--export', 'friday'], 0)
    it.checked('two exports need no cluster', not it.lines('calls'), 'calls')
    it.expect('the cluster as it is now', ['diff', '--export', 'my monday', '--context', 'far'], 1, GAINED)
    it.checked('reads roles and bindings alone', len(it.lines('calls')) == 2, 'other calls')
    it.checked('of the context', set(it.lines('targets')) == {'|--context=far'}, 'another')
    os.remove(os.path.join(it.work, 'friday', 'api-v1.json'))
    it.expect('API lists don\'t matter', ['diff', '--export', 'my monday', '--export', 'friday'], 1, GAINED)


@in_each_shell
def reviews(it):
    """A change in a file or a folder, against an export or the cluster."""
    it.run('export', 'prod')
    os.mkdir(os.path.join(it.work, 'change'))
    it.write(json.dumps(ROLE), 'change', 'role.json')
    it.write('not JSON', 'change', 'notes.txt')
    for place in (['--export', 'prod'], []):
        for given in ('change', 'change/', './change', 'change/role.json'):
            it.expect('with %s %s' % (given, place), ['diff', *place, '--with', given], 1, GAINED, read(given) + OVER % given)
    it.write(json.dumps(ROLE), 'a=b')
    it.expect('with a file of another name', ['diff', '--export', 'prod', '--with=a=b'], 1, GAINED, read('./a=b') + OVER % './a=b')
    it.write(json.dumps(of_kinds([ROLE, {**ROLE, 'rules': [{}]}], 'ClusterRole')), 'change', 'z=bad.json')
    it.expect('a bad object of the change', ['diff', '--export', 'prod', '--with', 'change'], 2, '',
              read('change', '3 roles, 0 bindings, 0 other objects') + OVER % 'change' + 'rbacaudit: file 3 item 3: M5 bad rule 1\n'
              + culprit(3, 'change', 3, 'ClusterRole shop-view-secrets, in change/z=bad.json'))
    it.write('[]', 'prod', 'namespaced.json')
    it.expect('a bad file of the export', ['diff', '--export', 'prod', '--with', 'a=b'], 2, '',
              read('./a=b') + OVER % './a=b' + 'rbacaudit: file 2: M2 not an object\nkubectl-rbacaudit: file 2 is prod/namespaced.json\n')
    status, out, err = got = it.run('diff', '--with', 'change')
    it.checked('a bad change of the cluster', (status, out) == (2, '') and err.endswith(
        culprit(3, 'change', 3, 'ClusterRole shop-view-secrets, in change/z=bad.json')), got)


@in_each_shell
def refusals(it):
    """Words that mean no two sides, before any call to the cluster."""
    it.run('export', 'prod')
    os.mkdir(os.path.join(it.work, 'empty'))
    it.lines('calls')
    for line, said in (([], 'diff needs --export DIR or --with PATH'), (['--export'], '--export needs a value'),
                       (['--export', 'prod', '--with'], '--with needs a value'), (['--with='], '--with needs a value'),
                       (['--export', 'prod'] * 3, '--export is given three times'),
                       (['--export', 'prod', '--export', 'prod', '--with', 'empty'], '--with goes with one --export'),
                       (['--export', 'prod', '--with', 'empty', '--with', 'empty'], '--with is given twice'),
                       (['--export', 'prod', '--with', 'gone'], 'there is no gone'),
                       (['--with', 'empty'], 'there is no manifest in empty'),
                       (['--without', 'empty'], 'there is no manifest in empty'),
                       (['--from', 'empty'], '--from and --to go together'), (['--to', 'empty'], '--from and --to go together'),
                       (['--export', 'prod', '--to', 'empty'], '--from and --to go together'),
                       (['--from', 'a', '--to', 'b', '--with', 'c'], 'give neither --with nor --without beside them'),
                       (['--from', 'a', '--to', 'b', '--without', 'c'], 'give neither --with nor --without beside them'),
                       (['--from', 'a', '--to', 'b', '--export', 'prod', '--export', 'prod'], '--with goes with one --export'),
                       (['--without', 'a', '--export', 'prod', '--export', 'prod'], '--with goes with one --export'),
                       (['--from', 'a', '--to', 'b', '--context', 'x'], 'manifests are read without a cluster'),
                       (['--from', '-', '--to', '-'], 'standard input can be read once'),
                       (['--with', '-', '--without=-'], 'standard input can be read once'),
                       (['--from', 'a', '--from', 'b'], '--from is given twice'), (['--without', 'a', '--without=b'], '--without is given twice'),
                       (['--to', '-x'], '--to needs a value; if -x is the value, write --to=-x'), (['--export', '-'], '--export needs a value'),
                       (['--export', 'gone', '--export', 'prod'], 'there is no folder gone'),
                       (['--export', 'prod', '--export', 'gone'], 'there is no folder gone'),
                       (['--export', 'prod', '--export', 'prod', '--context', 'x'], 'give no option of kubectl'),
                       (['--export', 'prod', 'file.json'], 'diff has no file.json'), (['--before', 'prod'], 'diff has no --before'),
                       (['--export', 'prod', '-n', 'shop'], 'so it needs --with PATH'),
                       (['--with', 'prod', '-n'], '-n needs a value'), (['--with', 'prod', '-n='], '-n needs a value'),
                       (['--with', 'prod', '-n', 'a', '-nb'], '-n is given twice'),
                       (['--with', 'prod', '--namespace=Shop'], 'there is no namespace Shop'),
                       (['--with', 'prod', '-n', 'a"b'], 'there is no namespace a"b')):
        status, out, err = got = it.run('diff', *line)
        it.checked('diff %s: %s' % (line, said), (status, out) == (2, '') and said in err, got)
    it.checked('no call is made', not it.lines('calls'), 'calls')


@in_each_shell
def parts(it):
    """A side that lacks a part, or knows one namespace alone."""
    it.run('export', 'prod')
    it.run('export', 'part', trouble=['forbid cluster'])
    for line in (['--export', 'part', '--export', 'prod'], ['--export', 'prod', '--export', 'part']):
        status, out, err = got = it.run('diff', *line)
        it.checked('a part is missing: %s' % line, (status, out) == (2, '') and err.endswith(REFUSAL), got)
        status, out, err = got = it.run('diff', *line, '--partial')
        it.checked('--partial: %s' % line, status == 1 and out and err.endswith(CAUTION), got)
    status, out, err = got = it.run('diff', '--export', 'prod', trouble=['forbid namespaced'])
    it.checked('a part of the cluster is missing', (status, out) == (2, '') and err.endswith(REFUSAL), got)
    it.run('export', '-n', 'shop', 'own')
    it.expect('one namespace twice', ['diff', '--export', 'own', '--export', 'own'], 0, '', ALONE * 2)
    it.expect('one namespace, and the same now', ['diff', '--export', 'own'], 0, '', ALONE * 2)
    it.expect('one namespace, and all', ['diff', '--export', 'own', '--export', 'prod'], 2, '', ALONE + OF_ONE + NOTHING)
    status, out, err = got = it.run('diff', '--export', 'prod', '--export', 'own', '--partial')
    lines = out.splitlines()
    it.checked('one namespace, and all, --partial', status == 1 and err == ALONE + OF_ONE and lines
               and all(line.startswith('-') and '\tRoleBinding/' in line for line in lines), got)
    it.write(json.dumps(ROLE), 'role.json')
    it.expect('a change of one namespace', ['diff', '--export', 'own', '--with', 'role.json'], 1, GAINED,
              read('role.json') + ALONE + OVER % 'role.json')


def refused(it, name, given, err, *options):
    """One check of a change that nothing is compared with, before any call to the cluster."""
    for place in ([], ['--export', 'prod']):
        it.expect('%s %s' % (name, place), ['diff', *place, '--with', given, *options], 2, '', err)
    it.checked('%s: no call' % name, not it.lines('calls'), 'a call')


@in_each_shell
def unread(it):
    """What kubectl can't read is refused with its reason, which names the file."""
    it.run('export', 'prod')
    it.lines('calls')
    os.mkdir(os.path.join(it.work, 'change'))
    it.write(json.dumps(ROLE), 'change', 'a.json')
    for text in ('{"kind": "Role"', json.dumps(ROLE) + ']', '[%s]' % json.dumps(ROLE), '5', '{"metadata": {}}', json.dumps({**ROLE, 'kind': ''}),
                 json.dumps({'items': [5], **ROLE}), '{"apiVersion": "%s", "kind": "Clusterrole", "kind": null}' % V1,
                 '{"kind": "Role", "apiVersion": "%s", "metadata": {"name": "r", "namespace": 5}}' % V1,
                 json.dumps(a_list('List', 'v1', ROLE, a_list('ClusterRoleList', V1, ROLE)))):
        it.write(text, 'change', 'b.json')
        for given in ('change', 'change/b.json'):
            for place in ([], ['--export', 'prod']):
                status, out, err = got = it.run('diff', *place, '--with', given)
                said, _, last = err.partition('kubectl-rbacaudit: ')
                it.checked('unread: %s of %s %s' % (text, given, place), (status, out) == (2, '') and said.startswith('error: ')
                           and 'change/b.json' in said and 'kubectl-rbacaudit: ' + last == UNREAD % given, got)
    os.remove(os.path.join(it.work, 'change', 'b.json'))
    os.symlink('nowhere', os.path.join(it.work, 'change', 'b.json'))
    status, out, err = got = it.run('diff', '--with', 'change')
    it.checked('a link to nothing', (status, out) == (2, '') and 'open change/b.json' in err, got)
    it.checked('no call', not it.lines('calls'), 'a call')


KIND = ("kubectl-rbacaudit: %s has the kind %s, which rbac.authorization.k8s.io doesn't have: "
        'check the spelling\n')
WRONG = {**ROLE, 'kind': 'Clusterrole'}
POD = {'apiVersion': 'v1', 'kind': 'Pod', 'metadata': {'name': 'x'}}


def a_list(kind, version, *items):
    return {'items': items, 'kind': kind, 'apiVersion': version}


# Documents of which rbacaudit would ignore one that looks like a role, and its kind.
MISTYPED = [
    (WRONG, 'Clusterrole'), (dict(reversed(WRONG.items())), 'Clusterrole'), (a_list('List', 'v1', ROLE, WRONG), 'Clusterrole'),
    (a_list('ClusterRoleList', V1, bare(ROLE), {**ROLE, 'kind': 'clusterRole'}), 'clusterRole'),
    (a_list('RolebindingList', V1, bare(ROLE)), 'Rolebinding'), (a_list('ServiceAccount', 'v1', WRONG), 'Clusterrole'),
    ({'kind': 'List', 'apiVersion': V1}, 'List'), (a_list('List', 'v1', ROLE, POD, {**ROLE, 'kind': 'Role ClusterRole'}), 'Role ClusterRole'),
    (a_list('List', 'v1', {**ROLE, 'kind': 'a\x1b\t"'}), 'a\\u001b\\t\\"')]
# Texts that say the same as WRONG, spelled in other ways.
ESCAPED = json.dumps(WRONG).replace('/', '\\/').replace('kind', 'k\\u0069nd').replace('terrole', 't\\u0065rrole')
TWICE = json.dumps(ROLE)[:-1] + ', "kind": "Clusterrole"}'
# The last of several lists counts, and the last kind.
LAST_COUNTS = '{"kind": "List", "apiVersion": "v1", "items": [%s], "items": [%s, "kind": "ClusterRole"}]}' % (
    json.dumps(WRONG), json.dumps(WRONG)[:-1])


@in_each_shell
def kinds(it):
    """A kind that RBAC doesn't have is refused, wherever it stands; what only looks like one isn't."""
    it.run('export', 'prod')
    it.lines('calls')
    for document, kind in MISTYPED:
        it.write(json.dumps(document), 'c.json')
        refused(it, json.dumps(document), 'c.json', KIND % ('c.json', kind))
    for text in (ESCAPED, TWICE):
        it.write(text, 'c.json')
        refused(it, text, 'c.json', KIND % ('c.json', 'Clusterrole'))
    it.write(json.dumps({field: value for field, value in ROLE.items() if field != 'apiVersion'}), 'c.json')
    refused(it, 'no version', 'c.json', 'kubectl-rbacaudit: c.json has a ClusterRole without an apiVersion, so no cluster takes it\n')
    looks = {**ROLE, 'kind': 'ClusterRole', 'metadata': {
        'name': '"kind": "Clusterrole"', 'labels': {'kind': 'Clusterrole', **ROLE['metadata']['labels']}}}
    other = {**WRONG, 'apiVersion': 'example.com/v1'}
    for document, counts in ((looks, ONE_ROLE), ({**looks, 'metadata': {**looks['metadata'], 'name': 'Clusterrole'}}, ONE_ROLE),
                             (a_list('List', V1BETA1, ROLE), ONE_ROLE),
                             (a_list('List', 'v1', ROLE, other), '1 role, 0 bindings, 1 other object')):
        it.write(json.dumps(document), 'c.json')
        it.expect(json.dumps(document), ['diff', '--export', 'prod', '--with', 'c.json'], 1, GAINED, read('c.json', counts) + OVER % 'c.json')
    it.write(LAST_COUNTS, 'c.json')
    it.expect('the last counts', ['diff', '--export', 'prod', '--with', 'c.json'], 1, GAINED, read('c.json') + OVER % 'c.json')


def binding(kind, name, **fields):
    return {'apiVersion': V1, 'kind': kind, 'metadata': {'name': name, **fields}, 'roleRef': {'kind': 'ClusterRole', 'name': 'no'}}


FOREIGN = 'kubectl-rbacaudit: %s has the %s %s of %s, which is left out: it is not of rbac.authorization.k8s.io\n'

# What a change has, and how it is counted.
COUNTED = [
    ([POD], '0 roles, 0 bindings, 1 other object'), ([a_list('List', 'v1')], '0 roles, 0 bindings, 0 other objects'),
    ([a_list('RoleList', V1)], '0 roles, 0 bindings, 0 other objects'),
    ([{'kind': 'List', 'apiVersion': 'v1'}], '0 roles, 0 bindings, 1 other object'),
    ([a_list('PodList', 'v1', ROLE, ROLE)], '2 roles, 0 bindings, 0 other objects'),
    ([{**ROLE, 'apiVersion': 'v1'}, POD], '0 roles, 0 bindings, 2 other objects'),
    ([binding('ClusterRoleBinding', 'a')], '0 roles, 1 binding, 0 other objects'),
    ([a_list('ClusterRoleBindingList', V1BETA1, bare(binding('', 'a')), bare(binding('', 'b')))], '0 roles, 2 bindings, 0 other objects'),
    ([a_list('NamespaceList', 'v1', {'metadata': {'name': 'n'}}, binding('ClusterRoleBinding', 'a'))], '0 roles, 1 binding, 1 other object'),
    ([ROLE, a_list('List', 'v1', POD, ROLE, POD), binding('RoleBinding', 'x', namespace='shop')], '2 roles, 1 binding, 2 other objects'),
    ([a_list('RoleList', V1, POD, {'metadata': {'name': 'r', 'namespace': 'shop'}}, ROLE)], '2 roles, 0 bindings, 1 other object')]


@in_each_shell
def counts(it):
    """How many roles, bindings and others are read, of each kind of list; a change without roles and bindings is refused."""
    it.run('export', 'prod')
    os.mkdir(os.path.join(it.work, 'c'))
    for documents, counted in COUNTED:
        for name in it.files('c'):
            os.remove(os.path.join(it.work, 'c', name))
        for number, document in enumerate(documents):
            it.write(json.dumps(document, indent=number), 'c', '%d.json' % number)
        status, out, err = got = it.run('diff', '--export', 'prod', '--with', 'c')
        nothing = counted.startswith('0 roles, 0 bindings')
        foreign = ''.join(FOREIGN % ('c/%d.json' % number, one['kind'], one['metadata']['name'], one['apiVersion'])
                          for number, one in enumerate(documents) if one['kind'] == 'ClusterRole' and one['apiVersion'] == 'v1')
        wanted = read('c', counted) + foreign + (EMPTY % 'c' if nothing else OVER % 'c')
        it.checked('counted: %s' % json.dumps(documents), (status == 2, err) == (nothing, wanted) and not (nothing and out), got)
    it.write(json.dumps({**ROLE, 'apiVersion': V1 + 'alpha1'}), 'c', '0.json')
    it.expect('a bad version', ['diff', '--export', 'prod', '--with', 'c/0.json'], 2, '',
              read('c/0.json') + OVER % 'c/0.json' + 'rbacaudit: file 3 item 1: M3 bad version\n'
              + culprit(3, 'c/0.json', 1, 'ClusterRole shop-view-secrets')
              + 'kubectl-rbacaudit: the apiVersion of item 1 is rbac.authorization.k8s.io/v1alpha1: of this API group, rbacaudit reads v1 and v1beta1\n')


# Names that a walk over JSON could trip over, and how a line of diff has each.
NAMES = {'plain': 'plain', 'a "b" {c} }': 'a "b" {c} }', 'back\\': 'back\\\\', '"namespace": "no"}': '"namespace": "no"}', '{': '{',
         '\\"': '\\\\"', 'two,  and 9 more': 'two,  and 9 more', '}': '}'}
# The ways to have no namespace, around a name in JSON.
METADATA = ['{"name": %s}', '{"name":%s,"namespace":""}', '{"namespace": null, "name": %s}', '{\n"namespace" : "" ,"name": %s\n}',
            '{"labels": {"namespace": "no", "a": "}"}, "name": %s, "annotations": {"x": "\\"metadata\\": {"}, "ownerReferences": [{"name": "no"}]}',
            '{"namesp\\u0061ce": "", "name": %s}', '{"namespace": "no", "name": %s, "namespace": ""}',
            '{"namespace": "no", "name": %s, "namespace": null}']
RULES = '[{"verbs": ["get"], "apiGroups": [""], "resources": ["pods"]}]'
LAST = '"roleRef": {"kind": "Role", "name": %s}, "subjects": [{"kind": "User", "name": "u%d"}, {"kind": "ServiceAccount", "name": "a%d"}]'
BARE = 'kubectl-rbacaudit: these have no namespace, and count in %s: %s'
OFFER = '; -n NS counts them in NS\n'


def without_namespaces():
    """The texts of files with a role and a binding for each name, all without a namespace; and the lines of what they grant,
    which lack the namespace, three times in that of an account."""
    for number, (name, printed) in enumerate(NAMES.items()):
        name = json.dumps(name)
        metadata = '"metadata": ' + METADATA[number] % name
        role, bound = ['"rules": ' + RULES, metadata], [metadata, LAST % (name, number, number)]
        if number % 2:
            role.reverse()
            bound.insert(0, '"metadata": {"name": "no", "namespace": "no"}')
        version = '"apiVersion": "%s"' % V1
        role, bound = ', '.join(role), ', '.join(bound)
        kinds_ = ['{"kind": "Role", %s, %s}' % (version, role), '{%s, "kind": "RoleBinding", %s}' % (bound, version)]
        others = '{"apiVersion": "v1", "kind": "Pod", "metadata": {}}'
        texts = [kinds_, ['{"items": [%s, %s, %s], "kind": "List", "apiVersion": "v1", "metadata": {}}' % (kinds_[1], others, kinds_[0])],
                 ['{"items": [{%s}], "kind": "RoleList", %s}' % (role, version),
                  '{%s, "kind": "RoleBindingList", "metadata": {}, "items": [ {%s} ]}\n' % (version, bound)]][number % 3]
        line = '\t%s\tget\t-\tpods\t*\tRoleBinding/%s/' + printed.replace('%', '%%') + '\n'
        yield texts, ['+\tu:u%d' % number + line, '+\tu:system:serviceaccount:%s:a{}'.format(number) + line]


@in_each_shell
def namespaces(it):
    """Objects without a namespace count in default, and with -n in another; the plugin says which they are."""
    it.run('export', 'prod')
    os.mkdir(os.path.join(it.work, 'c'))
    granted = []
    for number, (texts, lines) in enumerate(without_namespaces()):
        granted += lines
        for part, text in enumerate(texts):
            it.write(text, 'c', '%d%d.json' % (number, part))
    it.write(json.dumps({**ROLE, 'metadata': {**ROLE['metadata'], 'namespace': ''}}), 'c', 'role.json')
    counted = read('c', '9 roles, 8 bindings, 3 other objects')
    first = 'Role/plain, RoleBinding/plain, RoleBinding/a \\"b\\" {c} } and 13 more'
    for options, namespace, said in (([], 'default', BARE % ('default', first) + OFFER), (['-n', 'shop'], 'shop', BARE % ('shop', first) + '\n'),
                                     (['-nx.y-1'], 'x.y-1', BARE % ('x.y-1', first) + '\n')):
        wanted = ''.join(sorted([line % ((namespace,) * line.count('%s')) for line in granted] + [GAINED]))
        it.expect('without a namespace: %s' % options, ['diff', '--export', 'prod', '--with', 'c', *options], 1, wanted,
                  counted + said + OVER % 'c')


@in_each_shell
def placed(it):
    """-n of diff in each spelling, for a pipe, for what it doesn't change, and where the change is bad."""
    it.run('export', 'prod')
    texts, lines = next(without_namespaces())
    it.write('{"kind": "List", "apiVersion": "v1", "items": [%s]}' % ', '.join(texts), 'c.json')
    out = ''.join(sorted(line % (('shop',) * line.count('%s')) for line in lines))
    both = read('%s', '1 role, 1 binding, 0 other objects')
    said = BARE % ('shop', 'Role/plain, RoleBinding/plain') + '\n'
    for option in (['-n', 'shop'], ['-nshop'], ['-n=shop'], ['--namespace', 'shop'], ['--namespace=shop']):
        it.expect('diff %s' % option, ['diff', '--export', 'prod', *option, '--with', 'c.json'], 1, out, both % 'c.json' + said + OVER % 'c.json')
    it.lines('calls')
    it.expect('-n, and the cluster as it is now', ['diff', '-n', 'shop', '--with', 'c.json'], 1, out, both % 'c.json' + said + OVER % 'c.json')
    calls = it.lines('calls')
    it.checked('the cluster is read whole', len(calls) == 2 and not any('|-n|' in call for call in calls), calls)
    for options, more in ((['-n', 'shop'], said), ([], BARE % ('default', 'Role/plain, RoleBinding/plain') + OFFER)):
        it.expect('a pipe %s' % options, ['diff', '--export', 'prod', '--with', '/dev/stdin', *options], 1,
                  out if options else out.replace('shop', 'default'), both % '/dev/stdin' + more + OVER % '/dev/stdin',
                  stdin=None, input=it.read('c.json').encode())
    it.write(json.dumps(ROLE), 'role.json')
    it.expect('nothing to place', ['diff', '--export', 'prod', '-n', 'shop', '--with', 'role.json'], 1, GAINED, read('role.json')
              + 'kubectl-rbacaudit: no object of role.json lacks a namespace, so -n shop changes nothing\n' + OVER % 'role.json')
    it.write('{"kind": "Role", "apiVersion": "%s", "metadata": {"name": "r"}, "rules": [{}]}' % V1, 'c.json')
    status, _, err = got = it.run('diff', '--export', 'prod', '--with', '/dev/stdin', stdin=None, input=it.read('c.json').encode())
    it.checked('a bad pipe', status == 2 and err.endswith(
        'rbacaudit: file 3 item 1: M5 bad rule 1\n' + culprit(3, '/dev/stdin', 1, 'Role r')), got)
    os.mkdir(os.path.join(it.work, 'c'))
    os.mkfifo(os.path.join(it.work, 'c', 'a.json'))
    it.write(json.dumps(ROLE), 'c', 'b.json')
    with subprocess.Popen(['sh', '-c', 'cat c.json > c/a.json'], cwd=it.work):
        status, _, err = got = it.run('diff', '--export', 'prod', '--with', 'c/')
    it.checked('a bad pipe in a folder', status == 2 and err.endswith(culprit(3, 'c/', 1, 'Role r, in c/a.json')), got)


STALE = ('kubectl-rbacaudit: stale aggregates (L6 of lint) in %s: ClusterRole/a, ClusterRole/b, ClusterRole/late; '
         'the cluster grants what is written in them, and these lines have what they gather\n')


@in_each_shell
def stale(it):
    """Stale aggregates of each side are reported."""
    it.serve({'cluster': stale_roles()})
    it.run('export', 'prod')
    it.expect('stale aggregates', ['diff', '--export', 'prod'], 0, '', STALE % 'prod' + STALE % 'the fresh export')
    it.write(json.dumps(ROLE), 'role.json')
    it.expect('stale aggregates, and a change', ['diff', '--export', 'prod', '--with', 'role.json'], 0, '',
              read('role.json') + STALE % 'prod' + OVER % 'role.json')


MADE = ('kubectl-rbacaudit: this change makes stale aggregates (L6 of lint): %s; a cluster grants what is written in them, '
        'for ever if they select each other, and these lines have what they gather\n')


@in_each_shell
def made_stale(it):
    """Aggregates that a change makes stale are reported apart: a ring of roles with written rules, a rule that is gone,
    and a stale role that nobody used."""
    it.run('export', 'prod')
    ring = stale_roles()
    it.write(json.dumps(ring), 'ring.json')
    in_ring = read('ring.json', '6 roles, 3 bindings, 0 other objects') + OVER % 'ring.json'
    lee = '+\tu:lee\t*\tlist\t-\tpods\t*\tClusterRoleBinding/plain\n'
    late = '+\tu:max\t*\twatch\t-\tpods\t*\tClusterRoleBinding/late\n'
    for place in ([], ['--export', 'prod']):
        it.expect('a ring %s' % place, ['diff', *place, '--with', 'ring.json'], 1, lee + late,
                  in_ring + MADE % 'ClusterRole/a, ClusterRole/b, ClusterRole/late')
    empty = [item if 'aggregationRule' not in item else {**item, 'rules': []} for item in ring['items']]
    it.write(json.dumps({**ring, 'items': empty}), 'ring.json')
    it.expect('the same without written rules', ['diff', '--export', 'prod', '--with', 'ring.json'], 1, lee + late, in_ring)
    # (in a settled cluster an aggregated role has what it gathers)
    roles = {item['metadata']['name']: item for item in ring['items'] if item['kind'] == 'ClusterRole'}
    bound = [item for item in ring['items'] if item['metadata']['name'] == 'late' and 'roleRef' in item]
    it.serve({'cluster': {**ring, 'items': [*bound, roles['new'], roles['unused'], {**roles['late'], 'rules': roles['new']['rules']}]}})
    it.run('export', 'settled')
    gone = [{**roles['new'], 'rules': []}]
    used = {**binding('ClusterRoleBinding', 'u'), 'roleRef': {'kind': 'ClusterRole', 'name': 'unused'}}
    for name, items, counts_, out, said in (
            ('a rule is gone', gone, ONE_ROLE, late.replace('+', '-'), MADE % 'ClusterRole/late'),
            ('a stale role is used', [used], '0 roles, 1 binding, 0 other objects', '', MADE % 'ClusterRole/unused'),
            ('nothing is stale', [ROLE], ONE_ROLE, '', '')):
        it.write(json.dumps(a_list('List', 'v1', *items)), 'c.json')
        it.expect(name, ['diff', '--export', 'settled', '--with', 'c.json'], int(bool(out)), out, read('c.json', counts_) + OVER % 'c.json' + said)


CHECKS = [sides, reviews, refusals, parts, unread, kinds, counts, namespaces, placed, stale, made_stale]
