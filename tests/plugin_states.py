"""Two states of manifests alone: what they don't know of the cluster, and say all the same.

Kubernetes' own roles are known. Whoever has a role elsewhere has it here, and what an aggregated role gathers elsewhere is told; a binding to a role
that nobody knows refuses the answer. plugin_law.py has the law of it all.
"""

import json
import os

from common import TOP, V1
from local_kubectl import yaml
from plugin_manifests import CHANGED, DELETED, LEFT, UNANSWERED, SAME, bound, put, role, stands, with_manifests, without_cluster
from plugin_room import OWN, in_each_shell
from plugin_sarif import results_of, seen
from plugin_show import lines_of

VIEW = {'rbac.authorization.k8s.io/aggregate-to-view': 'true'}
EVERYTHING = {'apiGroups': ['*'], 'resources': ['*'], 'verbs': ['*']}
NODES = {'apiGroups': [''], 'resources': ['nodes'], 'verbs': ['delete']}
PODS = {'apiGroups': [''], 'resources': ['pods'], 'verbs': ['get']}


def cluster_role(name, *rules, **labels):
    """A ClusterRole, plain or aggregated by these labels as `gathers`."""
    gathers = labels.pop('gathers', None)
    metadata = {'name': name, **({'labels': labels.get('labels')} if labels else {})}
    more = {'aggregationRule': {'clusterRoleSelectors': gathers}} if gathers is not None else {}
    return {'apiVersion': V1, 'kind': 'ClusterRole', 'metadata': metadata, 'rules': [*rules], **more}


def cluster_binding(name, to, *subjects):
    return {'apiVersion': V1, 'kind': 'ClusterRoleBinding', 'metadata': {'name': name}, 'roleRef': {'kind': 'ClusterRole', 'name': to},
            'subjects': [{'kind': kind, 'name': who} for kind, who in subjects]}


def change(sign, who, where, verb, resource, binding='-', group='-', name='*'):
    return '\t'.join((sign, who, where, verb, group, resource, name, binding))


def gathered(sign, who, role_, where='*', binding='-'):
    """The line about what a role gathers elsewhere."""
    return change(sign, who, where, 'what', 'ClusterRole/' + role_, binding, name='gathers elsewhere')


def compared(it, name, before, after, wanted, *options, said=None):
    """Compares two states, each a list of objects, and expects these lines; the answer."""
    put(it, {'before.json': {'apiVersion': 'v1', 'kind': 'List', 'items': before}, 'after.json': {'apiVersion': 'v1', 'kind': 'List', 'items': after}})
    status, out, err = got = without_cluster(it, 'diff', '--from', 'before.json', '--to', 'after.json', *options)
    it.checked(name, (status, lines_of(out)) == (int(bool(wanted)), wanted) and (said is None or err.endswith(said)), got)
    return got


OTHER = role('other', 'x')


@with_manifests
def silent(it):
    """What was silent: everybody becomes an admin; a role that Kubernetes' view gathers; a role that nobody here has becomes all."""
    admins = cluster_binding('all', 'cluster-admin', ('Group', 'system:authenticated'))
    all_ = [change('+', 'g:system:authenticated', '*', '*', '*', 'ClusterRoleBinding/all', '*'),
            change('+', 'g:system:authenticated', '-', '*', '*', 'ClusterRoleBinding/all', '-', '-')]
    compared(it, 'everybody becomes an admin', [OTHER], [OTHER, admins], all_, said=OWN)
    wild = cluster_role('wild', EVERYTHING, labels=VIEW)
    compared(it, 'a role that view gathers', [OTHER], [OTHER, wild],
             [change('+', 'r:ClusterRole/' + name, '*', '*', '*', group='*') for name in ('admin', 'edit', 'view', 'wild')])
    compared(it, 'a role that nobody here has', [cluster_role('ops', PODS)], [cluster_role('ops', EVERYTHING)],
             [change('+', 'r:ClusterRole/ops', '*', '*', '*', group='*')])
    compared(it, 'a role of a namespace', [role('r', 'a')], [role('r', 'a', 'get', 'list')], [change('+', 'r:Role/a/r', 'a', 'list', 'pods')])
    basic = cluster_role('system:basic-user', NODES)
    status, out, err = got = compared_all(it, [OTHER], [OTHER, basic])
    it.checked('a role of Kubernetes is written anew', change('+', 'g:system:authenticated', '*', 'delete', 'nodes', 'ClusterRoleBinding/system:basic-user') in out
               and change('-', 'g:system:authenticated', '*', 'create', 'selfsubjectaccessreviews', 'ClusterRoleBinding/system:basic-user', 'authorization.k8s.io')
               in out and not any(line.startswith('+') and 'delete' not in line for line in out), got)


def compared_all(it, before, after, *options):
    """Compares two states: the status, the lines, and what is said."""
    put(it, {'before.json': {'apiVersion': 'v1', 'kind': 'List', 'items': before}, 'after.json': {'apiVersion': 'v1', 'kind': 'List', 'items': after}})
    status, out, err = without_cluster(it, 'diff', '--from', 'before.json', '--to', 'after.json', *options)
    return status, lines_of(out), err


@with_manifests
def whoever(it):
    """Whoever has a role elsewhere has it here: each sentence of it, and where no line is needed."""
    def alone(name, before, after, wanted):
        compared(it, name, before, after, wanted, '--no-defaults')

    kim = cluster_binding('kim', 'ops', ('User', 'kim'))
    alone('another line tells it', [cluster_role('ops'), kim], [cluster_role('ops', PODS), kim], [change('+', 'u:kim', '*', 'get', 'pods', 'ClusterRoleBinding/kim')])
    in_shop = bound('kim', 'shop', 'kim', 'ClusterRole', 'ops')
    alone('another line tells it of one namespace', [cluster_role('ops'), in_shop], [cluster_role('ops', PODS), in_shop],
             [change('+', 'r:ClusterRole/ops', '*', 'get', 'pods'), change('+', 'u:kim', 'shop', 'get', 'pods', 'RoleBinding/shop/kim')])
    alone('a line of the other sign tells nothing', [cluster_role('a', PODS), cluster_role('ops'), cluster_binding('kim', 'a', ('User', 'kim'))],
             [cluster_role('a', PODS), cluster_role('ops', PODS)],
             [change('+', 'r:ClusterRole/ops', '*', 'get', 'pods'), change('-', 'u:kim', '*', 'get', 'pods', 'ClusterRoleBinding/kim')])
    alone('other labels', [cluster_role('ops', PODS, labels={'a': '1'})], [cluster_role('ops', PODS, labels={'a': '2'})],
             [change(sign, 'r:ClusterRole/ops', '*', 'get', 'pods') for sign in '+-'])
    alone('the same labels', [cluster_role('ops', PODS, labels={})], [cluster_role('ops', PODS, labels=None)], [])
    alone('labels of a Role', [{**OTHER, 'metadata': {**OTHER['metadata'], 'labels': {'a': '1'}}}], [OTHER], [])
    one, two = {'matchLabels': {'a': '1'}}, {'matchExpressions': [{'key': 'a', 'operator': 'Exists'}]}
    for name, sooner, later, wanted in (
            ('another selector', [one], [two], '+-'), ('a further selector', [one], [two, one], '+'), ('a selector less', [one, two], [two], '-'),
            ('another order', [one, two], [two, one], ''), ('none before', [], [one], '+'), ('everything', [one], [{}, one], '+')):
        alone('selectors: ' + name, [cluster_role('all', gathers=sooner)], [cluster_role('all', gathers=later)],
                 [gathered(sign, 'r:ClusterRole/all', 'all') for sign in wanted])
    all_ = cluster_role('all', gathers=[one])
    alone('a new subject of an aggregated role', [all_], [all_, cluster_binding('b', 'all', ('User', 'eve'))],
             [gathered('+', 'u:eve', 'all', binding='ClusterRoleBinding/b')])
    alone('a new subject in a namespace', [all_], [all_, bound('b', 'shop', 'eve', 'ClusterRole', 'all')],
             [gathered('+', 'u:eve', 'all', 'shop', 'RoleBinding/shop/b')])
    everywhere = cluster_binding('z', 'all', ('User', 'eve'))
    alone('a subject that had it everywhere', [all_, everywhere], [all_, everywhere, bound('b', 'shop', 'eve', 'ClusterRole', 'all')], [])
    admin = cluster_binding('admin', 'cluster-admin', ('User', 'eve'))
    compared(it, 'a subject that had everything', [all_, admin], [all_, admin, everywhere], [])
    whole = cluster_role('whole', EVERYTHING)
    alone('everything but URLs', [all_, whole, cluster_binding('w', 'whole', ('User', 'eve'))],
             [all_, whole, cluster_binding('w', 'whole', ('User', 'eve')), everywhere], [gathered('+', 'u:eve', 'all', binding='ClusterRoleBinding/z')])
    alone('a plain role gathers nothing', [cluster_role('ops', PODS)], [cluster_role('ops', gathers=[])], [change('-', 'r:ClusterRole/ops', '*', 'get', 'pods')])
    alone('what an aggregated role gathers here', [all_, cluster_role('part', labels={'a': '1'})], [all_, cluster_role('part', PODS, labels={'a': '1'})],
             [change('+', 'r:ClusterRole/' + name, '*', 'get', 'pods') for name in ('all', 'part')])
    # (a selector of everything but some selects no made-up role)
    rest = cluster_role('rest', gathers=[{'matchExpressions': [{'key': 'a', 'operator': 'DoesNotExist'}]}])
    hidden = cluster_role('hidden', labels={'a': '2'}, gathers=[one])
    alone('what another role gathers', [rest, hidden, cluster_binding('r', 'rest', ('User', 'eve'))],
             [rest, hidden, cluster_binding('r', 'rest', ('User', 'eve')), cluster_binding('h', 'hidden', ('User', 'eve'))],
             [gathered('+', 'u:eve', 'hidden', binding='ClusterRoleBinding/h')])


@with_manifests
def shapes(it):
    """Such lines in each format, counted, and in the status."""
    def alone(*words):
        return compared_all(it, *words, '--no-defaults')

    sides = [cluster_role('all', gathers=[])], [cluster_role('all', gathers=[{}]), cluster_role('o"\t\u202e', PODS)]
    odd = 'r:ClusterRole/o"\\x09\u202e'
    lines = [gathered('+', 'r:ClusterRole/all', 'all'), change('+', 'r:ClusterRole/all', '*', 'get', 'pods'), change('+', odd, '*', 'get', 'pods')]
    compared(it, 'lines', *sides, sorted(lines), '--no-defaults')
    status, out, err = got = alone(*sides, '-o', 'json')
    it.checked('JSON', [json.loads(line) for line in out] == [dict(zip('change who namespace verb group resource name binding'.split(), cells)) for cells in (
        ('+', 'r:ClusterRole/all', None, 'get', '', 'pods', None, ''), ('+', 'r:ClusterRole/all', None, 'what', '', 'ClusterRole/all', 'gathers elsewhere', ''),
        ('+', 'r:ClusterRole/o"\t\u202e', None, 'get', '', 'pods', None, ''))], got)
    status, out, err = got = alone(*sides, '-o', 'name')
    it.checked('names', out == ['r:ClusterRole/all', odd], got)
    status, out, err = got = alone(*sides, '-o', 'table', '--no-headers')
    it.checked('a table', [' '.join(line.split()) for line in out] == [line.replace('\t', ' ') for line in sorted(lines)], got)
    status, out, err = got = alone(*sides, '--summary')
    it.checked('a summary', out == ['r:ClusterRole/all\t*\t-\t2\t0\t[]\t[]', odd + '\t*\t-\t1\t0\t[]\t[]', 'total\t-\t-\t3\t0\t[]\t[]'], got)
    for form in ('json', 'table', 'name'):
        status, out, err = got = alone(*sides, '--summary', '-o', form)
        it.checked('a summary as %s' % form, status == 1 and len(out) == {'json': 3, 'table': 4, 'name': 2}[form], got)
    # (nobody knows whether what a role gathers elsewhere is a power)
    for what, before, after, status in (('gains', [], [{}], 1), ('powers', [], [{}], 1), ('powers', [{}], [], 0), ('gains', [{}], [], 0), ('changes', [{}], [], 1)):
        got = alone([cluster_role('all', gathers=before)], [cluster_role('all', gathers=after)], '--fail-on', what)
        it.checked('--fail-on %s, from %s to %s' % (what, before, after), got[0] == status and len(got[1]) == 1, got)
    got = alone([cluster_role('ops')], [cluster_role('ops', PODS)], '--fail-on', 'powers')
    it.checked('--fail-on powers, and no power', got[0] == 0 and len(got[1]) == 1, got)
    results = results_of(it, 'SARIF', without_sides(it, *sides), 1)
    it.checked('SARIF', seen(results) == [
        ('gained-permission', 'warning', 'Whoever has ClusterRole/all gains 2 permissions in all namespaces: get pods, what ClusterRole/all gathers elsewhere.',
         'after.json:1', 'ClusterRole/all'),
        ('gained-permission', 'warning', 'Whoever has ClusterRole/o"\\x09\\xe2\\x80\\xae gains 1 permission in all namespaces: get pods.', 'after.json:1',
         'ClusterRole/o"\\x09\\xe2\\x80\\xae')], results)


def without_sides(it, before, after):
    """The same as SARIF."""
    compared_all(it, before, after, '--no-defaults')
    return without_cluster(it, 'diff', '--from', 'before.json', '--to', 'after.json', '-o', 'sarif', '--no-defaults')


EVE, KIM, GONE = (bound(name, 'a', name, 'ClusterRole', to) for name, to in (('eve', 'prometheus'), ('kim', 'prometheus'), ('gone', 'ops')))
OF_EVE, IN_BEFORE = (stands('RoleBinding/a/eve', 'ClusterRole/prometheus', file) for file in ('after.json', 'before.json'))


@with_manifests
def unknown(it):
    """A binding to a role that neither state nor Kubernetes has is refused, in whichever state it is."""
    for name, before, after, said in (
            ('a new binding', [OTHER], [OTHER, EVE], CHANGED % OF_EVE), ('a binding that goes', [OTHER, EVE], [OTHER], CHANGED % IN_BEFORE),
            ('another subject', [OTHER, EVE], [OTHER, {**EVE, 'subjects': KIM['subjects']}, KIM], CHANGED % (OF_EVE + ', ' + OF_EVE.replace('eve', 'kim'))),
            ('another role', [OTHER, EVE], [OTHER, {**EVE, 'roleRef': GONE['roleRef']}],
             CHANGED % (stands('RoleBinding/a/eve', 'ClusterRole/ops', 'after.json') + ', ' + IN_BEFORE)),
            ('the same binding', [OTHER, EVE], [role('other', 'x', 'get', 'list'), EVE], SAME % OF_EVE), ('nothing changes', [EVE, OTHER], [OTHER, EVE], SAME % OF_EVE),
            ('one that comes, and one that stays', [OTHER, EVE], [OTHER, EVE, KIM], CHANGED % OF_EVE.replace('eve', 'kim') + SAME % OF_EVE),
            ('without subjects', [OTHER], [OTHER, {**EVE, 'subjects': []}], CHANGED % OF_EVE),
            ('a Role of another namespace', [OTHER], [OTHER, bound('o', 'y', 'kim', 'Role', 'other')], CHANGED % stands('RoleBinding/y/o', 'Role/y/other', 'after.json')),
            ('in the whole cluster', [OTHER, cluster_binding('all', 'ops', ('Group', 'g'))], [OTHER, cluster_binding('all', 'ops', ('Group', 'g'))],
             SAME % stands('ClusterRoleBinding/all', 'ClusterRole/ops', 'after.json'))):
        more = [['--fail-on', 'gains'], ['--fail-on', 'powers'], ['--summary'], ['-o', 'sarif']] if name == 'the same binding' else []
        for options in ([], *more):
            got = compared_all(it, before, after, *options)
            it.checked('%s %s' % (name, options), got[:2] == (2, []) and got[2].endswith(OWN + said + UNANSWERED), got)
    got = compared_all(it, [OTHER], [OTHER, cluster_binding('b', 'view', ('User', 'eve'))], '--no-defaults')
    it.checked("a role that only Kubernetes has, without Kubernetes' own", got[:2] == (2, []) and got[2].endswith(
        CHANGED % stands('ClusterRoleBinding/b', 'ClusterRole/view', 'after.json') + UNANSWERED), got)
    ops = cluster_role('ops', PODS)
    compared(it, 'a role that goes, and its binding stays', [OTHER, ops, GONE], [OTHER, GONE],
             [change('-', 'r:ClusterRole/ops', '*', 'get', 'pods'), change('-', 'u:gone', 'a', 'get', 'pods', 'RoleBinding/a/gone')], said=OWN)
    # (kubectl apply deletes nothing, so somebody new may have that role)
    got = compared_all(it, [OTHER, ops], [OTHER, GONE])
    it.checked('a role that goes, and a binding that comes', got[:2] == (2, []) and got[2].endswith(
        OWN + DELETED % stands('RoleBinding/a/gone', 'ClusterRole/ops', 'after.json') + UNANSWERED), got)
    compared(it, 'a role that comes, and its binding was there', [OTHER, GONE], [OTHER, ops, GONE],
             [change('+', 'r:ClusterRole/ops', '*', 'get', 'pods'), change('+', 'u:gone', 'a', 'get', 'pods', 'RoleBinding/a/gone')], said=OWN)


@with_manifests
def partial(it):
    """--partial leaves out such bindings, says which, and answers over the rest as if they weren't there."""
    wider = role('other', 'x', 'get', 'list')
    gained = change('+', 'r:Role/x/other', 'x', 'list', 'pods')
    for name, before, after, said in (
            ('a new one', [OTHER], [wider, EVE], CHANGED % OF_EVE), ('one that goes', [OTHER, EVE], [wider], CHANGED % IN_BEFORE),
            ('the same', [OTHER, EVE], [wider, EVE], SAME % OF_EVE), ('each kind', [OTHER, EVE, cluster_role('ops')], [wider, EVE, KIM, GONE],
            CHANGED % OF_EVE.replace('eve', 'kim') + DELETED % stands('RoleBinding/a/gone', 'ClusterRole/ops', 'after.json') + SAME % OF_EVE)):
        compared(it, '--partial: ' + name, before, after, [gained], '--partial', said=OWN + said + LEFT)
        for what, status in (('changes', 1), ('gains', 1), ('powers', 0)) if name in ('the same', 'each kind') else ():
            got = compared_all(it, before, after, '--partial', '--fail-on', what)
            it.checked('--partial --fail-on %s: %s' % (what, name), got[:2] == (status, [gained]) and got[2].endswith(OWN + said + LEFT), got)
    compared(it, '--partial: nothing changes', [EVE, OTHER], [OTHER, EVE], [], '--partial', said=SAME % OF_EVE + LEFT)
    compared(it, '--partial, and nothing is left out', [OTHER], [wider], [gained], '--partial', said=OWN)


@with_manifests
def many_unknown(it):
    """The first ten are named with their places, and the others counted; each where it stands."""
    some = [bound('b%02d' % number, 'a', 'kim', 'ClusterRole', 'ops') for number in range(12)]
    got = compared_all(it, [OTHER], [OTHER, *some])
    named = [stands('RoleBinding/a/b%02d' % number, 'ClusterRole/ops', 'after.json') for number in range(10)]
    it.checked('many', got[:2] == (2, []) and got[2].endswith(CHANGED % (', '.join(named) + ' and 2 more') + UNANSWERED), got)
    got = without_cluster(it, 'diff', '--from', 'after.json', '--to', '-', stdin=None, input=json.dumps(some[3]).encode())
    it.checked('on standard input', got[0] == 2 and SAME % 'RoleBinding/a/b03 to ClusterRole/ops in standard input' in got[2], got)
    put(it, {'k/kustomization.yaml': json.dumps({'resources': ['b.json']}), 'k/b.json': some[0], 'm/in/b.json': some[0]})
    for folder, file in (('k', 'k'), ('m', 'm/in/b.json')):
        got = without_cluster(it, 'diff', '--from', 'before.json', '--to', folder)
        place = stands('RoleBinding/a/b00', 'ClusterRole/ops', file) if folder == 'm' else 'RoleBinding/a/b00 to ClusterRole/ops in k'
        it.checked('in the folder %s' % folder, got[0] == 2 and CHANGED % place in got[2], got)
    if yaml:
        put(it, {'m/in/b.json': OTHER, 'm/two.yaml': 'kind: RoleBinding\n'.join(('', BOUND % 'a: b', BOUND % 'b'))})
        got = without_cluster(it, 'diff', '--from', 'before.json', '--to', 'm')
        it.checked('lines of YAML', got[0] == 2 and CHANGED % ', '.join(stands('RoleBinding/a/' + name, 'ClusterRole/ops', 'm/two.yaml', number)
                                                                     for name, number in (('a: b', 4), ('b', 11))) in got[2], got)


# What stands below the kind of a binding, in YAML.
BOUND = """apiVersion: rbac.authorization.k8s.io/v1
metadata:
  name: "%s"
  namespace: a
roleRef: {apiGroup: rbac.authorization.k8s.io, kind: ClusterRole, name: ops}
---
"""


@with_manifests
def bare(it):
    """--no-defaults is for manifests alone."""
    put(it, {'before.json': OTHER})
    for line in (['diff', '--no-defaults', '--with', 'before.json'], ['diff', '--no-defaults', '--export', 'x', '--from', 'a', '--to', 'b'], ['lint', '--no-defaults'],
                 ['lint', '--no-defaults', '--export', 'x']):
        status, out, err = got = without_cluster(it, *line)
        it.checked('refused: %s' % line, (status, out) == (2, '') and '--no-defaults is for manifests alone' in err, got)


@with_manifests
def linted(it):
    """lint of manifests knows Kubernetes' own roles, and tells nothing of them."""
    put(it, {'view.json': bound('kim', 'a', 'kim', 'ClusterRole', 'view'), 'part.json': cluster_role('part', PODS, labels=VIEW),
             'mine.json': cluster_role('view', PODS)})
    got = without_cluster(it, 'lint', 'view.json')
    it.checked('a binding of view', got[:2] == (0, '') and got[2].endswith(OWN), got)
    got = without_cluster(it, 'lint', '--no-defaults', 'view.json')
    it.checked("the same without Kubernetes' own", got[:2] == (1, 'L1\tdangling-role\tRoleBinding/a/kim\t-\tClusterRole/view\tview.json\n'), got)
    got = without_cluster(it, 'lint', 'part.json')
    it.checked('a role that view gathers', got[:2] == (1, 'L2\tunused-role\tClusterRole/part\t-\t-\tpart.json\n'), got)
    got = without_cluster(it, 'lint', 'part.json', 'view.json')
    it.checked('a role that a view in use gathers', got[:2] == (0, ''), got)
    got = without_cluster(it, 'lint', 'mine.json')
    it.checked('one in the place of a role of Kubernetes', got[:2] == (1, 'L2\tunused-role\tClusterRole/view\t-\t-\tmine.json\n'), got)
    for line in (['lint', 'view.json', '-o', 'sarif'], ['lint', 'part.json', 'view.json', '-o', 'sarif']):
        it.checked('SARIF of %s' % line, results_of(it, repr(line), without_cluster(it, *line), 0) == [], 'a result')


@in_each_shell
def own_objects(it):
    """Kubernetes' own objects: what a server of 1.20 made, once each, and rows with the version that adds them."""
    with open(os.path.join(TOP, 'plugin', 'rbacaudit_kubectl', 'defaults.json'), encoding='utf-8') as file:
        items = json.load(file)['items']
    names = [(item['kind'], item['metadata']['name']) for item in items]
    newer = [item for item in items if 'rbacaudit/version' in item['metadata'].get('annotations', {})]
    it.checked('each once, but for what newer versions add', len(set(names)) == len(names) - len(newer) == 101 and newer, len(names))
    it.checked('the kinds', {kind for kind, _ in names} == {'ClusterRole', 'ClusterRoleBinding'}, set(names))
    it.checked('each binding has its role', {item['roleRef']['name'] for item in items if 'roleRef' in item} <= {name for kind, name in names if kind == 'ClusterRole'}, names)
    put(it, {'a.json': bound('kim', 'a', 'kim', 'ClusterRole', 'edit'), 'b.json': OTHER})
    status, out, err = got = it.run('diff', '--from', 'b.json', '--to', 'a.json')
    it.checked('a row of a newer version', change('+', 'u:kim', 'a', 'create', 'serviceaccounts/token', 'RoleBinding/a/kim') in lines_of(out)
               and change('+', 'u:kim', 'a', 'create', 'pods', 'RoleBinding/a/kim') in lines_of(out)
               and gathered('+', 'u:kim', 'edit', 'a', 'RoleBinding/a/kim') in lines_of(out), got)


CHECKS = [silent, whoever, shapes, unknown, partial, many_unknown, bare, linted, own_objects]
