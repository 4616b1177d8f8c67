"""What kubectl would do with manifests, and their files don't say: labels that stay, kustomizations, documents that begin on the line of ---, rings of
aggregated roles, names that the server makes; and bindings of other API groups.
"""

import json

from common import V1
from local_kubectl import yaml
from plugin_changes import a_list
from plugin_manifests import FOREIGN, put, role, with_manifests, without_cluster
from plugin_room import OWN
from plugin_show import lines_of
from plugin_states import NODES, OTHER, PODS, VIEW, change, cluster_binding, cluster_role, compared_all

PAIR = ['diff', '--from', 'old', '--to', 'new']
KEPT = 'kubectl-rbacaudit: kubectl apply leaves labels that only the cluster has: %s\n'


def applied(item, labels):
    """An object of a cluster that kubectl apply made, at first with these labels."""
    first = {**item, 'metadata': {'name': item['metadata']['name'], 'labels': labels}}
    return {**item, 'metadata': {**item['metadata'], 'annotations': {'kubectl.kubernetes.io/last-applied-configuration': json.dumps(first)}}}


@with_manifests
def labels(it):
    """A role of a change keeps the labels that only the cluster has: not those that kubectl apply has set before."""
    view = cluster_role('view', gathers=[{'matchLabels': VIEW}])
    old, new = cluster_role('ops', labels={**VIEW, 'team': 'a'}), cluster_role('ops', NODES, labels={'team': 'b'})
    gained = [change('+', 'u:kim', '*', 'delete', 'nodes', 'ClusterRoleBinding/kim')]
    put(it, {'old/ops.json': cluster_role('ops', labels={'team': 'a'}), 'new/ops.json': new, 'new/other.json': role('other', 'x')})
    for name, exported, lines, said in (
            ('set by others', applied(old, {'team': 'a'}), gained, KEPT % ('ClusterRole/ops (%s)' % [*VIEW][0])),
            ('set by kubectl apply', applied(old, {**VIEW, 'team': 'a'}), [], ''), ('made without kubectl apply', old, gained, KEPT % ('ClusterRole/ops (%s)' % [*VIEW][0])),
            ('with a bad note', {**old, 'metadata': {**old['metadata'], 'annotations': {'kubectl.kubernetes.io/last-applied-configuration': '{'}}}, gained,
             KEPT % ('ClusterRole/ops (%s)' % [*VIEW][0])), ('without others', cluster_role('ops', labels={'team': 'a'}), [], '')):
        put(it, {'prod/cluster.json': a_list('List', 'v1', view, cluster_binding('kim', 'view', ('User', 'kim')), exported, cluster_role('far', labels=VIEW)), 'prod/namespaced.json': a_list('List', 'v1')})
        for options in (['--with', 'new'], ['--from', 'old', '--to', 'new']):
            status, out, err = got = without_cluster(it, 'diff', '--export', 'prod', *options)
            it.checked('labels %s: %s' % (name, options), lines_of(out) == lines and ('kubectl apply leaves' in err) == bool(said) and said in err, got)
    typed = {'apiVersion': V1, 'kind': 'ClusterRoleList', 'items': [{field: value for field, value in old.items() if field not in ('kind', 'apiVersion')}]}
    put(it, {'prod/cluster.json': typed})
    status, out, err = got = without_cluster(it, 'diff', '--export', 'prod', '--with', 'new')
    it.checked('labels of an item of a typed list', KEPT % ('ClusterRole/ops (%s)' % [*VIEW][0]) in err, got)


RENDERED = 'kubectl-rbacaudit: %s has a kustomization, so what kubectl renders of it counts%s\n'
DECIDES = 'kubectl-rbacaudit: a kustomization says what is applied of %s, so --fail-on decides nothing; if that is meant, give --kustomize too\n'


@with_manifests
def kustomizations(it):
    """A folder that is rendered is told, with the files that it leaves out; --fail-on decides on one only with --kustomize."""
    everything = cluster_binding('all', 'cluster-admin', ('User', 'eve'))
    put(it, {'old/r.json': role('r', 'a'), 'new/r.json': role('r', 'a'), 'new/all.json': everything, 'new/in/all.json': everything, 'new/in/b.yaml': json.dumps(role('b', 'a')),
             'new/base/kustomization.yaml': {'resources': ['x.json']}, 'new/base/x.json': role('x', 'a'), 'new/notes.txt': 'all.json',
             'new/kustomization.yaml': json.dumps({'resources': ['./r.json', 'in/b.yaml', 'base']})})
    said = RENDERED % ('new', '; it leaves out these files: new/all.json, new/in/all.json')
    status, out, err = got = without_cluster(it, *PAIR)
    it.checked('rendered', status == 1 and said in err and 'eve' not in out and '\tr:Role/a/x\t' in out, got)
    for what in ('changes', 'gains', 'powers'):
        status, out, err = got = without_cluster(it, *PAIR, '--fail-on', what)
        it.checked('--fail-on %s' % what, (status, out) == (2, '') and err.endswith(said + DECIDES % 'new'), got)
    status, out, err = got = without_cluster(it, *PAIR, '--fail-on', 'gains', '--kustomize')
    it.checked('--kustomize', status == 1 and said in err, got)
    status, out, err = got = without_cluster(it, 'diff', '--from', 'new', '--to', 'old', '--fail-on', 'gains')
    it.checked('the state before', (status, out) == (2, '') and err.endswith(said + DECIDES % 'new'), got)
    got = without_cluster(it, 'lint', 'new/base')
    it.checked('lint', got[0] == 1 and RENDERED % ('new/base', '') in got[2], got)
    got = without_cluster(it, 'read', 'new/base')
    it.checked('read', got[0] == 0 and RENDERED % ('new/base', '') in got[2], got)
    put(it, {'new/kustomization.yaml': json.dumps({'resources': ['r.json', 'in/b.yaml', 'base', 'xall.json']}), 'new/xall.json': role('y', 'a')})
    got = without_cluster(it, 'read', 'new')
    it.checked('a name that ends as another', RENDERED % ('new', '; it leaves out these files: new/all.json, new/in/all.json') in got[2], got)
    if yaml is not None:
        put(it, {'new/kustomization.yaml': '# all.json\nresources:\n- r.json\n- in/b.yaml # in/all.json\n#- xall.json\n- base\n'})
        got = without_cluster(it, 'read', 'new')
        it.checked('names in comments', RENDERED % ('new', '; it leaves out these files: new/all.json, new/in/all.json, new/xall.json') in got[2], got)


ODD = ('kubectl-rbacaudit: %s has more than --- on a line with which a document begins (line %s): older versions of kubectl drop such a document\n')


@with_manifests
def separators(it):
    """A document that begins on the line of --- is named, since not every kubectl reads it."""
    if yaml is None:
        return
    text = 'apiVersion: %s\nkind: Role\nmetadata: {name: %%s, namespace: a}\n' % V1
    put(it, {'m/a.yaml': text % 'a' + '--- # the next\n' + text % 'b' + '---   \n' + text % 'c' + '--- # x\r\n' + text % 'd', 'm/b.yaml': text % 'e' + '---\n' + text % 'f',
             'm/c.json': json.dumps({**role('g', 'a'), 'x': '\n--- x'}), 'm/d.yaml': '--- # first\n' + text % 'h' + '# --- x\n'})
    status, out, err = got = without_cluster(it, 'read', 'm')
    it.checked('odd separators', status == 0 and ODD % ('m/a.yaml', '4, 12') + ODD % ('m/d.yaml', '1') in err and err.count('older versions') == 2, got)
    for name in ('m/a.yaml', 'm/b.yaml'):
        status, out, err = got = without_cluster(it, 'read', name)
        it.checked('odd separators of %s' % name, status == 0 and ('older versions' in err) == (name == 'm/a.yaml'), got)


RING = ('kubectl-rbacaudit: stale aggregates (L6 of lint): %s; a cluster grants what is written in them, for ever if they select each other, so nothing '
        'is answered; leave their rules empty, or --partial compares what they gather\n')


@with_manifests
def rings(it):
    """Aggregated roles that come, go or change with written rules that they don't gather refuse the answer."""
    ring = [cluster_role('a', NODES, labels={'ring': 'a'}, gathers=[{'matchLabels': {'ring': 'b'}}]), cluster_role('b', NODES, labels={'ring': 'b'}, gathers=[{'matchLabels': {'ring': 'a'}}])]
    for name, sides in (('comes', ([OTHER], [OTHER, *ring])), ('goes', ([OTHER, *ring], [OTHER]))):
        got = compared_all(it, *sides, '--no-defaults')
        it.checked('a ring that %s' % name, got[:2] == (2, []) and got[2].endswith(RING % 'ClusterRole/a, ClusterRole/b'), got)
    status, out, err = got = compared_all(it, [OTHER], [OTHER, *ring], '--no-defaults', '--partial')
    it.checked('a ring with --partial', status == 1 and all('gathers elsewhere' in line for line in out) and len(out) == 2, got)
    got = compared_all(it, [OTHER, *ring], [role('other', 'x', 'get', 'list'), *ring], '--no-defaults')
    it.checked('a ring that is the same on both sides', got[:2] == (1, [change('+', 'r:Role/x/other', 'x', 'list', 'pods')]), got)
    got = compared_all(it, [OTHER], [OTHER, *({**it_, 'rules': []} for it_ in ring)], '--no-defaults')
    it.checked('a ring without rules', got[0] == 1, got)
    settled = cluster_role('all', PODS, gathers=[{'matchLabels': {'x': 'y'}}])
    got = compared_all(it, [OTHER], [OTHER, settled, cluster_role('part', PODS, labels={'x': 'y'})], '--no-defaults')
    it.checked('what is written is gathered', got[0] == 1, got)


NAMELESS = 'kubectl-rbacaudit: %s has a %s without a name, because the server makes one of its generateName: give it a name\n'


@with_manifests
def nameless(it):
    """An object whose name the server makes is refused, and the message says so."""
    for kind, item in (('Role', role('r', 'a')), ('ClusterRoleBinding', cluster_binding('b', 'view', ('User', 'kim')))):
        put(it, {'g.json': {**item, 'metadata': {'generateName': 'x-', 'namespace': 'a'}}, 'm.json': OTHER})
        for line in (['read', 'g.json'], ['lint', 'g.json'], ['diff', '--from', 'm.json', '--to', 'g.json']):
            status, out, err = got = without_cluster(it, *line)
            it.checked('generateName of a %s: %s' % (kind, line[0]), (status, out) == (2, '') and err.endswith(NAMELESS % ('g.json', kind)), got)


GRANTS = 'kubectl-rbacaudit: a cluster may grant by objects of %s that are left out, so --fail-on decides nothing\n'


@with_manifests
def foreign(it):
    """Roles and bindings of other API groups are named, and --fail-on decides nothing with one."""
    for version, kind in (('authorization.openshift.io/v1', 'ClusterRoleBinding'), ('v1', 'ClusterRoleBinding'), ('example.com/v1', 'Role'), ('v1', 'RoleBinding'),
                          ('rbac.authorization.k8s.iox/v1', 'ClusterRole')):
        item = {'apiVersion': version, 'kind': kind, 'metadata': {'name': 'x', 'namespace': 'a'}}
        put(it, {'old/r.json': role('r', 'a'), 'new/r.json': role('r', 'a'), 'new/x.json': a_list('List', 'v1', {**item, 'kind': 'Project'}, item)})
        said = FOREIGN % ('new/x.json', kind, 'x', version)
        got = without_cluster(it, *PAIR)
        it.checked('%s of %s' % (kind, version), got[:2] == (0, '') and said in got[2] and got[2].count('left out') == 1 and got[2].endswith(OWN), got)
        for what in ('changes', 'gains', 'powers'):
            status, out, err = got = without_cluster(it, *PAIR, '--fail-on', what)
            it.checked('%s of %s, --fail-on %s' % (kind, version, what), (status, out) == (2, '') and err.endswith(said + GRANTS % 'new'), got)
        got = without_cluster(it, 'lint', 'new')
        it.checked('lint with %s of %s' % (kind, version), got[0] == 1 and said in got[2], got)


CHECKS = [labels, kustomizations, separators, rings, nameless, foreign]
