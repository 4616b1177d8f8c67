"""Writes exports of shapes that real clusters have, each with its Universe document, into the current folder: all of them, or
with the words SHAPE N one.

accounts-N: N namespaces, two accounts in each, and two ClusterRoleBindings for everybody who signs in, 30 verbs.
groups-N: 100 users of 100 groups each in N namespaces, and five ClusterRoleBindings for each, 20 verbs.
given-N: the same with N groups each, in 500 namespaces.
bindings-N: N RoleBindings in one namespace, each for another group that all of 20 users are in.
names-N: one rule of N object names, and so a universe of as many.
rules-N: an aggregated role of N rules, bound in 20 namespaces and once in the whole cluster.
admins-N: six who may do all in the whole cluster, N namespaces, and in each an account and a group with roles of their own.
alone-N: the same six, in N namespaces without anybody else.
"""

import json
import sys

GROUP = 'rbac.authorization.k8s.io'
API_VERSION = GROUP + '/v1'
# API groups and resources, the first of which every cluster has.
KINDS = [('', 'pods'), ('', 'secrets'), ('', 'configmaps'), ('', 'services'), ('apps', 'deployments'), ('apps', 'statefulsets'),
         ('batch', 'jobs'), *(('op%02d.io' % (at // 4), 'kind%02d' % at) for at in range(103))]


def item(kind, name, namespace=None, **more):
    metadata = {'name': name, **({'namespace': namespace} if namespace else {})}
    return {'apiVersion': API_VERSION, 'kind': kind, 'metadata': metadata, **more}


def role(name, *rules, **metadata):
    made = item('ClusterRole', name, rules=list(rules))
    made['metadata'].update(metadata)
    return made


def rule(verbs, resources, group='', **more):
    return {'verbs': verbs, 'apiGroups': [group], 'resources': resources, **more}


def binding(name, role_name, subjects, namespace=None):
    kind = 'RoleBinding' if namespace else 'ClusterRoleBinding'
    reference = {'apiGroup': GROUP, 'kind': 'ClusterRole', 'name': role_name}
    return item(kind, name, namespace, roleRef=reference, subjects=subjects)


def subject(kind, name):
    return {'apiGroup': GROUP, 'kind': kind, 'name': name}


def write(name, items, **lists):
    with open(name + '.json', 'w', encoding='utf-8') as file:
        json.dump({'apiVersion': 'v1', 'kind': 'List', 'items': items}, file)
    with open(name + '.universe.json', 'w', encoding='utf-8') as file:
        json.dump({'apiVersion': 'rbacaudit/v1', 'kind': 'Universe', **lists}, file)


def accounts(count):
    reviews = 'selfsubjectaccessreviews'
    everybody = [subject('Group', 'system:authenticated')]
    items = [role('basic', rule(['create'], [reviews], 'authorization.k8s.io')),
             role('discovery', {'verbs': ['get'], 'nonResourceURLs': ['/api', '/version']}),
             binding('basic', 'basic', everybody), binding('discovery', 'discovery', everybody)]
    for number in range(count):
        namespace = 'ns%04d' % number
        items.append({**item('Namespace', namespace), 'apiVersion': 'v1'})
        items += [{**item('ServiceAccount', name, namespace), 'apiVersion': 'v1'} for name in ('a', 'b')]
    resources = [{'group': 'authorization.k8s.io', 'resource': reviews, 'namespaced': False}, {'resource': 'pods'}]
    write('accounts-%d' % count, items, verbs=['get', 'create', *('verb%02d' % i for i in range(28))], names=[''], resources=resources)


def in_groups(name, namespaces, each):
    teams = [['group-%d-%d' % (user, number) for number in range(each)] for user in range(100)]
    items = [role('view', rule(['get'], ['pods']))]
    items += [binding('b%d' % number, 'view', [subject('Group', team[number]) for team in teams]) for number in range(5)]
    write(name, items, principals=[{'user': 'user%d' % at, 'groups': team} for at, team in enumerate(teams)],
          namespaces=['ns%d' % i for i in range(namespaces)], verbs=['verb%d' % i for i in range(20)], names=[''],
          resources=[{'resource': 'pods'}])


def groups(count):
    in_groups('groups-%d' % count, count, 100)


def given(count):
    in_groups('given-%d' % count, 500, count)


def bindings(count):
    teams = ['team%03d' % number for number in range(count)]
    items = [role('view', rule(['get'], ['r%d' % number for number in range(100)]))]
    items += [binding('b%03d' % number, 'view', [subject('Group', team)], 'shared') for number, team in enumerate(teams)]
    write('bindings-%d' % count, items, principals=[{'user': 'user%d' % i, 'groups': teams} for i in range(20)],
          namespaces=['shared'], verbs=['get'], names=[''])


def names(count):
    listed = ['name-%06d' % number for number in range(count)]
    write('names-%d' % count, [role('one', rule(['get'], ['secrets'], resourceNames=listed)),
                               binding('one', 'one', [subject('User', 'alice')])])


def rules(count):
    verbs = ['get', 'list', 'watch', 'create', 'update', 'patch', 'delete']
    items = [item('ClusterRole', 'admin', aggregationRule={'clusterRoleSelectors': [{'matchLabels': {'for': 'admins'}}]})]
    items += [role('op%04d' % number, rule(verbs, ['r0', 'r1', 'r2'], 'op%04d.io' % number), labels={'for': 'admins'})
              for number in range(count)]
    items += [binding('admins', 'admin', [subject('Group', 'team%02d' % number)], 'ns%02d' % number) for number in range(20)]
    items.append(binding('admins', 'admin', [subject('User', 'root')]))
    write('rules-%d' % count, items)


def cluster(name, *items):
    """Six admins beside these items, and a universe of resources as a real cluster has them."""
    verbs = ['get', 'list', 'watch', 'create', 'update', 'patch', 'delete', 'deletecollection', 'bind', 'escalate', 'impersonate']
    admins_only = [role('all', rule(['*'], ['*'], '*')),
                   *(binding('admin%d' % number, 'all', [subject('User', 'admin%d@example.com' % number)]) for number in range(6))]
    cluster_wide = [('', 'nodes'), ('', 'namespaces'), (GROUP, 'clusterrolebindings')]
    write(name, [*admins_only, *items], verbs=verbs, names=[''], resources=[
        {'group': of, 'resource': kind, 'namespaced': (of, kind) not in cluster_wide} for of, kind in [*KINDS, *cluster_wide]])


def namespace_of(number):
    return {**item('Namespace', 'team-%04d' % number), 'apiVersion': 'v1'}


def admins(count):
    edit = [rule(['get', 'list', 'watch', 'create', 'update', 'patch', 'delete'], [kind for of, kind in KINDS[:30] if of == group], group)
            for group in dict(KINDS[:30])]
    items = [role('edit', *edit), role('view', rule(['get', 'list', 'watch'], ['pods', 'services']))]
    for number in range(count):
        namespace = 'team-%04d' % number
        account = {'kind': 'ServiceAccount', 'name': 'ci', 'namespace': namespace}
        items += [namespace_of(number), binding('edit', 'edit', [account], namespace),
                  binding('view', 'view', [subject('Group', namespace)], namespace)]
    cluster('admins-%d' % count, *items)


def alone(count):
    cluster('alone-%d' % count, *(namespace_of(number) for number in range(count)))


def main():
    if sys.argv[1:]:
        globals()[sys.argv[1]](int(sys.argv[2]))
        return
    for shape, counts in ((accounts, (500, 1000, 2000)), (groups, (500, 1000)), (given, (200, 400)),
                          (bindings, (64, 65, 128, 200, 256, 400, 800)), (names, (10_000, 20_000, 40_000)),
                          (rules, (250, 500, 1000)), (admins, (51, 421, 1000)), (alone, (100, 1000))):
        for count in counts:
            shape(count)


if __name__ == '__main__':
    main()
