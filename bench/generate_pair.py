"""Two exports that are made to hurt whoever compares them, for measurements.

    python3 generate_pair.py renamed|exchanged|reworded N_USERS N_RULES N_BINDINGS BEFORE AFTER
    python3 generate_pair.py words N BEFORE AFTER

The first three: a role of N_RULES rules and N_BINDINGS ClusterRoleBindings to it, N_RULES times N_BINDINGS grants on both sides,
and no line. `renamed`: each binding names one of N_USERS users, and has another name in AFTER. `exchanged`: each names two of them,
in AFTER the other way round. `reworded`: each names one, and each rule has its verb twice in AFTER, which means the same. `words`:
nothing, and then a rule of N verbs, N resources and N names: N * N * N lines.
"""

import json
import sys

V1 = 'rbac.authorization.k8s.io/v1'


def role(rules):
    return {'apiVersion': V1, 'kind': 'ClusterRole', 'metadata': {'name': 'r'}, 'rules': rules}


def rules_for(count, verbs):
    return [{'verbs': verbs, 'apiGroups': [''], 'resources': ['resource%d' % n]} for n in range(count)]


def binding(name, *users):
    return {'apiVersion': V1, 'kind': 'ClusterRoleBinding', 'metadata': {'name': name},
            'roleRef': {'apiGroup': 'rbac.authorization.k8s.io', 'kind': 'ClusterRole', 'name': 'r'},
            'subjects': [{'kind': 'User', 'name': 'user%d@example.com' % user} for user in users]}


def renamed(users, rules, bindings):
    """The items of each side."""
    for prefix in 'ab':
        yield [role(rules_for(rules, ['get']))] + [binding('%s%06d' % (prefix, n), n % users) for n in range(bindings)]


def exchanged(users, rules, bindings):
    for turn in (1, -1):
        yield [role(rules_for(rules, ['get']))] + [binding('b%06d' % n, *[n % users, (n + 1) % users][::turn])
                                                   for n in range(bindings)]


def reworded(users, rules, bindings):
    for verbs in (['get'], ['get', 'get']):
        yield [role(rules_for(rules, verbs))] + [binding('b%06d' % n, n % users) for n in range(bindings)]


def words(count):
    lists = {'verbs': 'verb', 'resources': 'resource', 'resourceNames': 'name'}
    yield []
    yield [role([{'apiGroups': [''], **{field: ['%s%d' % (word, n) for n in range(count)] for field, word in lists.items()}}]),
           binding('b', 1)]


def main(kind, *given):
    *numbers, before, after = given
    sides = {'renamed': renamed, 'exchanged': exchanged, 'reworded': reworded, 'words': words}[kind](*map(int, numbers))
    for out, items in zip((before, after), sides):
        with open(out, 'w', encoding='utf-8') as file:
            json.dump({'apiVersion': 'v1', 'kind': 'List', 'items': items}, file)


main(*sys.argv[1:])
