"""An export of 200 roles and 800 bindings without a star, with a Universe document.

    python3 generate_idle.py VERBS NAMESPACES RESOURCES OUT

writes to the file OUT an export whose universe has so many verbs, namespaces and resources: four verbs, 20 namespaces and 60
resources of them are used by roles and bindings, and nobody may use the others. So its rows are the same, however many there are.
"""

import json
import random
import sys

V1 = 'rbac.authorization.k8s.io/v1'
VERBS = ['get', 'list', 'update', 'watch']


def role(draw, name):
    rules = [{'verbs': draw.sample(VERBS, 2), 'apiGroups': [''], 'resources': ['r%d' % n for n in draw.sample(range(60), 4)]}
             for _ in range(3)]
    return {'apiVersion': V1, 'kind': 'ClusterRole', 'metadata': {'name': name}, 'rules': rules}


def binding(draw, number):
    return {'apiVersion': V1, 'kind': 'RoleBinding',
            'metadata': {'namespace': 'ns%d' % draw.randrange(20), 'name': 'b%d' % number},
            'roleRef': {'kind': 'ClusterRole', 'name': 'role%d' % draw.randrange(200)},
            'subjects': [{'kind': 'User', 'name': 'user%d' % draw.randrange(300)}]}


def main(verbs, namespaces, resources, out):
    draw = random.Random(1)
    items = [role(draw, 'role%d' % n) for n in range(200)] + [binding(draw, n) for n in range(800)]
    items.append({
        'apiVersion': 'rbacaudit/v1', 'kind': 'Universe', 'names': [''], 'urls': [],
        'verbs': VERBS + ['idle%d' % n for n in range(int(verbs) - len(VERBS))],
        'namespaces': ['ns%d' % n for n in range(int(namespaces))],
        'resources': [{'group': '', 'resource': 'r%d' % n} for n in range(int(resources))],
    })
    with open(out, 'w', encoding='utf-8') as file:
        json.dump({'apiVersion': 'v1', 'kind': 'List', 'items': items}, file)


main(*sys.argv[1:])
