"""An export of many grants, for measurements.

    python3 generate_grants.py N_RULES N_BINDINGS OUT

writes to the file OUT one `v1` List of a cluster role of N_RULES rules and N_BINDINGS ClusterRoleBindings to it,
each of another user: N_RULES times N_BINDINGS grants.
"""

import json
import sys

V1 = 'rbac.authorization.k8s.io/v1'


def main(rules, bindings, out):
    items = [{'apiVersion': V1, 'kind': 'ClusterRole', 'metadata': {'name': 'r'}, 'rules': [
        {'verbs': ['get', 'list'], 'apiGroups': [''], 'resources': ['resource%d' % n]} for n in range(int(rules))]}]
    items += [{'apiVersion': V1, 'kind': 'ClusterRoleBinding', 'metadata': {'name': 'b%06d' % n},
               'roleRef': {'apiGroup': 'rbac.authorization.k8s.io', 'kind': 'ClusterRole', 'name': 'r'},
               'subjects': [{'kind': 'User', 'name': 'user%d@example.com' % n}]} for n in range(int(bindings))]
    with open(out, 'w', encoding='utf-8') as file:
        json.dump({'apiVersion': 'v1', 'kind': 'List', 'items': items}, file)


main(*sys.argv[1:])
