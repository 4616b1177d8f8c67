"""An export in which every service account may create pods where it is, and some everywhere, for measurements.

    python3 generate_runners.py N_ACCOUNTS N_NAMESPACES N_EVERYWHERE OUT

writes to the file OUT one `v1` List of N_ACCOUNTS ServiceAccounts in N_NAMESPACES namespaces, a cluster role that creates pods, a
RoleBinding to it in each namespace for the accounts there, and a ClusterRoleBinding for N_EVERYWHERE of the accounts.
"""

import json
import sys

V1 = 'rbac.authorization.k8s.io/v1'
ROLE = {'apiGroup': 'rbac.authorization.k8s.io', 'kind': 'ClusterRole', 'name': 'runner'}


def main(accounts, namespaces, everywhere, out):
    placed = [('ns%05d' % (n % int(namespaces)), 'account-%06d' % n) for n in range(int(accounts))]
    items = [{'apiVersion': 'v1', 'kind': 'ServiceAccount', 'metadata': {'namespace': home, 'name': name}} for home, name in placed]
    items.append({'apiVersion': V1, 'kind': 'ClusterRole', 'metadata': {'name': 'runner'}, 'rules': [
        {'verbs': ['create'], 'apiGroups': [''], 'resources': ['pods']}]})
    items += [{'apiVersion': V1, 'kind': 'RoleBinding', 'metadata': {'namespace': home, 'name': 'runs'}, 'roleRef': ROLE,
               'subjects': [{'kind': 'Group', 'name': 'system:serviceaccounts:' + home}]} for home in sorted({home for home, _ in placed})]
    items.append({'apiVersion': V1, 'kind': 'ClusterRoleBinding', 'metadata': {'name': 'runs'}, 'roleRef': ROLE, 'subjects': [
        {'kind': 'ServiceAccount', 'namespace': home, 'name': name} for home, name in placed[:int(everywhere)]]})
    with open(out, 'w', encoding='utf-8') as file:
        json.dump({'apiVersion': 'v1', 'kind': 'List', 'items': items}, file)


main(*sys.argv[1:])
