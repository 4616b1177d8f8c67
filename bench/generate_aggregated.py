"""An export of many aggregated cluster roles, for measurements.

    python3 generate_aggregated.py N_ROLES N_AGGREGATED N_SELECTORS OUT

writes to the file OUT one `v1` List: N_ROLES cluster roles, of which the first N_AGGREGATED are aggregated with
N_SELECTORS selectors each, and a ClusterRoleBinding to each aggregated role.
"""

import json
import sys

V1 = 'rbac.authorization.k8s.io/v1'
RULE = {'verbs': ['get', 'list'], 'apiGroups': [''], 'resources': ['pods']}


def selectors(place, count):
    """`count` selectors: by a label, and by an expression over the tier."""
    for n in range(count):
        yield {'matchLabels': {'team': 'team-%d' % ((place * 7 + n) % 1000)},
               'matchExpressions': [{'key': 'tier', 'operator': 'NotIn', 'values': ['gold', 'silver']}]}


def cluster_role(place, n_aggregated, n_selectors):
    doc = {'apiVersion': V1, 'kind': 'ClusterRole',
           'metadata': {'name': 'role-%05d' % place,
                        'labels': {'team': 'team-%d' % (place % 1000), 'tier': ['gold', 'bronze'][place % 2]}}}
    if place < n_aggregated:
        doc['aggregationRule'] = {'clusterRoleSelectors': list(selectors(place, n_selectors))}
    else:
        doc['rules'] = [RULE]
    return doc


def binding(place):
    return {'apiVersion': V1, 'kind': 'ClusterRoleBinding', 'metadata': {'name': 'binding-%05d' % place},
            'roleRef': {'kind': 'ClusterRole', 'name': 'role-%05d' % place},
            'subjects': [{'kind': 'User', 'name': 'user-%05d' % place}]}


def main():
    if len(sys.argv) != 5:
        print(__doc__)
        return 2
    n_roles, n_aggregated, n_selectors = (int(word) for word in sys.argv[1:4])
    items = [cluster_role(place, n_aggregated, n_selectors) for place in range(n_roles)]
    items += [binding(place) for place in range(n_aggregated)]
    with open(sys.argv[4], 'w', encoding='utf-8') as out:
        json.dump({'apiVersion': 'v1', 'kind': 'List', 'items': items}, out)
    return 0


if __name__ == '__main__':
    sys.exit(main())
