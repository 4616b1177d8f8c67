"""One cluster role of many rules.

    python3 generate_rules.py KIND COUNT OUT

writes to the file OUT a cluster role of COUNT rules. By KIND they are for
    different      a resource each, so that none covers another
    equal          one resource
    subresources   `*/SUB` each
    urls           a URL each that ends in a star
    prefixes         URLs that end in a star, each of which begins like a shorter one, of up to 2,000 lengths
"""

import json
import sys

LENGTHS = 2_000


def asked(kind, number):
    """The resources or URLs of a rule."""
    if kind == 'urls':
        return {'nonResourceURLs': ['/a/%07d*' % number]}
    if kind == 'prefixes':
        return {'nonResourceURLs': ['/%s*' % ('a' * (number % LENGTHS))]}
    return {'apiGroups': [''], 'resources': [{'different': 'r%d', 'equal': 'r%.0s', 'subresources': '*/r%d'}[kind] % number]}


def main(kind, count, out):
    rules = [{'verbs': ['get'], **asked(kind, number)} for number in range(int(count))]
    role = {'apiVersion': 'rbac.authorization.k8s.io/v1', 'kind': 'ClusterRole', 'metadata': {'name': 'r'}, 'rules': rules}
    with open(out, 'w', encoding='utf-8') as file:
        json.dump(role, file)


main(*sys.argv[1:])
