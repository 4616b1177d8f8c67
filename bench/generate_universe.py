"""A Universe document over an export, for measurements.

    python3 generate_universe.py EXPORT N_PRINCIPALS N_NAMESPACES OUT

writes to the file OUT a Universe document of so many of the users and namespaces of an export that
generate_export.py wrote, four verbs and all resources of its API lists, and prints on standard output
how many of its requests fit.
"""

import json
import sys

VERBS = ['delete', 'get', 'list', 'update']


def users(items):
    for item in items:
        for subject in item.get('subjects') or []:
            if subject['kind'] == 'User':
                yield subject['name']


def resources(items):
    for item in items:
        if item['kind'] == 'APIResourceList':
            version = item['groupVersion']
            group = version.split('/')[0] if '/' in version else ''
            for entry in item['resources']:
                yield group, entry['name'], entry.get('namespaced', False)


def main(export, principals, namespaces, out):
    with open(export, encoding='utf-8') as file:
        items = json.load(file)['items']
    names = sorted({item['metadata']['name'] for item in items if item['kind'] == 'Namespace'})[:int(namespaces)]
    who = sorted(set(users(items)))[:int(principals)]
    scopes = {}
    for group, name, namespaced in resources(items):
        scopes[group, name] = scopes.get((group, name), False) or namespaced
    document = {
        'apiVersion': 'rbacaudit/v1', 'kind': 'Universe',
        'principals': [{'user': name} for name in who], 'namespaces': ['', *names], 'verbs': VERBS,
        'resources': [{'group': g, 'resource': r, 'namespaced': n} for (g, r), n in scopes.items()],
        'names': [''], 'urls': [],
    }
    with open(out, 'w', encoding='utf-8') as file:
        json.dump(document, file)
    print(len(who) * len(VERBS) * sum(1 + (len(names) if namespaced else 0) for namespaced in scopes.values()))


main(*sys.argv[1:])
