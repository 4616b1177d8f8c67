"""The same export after a change, for measurements.

    python3 change_export.py bindings N EXPORT OUT
    python3 change_export.py names EXPORT OUT

reads one List from the file EXPORT and writes it to the file OUT: with one more user in each of N of its bindings, which are
spread over all of them; or with another name for each binding, so that none is found under its own and nobody gains or loses.
"""

import json
import sys


def main(kind, *words):
    *count, export, out = words
    with open(export, encoding='utf-8') as file:
        given = json.load(file)
    bindings = [item for item in given['items'] if item['kind'].endswith('Binding')]
    if kind == 'names':
        for item in bindings:
            item['metadata']['name'] = 'renamed-' + item['metadata']['name']
    else:
        for number, item in enumerate(bindings[::len(bindings) // int(*count)][:int(*count)]):
            item.setdefault('subjects', []).append({'kind': 'User', 'name': 'new-%d@example.com' % number})
    with open(out, 'w', encoding='utf-8') as file:
        json.dump(given, file)


main(*sys.argv[1:])
