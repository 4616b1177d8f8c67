"""What `universe` prints of random exports, against the lists worked out once more, and as a file of `matrix`.

Each export is drawn as tests/matrix_pages.py draws it, with odd words and names, service accounts, namespaces and API resource lists,
objects that replace others, and Universe documents that have some of the lists. Its lists are worked out here, as docs/FORMATS.md
says it, and the program has to print exactly their document. Read back with the export, the document has to be printed again,
and to give the matrix that the export gives alone: the same rows, or the same refusal, in each form.
`universe.py SEED COUNT` tries other exports. The last line is `N passed, M failed`.
"""

import collections
import os
import random
import subprocess
import sys
import tempfile

from common import PROGRAM, export
from meaning import account, document_text, key_of, name_of
from matrix_pages import NAMES, NAMESPACES, RESOURCES, TEAMS, URLS, USERS, VERBS, bindings, roles, some
from rules import odd

# Names that a JSON string can't have as they are, or that a terminal obeys, or that begin as a URL.
ODD_NAMES = ['a"b', 'c\\d', '\x00\x1b\x1f', '\b\t\n\f\r', '\x7f', 'é\u202e', '\U0001d11e', '/', '{}', 'u:kim']
FORMS = [[], ['--every'], ['--once']]
FIELDS = ['principals', 'namespaces', 'verbs', 'resources', 'names', 'urls']


# ---- drawing an export

def items_of(draw):
    """Roles and bindings, of which some replace others, and what else gives lists."""
    items = [*roles(draw), *bindings(draw)]
    items = odd(draw, items) if draw.random() < 0.3 else items
    for item in items:
        if 'subjects' in item and draw.random() < 0.2:
            item['subjects'].append({'kind': draw.choice(['User', 'Group']), 'name': draw.choice(ODD_NAMES)})
    items += [{'apiVersion': 'v1', 'kind': 'Namespace', 'metadata': {'name': draw.choice(['new', 'dev', 'a"b'])}}] * draw.randint(0, 2)
    items += [service_account(draw) for _ in range(draw.randint(0, 2))]
    items += [api_list(draw) for _ in range(draw.choice([0, 0, 1, 2]))]
    items += [document(draw) for _ in range(draw.choice([0, 1, 1, 2]))]
    draw.shuffle(items)
    return items


def service_account(draw):
    metadata = {'name': draw.choice(['ci', 'web'])}
    metadata.update(draw.choice([{}, {'namespace': ''}, {'namespace': 'dev'}, {'namespace': 'shop'}]))
    return {'apiVersion': 'v1', 'kind': 'ServiceAccount', 'metadata': metadata}


def api_list(draw):
    entries = []
    for name in draw.sample(RESOURCES, draw.randint(0, 3)):
        entry = {'name': name, 'verbs': some(draw, [*VERBS, 'watch', '*', '']), 'namespaced': draw.random() < 0.5}
        for field in ('verbs', 'namespaced'):
            if draw.random() < 0.2:
                del entry[field]
        entries.append(entry)
    return {'kind': 'APIResourceList', 'groupVersion': draw.choice(['v1', 'apps/v1', 'apps/v1beta1']), 'resources': entries}


def document(draw):
    """A Universe document with some of the lists, each perhaps empty or with repeats; now and then no matrix takes it."""
    def texts(words, rare):
        return some(draw, words, 4) * draw.choice([0, 1, 1, 2]) + [rare] * (draw.random() < 0.05)

    lists = {'principals': [principal(draw) for _ in range(draw.randint(0, 5))], 'namespaces': texts(NAMESPACES, 'x'),
             'verbs': texts([*VERBS, *ODD_NAMES], ''), 'names': texts(NAMES, '/'), 'urls': texts(URLS, 'x'),
             'resources': [resource(text, draw) for text in texts(RESOURCES, '/pods')]}
    return {'apiVersion': 'rbacaudit/v1', 'kind': 'Universe', **{field: lists[field] for field in some(draw, FIELDS, 6)}}


def principal(draw):
    if draw.random() < 0.3:
        return {'group': draw.choice([*TEAMS, *ODD_NAMES])}
    groups = [draw.choice(TEAMS) for _ in range(draw.randint(0, 3))]
    return {'user': draw.choice([*USERS, *ODD_NAMES]), **draw.choice([{}, {'groups': groups}])}


def resource(text, draw):
    """A field that is left out means the core group, or a namespaced resource."""
    given = {'group': draw.choice(['', 'apps']), 'namespaced': draw.random() < 0.5}
    return {'resource': text, **{field: given[field] for field in draw.sample([*given], draw.randint(0, 2))}}


# ---- the lists

def lists_of(items):
    """Each list as the last Universe document gives it that has one, or derived."""
    lists = derived(items)
    for item in items:
        if item['kind'] == 'Universe':
            lists.update({field: item[field] for field in FIELDS if field in item})
    return lists


def derived(items):
    kept = collections.defaultdict(list)
    for (kind, home, name), item in {name_of(item): item for item in items if 'metadata' in item}.items():
        kept[kind].append((home, name, item))
    plain = [item for _, _, item in kept['Role'] + kept['ClusterRole'] if 'aggregationRule' not in item]
    rules = [rule for item in plain for rule in item['rules']]
    api_lists = [item for item in items if item['kind'] == 'APIResourceList']
    entries = [(entry, item['groupVersion'].rpartition('/')[0]) for item in api_lists for entry in item['resources']]
    homes = [home for kind in ('Role', 'RoleBinding', 'ServiceAccount') for home, _, _ in kept[kind]]
    return {
        'principals': principals(kept), 'namespaces': ['', *homes, *(name for _, name, _ in kept['Namespace'])],
        'verbs': [verb for owner in [*(entry for entry, _ in entries), *rules] for verb in owner.get('verbs', []) if verb != '*'],
        'resources': [{'group': group, 'resource': entry['name'], 'namespaced': entry.get('namespaced', False)} for entry, group in entries]
                     if api_lists else [one for rule in rules for one in resources_of(rule)],
        'names': ['', *(name for rule in rules for name in rule.get('resourceNames', []))],
        'urls': [word for rule in rules for word in rule.get('nonResourceURLs', []) if word[:1] == '/' and word[-1:] != '*']}


def principals(kept):
    keys = [key_of(subject, home) for kind in ('ClusterRoleBinding', 'RoleBinding') for home, _, item in kept[kind] for subject in item['subjects']]
    keys += ['u:' + account(home, name) for home, name, _ in kept['ServiceAccount']]
    return [{'user' if key[0] == 'u' else 'group': key[2:]} for key in keys if key]


def resources_of(rule):
    return [{'group': group, 'resource': word} for group in rule.get('apiGroups', []) if '*' not in group
            for word in rule.get('resources', []) if word and word[0] != '/' and '*' not in word]


# ---- what has to hold

def told(*words):
    """Status, output and error of a command."""
    ended = subprocess.run([PROGRAM, *words], stdin=subprocess.DEVNULL, stdout=subprocess.PIPE, stderr=subprocess.PIPE, timeout=60)
    return ended.returncode, ended.stdout.decode(), ended.stderr.decode()


def wrong_with(items, room):
    """What is wrong with the document or its matrices, or nothing; and the rows of the first matrix, or its refusal."""
    paths = [os.path.join(room, name) for name in ('export.json', 'universe.json')]
    wanted = document_text(lists_of(items))
    for path, text in zip(paths, (export(*items), wanted.encode())):
        with open(path, 'wb') as file:
            file.write(text)
    for files in (paths[:1], paths):
        got = told('universe', *files)
        if got != (0, wanted, ''):
            return 'universe of %d files: wanted %r, got %r' % (len(files), wanted, got), ''
    alone = [told('matrix', *form, paths[0]) for form in FORMS]
    for form, answer in zip(FORMS, alone):
        if told('matrix', *form, *paths) != answer:
            return 'matrix %s with the document' % ' '.join(form), ''
    status, out, err = alone[0]
    is_right = err in ('', 'rbacaudit: P3 bad target\n') and status == (2 if err else 0) and bool(out) == (not err)
    return None if is_right else 'matrix: %r' % (alone[0],), out


def main(seed, count):
    passed = failed = rows = refused = 0
    with tempfile.TemporaryDirectory() as room:
        for number in range(int(count)):
            items = items_of(random.Random('%s %d' % (seed, number)))
            wrong, out = wrong_with(items, room)
            passed, failed = passed + (not wrong), failed + bool(wrong)
            rows, refused = rows + out.count('\n') - bool(out), refused + (not wrong and not out)
            if wrong:
                print('FAIL export %d of seed %s: %s; %s' % (number, seed, wrong, export(*items).decode()))
    print('%d universes: %d are refused, and the others give %d rows' % (int(count), refused, rows))
    if not refused or rows < 10 * int(count):
        print('FAIL too few are refused, or too few rows')
        failed += 1
    print('%d passed, %d failed' % (passed, failed))
    return 1 if failed else 0


if __name__ == '__main__':
    sys.exit(main(*(sys.argv[1:3] or ['1', '200'])))
