"""What the tests of the built program share: where it is, exports, and the count of what passed."""

import json
import os

TOP = os.path.dirname(os.path.dirname(os.path.abspath(__file__)))
PROGRAM = os.path.join(TOP, 'crates/rbacaudit/out/rbacaudit')
V1 = 'rbac.authorization.k8s.io/v1'
V1BETA1 = V1 + 'beta1'
PODS = {'verbs': ['get'], 'apiGroups': [''], 'resources': ['pods']}
# The worked examples on which refused memory is swept: where tests/rows.json has each, how its rule begins, and commands over it.
EXAMPLES = (
    ('lines', 'Rules written in aggregated roles', ['lint']),
    ('matrices', 'Verbs are in byte order', ['matrix', *('matrix --limit %d' % most for most in range(1, 5))]),
    ('lines', 'Holders, each once', ['who-can -n dev get pods', 'who-can -A get pods']),
)
results = []
skips = {}


def export(*items):
    return json.dumps({'apiVersion': 'v1', 'kind': 'List', 'items': items}).encode()


def worked_examples():
    """For each of the worked examples its export, and the status and the lines of each command over it."""
    with open(os.path.join(TOP, 'tests', 'rows.json'), encoding='utf-8') as file:
        groups = json.load(file)
    for group, rule, commands in EXAMPLES:
        [example] = [it for it in groups[group] if it['rule'].startswith(rule)]
        if group == 'lines':
            answers = {words: (status, lines) for words, status, lines in example['asks']}
        else:
            answers = {'matrix ' + words: (0, lines) for words, lines in example['pages']}
            answers['matrix'] = 0, [*example['rows'], 'end']
        yield export(*example['items']), {words: answers[words] for words in commands}


def bare(document):
    """A document as an item of the list that implies its kind and version."""
    return {field: value for field, value in document.items() if field not in ('apiVersion', 'kind')}


def put_in(folder):
    """What writes a file of a name into this folder, and tells its path."""
    def put(name, given):
        path = os.path.join(folder, name)
        with open(path, 'wb') as file:
            file.write(given)
        return path
    return put


def checked(name, well, said=''):
    results.append(bool(well))
    print(('ok   ' if well else 'FAIL ') + name + ('' if well else ': ' + said), flush=True)


def skipped(tool, what):
    """Notes what isn't tested, since this machine has no such tool. The last line but one tells it:
    two counts can be compared only where the same was skipped."""
    skips.setdefault(tool, {})[what] = None


def tested(*parts):
    """Runs each part over the built program, as `counted` does."""
    checked('the program is built', os.path.isfile(PROGRAM), 'no file %s' % os.path.relpath(PROGRAM, TOP))
    return counted(*parts if all(results) else ())


def counted(*parts):
    """Runs each part, says what was skipped, and prints the last line; the status to end with."""
    for part in parts:
        part()
    if skips:
        print('skipped: ' + '; '.join('no %s: %s' % (tool, ', '.join(whats))
                                      for tool, whats in sorted(skips.items())))
    print('%d passed, %d failed' % (results.count(True), results.count(False)))
    return 0 if all(results) else 1
