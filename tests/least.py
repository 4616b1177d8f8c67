"""What `least` prints of random exports and random audit logs, against docs/BEHAVIOUR.md ("least") read once more.

Exports and logs are drawn as tests/unused.py draws them, mostly with one user more, who may do much and asks for much. In some requests of
these logs a verb, an API group, a resource or a URL is a wildcard, or nearly one. Mostly it is asked for a user who needs something. The requests
that this user needs, and the document of the rules for them, are worked out here, and the program has to print the same bytes.

Then the law is looked for: of the printed documents alone, a matrix over the words of the log and some others lists what they allow this user,
who is also given groups. These have to be the requests that the user needs, in each namespace those that were asked of the whole cluster, and
no others; without `--names`, whatever the object names are. And by the same logs, `unused` has nothing to say of the document.

First of all come the worked rows of rows_least.json, and lines that are refused.

`least.py SEED COUNT` tries other exports. `least.py --reference [--names] [--name NAME] --log LOG.. WHO [FILE]..` prints the document of the
reading. `least.py --rows` compares the reading alone with the worked rows; `least.py --itself SEED COUNT` lets it answer in the program's
place, which tests this test. The last line is `N passed, M failed`.
"""

import argparse
import collections
import itertools
import json
import os
import random
import re
import sys
import tempfile

import logged
import unused
from common import V1, checked, export, put_in
from logged import ACCOUNT, Fault, who_of
from log_streams import GETS, GRANTED, TWICE
from matrix_pages import GROUPS, NAMES, NAMESPACES, RESOURCES, TEAMS, URLS, USERS, VERBS, some
from meaning import allows, is_live, json_text, ordered_bindings, text_shown
from unused import Log, items_of, items_of_export, logs_of

RBAC = V1.partition('/')[0]
# Names that no role can have, and some that roles can have.
BAD_NAMES = ['', '.', '..', '/', 'a/b', 'a/', '%', 'a%2fb']
GOOD_NAMES = ['a', 'a.b:c', '...', '-', '--log', ' ', 'é', '"', '\\', 'a\tb', '\x7f', 'x' * 300]
# What is no user.
NO_USERS = ['', 'u', 'u:', ':kim', 'kim', 'U:kim', 'g:kim', 'g:', ' u:kim', 'r:kim', '*', 'user:kim', 'system:serviceaccount:shop:ci']


# ---- the slow reading

def in_bytes(text):
    """By which texts are in byte order."""
    return text.encode(errors='surrogateescape')


def in_json(text):
    """Whether JSON can carry a text: it is UTF-8."""
    return not any('\udc80' <= it <= '\udcff' for it in text)


def can_be_written(request):
    """Whether none of the words of a request would be a wildcard in a rule, and JSON can carry them; only a URL needn't be UTF-8."""
    if request.target[0] == 'url':
        path = request.target[1]
        return request.verb != '*' and not path.endswith('*') and in_json(path)
    _, group, resource, _ = request.target
    return '*' not in (request.verb, group, resource) and not resource.startswith('*/')


def needed(items, requests, user):
    """The requests that a user needs: its own that some binding allows and that can be written."""
    granted = [*ordered_bindings(items)]
    return {it for it in requests if it.user == user and can_be_written(it)
            and any(allows(binding, who_of(it), it.namespace, it.verb, it.target) for binding in granted)}


def parts_of(target, names):
    """What a rule has of a target: its kind, the API group, the resource if it has that one alone, and a word that it may have beside others."""
    if target[0] == 'url':
        return 'urls', '', '', target[1]
    _, group, resource, name = target
    if not names:
        return 'resources', group, '', resource
    return 'names' if name else 'any', group, resource, name


def rules_for(requests, names):
    """The rules for requests in one namespace, or in none: those words stand together that were asked for with the same verbs."""
    verbs, words = collections.defaultdict(set), collections.defaultdict(set)
    for it in requests:
        verbs[parts_of(it.target, names)].add(it.verb)
    for (*head, word), asked in verbs.items():
        words[(*head, tuple(sorted(asked, key=in_bytes)))].add(word)
    ordered = sorted(words, key=lambda it: [*map(in_bytes, it[:3]), [*map(in_bytes, it[3])]])
    return [rule_of(*head, sorted(words[head], key=in_bytes)) for head in ordered]


def rule_of(kind, group, resource, verbs, words):
    if kind == 'urls':
        return {'nonResourceURLs': words, 'verbs': [*verbs]}
    named = {'resourceNames': words} if kind == 'names' else {}
    return {'apiGroups': [group], 'resources': words if kind == 'resources' else [resource], **named, 'verbs': [*verbs]}


def rules_by_home(requests, names):
    """The rules for each namespace, and under the empty one those for the whole cluster and URLs."""
    homes = collections.defaultdict(set)
    for it in requests:
        homes['' if it.target[0] == 'url' else it.namespace].add(it)
    return {home: rules_for(homes[home], names) for home in sorted(homes, key=in_bytes)}


def document_of(rules, user, name):
    """The document of rules by their namespaces: a role and a binding of each."""
    account = ACCOUNT.fullmatch(user)
    subject = ({'kind': 'ServiceAccount', 'name': account[2], 'namespace': account[1]} if account
               else {'apiGroup': RBAC, 'kind': 'User', 'name': user})
    entries = []
    for home, of_home in rules.items():
        kind, metadata = ('Role', {'name': name, 'namespace': home}) if home else ('ClusterRole', {'name': name})
        entries.append({'apiVersion': V1, 'kind': kind, 'metadata': metadata, 'rules': of_home})
        entries.append({'apiVersion': V1, 'kind': kind + 'Binding', 'metadata': metadata,
                        'roleRef': {'apiGroup': RBAC, 'kind': kind, 'name': name}, 'subjects': [subject]})
    shown = '[\n    %s\n  ]' % ',\n    '.join(map(json_text, entries)) if entries else '[]'
    return '{\n  "apiVersion": "v1",\n  "kind": "List",\n  "items": %s\n}\n' % shown


def least(items, logs, asked):
    """What `least` prints, or how it refuses its line or a log: status, output and error."""
    try:
        if asked.who[:2] != 'u:' or asked.who == 'u:':
            raise Fault('U5 bad principal')
        if asked.name in ('', '.', '..') or '/' in asked.name or '%' in asked.name:
            raise Fault('U12 --name is empty, . or .., or has / or %')
        requests = needed(items, logged.requests_in_logs(logs), asked.who[2:])
    except Fault as fault:
        return 2, '', 'rbacaudit: %s\n' % fault
    return 0, document_of(rules_by_home(requests, asked.names), asked.who[2:], asked.name), ''


def add_own(parser):
    """What the command has beside its logs and files."""
    parser.add_argument('--names', action='store_true')
    parser.add_argument('--name', default='least')
    parser.add_argument('who')


def asked_by(options):
    parser = argparse.ArgumentParser(allow_abbrev=False)
    add_own(parser)
    return parser.parse_args(options)


# ---- the law

def lets(request, names, namespace, verb, target):
    """Whether the rule for a request lets its user do this: the same, or in any namespace what was asked of the whole cluster."""
    if target[0] == 'url' or request.target[0] == 'url':
        return (verb, target) == (request.verb, request.target)
    is_named = names and request.target[3]
    return ((verb, target[:3]) == (request.verb, request.target[:3]) and is_live(request.namespace, namespace, target)
            and (not is_named or target[3] == is_named))


def universe_of(draw, requests, user):
    """Words of some requests, those of this user before the others, and words that nobody has asked about."""
    first = sorted(requests, key=lambda it: (it.user != user, repr(it)))

    def words(pick, most, *others):
        return [*dict.fromkeys([*others, *(pick(it) for it in first if pick(it) is not None)])][:most + len(others)]

    def of_resource(at):
        return lambda it: it.target[at] if it.target[0] == 'resource' else None

    groups, resources = words(of_resource(1), 3, 'other'), words(of_resource(2), 5, 'others')
    return {'apiVersion': 'rbacaudit/v1', 'kind': 'Universe', 'principals': [{'user': user, 'groups': some(draw, TEAMS)} if draw.random() < 0.5 else {'user': user}],
            'namespaces': words(lambda it: it.namespace, 4, '', 'other'), 'verbs': words(lambda it: it.verb, 5, '*', 'other'),
            'resources': [{'group': group, 'resource': resource} for group, resource in itertools.product(groups, resources)],
            'names': words(of_resource(3), 4, '', 'other'), 'urls': words(lambda it: it.target[1] if it.target[0] == 'url' and in_json(it.target[1]) else None, 5, '/other', '/*')}


def questions(universe):
    """Each request of a universe."""
    for verb in universe['verbs']:
        yield from (('', verb, ('url', url)) for url in universe['urls'])
        for namespace, it, name in itertools.product(universe['namespaces'], universe['resources'], universe['names']):
            yield namespace, verb, ('resource', it['group'], it['resource'], name)


def allowed_by(text, universe):
    """What the reading finds in a printed document for the user of a universe."""
    items, [who] = [*items_of(text)], universe['principals']
    granted = [*ordered_bindings(items)]
    named = who_of(logged.Request(who['user'], who.get('groups', []), '', '', ()))
    return {it for it in questions(universe) if any(allows(binding, named, *it) for binding in granted)}


def allowed_by_program(room, text, universe):
    """What the program finds in it."""
    paths = [os.path.join(room, name + '.json') for name in ('printed', 'universe')]
    for path, written in zip(paths, (text, json.dumps(universe))):
        with open(path, 'w', encoding='utf-8') as file:
            file.write(written)
    status, out, err = unused.ran(['matrix', *paths], b'')
    *rows, last = out.splitlines()
    if (status, last, err) != (0, 'end', ''):
        raise ValueError('matrix of %r: %r' % (text, (status, out, err)))
    return set(map(row_read, rows))


def row_read(row):
    """The request of a row of a matrix."""
    _, namespace, verb, group, text, name, _ = map(text_shown, row.split('\t'))
    return namespace, verb, ('url', text) if text.startswith('/') else ('resource', group, text, name)


def broken_law(room, text, logs, wanted, names, universe, ask):
    """What the law says of a printed document that isn't so, or nothing."""
    if not text:
        return None
    got = allowed_by_program(room, text, universe) if ask is told else allowed_by(text, universe)
    lawful = {it for it in questions(universe) if any(lets(request, names, *it) for request in wanted)}
    if got != lawful:
        return 'by the document alone %r, and not %r' % (sorted(got - lawful)[:3], sorted(lawful - got)[:3])
    rest = (unused.told if ask is told else unused.itself)(room, [*items_of(text)], logs, [])
    return 'of the document %r is unused' % (rest,) if rest != (0, '', '') else None


# ---- drawing

def busy_binding(draw, user):
    """A cluster role with a few rules for much, and its binding to this user."""
    verbs = ['*'] if draw.random() < 0.5 else VERBS + ['create']
    rules = [{'verbs': verbs, 'apiGroups': GROUPS + ['*'] * (draw.random() < 0.5), 'resources': draw.choice([['*'], RESOURCES])},
             {'verbs': verbs, 'nonResourceURLs': draw.choice([['*'], URLS])}]
    yield {'apiVersion': V1, 'kind': 'ClusterRole', 'metadata': {'name': 'busy', 'labels': {}}, 'rules': some(draw, rules, 2)}
    yield {'apiVersion': V1, 'kind': 'ClusterRoleBinding', 'metadata': {'name': 'busy'}, 'roleRef': {'kind': 'ClusterRole', 'name': 'busy'},
           'subjects': [{'kind': 'User', 'name': user}]}


class BusyLog(Log):
    """Events of which many are of one user, and about few words, or about wildcards."""

    def __init__(self, draw, items, busy):
        super().__init__(draw, items)
        self.busy, self.few = busy, [some(draw, words) for words in (VERBS + ['create'], NAMESPACES, GROUPS, RESOURCES, NAMES, URLS)]

    def user(self, binding):
        return (self.busy, []) if self.busy and self.draw.random() < 0.7 else super().user(binding)

    def asked(self, binding):
        draw = self.draw
        if draw.random() < 0.3:
            return super().asked(binding)
        verbs, homes, groups, resources, names, urls = self.few
        stars = draw.random() < 0.15
        verb = draw.choice(verbs + ['*', 'get*'] * stars)
        if draw.random() < 0.3:
            return '', verb, ('url', draw.choice(urls + ['/*', '/a*b', '/healthz/**', '/api/\udcff'] * stars))
        return draw.choice(homes), verb, ('resource', draw.choice(groups + ['*', 'a*'] * stars), draw.choice(resources + ['*', '*/*', '*/log', 'pods/*', '**'] * stars),
                                          draw.choice(names + ['', '*']))


# ---- trying

def told(room, items, logs, options, standard=None):
    return unused.told(room, items, logs, options, standard, 'least')


def itself(room, items, logs, options, standard=None):
    return least(items, logs, asked_by(options))


def user_for(draw, items, requests):
    """Mostly somebody who needs something."""
    users = sorted({it.user for it in requests})
    needy = [user for user in users if needed(items, requests, user)]
    return draw.choice(needy) if needy and draw.random() < 0.8 else draw.choice([*users, *USERS])


def tried(seed, number, room, counts, ask):
    """What is wrong with the answers about an export and its logs, or nothing."""
    draw = random.Random('least %s %d' % (seed, number))
    busy = draw.choice(USERS) if draw.random() < 0.7 else None
    items = items_of_export(draw) + [*busy_binding(draw, busy)] * bool(busy)
    logs = logs_of(draw, BusyLog(draw, items, busy).lines())
    try:
        requests = logged.requests_in_logs(logs)
    except Fault:
        requests = set()
    user = user_for(draw, items, requests)
    options = ['u:' + user, *['--names'] * (draw.random() < 0.5), *['--name=' + draw.choice(GOOD_NAMES)] * (draw.random() < 0.2)]
    standard = draw.randrange(len(logs)) if draw.random() < 0.2 else None
    wanted = itself(room, items, logs, options)
    got = ask(room, items, logs, options, standard)
    count(counts, items, requests, user, options, wanted)
    wrong = 'wanted %r, got %r' % (wanted, got) if got != wanted else None
    if not wrong:
        universe = universe_of(draw, requests, user)
        wrong = broken_law(room, got[1], logs, needed(items, requests, user), '--names' in options, universe, ask)
    return wrong and '%s; options %s; %s; logs %r' % (wrong, options, export(*items).decode(), logs)


def count(counts, items, requests, user, options, wanted):
    """What the exports, the logs and the answers have, to see that all of it is drawn."""
    status, out, err = wanted
    if status == 2:
        counts['refused'] += 1
        return
    own, needs = {it for it in requests if it.user == user}, needed(items, requests, user)
    every = rules_by_home(needs, '--names' in options)
    rules = [rule for of_home in every.values() for rule in of_home]
    for name, is_so in {
            'needs nothing': not needs, 'whole cluster': '' in every, 'a namespace': any(every), 'both': '' in every and len(every) > 1,
            'namespaces': len({*every} - {''}) > 1, 'an account': ACCOUNT.fullmatch(user) and needs, '--names': needs and '--names' in options,
            '--name': needs and len(options) > 1 + ('--names' in options), 'others need': requests - own, 'URL': any('nonResourceURLs' in rule for rule in rules),
            'URLs with the same verbs': any(len(rule.get('nonResourceURLs', [])) > 1 for rule in rules),
            'resources with the same verbs': any(len(rule.get('resources', [])) > 1 for rule in rules),
            'names with the same verbs': any(len(rule.get('resourceNames', [])) > 1 for rule in rules),
            'several verbs': any(len(rule['verbs']) > 1 for rule in rules), 'several rules': any(len(of_home) > 1 for of_home in every.values()),
            'any name beside names': '--names' in options and {'names', 'any'} <= {parts_of(it.target, True)[0] for it in needs},
            'a create': any(it.verb == 'create' and it.target[0] == 'resource' for it in needs),
            'subresource': any('/' in it.target[2] for it in needs if it.target[0] == 'resource'),
            'not allowed': any(can_be_written(it) for it in own - needs), 'not written': not all(map(can_be_written, own)),
            'a star that is written': any('*' in ''.join(it.target) for it in needs)}.items():
        counts[name] += bool(is_so)


WANTED = ['needs nothing', 'whole cluster', 'a namespace', 'both', 'namespaces', 'an account', '--names', '--name', 'others need', 'URL', 'URLs with the same verbs',
          'resources with the same verbs', 'names with the same verbs', 'several verbs', 'several rules', 'any name beside names', 'a create', 'subresource',
          'not allowed', 'not written', 'a star that is written', 'refused']


def too_few(counts, exports):
    return [name for name in WANTED if counts[name] < exports // 100]


# ---- the worked rows

def answer_of(row):
    """The document of a row: as lines, or of rules by their namespaces, which the row has for its user."""
    if 'lines' in row:
        return 0, ''.join(line + '\n' for line in row['lines']), ''
    asked = asked_by(row['options'])
    return 0, document_of(row['rules'], asked.who[2:], asked.name), ''


def rows(ask):
    return unused.rows(ask, 'least', answer_of)


# ---- lines that are refused

def refused():
    """Lines that are refused before anything is read, and faults in their order."""
    with tempfile.TemporaryDirectory() as room:
        put = put_in(room)
        gets, roles, bad, missing = put('gets', GETS), put('roles', GRANTED), put('bad', b'[]'), os.path.join(room, 'missing')
        first = ['--log', missing, missing]
        cases = [([who, *first], 'U5 bad principal') for who in NO_USERS]
        cases += [(['u:kim', '--name=' + name, *first], 'U12 --name is empty, . or .., or has / or %') for name in BAD_NAMES]
        cases += [(['u:kim', *words], TWICE.decode()) for words in (
            ['--log', '-'], ['--log', '-', '--log=-', missing], ['--log', missing, '--log', '-'], ['--names', '--log=-', '--name', 'a'])]
        cases += [(['u:kim', '--log', missing, roles, missing], 'file 2: I1 read fault'), (['u:kim', '--log', gets, '--log', missing, roles], 'log 2: I1 read fault'),
                  (['u:kim', '--log', bad, bad], 'log 1: line 1: G2 not an audit event'), (['u:kim', '--log', gets, bad], 'file 1: M2 not an object')]
        for words, fault in cases:
            got = unused.ran(['least', *words], b'')
            checked('refused: least %s' % words, got == (2, '', 'rbacaudit: %s\n' % fault), repr(got))
    for words in ([], ['u:kim'], ['--log', 'a'], ['u:kim', '--log'], ['--log', 'a', 'u:kim', '--names', '--names'], ['--log', 'a', 'u:kim', '--name'],
                  ['--log', 'a', 'u:kim', '--name', 'a', '--name', 'b'], ['--log', 'a', 'u:kim', '--skip-system'], ['--log', 'a', 'u:kim', '-n', 'dev']):
        status, out, err = got = unused.ran(['least', *words], b'')
        checked('refused: least %s' % words, (status, out) == (2, '') and re.search('<LOG>|<NAME>', err), repr(got))


def reference(words):
    """Prints the document of the reading over logs and files."""
    return unused.answer_over(words, add_own, least)


def main(seed='1', number='300', ask=told):
    if ask is told:
        refused()
    return unused.try_all(seed, number, rows(ask), tried, too_few, ask)


if __name__ == '__main__':
    sys.exit(unused.run_mode(main, rows, reference, itself))
