"""What `diff` prints of random small pairs of exports, against every request that the pair could tell apart.

After is mostly before with some edits: objects, subjects, words and labels that come and go, rules split and joined, groups
replaced by members, roles renamed. The requests are those of every user that the pair names, with groups that it names, and of
strangers; in every namespace, with every verb, on every target that it names, and on others. Which of them each side allows is
worked out by meaning.py, one after the other, without a thought of what decides. Then each line is taken apart and read as
docs/FORMATS.md says it: a `+` line has to stand for a request that is gained, and for none that after refuses; and for each
request that is gained there has to be a line. The same with the sides exchanged. Last, the text has to be exactly the lines of
the permissions that each side's bindings have and of which a request is gained or lost, in order, each with the first binding.
Of a third of the pairs the side after isn't given: its objects are those before, less some that `--without` names, with some of
`--with` put over; and with `--after` and these objects the answer has to be the same.
`diff.py SEED COUNT` tries other pairs. The last line is `N passed, M failed`.
"""

import copy
import itertools
import os
import random
import subprocess
import sys
import tempfile

from common import PROGRAM, V1BETA1, export
from meaning import (binding_text, changed, field, groups_of, is_named, key_of, name_matches, name_of,
                     ordered_bindings, path_matches, resource_matches, text_shown, word_matches)
from matrix_pages import NAMES, RESOURCES, TEAMS, URLS, USERS, VERBS, bindings, roles, rule, some, subject

ANONYMOUS, UNAUTHENTICATED = 'system:anonymous', 'system:unauthenticated'
SELECTS = {'clusterRoleSelectors': [{'matchLabels': {'to': 'x'}}]}
USUAL = {'verbs': VERBS, 'resources': RESOURCES, 'resourceNames': NAMES, 'nonResourceURLs': [*URLS, '/health*', '/healthz/**']}
# Words that match nothing, that only look like what they aren't, or that a line has to escape.
ODD = {'verbs': ['', '-', 'GET', 'a\tb'], 'apiGroups': ['-', 'app', '*.io'],
       'resources': ['', '/pods', '*/', 'pods/', 'pods/*', '**', '*/log/x', 'pods/log/x', '-', '\\'],
       'resourceNames': ['*', '\\x2a', '**', 'pods'], 'nonResourceURLs': ['', 'x', 'x*', '**', '/**', '/a*b', '*/', '/*/', '-']}


# ---- drawing a pair

def pair(draw):
    """The items of both sides; the edits may have made either of the other."""
    items = small(draw)
    if draw.random() < 0.1:
        return items, small(draw)
    edited = copy.deepcopy(items)
    for _ in range(draw.choice([0, 1, 2, 3, 4, 6])):
        if edited:
            draw.choice(EDITS)(draw, edited)
    draw.shuffle(edited)
    return (items, edited) if draw.random() < 0.5 else (edited, items)


def change(draw):
    """The items before, some that are taken away, and some that are put over; one of the two may be missing."""
    before, other = pair(draw)
    without = [like(draw, item) for item in some(draw, before + other, 4)] if draw.random() < 0.8 else []
    over = some(draw, other, 4) if not without or draw.random() < 0.7 else []
    return before, without, over


def like(draw, item):
    """An object of the same kind, namespace and name that says less; or one that differs in them, but for its name."""
    other = copy.deepcopy(item)
    if draw.random() < 0.3:
        is_role = 'rules' in other
        other['kind'] = draw.choice(['Role', 'ClusterRole'] if is_role else ['RoleBinding', 'ClusterRoleBinding'])
        other['metadata']['namespace'] = draw.choice(['', 'default', 'dev', 'prod'])
        if not is_role:
            other['roleRef']['kind'] = 'ClusterRole'
    return {**other, **({'rules': []} if 'rules' in other else {'subjects': []})}


def small(draw):
    """Most bindings name somebody, and refer to a role that is there."""
    given = [*roles(draw)]
    bound = [*itertools.islice(bindings(draw), draw.randint(1, 4))]
    for item in bound if draw.random() < 0.9 else []:
        item['subjects'] = item['subjects'] or [subject(draw)]
        there = [name for kind, home, name in map(name_of, given)
                 if kind == item['roleRef']['kind'] and home in ('', item['metadata'].get('namespace'))]
        item['roleRef']['name'] = draw.choice(there or ['gone'])
    for drawn in (it for item in given for it in item['rules'] if draw.random() < 0.1):
        put_odd(draw, drawn)
    items = given + bound
    draw.shuffle(items)
    return items


def put_odd(draw, drawn):
    """Puts an odd word beside those of a rule. A rule about URLs has no other lists."""
    named = draw.choice([it for it in ODD if it in drawn or it == 'resourceNames' and 'resources' in drawn])
    drawn[named] = drawn.get(named, []) + [draw.choice(ODD[named])]


def of_kind(draw, items, *parts):
    """One of the objects whose kind ends so, or nothing; mostly, if it is a role, one that a binding refers to."""
    found = [item for item in items if item['kind'].endswith(parts)]
    used = [item for item in found if name_of(item) in {*map(role_name, items)}]
    return draw.choice((used if draw.random() < 0.8 else found) or found or [None])


def role_name(item):
    """The name of the role that a binding refers to, or nothing."""
    wanted = item.get('roleRef')
    home = name_of(item)[1] if wanted and wanted['kind'] == 'Role' else ''
    return wanted and (wanted['kind'], home, wanted['name'])


def drop_item(draw, items):
    items.remove(draw.choice(items))


def add_binding(draw, items):
    items.append(next(bindings(draw)))


def add_twice(draw, items):
    """The object is there once more, and one of the two replaces the other."""
    items.append(copy.deepcopy(draw.choice(items)))
    edit_rule(draw, items)


def edit_subjects(draw, items):
    bound = of_kind(draw, items, 'Binding')
    if bound and draw.random() < 0.5 and bound['subjects']:
        bound['subjects'].remove(draw.choice(bound['subjects']))
    if bound and draw.random() < 0.7:
        bound['subjects'].insert(0, subject(draw))


def name_members(draw, items):
    """Users take the place of a group, or a group that of users."""
    bound = of_kind(draw, items, 'Binding')
    if bound and any(it['kind'] == 'Group' for it in bound['subjects']):
        bound['subjects'] = [{'kind': 'User', 'name': user} for user in some(draw, USERS)]
    elif bound:
        bound['subjects'] = [{'kind': 'Group', 'name': draw.choice(TEAMS)}]


def edit_rule(draw, items):
    role = of_kind(draw, items, 'Role')
    if role and role['rules']:
        changed = draw.choice(role['rules'])
        named = draw.choice([it for it in USUAL if it in changed])
        changed[named] = some(draw, [*USUAL[named], '*'])
        if named == 'resourceNames' and draw.random() < 0.5:
            del changed[named]
        if draw.random() < 0.1:
            put_odd(draw, changed)


def add_rule(draw, items):
    role = of_kind(draw, items, 'Role')
    if role:
        role['rules'].insert(0, rule(draw, role['kind'] == 'ClusterRole'))


def split_rule(draw, items):
    """A rule becomes one for each word of one of its lists."""
    role = of_kind(draw, items, 'Role')
    if role and role['rules']:
        split = role['rules'].pop(draw.randrange(len(role['rules'])))
        named = draw.choice([*split])
        role['rules'] += [{**split, named: [word]} for word in split[named]]


def join_rules(draw, items):
    """Two rules become one with all their words: which allows what neither did."""
    role = of_kind(draw, items, 'Role')
    if role and len(role['rules']) > 1 and role['rules'][0].keys() == role['rules'][1].keys():
        one, other = role['rules'].pop(0), role['rules'].pop(0)
        role['rules'].append({named: one[named] + other[named] for named in one})


def rename_role(draw, items):
    role = of_kind(draw, items, 'ClusterRole')
    if role:
        for item in items:
            if item.get('roleRef') == {'kind': 'ClusterRole', 'name': role['metadata']['name']}:
                item['roleRef']['name'] = 'renamed'
        role['metadata']['name'] = 'renamed'


def rename_binding(draw, items):
    bound = of_kind(draw, items, 'Binding')
    if bound:
        bound['metadata']['name'] = draw.choice(['a', 'renamed'])


def move_binding(draw, items):
    """A binding is in another namespace, or in none."""
    bound = of_kind(draw, items, 'Binding')
    if bound:
        bound['metadata'].pop('namespace', None)
        bound['kind'] = draw.choice(['ClusterRoleBinding', 'RoleBinding'])
        if bound['kind'] == 'RoleBinding':
            bound['metadata']['namespace'] = draw.choice(['dev', 'prod', 'new', '*'])
        else:
            bound['roleRef']['kind'] = 'ClusterRole'


def leave_namespace(draw, items):
    """An object is in the namespace `default`, which it names or doesn't."""
    metadata = draw.choice(items)['metadata']
    metadata.pop('namespace', None)
    metadata.update(draw.choice([{}, {'namespace': ''}, {'namespace': 'default'}]))


def edit_label(draw, items):
    role = of_kind(draw, items, 'ClusterRole')
    if role:
        role['metadata']['labels'] = {'to': draw.choice('xyz')}


def aggregate(draw, items):
    """A role gathers the rules of others, or is plain."""
    role = of_kind(draw, items, 'ClusterRole')
    if role and not role.pop('aggregationRule', None):
        role['aggregationRule'] = copy.deepcopy(SELECTS)


def write_older(draw, items):
    draw.choice(items)['apiVersion'] = V1BETA1


EDITS = [drop_item, add_binding, add_twice, edit_subjects, name_members, edit_rule, edit_rule, edit_rule, add_rule, split_rule,
         join_rules, rename_role, rename_binding, move_binding, leave_namespace, edit_label, aggregate, write_older]


# ---- the requests

def numbers(values, is_wanted):
    """Which of the values are wanted, as bits."""
    return sum(1 << at for at, value in enumerate(values) if is_wanted(value))


def combined(parts):
    """The combinations of parts of which some values are wanted, as bits: each part's bits, and how many values it has."""
    whole, size = 1, 1
    for bits, count in parts:
        whole = sum(whole << at * size for at in range(count) if bits >> at & 1)
        size *= count
    return whole


class Requests:
    """What may be asked, of the words of a pair and of others. A set of requests of one asker is a number: a bit for each
    namespace, verb, group, resource and name, and then one for each verb and URL."""

    def __init__(self, sides):
        bound = [it for side in sides for it in side]
        rules = [rule for _, _, rules in bound for rule in rules]
        words = {named: {word for rule in rules for word in rule.get(named, [])} for named in ODD}
        self.namespaces = ['', 'stranger', *sorted({home for (_, home, _), _, _ in bound} - {''})]
        self.verbs = ['strange', *sorted(words['verbs'])]
        self.groups = ['strange.io', *sorted(words['apiGroups'])]
        below = {text.partition('/')[2] for text in words['resources']} - {''}
        texts = words['resources'] | {'strangers'} | {'strangers/' + text for text in below | {'strange'}}
        self.resources = sorted(text for text in texts if text and text[0] != '/')
        self.names = ['', 'stranger', *sorted(words['resourceNames'] - {''})]
        stems = {word.rstrip('*') for word in words['nonResourceURLs']}
        texts = words['nonResourceURLs'] | {stem + more for stem in stems for more in ('', '*', 'x', '/x')} | {'/', '/strange'}
        self.urls = sorted(text for text in texts if text[:1] == '/')
        self.askers = [*self.asking(bound)]
        self.known = {}

    @staticmethod
    def asking(bound):
        """Users as a server knows them, each with no group, with one, or with all: nobody is given the group of the anonymous
        user, who is given none."""
        keys = {key_of(subject, home) for (_, home, _), subjects, _ in bound for subject in subjects} - {None}
        users = {key[2:] for key in keys if key[0] == 'u'} | {ANONYMOUS, 'stranger', 'system:serviceaccount:dev:stranger',
                                                             'system:serviceaccount:strange:ci'}
        teams = sorted({key[2:] for key in keys if key[0] == 'g'} - {UNAUTHENTICATED})
        for user in sorted(users):
            for given in [[], ['strangers'], *([team] for team in teams), teams] if user != ANONYMOUS else [[]]:
                yield 'u', user, groups_of(user, given)

    def bits(self, part, words, matches):
        """The values of a part that words match, and how many values there are."""
        key = part, words
        if key not in self.known:
            values = getattr(self, part)
            self.known[key] = numbers(values, lambda value: matches(words, value)), len(values)
        return self.known[key]

    def on_resources(self, home, verbs, groups, resources, names):
        """The requests that these words allow through a binding in a namespace, or in none."""
        return combined([self.bits('namespaces', home, lambda home, value: home in (None, value)),
                         self.bits('verbs', verbs, word_matches), self.bits('groups', groups, word_matches),
                         self.bits('resources', resources, resource_matches), self.bits('names', names, name_matches)])

    def on_urls(self, verbs, urls):
        size = len(self.namespaces) * len(self.verbs) * len(self.groups) * len(self.resources) * len(self.names)
        return combined([self.bits('verbs', verbs, word_matches), self.bits('urls', urls, path_matches)]) << size

    def of_rule(self, home, rule):
        lists = [tuple(rule.get(named, ())) for named in ODD]
        found = self.on_resources(home, *lists[:4])
        return found if home else found | self.on_urls(lists[0], lists[4])

    def allowed(self, side):
        """For each asker, the requests that a side allows."""
        granted = [(home, subjects, [self.of_rule(home or None, rule) for rule in rules]) for (_, home, _), subjects, rules in side]
        for who in self.askers:
            found = 0
            for home, subjects, sets in granted:
                if any(is_named(it, home, who) for it in subjects):
                    for one in sets:
                        found |= one
            yield found

    def stood_for(self, permission):
        """For each asker, the requests that a permission stands for."""
        key, home, verb, group, resource, name = permission
        if group is None:
            found = self.on_urls((verb,), (resource,))
        else:
            found = self.on_resources(home, (verb,), (group,), (resource,), () if name is None else (name,))
        is_user, name = key[0] == 'u', key[2:]
        for _, user, groups in self.askers:
            yield found if (name == user if is_user else name in groups) else 0


# ---- permissions: who, the namespace or none, verb, group, resource, and the name or none. Of a URL the group is none.

def permissions(side):
    """Each permission of a side, with its first binding."""
    found = {}
    for (kind, home, name), subjects, rules in side:
        keys = {key_of(it, home) for it in subjects} - {None}
        for key, rule in itertools.product(keys, rules):
            names = rule.get('resourceNames') or [None]
            urls = () if home else ((None, one_star(word), None) for word in rule.get('nonResourceURLs', []))
            for verb, target in itertools.product(rule['verbs'], [
                    *itertools.product(rule.get('apiGroups', []), rule.get('resources', []), names), *urls]):
                found.setdefault((key, home or None, verb, *target), binding_text(kind, home, name))
    return found


def one_star(word):
    return word.rstrip('*') + '*' if word.endswith('*') else word


def choice(text):
    return '*' if text is None else '\\x2a' if text == '*' else field(text)


def line(sign, permission, binding):
    key, home, verb, group, resource, name = permission
    if group is None:
        shown = [field(key), '-', field(verb), '-', field(resource), '-']
    else:
        shown = [field(key), choice(home), field(verb), field(group), field(resource), choice(name)]
    return '\t'.join([sign, *shown, field(binding)])


def read(text):
    """The sign of a line, and its permission. Only a URL has no namespace."""
    sign, key, home, verb, group, resource, name, _ = text.split('\t')
    if home == '-':
        return sign, (text_shown(key), None, text_shown(verb), None, text_shown(resource), None)
    home, name = (None if it == '*' else text_shown(it) for it in (home, name))
    return sign, (text_shown(key), home, text_shown(verb), text_shown(group), text_shown(resource), name)


# ---- what has to hold

def wrong_with(out, sides):
    """What is wrong with the text, or nothing; and how many of its lines are gained."""
    requests = Requests(sides)
    before, after = ([*requests.allowed(side)] for side in sides)
    try:
        read_lines = [read(text) for text in out.splitlines()]
    except ValueError as fault:
        return str(fault), 0
    wanted = []
    for sign, old, new, side in (('+', before, after, sides[1]), ('-', after, before, sides[0])):
        gained = [its & ~was for was, its in zip(old, new)]
        untold = gained
        for permission in (permission for its, permission in read_lines if its == sign):
            stood_for = [*requests.stood_for(permission)]
            if any(its & ~allowed for its, allowed in zip(stood_for, new)):
                return '%s %r stands for a request that is refused' % (sign, permission), 0
            if not meet(stood_for, gained):
                return '%s %r stands for no request that is gained' % (sign, permission), 0
            untold = [its & ~told for its, told in zip(untold, stood_for)]
        if any(untold):
            return 'a request is gained (%s) that no line tells of' % sign, 0
        wanted += [line(sign, permission, binding) for permission, binding in permissions(side).items()
                   if any(gained) and meet(requests.stood_for(permission), gained)]
    wanted = ''.join(it + '\n' for it in sorted(wanted, key=lambda it: it[2:].encode()))
    return 'wanted %r' % wanted if out != wanted else None, sum(sign == '+' for sign, _ in read_lines)


def meet(some, others):
    return any(one & other for one, other in zip(some, others))


def files_of(draw, items):
    """The texts of one file or of two, of which the later one's objects come later."""
    cut = draw.randint(0, len(items)) if draw.random() < 0.2 else 0
    return [export(*part) for part in ([items[:cut], items[cut:]] if cut else [items])]


def told(draw, room, **sides):
    """Status, output and error of the command, its words in one of their orders. An option without objects isn't given."""
    words = []
    for side, items in sides.items():
        if not items and side in ('without', 'with'):
            continue
        paths = []
        for number, text in enumerate(files_of(draw, items)):
            paths.append(os.path.join(room, '%s%d.json' % (side, number)))
            with open(paths[-1], 'wb') as file:
                file.write(text)
        option = '--' + side
        words.append([option, *paths] if draw.random() < 0.5 else [it for path in paths for it in (option, path)])
    draw.shuffle(words)
    ended = subprocess.run([PROGRAM, 'diff', *itertools.chain(*words)], stdin=subprocess.DEVNULL, stdout=subprocess.PIPE,
                           stderr=subprocess.PIPE, timeout=60)
    return ended.returncode, ended.stdout.decode(), ended.stderr.decode()


def asked(draw, number):
    """What is given of a pair, by option, and the items after the change."""
    if number % 3:
        before, after = pair(draw)
        return {'before': before, 'after': after}, after
    before, without, over = change(draw)
    return {'before': before, 'without': without, 'with': over}, changed(before, without, over)


def tried(seed, number, room):
    """What is wrong with the answer about a pair, or nothing; its lines, and how many of them are gained."""
    draw = random.Random('%s %d' % (seed, number))
    given, after = asked(draw, number)
    status, out, err = told(draw, room, **given)
    wrong, gained = wrong_with(out, [[*ordered_bindings(given['before'])], [*ordered_bindings(after)]])
    if (status, err) != (1 if out else 0, ''):
        wrong = 'status %d, %r' % (status, err)
    if 'after' not in given and told(draw, room, before=given['before'], after=after) != (status, out, err):
        wrong = 'another answer with --after'
    if wrong:
        print('FAIL pair %d of seed %s: %s; got %r; %s' % (
            number, seed, wrong, out, ' '.join('%s %s' % (side, export(*items).decode()) for side, items in given.items())))
    return bool(wrong), out.count('\n'), gained


def main(seed, count):
    with tempfile.TemporaryDirectory() as room:
        results = [tried(seed, number, room) for number in range(int(count))]
    failed = sum(wrong for wrong, _, _ in results)
    lines, gained = (sum(result[at] for result in results) for at in (1, 2))
    equal = sum(not result[1] for result in results)
    print('%d pairs with %d lines, of which %d are gained; %d pairs have none' % (int(count), lines, gained, equal))
    if not int(count) / 4 < equal < int(count) * 3 / 4 or not lines / 4 < gained < lines * 3 / 4:
        print('FAIL too few pairs differ, or too few are alike')
        failed += 1
    print('%d passed, %d failed' % (int(count) - failed, failed))
    return 1 if failed else 0


if __name__ == '__main__':
    sys.exit(main(*(sys.argv[1:3] or ['1', '3000'])))
