"""What `can-i --why-not` prints, against docs/BEHAVIOUR.md read once more, over random exports.

Each export is drawn as tests/rules.py draws it. A user asks for something, mostly in the words of a rule with one word changed,
so that many questions miss one thing. For a no, each grant is asked here what it lacks: the lines have to be those of the grants
that lack exactly one thing, in the order of BEHAVIOUR, and each group that lacks only the user once. For a yes there is no more
than the yes. `why_not.py SEED COUNT` tries other exports. The last line is `N passed, M failed`.
"""

import random
import sys

from common import export
from escalation import Export
from matrix_pages import GROUPS, NAMES, RESOURCES, TEAMS, URLS, USERS, bindings, roles, some
from meaning import field, groups_of, is_live, is_named, name_matches, path_matches, resource_matches, word_matches
from rules import odd, place, request, told

TURNS = 20
KINDS = ('namespace', 'verb', 'group', 'subresource', 'name', 'member')
OTHER_VERBS = ['get', 'list', 'create', 'watch']
BELOW = ['', 'log', 'exec', 'scale']


# ---- the slow reading

def list_text(words):
    return '[%s]' % ','.join(field(word).replace(',', '\\x2c') for word in words)


def is_same_resource(word, resource):
    """Whether the word is for the same resource, with another subresource or with none."""
    before = word.partition('/')[0]
    return before == resource.partition('/')[0] and before not in ('', '*')


def target_lacks(rule, target):
    """All that a rule lacks to match a target; something else than what is told is told as None."""
    if target[0] == 'url':
        return [] if path_matches(rule.get('nonResourceURLs', []), target[1]) else [None]
    _, group, resource, name = target
    words, lacks = rule.get('resources', []), []
    if not word_matches(rule.get('apiGroups', []), group):
        lacks.append('group')
    if not resource_matches(words, resource):
        lacks.append('subresource' if any(is_same_resource(word, resource) for word in words) else None)
    if not name_matches(rule.get('resourceNames'), name):
        lacks.append('name')
    return lacks


def has_of(kind, home, rule):
    """What a grant has in the place of what it lacks."""
    lists = {'verb': 'verbs', 'group': 'apiGroups', 'subresource': 'resources', 'name': 'resourceNames'}
    return field(home) if kind == 'namespace' else list_text(rule.get(lists[kind]) or [])


def near_lines(items, user, given, namespace, verb, target):
    """The lines after a no, or nothing for a yes."""
    who = 'u', user, groups_of(user, given)
    found, told_groups = {kind: [] for kind in KINDS}, set()
    for home, subjects, rule, why in Export(items).grants:
        named = [at for at, subject in enumerate(subjects, 1) if is_named(subject, home, who)]
        lacks = target_lacks(rule, target)
        if not word_matches(rule['verbs'], verb):
            lacks.append('verb')
        if not is_live(home, namespace, target):
            lacks.append('namespace' if is_live(home, home, target) else None)
        if named and not lacks:
            return None
        if named and len(lacks) == 1 and lacks[0]:
            found[lacks[0]].append([lacks[0], has_of(lacks[0], home, rule), *why, str(named[0])])
        if not named and not lacks:
            for at, subject in enumerate(subjects, 1):
                if subject['kind'] == 'Group' and subject['name'] not in told_groups:
                    told_groups.add(subject['name'])
                    found['member'].append(['member', field('g:' + subject['name']), *why, str(at)])
    return ['\t'.join(line) for kind in KINDS for line in found[kind]]


# ---- what is asked

def nearly(draw, asked, verb, target):
    """A question with one word changed, in most cases."""
    kind = draw.choice(['as it is', 'verb', 'group', 'below', 'name', 'verb'])
    if kind == 'verb':
        verb = draw.choice(OTHER_VERBS)
    elif target[0] == 'url':
        target = ('url', draw.choice([*(url for url in URLS if '*' not in url), '/metrics']))
    elif kind != 'as it is':
        _, group, whole, name = target
        resource, _, below = whole.partition('/')
        group = draw.choice([it for it in GROUPS if it != '*']) if kind == 'group' else group
        below = draw.choice(BELOW) if kind == 'below' else below
        name = draw.choice(NAMES) if kind == 'name' else name
        target = ('resource', group, '/'.join([resource, below]) if below else resource, name)
    if target[0] == 'url':
        return ['--', verb, target[1]], verb, target
    _, group, whole, name = target
    resource, _, below = whole.partition('/')
    written = ('%s.%s' % (resource, group) if group else resource) + ('/' + name if name else '')
    return [*(['--subresource', below] if below else []), '--', verb, written], verb, target


def user_agrees(draw, items, given):
    """How the answer differs from the slow reading, or nothing; and the kinds of lines in it."""
    user, groups = draw.choice(USERS), some(draw, TEAMS) if draw.random() < 0.5 else []
    options, namespace = place(draw)
    asked, verb, target = nearly(draw, *request(draw, items))
    options += ['--groups', ','.join(groups)] if groups else []
    lines = near_lines(items, user, groups, namespace, verb, target)
    wanted = (0, 'yes\n') if lines is None else (1, ''.join(line + '\n' for line in ['no', *lines]))
    got = told('can-i', '--as', user, '--why-not', *options, *asked, given=given)
    said = 'can-i --why-not --as %s %s %s: wanted %r, got %r' % (user, options, asked, wanted, got)
    return said if got != wanted else None, {line.split('\t')[0] for line in lines or ()}


def main(seed, count):
    passed, failed, seen = 0, 0, dict.fromkeys(KINDS, 0)
    for number in range(int(count)):
        draw = random.Random('%s %d' % (seed, number))
        items = odd(draw, [*roles(draw), *bindings(draw)])
        draw.shuffle(items)
        given = export(*items)
        for _ in range(TURNS):
            wrong, kinds = user_agrees(draw, items, given)
            passed, failed = passed + (not wrong), failed + bool(wrong)
            for kind in kinds:
                seen[kind] += 1
            if wrong:
                print('FAIL export %d of seed %s: %s; %s' % (number, seed, wrong, given.decode()))
    print('%d exports, %d questions; answers with each kind of line: %s' % (int(count), TURNS * int(count), seen))
    for kind in KINDS:
        if seen[kind] < int(count) // 20:
            print('FAIL too few answers have a line %s' % kind)
            failed += 1
    print('%d passed, %d failed' % (passed, failed))
    return 1 if failed else 0


if __name__ == '__main__':
    sys.exit(main(*(sys.argv[1:3] or ['1', '100'])))
