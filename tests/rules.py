"""What `rules` prints against what `can-i` answers, over random exports: its lines, read once more.

Each export is drawn as tests/matrix_pages.py draws it, with odd words in some of its rules. For a user,
`rules` is asked everywhere, in a namespace or in the whole cluster. Its lines are taken apart here,
lists and escapes too, and each request is matched against them by docs/BEHAVIOUR.md alone: `can-i`
has to say yes exactly if a line allows it, and the first line that does is what `can-i --why` has
to print. What is listed in a place has to be, of all lines, those whose binding counts there.
`can-i` can't ask about a member of one group alone, but `who-can --why` tells: a group has to be a
holder exactly if a line of its rules allows the request, with the first such line. And `who-can
--every`, in a namespace or anywhere, has to list the pairs of a key and a binding that
docs/BEHAVIOUR.md says.
`rules.py SEED COUNT` tries other exports. The last line is `N passed, M failed`.
"""

import random
import subprocess
import sys

from common import PROGRAM, export
from meaning import binding_text, field, is_live, key_of, ordered_bindings, rule_allows, text_shown
from matrix_pages import (GROUPS, NAMES, NAMESPACES, RESOURCES, TEAMS, URLS, USERS, bindings, roles,
                          some)

# Words that a line has to escape, or that only look like what they aren't.
ODD = ['', '-', ',', 'a,b', '[', ']', '[]', '\\', '\\x2c', 'a\tb', '\x7f', 'é', '\\,', '*,*']
USER_TURNS = 12
FIELDS = ['verbs', 'apiGroups', 'resources', 'resourceNames', 'nonResourceURLs']


def told(*words, given):
    """Status and output of a command; what stands on standard error is a fault of its own."""
    ended = subprocess.run([PROGRAM, *words], input=given, stdout=subprocess.PIPE,
                           stderr=subprocess.PIPE, timeout=60)
    return ended.returncode, ended.stdout.decode() + ended.stderr.decode()


# ---- reading lines

def words(shown):
    """The words of a list."""
    if shown[:1] != '[' or shown[-1:] != ']' or len(shown) < 2:
        raise ValueError('no list: %r' % shown)
    return [text_shown(it) for it in shown[1:-1].split(',')] if len(shown) > 2 else []


class Line:
    """A line of `rules`: where its binding counts, why it is there, and the rule."""

    def __init__(self, text):
        binding, *rest = text.split('\t')
        if len(rest) != 9:
            raise ValueError('%d fields: %r' % (len(rest) + 1, text))
        kind, *names = binding.split('/')
        self.text = text
        self.home = names[0] if kind == 'RoleBinding' else None
        self.why = '\t'.join([binding, *rest[:4]])
        self.lists = dict(zip(FIELDS, map(words, rest[4:])))

    def allows(self, namespace, verb, target):
        """Whether the rule allows this, and its binding counts there."""
        return is_live(self.home, namespace, target) and rule_allows(self.lists, verb, target)


def lines_of(who, given, *options):
    """The lines of `rules`."""
    status, out = told('rules', *options, '--', who, given=given)
    if status:
        raise ValueError('rules %s: status %d, %s' % (who, status, out))
    return [Line(text) for text in out.splitlines()]


# ---- what is asked

def odd(draw, items):
    """The same items with odd words beside those of some rules."""
    for item in items:
        for rule in item.get('rules') or ():
            for field in FIELDS if draw.random() < 0.3 else ():
                if field in rule:
                    rule[field] = draw.sample(rule[field] + some(draw, ODD), len(rule[field]) + 1)
    return items


def request(draw, items):
    """A verb and a target, and how they are written: mostly in the words of a rule."""
    rules = [rule for item in items for rule in item.get('rules') or ()]
    rule = draw.choice(rules) if rules and draw.random() < 0.8 else {}

    def one(field, others):
        return draw.choice([it for it in rule.get(field) or others if it.strip('*')] or others)

    verb = one('verbs', ['get', 'list'])
    if 'nonResourceURLs' in rule or not rule and draw.random() < 0.3:
        path = one('nonResourceURLs', URLS)
        path = path.replace('*', draw.choice(['', 'x'])) if path[0] == '/' else '/metrics'
        return ['--', verb, path], verb, ('url', path)
    group = draw.choice(rule.get('apiGroups') or GROUPS).replace('*', 'apps')
    resource, _, below = one('resources', RESOURCES).replace('*', 'jobs').partition('/')
    name = draw.choice(rule.get('resourceNames') or NAMES)
    target = '%s.%s' % (resource, group) if group else resource
    options = ['--subresource', below] if below else []
    whole = '/'.join([resource, below]) if below else resource
    return ([*options, '--', verb, target + ('/' + name if name else '')], verb,
            ('resource', group, whole, name))


def place(draw):
    """The options that say where something is asked, and the namespace."""
    namespace = draw.choice(NAMESPACES)
    if namespace:
        return ['-n', namespace], namespace
    return draw.choice([['-A'], ['-A', '-n', 'dev']]), ''


def user_agrees(draw, items, given):
    """How the answers about a user differ, or nothing; and whether it was a yes."""
    user, groups = draw.choice(USERS), some(draw, TEAMS) if draw.random() < 0.5 else []
    given_groups = ['--groups', ','.join(groups)] if groups else []
    if draw.random() < 0.3:
        given_groups = [word for group in groups for word in ('--group', group)]
    options, namespace = place(draw)
    asked, verb, target = request(draw, items)
    whole = lines_of('u:' + user, given, *given_groups)
    lines = lines_of('u:' + user, given, *given_groups, *options)
    if [it.text for it in lines] != [it.text for it in whole if it.home in (None, namespace)]:
        return 'rules %s of u:%s %s' % (options, user, given_groups), False
    allowing = [line.why for line in lines if line.allows(namespace, verb, target)]
    wanted = (0, 'yes\n%s\n' % allowing[0]) if allowing else (1, 'no\n')
    got = told('can-i', '--as', user, *given_groups, '--why', *options, *asked, given=given)
    said = 'can-i --as %s %s %s: by rules %r, got %r' % (
        user, given_groups + options, asked, wanted, got)
    return said if got != wanted else None, bool(allowing)


def holders_agree(draw, items, given):
    """How `who-can --why` and the rules of its holders differ, or nothing. A group's line is the
    first of its rules that allows the request. A user's is one of those that do: an earlier one, or
    an earlier subject of the same binding, may name a group of theirs."""
    options, namespace = place(draw)
    asked, verb, target = request(draw, items)
    status, out = told('who-can', '--why', *options, *asked, given=given)
    if status:
        return 'who-can: status %d, %s' % (status, out)
    held = {text_shown(shown): why for shown, why in (text.split('\t', 1) for text in out.splitlines())}
    for key in {*held, *('u:' + user for user in USERS), *('g:' + team for team in TEAMS)}:
        why = held.get(key)
        found = [line.why for line in lines_of(key, given) if line.allows(namespace, verb, target)]
        if key[0] == 'g':
            is_right = why == next(iter(found), None)
        else:
            is_right = why is None or without_subject(why) in map(without_subject, found)
        if not is_right:
            return 'who-can --why %s %s: %s has %r, by rules %r' % (options, asked, key, why, found)
    return None


def pairs_agree(draw, items, given):
    """How `who-can --every` differs from the bindings themselves, or nothing."""
    options, namespace = place(draw)
    asked, verb, target = request(draw, items)
    anywhere = draw.random() < 0.5
    wanted = []
    for (kind, home, name), subjects, rules in ordered_bindings(items):
        counts = is_live(home, home if anywhere and '-A' not in options else namespace, target)
        if counts and any(rule_allows(rule, verb, target) for rule in rules):
            keys = dict.fromkeys(key_of(subject, home) for subject in subjects)
            wanted += ['%s\t%s\n' % (field(key), field(binding_text(kind, home, name))) for key in keys if key]
    options = [*options, '--every', *['--anywhere'] * anywhere]
    got = told('who-can', *options, *asked, given=given)
    return None if got == (0, ''.join(wanted)) else 'who-can %s %s: wanted %r, got %r' % (options, asked, wanted, got)


def without_subject(why):
    return why.rpartition('\t')[0]


def main(seed, count):
    passed = failed = yes = 0
    for number in range(int(count)):
        draw = random.Random('%s %d' % (seed, number))
        items = odd(draw, [*roles(draw), *bindings(draw)])
        draw.shuffle(items)
        given = export(*items)
        for turn in range(USER_TURNS + 4):
            try:
                wrong, allowed = (user_agrees(draw, items, given) if turn < USER_TURNS
                                  else ((holders_agree if turn % 2 else pairs_agree)(draw, items, given), False))
            except ValueError as fault:
                wrong, allowed = str(fault), False
            passed, failed, yes = passed + (not wrong), failed + bool(wrong), yes + allowed
            if wrong:
                print('FAIL export %d of seed %s: %s; %s' % (number, seed, wrong, given.decode()))
    print('%d exports, %d questions of which %d are allowed'
          % (int(count), USER_TURNS * int(count), yes))
    if yes < 2 * int(count):
        print('FAIL too few are allowed')
        failed += 1
    print('%d passed, %d failed' % (passed, failed))
    return 1 if failed else 0


if __name__ == '__main__':
    sys.exit(main(*(sys.argv[1:3] or ['1', '100'])))
