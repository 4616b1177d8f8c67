"""What commands answer of users whom Group documents list, against docs/BEHAVIOUR.md written down once more.

Each random export has Group documents in odd places: several of one group, in a List or in a GroupList of their own, with a
member twice, without members, with names that begin as others do, with service accounts and Kubernetes' own groups. What
`can-i --why`, `rules` and `paths` have to print of a user is what the definition (tests/escalation.py) gives the user with the
groups that the documents list it in, and those of `--group` and `--groups`. What `who-can --members` has to print is worked out
here: the holders, and then a line for each member of a group among them.

Then the laws are looked for in the program's answers alone. Without its documents an export answers `can-i` and `rules` of a
user with these groups by `--group` as it does with them. And a user of the documents may do what is asked exactly if `--members` has a line of the
user, or of a group that Kubernetes itself gives it; and each user that only `--members` lists may do it.

`groups.py SEED COUNT` tries other exports. The last line is `N passed, M failed`.
"""

import collections
import json
import os
import random
import subprocess
import sys
import tempfile

import escalation
import matrix_pages
import paths
from common import PROGRAM, bare, export
from escalation import CLUSTER, Request, node_of
from meaning import field, groups_of, is_live, key_of
from matrix_pages import NAMES, NAMESPACES, TEAMS, some
from rules import odd, place, request

VERSION = 'user.openshift.io/v1'
# Users of bindings, and some that only documents list; one's name begins as another's does.
USERS = [*matrix_pages.USERS, 'alic', 'alice2', 'carol', 'a\tb', 'é\\', 'u:alice', 'system:serviceaccount:prod:ci']
GROUPS = [*TEAMS, *TEAMS, 'dev', 'devs2', 'a,b', '-']
TURNS = 14
RULE_LISTS = ('verbs', 'apiGroups', 'resources', 'resourceNames', 'nonResourceURLs')


# ---- drawing Group documents

def group(draw, name, users):
    """A document; one without members has a null, an empty list or nothing."""
    made = {'apiVersion': VERSION, 'kind': 'Group', 'metadata': {'name': name}}
    if not users and draw.random() < 0.5:
        return {**made, 'users': None} if draw.random() < 0.5 else made
    return {**made, 'users': users + users[:1] * (draw.random() < 0.2)}


def groups(draw, users, teams):
    return [group(draw, draw.choice(teams), draw.sample(users, draw.randint(0, min(5, len(users))))) for _ in range(draw.randint(2, 8))]


def written(draw, items, documents):
    """The inputs of an export: its objects with some of the documents among them, and a GroupList of the others."""
    objects, apart = [*items], []
    for it in documents:
        if draw.random() < 0.6:
            objects.insert(draw.randint(0, len(objects)), it)   # (the order of the others counts)
        else:
            apart.append(it)
    inputs = [export(*objects)]
    if apart:
        listed = [bare(it) if draw.random() < 0.5 else it for it in apart]
        inputs.append(json.dumps({'apiVersion': VERSION, 'kind': 'GroupList', 'items': listed}).encode())
    draw.shuffle(inputs)
    return inputs


def listing(documents, user):
    """The groups whose documents list a user."""
    return [it['metadata']['name'] for it in documents if user in (it.get('users') or [])]


def members(documents, name):
    """The users whom documents list in a group, by name."""
    return sorted({user for it in documents if it['metadata']['name'] == name for user in it.get('users') or []}, key=str.encode)


# ---- the program

class Asked:
    """The program over some inputs."""

    def __init__(self, folder, inputs):
        self.files = []
        for text in inputs:
            self.files.append(os.path.join(folder, '%d.json' % len(os.listdir(folder))))
            with open(self.files[-1], 'wb') as file:
                file.write(text)

    def told(self, *words):
        """Status and lines; what stands on standard error is a line of its own."""
        ended = subprocess.run([PROGRAM, *words, *self.files], stdin=subprocess.DEVNULL, stdout=subprocess.PIPE, stderr=subprocess.PIPE, timeout=60)
        return ended.returncode, (ended.stdout.decode() + ended.stderr.decode()).splitlines()


# ---- the definition

def list_shown(words):
    return '[%s]' % ','.join(field(word).replace(',', '\\x2c') for word in words)


def allowed(given, who, asked):
    """What `can-i --why` prints."""
    why = given.why(who, [asked])
    return (0, ['yes', '\t'.join(why)]) if why else (1, ['no'])


def rules(given, who, namespace):
    """The lines of `rules`: those that count in a namespace, or in the whole cluster, or all."""
    return 0, ['\t'.join([*held.why, *(list_shown(held.rule.get(name, [])) for name in RULE_LISTS)])
               for held in given.holdings(who) if namespace is None or held.home in (CLUSTER, namespace)]


Holder = collections.namedtuple('Holder', 'key binding why')


def holders(given, asked, anywhere, every):
    """The lines of `who-can`: of each binding that counts, the first rule that allows the request, and the keys of its subjects."""
    found = {}
    for home, subjects, rule, why in given.grants:
        counts = is_live(home, home if anywhere else asked.namespace, asked.target)
        if counts and escalation.rule_gives(rule, asked):
            for number, subject in enumerate(subjects, 1):
                key = key_of(subject, home)
                if key:
                    found.setdefault((key, why[0]) if every else key, Holder(key, why[0], (*why[1:], str(number))))
    return [*found.values()]


def with_members(lines, documents, every):
    """The lines of `who-can --members`."""
    told, more = {(line.key, line.binding) if every else line.key for line in lines}, []
    for line in lines:
        for user in members(documents, line.key[2:]) if line.key.startswith('g:') else ():
            mark = ('u:' + user, line.binding) if every else 'u:' + user
            if mark not in told:
                told.add(mark)
                more.append(line._replace(key='u:' + user))
    return lines + more


# ---- what is asked

class Case:
    """An export with its documents, the definition of it, and the program over it; and over the same without documents."""

    def __init__(self, draw, folder, items, documents, users, teams):
        self.draw, self.users, self.teams = draw, users, teams
        self.documents, self.items, self.given = documents, items, escalation.Export([*items, *documents])
        self.program = Asked(folder, written(draw, items, documents))
        self.bare = Asked(folder, [export(*items)])

    def who(self):
        """A user, the options that give it groups, and what it is with those and with the documents'; and how the program is asked
        without them."""
        user, given = self.draw.choice(self.users), some(self.draw, self.teams) if self.draw.random() < 0.3 else []
        options = ['--group=' + it for it in given]
        if given and all(',' not in it for it in given) and self.draw.random() < 0.5:
            options = ['--groups=' + ','.join(given)]
        listed = listing(self.documents, user)
        return user, options, node_of('u:' + user, [*given, *listed]), [*options, *('--group=' + it for it in listed)]

    def differ(self, words, wanted, others=None):
        """What is wrong about an answer, by the definition and by what the export without documents answers to other words."""
        got = self.program.told(*words)
        if got != wanted:
            return '%s: wanted %r, got %r' % (words, wanted, got)
        without = self.bare.told(*others) if others else got
        return None if got == without else '%s: got %r, and without documents %s: %r' % (words, got, others, without)


def can_i(case):
    """Of a user who may be in documents."""
    user, options, who, others = case.who()
    where, namespace = place(case.draw)
    words, verb, target = request(case.draw, case.items)
    wanted = allowed(case.given, who, Request(namespace, verb, target))
    ask = ['can-i', '--why', '--as', user, *where]
    return case.differ([*ask, *options, *words], wanted, [*ask, *others, *words]), not wanted[0]


def rules_of(case):
    user, options, who, others = case.who()
    where, namespace = place(case.draw) if case.draw.random() < 0.7 else ([], None)
    wanted = rules(case.given, who, namespace)
    return case.differ(['rules', *where, *options, '--', 'u:' + user], wanted, ['rules', *where, *others, '--', 'u:' + user]), bool(wanted[1])


def rules_of_group(case):
    """A member of one group alone gets none by documents, whatever its name is."""
    name = case.draw.choice([*case.teams, case.draw.choice(case.users)])
    wanted = rules(case.given, node_of('g:' + name), None)
    return case.differ(['rules', '--', 'g:' + name], wanted), bool(wanted[1])


def who_can(case):
    """The holders and the members; with each of the options that go with --members."""
    where, namespace = place(case.draw)
    words, verb, target = request(case.draw, case.items)
    anywhere, every, any_name, why = (case.draw.random() < 0.4 for _ in range(4))
    if any_name and target[0] == 'resource':
        target = (*target[:3], escalation.ANY)
    asked = Request(namespace, verb, target, any_name)
    lines = with_members(holders(case.given, asked, anywhere and '-A' not in where, every), case.documents, every)
    options = [word for word, is_so in zip(('--anywhere', '--every', '--any-name', '--why'), (anywhere, every, any_name, why)) if is_so]
    wanted = 0, ['\t'.join([field(it.key), it.binding, *(it.why if why else ())]) for it in lines]
    return case.differ(['who-can', '--members', *where, *options, *words], wanted), bool(case.documents and lines)


def members_agree(case):
    """Who of the documents may do what is asked, by `can-i` and by `who-can --members`."""
    for _ in range(4):
        where, _ = place(case.draw)
        words, _, _ = request(case.draw, case.items)
        status, lines = case.program.told('who-can', '--members', *where, *words)
        if any(line.startswith('g:') for line in lines):    # (most requests have no holder)
            break
    keys = {line.partition('\t')[0] for line in lines}
    holding = {line.partition('\t')[0] for line in case.program.told('who-can', *where, *words)[1]}
    for user in {user for it in case.documents for user in it.get('users') or []}:
        listed = listing(case.documents, user)
        by_kubernetes = any(field('g:' + it) in keys for it in groups_of(user, listed) - {*listed})
        may = case.program.told('can-i', '--as', user, *where, *words)[0] == 0
        if status or may != (field('u:' + user) in keys or by_kubernetes):
            return 'who-can --members %s %s: %r, and can-i of %s: %s' % (where, words, lines, user, may), False
        if field('u:' + user) in keys - holding and not may:
            return 'who-can --members %s %s lists %s, who may not' % (where, words, user), False
    stray = keys - holding - {field('u:' + user) for it in case.documents for user in it.get('users') or []}
    return 'who-can --members %s %s also lists %s' % (where, words, stray) if stray else None, bool(keys - holding)


def paths_of(case):
    """Of a user who may be in documents, as all other users may be; so an export without them has other nodes."""
    user, options, who, _ = case.who()
    steps = case.draw.sample(escalation.STEPS, 5) if case.draw.random() < 0.2 else escalation.STEPS
    ask = ['paths', *['--steps=' + ','.join(steps)] * (len(steps) == 5)]
    wanted = 0, [*escalation.paths(case.given, 'u:' + user, who.groups, steps)]
    return case.differ([*ask, *options, '--', 'u:' + user], wanted), bool(wanted[1])


QUESTIONS = (can_i, can_i, rules_of, rules_of_group, who_can, who_can, members_agree)


def cases(draw, folder):
    """Questions about an export of few words, and questions about paths over one of steps; each with what it needs."""
    items = odd(draw, [*matrix_pages.roles(draw), *matrix_pages.bindings(draw)])
    flat = Case(draw, folder, items, groups(draw, USERS, GROUPS), USERS, GROUPS)
    for turn in range(TURNS):
        yield QUESTIONS[turn % len(QUESTIONS)], flat
    world = paths.World(draw)
    items = [paths.whole(it) for it in world.items() if it['kind'] != 'Group']
    keys = {user for kind, user, *_ in escalation.Export(items).principals if kind == 'u'}
    users = sorted({*keys, *world.users, 'stranger'})
    deep = Case(draw, folder, items, groups(draw, users, world.teams), users, world.teams)
    for _ in range(3):
        yield paths_of, deep


def main(seed, count):
    passed, failed, met = 0, 0, collections.Counter()
    for number in range(int(count)):
        draw = random.Random('%s %d' % (seed, number))
        with tempfile.TemporaryDirectory() as folder:
            for question, case in cases(draw, folder):
                wrong, tells = question(case)
                met[question.__name__] += tells
                passed, failed = passed + (not wrong), failed + bool(wrong)
                if wrong:
                    print('FAIL export %d of seed %s: %s; %s' % (number, seed, wrong, ' '.join(open(path).read() for path in case.program.files)))
    names = dict.fromkeys(it.__name__ for it in (*QUESTIONS, paths_of))
    print('answers that have something: ' + ', '.join('%s %d' % (name, met[name]) for name in names))
    rare = [name for name in names if met[name] * 10 < int(count)]
    for name in rare:
        print('FAIL too few answers of %s have something' % name)
    print('%d passed, %d failed' % (passed, failed + len(rare)))
    return 1 if failed or rare else 0


if __name__ == '__main__':
    sys.exit(main(*(sys.argv[1:3] or ['1', '200'])))
