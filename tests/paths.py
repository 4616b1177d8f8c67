"""What `powers`, `paths` and `who-can --indirect` print of random small exports, against the definition: tests/escalation.py
asks for each pair of nodes and each step whether the one allows what the step asks of the other.

Exports are drawn mostly in the words of the table of steps, and in words that only nearly match: few rules, so that ways are
long, with names that mean something else in another place. Each answer of the program has to be, line for line, the one of
the definition; `paths --to` has the lines that tests/one_path.py follows, and status 1 without a line. Then the laws are looked
for in the program's answers alone: following a line's node before leads to the one asked about in as many lines; `paths` and
`who-can --indirect` agree; and whoever has no line in `powers` comes to nobody.

First of all the same is asked about the example cluster, of which some numbers are known.

`paths.py SEED COUNT` tries other exports. `paths.py --reference COMMAND WORD.. [FILE]..` prints the lines of the definition,
such as `paths.py --reference paths u:kim cluster.json`, without FILE those of standard input. `paths.py --rows` compares the
definition with the worked rows of rows_paths.json. `paths.py --itself SEED COUNT` lets the definition answer in the program's
place, which tests this test. The last line is `N passed, M failed`.
"""

import argparse
import collections
import itertools
import json
import os
import random
import subprocess
import sys

import escalation
import one_path
from common import PROGRAM, TOP, V1, export
from escalation import STEPS, TABLE, Export, Request
from meaning import account, groups_of, text_shown
from matrix_pages import some

# What is drawn from. Some names stand for a user, a group, an account, a namespace and a role.
NAMESPACES = ['dev', 'prod', '*', '-', 'a/b', 'x:y', 'kube-system']
ACCOUNTS = ['ci', 'bot', '*', '-', 'a:b']
USERS = ['alice', 'bob', 'ci', '*', '-', 'a\tb', 'é\\', 'system:anonymous', 'system:serviceaccount:dev:', 'system:serviceaccount:dev:ci:x']
TEAMS = ['devs', 'alice', 'a,b', '*', '-', 'system:authenticated', 'system:unauthenticated', 'system:serviceaccounts',
         'system:serviceaccounts:dev', 'system:serviceaccounts:*', 'system:bootstrappers', 'system:bootstrappers:a', 'system:bootstrappersa']
ROLES = ['a', 'b', 'ci', '*', '-', 'x/y', 'é\\']
# Words beside those of a row: most of them match nothing of the table, some all of it.
VERBS = ['get', 'create', 'bind', 'delete', 'Bind', '']
GROUPS = ['', 'apps', 'batch', 'rbac.authorization.k8s.io', 'extensions']
RESOURCES = ['pods', 'jobs', 'users', 'roles', 'serviceaccounts', 'nodes', 'secrets/x', 'pods/log', '*/exec', '*/token', '*/proxy', '*/approval',
             '*/*', '/']
# The URLs of rules.
URLS = ['*', '/', '/healthz', '/healthz/*', '/metrics*', 'x']
# How many lines `powers` has of each step over the example cluster.
POWERS = {'impersonate': 10, 'token': 10, 'run': 15, 'exec': 12, 'secrets': 15, 'nodes': 6, 'bind': 7, 'escalate': 6, 'certificates': 5, 'webhooks': 5,
          'apiservices': 5, 'bootstrap': 8, 'volumes': 5, 'namespaces': 5}


# ---- drawing an export

def extra_kinds(over, name):
    """What else of the table a principal of this kind and name is."""
    return escalation.what_it_is(escalation.node_of('g:' + name)) if over == 'group' else set()


class World:
    """The names of an export."""

    def __init__(self, draw):
        self.draw = draw
        self.namespaces = [*{*draw.sample(NAMESPACES, 2), *draw.sample(['default', 'kube-system'], draw.choice([0, 0, 1]))}]
        self.namespaces.sort()
        self.homes = some(draw, self.namespaces)
        self.accounts = some(draw, ACCOUNTS, 2)
        self.users = some(draw, USERS) + [account(home, name) for home in self.namespaces for name in self.accounts if draw.random() < 0.3]
        self.teams = some(draw, TEAMS)
        self.roles = draw.sample(ROLES, 4)
        self.density = draw.choice([0, 0, 0.05])

    def rule(self, in_cluster, step):
        """The words of a row of a step, less some and with others beside them."""
        draw = self.draw
        if in_cluster and draw.random() < 0.08:
            return {'verbs': some(draw, ['*', 'get', 'post'], 2), 'nonResourceURLs': some(draw, URLS)}
        row = draw.choice([row for row in TABLE if row.step == step])
        words = [word.partition('.') for word in some(draw, row.types)]
        drawn = {'verbs': self.words(some(draw, row.verbs), VERBS), 'apiGroups': self.words([group for _, _, group in words], GROUPS),
                 'resources': self.words([resource for resource, _, _ in words], RESOURCES)}
        if step in ('bind', 'escalate') and draw.random() < 0.2:
            # (who may write any rule is told no role that the same rule lets one bind)
            drawn['verbs'] = ['bind', 'escalate']
        if draw.random() < (0.6 if row.of != 'any' else 0.3):
            named = {'user': self.users, 'group': self.teams, 'ClusterRole': self.roles, 'Role': self.roles}.get(row.over, self.accounts)
            drawn['resourceNames'] = some(draw, named) + some(draw, self.users + self.teams + [''])[1:]
        return drawn

    def step(self):
        """Those of several rows count for more."""
        return self.draw.choice(STEPS * 2 + ['impersonate', 'run', 'exec', 'bind', 'bind', 'escalate', 'webhooks'])

    def words(self, words, others):
        draw = self.draw
        if draw.random() < self.density:
            return ['*']
        return [*dict.fromkeys(words)] + [draw.choice(others)] * (draw.random() < 0.15)

    def role(self, kind, name, home=None):
        draw = self.draw
        steps = [self.step()] * 3 if draw.random() < 0.2 else [self.step() for _ in range(draw.choice([0, 1, 2, 3, 3]))]
        made = {'apiVersion': V1, 'kind': kind, 'metadata': {'name': name}, 'rules': [self.rule(not home, step) for step in steps]}
        if home:
            made['metadata']['namespace'] = home
            return made
        made['metadata']['labels'] = {'to': draw.choice('xyz')}
        if draw.random() < 0.2:
            made['aggregationRule'] = {'clusterRoleSelectors': [{'matchLabels': {'to': to}} for to in some(draw, 'xyz', 2)]}
        return made

    def subject(self):
        draw = self.draw
        kind = draw.choice(['User', 'ServiceAccount', 'ServiceAccount', 'Group'])
        if kind != 'ServiceAccount':
            return {'kind': kind, 'name': draw.choice(self.users if kind == 'User' else self.teams)}
        named = {'kind': kind, 'name': draw.choice(self.accounts)}
        return {**named, 'namespace': draw.choice([*self.namespaces, ''])} if draw.random() < 0.8 else named

    def binding(self):
        draw = self.draw
        kind = draw.choice(['ClusterRoleBinding', 'RoleBinding'])
        of_role = kind == 'RoleBinding' and draw.random() < 0.4
        metadata = {'name': draw.choice(ROLES + ['b', 'd', 'e', 'f', 'g'])}
        if kind == 'RoleBinding':
            metadata['namespace'] = draw.choice(self.homes)
        name = draw.choice(self.roles)
        if draw.random() < 0.15:
            # Its namespace counts all the same, unless it is a ClusterRoleBinding, which has none.
            name = 'gone'
            metadata['namespace'] = draw.choice(self.namespaces)
        return {'apiVersion': V1, 'kind': kind, 'metadata': metadata, 'roleRef': {'kind': 'Role' if of_role else 'ClusterRole', 'name': name},
                'subjects': [self.subject() for _ in range(draw.choice([0, 1, 1, 1, 2, 3]))]}

    def account(self):
        metadata = {'name': self.draw.choice(self.accounts), 'namespace': self.draw.choice([*self.namespaces, ''])}
        return {'apiVersion': 'v1', 'kind': 'ServiceAccount', 'metadata': metadata}

    def group(self):
        """A Group document: some are of groups that others are of too, and list a user twice."""
        draw = self.draw
        users = [draw.choice(self.users + ['listed']) for _ in range(draw.choice([0, 1, 2, 3]))]
        return {'apiVersion': 'user.openshift.io/v1', 'kind': 'Group', 'metadata': {'name': draw.choice(self.teams + ['told'])},
                'users': users or draw.choice([[], None])}

    def chain(self):
        """Each of some principals has a role by which it takes over the next one, or by which it binds such a role. In some chains
        the one before it has this role too, so that there are several ways of one length."""
        draw = self.draw
        is_double = draw.random() < 0.4
        others = [('user', name, None) for name in self.users if not name.startswith('system:')] + [('group', name, None) for name in self.teams]
        ends = some(draw, others, 2) + [('account', name, home) for name in self.accounts for home in self.namespaces]
        draw.shuffle(ends)
        for number, (one, (over, name, home)) in enumerate(zip(ends, ends[1:])):
            role, row = 'chain%d' % number, draw.choice([row for row in TABLE if row.over == over or row.over in extra_kinds(over, name)])
            yield self.narrow(role, row, name)
            if draw.random() < 0.3:
                [binds] = [row for row in TABLE if row.over == 'ClusterRole']
                yield self.narrow(role + 'b', binds, role)
                role += 'b'
            home = {'cluster': None, 'kube-system': 'kube-system'}.get(row.place, home)
            yield self.bound(role, home, [one, *ends[:number][-1:]] if is_double else [one])

    def narrow(self, role, row, name):
        """A role that allows one request of a row."""
        resource, _, group = self.draw.choice(row.types).partition('.')
        rule = {'verbs': [self.draw.choice(row.verbs)], 'apiGroups': [group], 'resources': [resource]}
        return {'apiVersion': V1, 'kind': 'ClusterRole', 'metadata': {'name': role},
                'rules': [{**rule, 'resourceNames': [name]} if row.of == 'NAME' else rule]}

    @staticmethod
    def bound(role, home, ends):
        """Binds a role, in a namespace or in none."""
        kinds = {'user': 'User', 'group': 'Group', 'account': 'ServiceAccount'}
        subjects = [{'kind': kinds[over], 'name': name, **({'namespace': of} if of else {})} for over, name, of in ends]
        return {'apiVersion': V1, 'kind': 'RoleBinding' if home else 'ClusterRoleBinding', 'roleRef': {'kind': 'ClusterRole', 'name': role},
                'metadata': {'name': role, 'namespace': home} if home else {'name': role}, 'subjects': subjects}

    def web(self):
        """Roles that may bind one another by name: each the next one, or each all of them, and some gather the rules of another. The
        first of them is bound in some namespaces, or in the whole cluster. Some rules also list a name that everything has, none."""
        draw = self.draw
        names = ['web%d' % number for number in range(draw.choice([2, 3, 4]))]
        is_chain, gathers = draw.random() < 0.5, draw.random() < 0.4
        for name, after in zip(names, [*names[1:], 'gone']):
            rule = {'verbs': ['bind'], 'apiGroups': ['rbac.authorization.k8s.io'], 'resources': some(draw, ['clusterroles', 'roles'], 2),
                    'resourceNames': ([after] if is_chain else names) + [''] * (draw.random() < 0.1)}
            if draw.random() < 0.05:
                del rule['resourceNames']
            role = {'apiVersion': V1, 'kind': 'ClusterRole', 'metadata': {'name': name, 'labels': {'web': 'w'}}, 'rules': [rule]}
            if gathers and name != names[-1] and draw.random() < 0.7:
                role['aggregationRule'] = {'clusterRoleSelectors': [{'matchLabels': {'web': 'w'}}]}
            yield role
            for home in self.homes:
                if draw.random() < 0.4:
                    yield {'apiVersion': V1, 'kind': 'Role', 'metadata': {'name': name, 'namespace': home}, 'rules': [rule]}
        for home in some(draw, [*self.homes, None]):
            yield self.bound(names[0], home, [('user', name, None) for name in some(draw, self.users, 2)])

    def crowd(self):
        """Some principals share a role that names what it takes over: each by a binding of its own, so that bindings are alike and a
        list of words is taken by many; or all by one binding, which names most of them twice."""
        draw = self.draw
        ends = [('user', name, None) for name in self.users] + [('group', name, None) for name in self.teams]
        ends += [('account', name, home) for name in self.accounts for home in self.namespaces]
        role = self.narrow('crowd', draw.choice([row for row in TABLE if row.of == 'NAME']), '')
        role['rules'][0]['resourceNames'] = [*dict.fromkeys([name for _, name, _ in ends] + some(draw, self.roles))]
        yield role
        home = draw.choice([*self.homes, None])
        if draw.random() < 0.4:
            # (from 32 subjects on, the first that names somebody is looked up)
            yield self.bound('crowd', home, draw.choices(ends, k=draw.choice([31, 32, 33])))
            return
        for number, end in enumerate(ends):
            bound = self.bound('crowd', draw.choice([home, home, None]), [end])
            bound['metadata']['name'] = 'crowd%d' % number
            yield bound

    def items(self):
        """Some objects are there twice, and the later one replaces the other."""
        draw = self.draw
        items = [self.role('ClusterRole', name) for name in self.roles if draw.random() < 0.9]
        items += [self.role('Role', name, home) for name in self.roles for home in self.namespaces if draw.random() < 0.7]
        is_chain = draw.random() < 0.4
        items += self.chain() if is_chain else ()
        items += self.web() if draw.random() < 0.4 else ()
        items += self.crowd() if draw.random() < 0.2 else ()
        items += [self.binding() for _ in range(draw.randint(0, 3) if is_chain else draw.randint(5, 12))]
        items += [self.account() for _ in range(draw.randint(0, 4))]
        items += [self.group() for _ in range(draw.choice([0, 0, 1, 2, 4]))]
        draw.shuffle(items)
        return items


# ---- what is asked

def who_asked(draw, world, given):
    """The key of a principal, or mostly of none, and groups."""
    if draw.random() < 0.85 and given.principals:
        key = escalation.principal_key(draw.choice([node for node in given.principals if given.holdings(node)] or given.principals))
    else:
        key = draw.choice(['u:stranger', 'g:strangers', 'u:' + account(world.namespaces[0], 'new'), 'u:' + draw.choice(USERS)])
    groups = some(draw, world.teams + ['system:unauthenticated']) if key[0] == 'u' and draw.random() < 0.25 else []
    if all(',' not in group for group in groups) and draw.random() < 0.5:
        return key, ['--groups=' + ','.join(groups)] if groups else []
    return key, ['--group=' + group for group in groups]


def url_asked(draw, given):
    """The words of a question about a URL, mostly one that a grant allows. A namespace is given, and doesn't count."""
    words = [word for _, _, rule, _ in given.grants for word in rule.get('nonResourceURLs', []) if word.startswith('/')]
    url = draw.choice(words).rstrip('*') + draw.choice(['', '', 'x']) if words and draw.random() < 0.7 else draw.choice(['/', '/healthz'])
    return draw.choice([[], ['-A'], *(['--namespace=' + home] for home in given.homes)]), [draw.choice(['get', 'get', 'post']), url]


def target_asked(draw, given):
    """The words of a question: where, and a verb and a target; mostly what a grant allows, or a row asks for."""
    if draw.random() < 0.1:
        return url_asked(draw, given)
    row, home = draw.choice(TABLE), draw.choice([*given.homes, None])
    resource, _, group = draw.choice(row.types).partition('.')
    verb, name = draw.choice(row.verbs), ''
    grants = [(home, rule) for home, _, rule, _ in given.grants if 'resources' in rule]
    if grants and draw.random() < 0.8:
        home, rule = draw.choice(grants)
        verb, group, resource = (draw.choice(rule[part]) for part in ('verbs', 'apiGroups', 'resources'))
        name = draw.choice(rule.get('resourceNames') or [''])
    if resource.startswith('/'):
        return ['-A'], [verb or 'get', resource]
    if draw.random() < 0.3 or not home:
        home = draw.choice([*given.homes, '', None])
    where = ['-A'] if home is None else ['--namespace=' + home] if home else []
    resource, _, below = resource.replace('*', 'jobs').partition('/')
    type_word = '%s.%s' % (resource, group.replace('*', 'apps')) if group else resource
    return where + ['--subresource=' + below] * bool(below), [verb or 'get', type_word + ('/' + name if name else '')]


def questions(draw, world, given):
    """The words of each question about an export; the steps are the same in most of them, so that the laws can be looked for."""
    most = draw.choice([1, 4, 8, 13]) if draw.random() < 0.3 else None
    steps = ['--steps=' + ','.join(draw.sample(STEPS, most))] if most else []
    yield ['powers']
    for _ in range(7):
        key, groups = who_asked(draw, world, given)
        yield ['paths', *groups, *steps, '--', key]
        if draw.random() < 0.5:
            asked = PARSER.parse_args(['paths', *groups, *steps, '--', key])
            end = one_path.asked_end(draw, given, asked.steps, key, given_groups(asked))
            yield ['paths', *groups, *end, *steps, '--', key]
    for _ in range(4):
        options, words = target_asked(draw, given)
        yield ['who-can', '--indirect', *options, *steps, '--', *words]


# ---- the answers of the definition

def parser():
    """The words of the three commands, as docs/BEHAVIOUR.md has those that aren't new."""
    whole = argparse.ArgumentParser(prog='paths.py --reference', allow_abbrev=False)
    commands = whole.add_subparsers(dest='command', required=True)
    powers, paths, who_can = (commands.add_parser(name, allow_abbrev=False) for name in ('powers', 'paths', 'who-can'))
    paths.add_argument('--groups', default='')
    paths.add_argument('--group', action='append', default=[])
    paths.add_argument('--to')
    paths.add_argument('-n', '--namespace', default='')
    who_can.add_argument('--indirect', action='store_true', help='always so here')
    who_can.add_argument('-n', '--namespace', default='')
    who_can.add_argument('-A', '--all-namespaces', action='store_true')
    who_can.add_argument('--in-namespace', action='store_true', help='changes nothing without API resource lists')
    who_can.add_argument('--subresource', default='')
    for command, words in ((powers, []), (paths, ['who']), (who_can, ['verb', 'target'])):
        if words:
            command.add_argument('--steps', type=lambda text: text.split(','), default=STEPS)
        for word in words:
            command.add_argument(word)
        command.add_argument('files', nargs='*')
    return whole


PARSER = parser()


def request_of(asked):
    """What `who-can` asks, by words that are taken as written."""
    if asked.target.startswith('/'):
        return Request('', asked.verb, ('url', asked.target))
    type_word, _, name = asked.target.partition('/')
    _, group, resource, _ = escalation.target(type_word, '')
    whole = '/'.join([resource, asked.subresource]) if asked.subresource else resource
    return Request('' if asked.all_namespaces else asked.namespace or 'default', asked.verb, ('resource', group, whole, name))


def given_groups(asked):
    return [group for group in asked.groups.split(',') + asked.group if group]


def answer(asked, given):
    """The lines of the definition."""
    if asked.command == 'powers':
        return [*escalation.powers(given)]
    if asked.command == 'paths':
        lines = [*escalation.paths(given, asked.who, given_groups(asked), asked.steps)]
        return lines if asked.to is None else one_path.lines_to(lines, asked.to, asked.namespace)
    return [*escalation.indirect(given, request_of(asked), asked.steps)]


def whole(item):
    """An object with the fields that tests/meaning.py wants to be there."""
    if item['kind'].endswith('Binding'):
        return {**item, 'subjects': item.get('subjects') or []}
    return {**item, 'rules': item.get('rules') or [], 'metadata': {'labels': {}, **item['metadata']}}


def items_of(text):
    """The objects of a document that count here; one that the definition can't read is refused."""
    document = json.loads(text)
    kind = document['kind'][:-len('List')]
    for item in document['items'] if 'items' in document else [document]:
        item = {'kind': kind, **item}
        if item['kind'] == 'APIResourceList' or 'matchExpressions' in json.dumps(item.get('aggregationRule')):
            sys.exit('the definition knows neither API resource lists nor matchExpressions')
        if item['kind'] in ('Role', 'ClusterRole', 'RoleBinding', 'ClusterRoleBinding', 'ServiceAccount', 'Group'):
            yield whole(item)


def read_files(paths):
    """The export of files, or of standard input if there is none."""
    texts = []
    for path in paths:
        with open(path, encoding='utf-8') as file:
            texts.append(file.read())
    return Export([item for text in texts or [sys.stdin.read()] for item in items_of(text)])


def rows():
    """Compares the definition with the rows that were worked by hand."""
    with open(os.path.join(TOP, 'tests', 'rows_paths.json'), encoding='utf-8') as file:
        table = json.load(file)['lines']
    results = []
    for row in table:
        given = Export([*map(whole, row['items'])])
        for words, _, wanted in row['asks']:
            got = answer(PARSER.parse_args(words.split(' ')), given)
            results.append(got == wanted)
            if got != wanted:
                print('FAIL %s %s: wanted %r, got %r' % (row['rule'], words, wanted, got))
    print('%d passed, %d failed' % (results.count(True), results.count(False)))
    return 0 if all(results) else 1


def reference(words):
    """Prints the lines of the definition over files, as the program does."""
    asked = PARSER.parse_args(words)
    for line in answer(asked, read_files(asked.files)):
        print(line)
    return 0


# ---- the laws

Line = collections.namedtuple('Line', 'number node other step')


def read(text):
    """A line of `paths` or `who-can --indirect`."""
    number, who, where, other, other_where, step, *why = text.split('\t')
    if len(why) != 5 or step not in STEPS + ['-']:
        raise ValueError('no line: %r' % text)
    return Line(int(number), (who, where), (other, other_where), step)


def follow(lines, ends):
    """Whether following each line's other node leads to one of the ends in as many lines."""
    numbers = {**dict.fromkeys(ends, 0), **{line.node: line.number for line in lines}}
    return all(numbers.get(line.other) == line.number - 1 for line in lines if line.number)


def broken_law(answers, given):
    """What no answer to these questions may be, whatever the export is; or nothing."""
    powers = {tuple(map(text_shown, line.split('\t')[:2])) for asked, lines in answers if asked.command == 'powers' for line in lines}
    ways = [(asked, [*map(read, lines)]) for asked, lines in answers if asked.command == 'paths' and asked.to is None]
    held = [(asked, [*map(read, lines)]) for asked, lines in answers if asked.command == 'who-can']
    for asked, lines in ways:
        if not follow(lines, [escalation.shown(escalation.node_of(asked.who))]):
            return 'paths %s: following the node before does not lead there' % asked.who
        if lines and not powers & {*itertools.product(asked.steps, keys_of(asked, given))}:
            return 'paths %s: has nodes, but no powers' % asked.who
    for asked, lines in held:
        if not follow(lines, []):
            return 'who-can %s %s: following the node after does not lead there' % (asked.verb, asked.target)
    for (asked, lines), (other, nodes) in itertools.product(held, ways):
        is_plain = not given_groups(other) and given.named(other.who) in given.principals
        if is_plain and other.steps == asked.steps and least(other, nodes, request_of(asked), given) != number_of(other, lines):
            return 'paths %s and who-can %s %s do not agree' % (other.who, asked.verb, asked.target)
    return None


def keys_of(asked, given):
    """The key of the one asked about, and those of its groups."""
    name = asked.who[2:]
    groups = {name} if asked.who.startswith('g:') else groups_of(name, given.named(asked.who, given_groups(asked)).groups)
    return {'g:' + group for group in groups} | {asked.who}


def number_of(asked, lines):
    """The number of the one asked about among those who can, or nothing."""
    shown = escalation.shown(escalation.node_of(asked.who))
    return next((line.number for line in lines if line.node == shown), None)


def least(asked, lines, request, given):
    """The least number of steps from the one asked about to a node that allows the request, by its paths; or nothing."""
    allow = {escalation.shown(node) for node in given.nodes if given.why(node, [request])}
    numbers = {escalation.shown(escalation.node_of(asked.who)): 0, **{line.node: line.number for line in lines}}
    return min((number for node, number in numbers.items() if node in allow), default=None)


# ---- trying

def told(words, given):
    """The lines of the program, or what else it says."""
    ended = subprocess.run([PROGRAM, *words], input=given, stdout=subprocess.PIPE, stderr=subprocess.PIPE, timeout=60)
    nothing = not ended.stdout and any(word.startswith('--to') for word in words)
    if (ended.returncode, ended.stderr) != (int(nothing), b''):
        raise ValueError('%s: status %d, %r' % (words, ended.returncode, ended.stderr))
    return ended.stdout.decode().split('\n')[:-1]


def wrong_answer(words, given, ask):
    """What is wrong with the answers to some questions, each as words, or nothing; and the answers."""
    answers = []
    for asked, its in ((PARSER.parse_args(its), its) for its in words):
        wanted = answer(asked, given)
        got = ask(its) if ask else wanted
        if got != wanted:
            return '%s: wanted %r, got %r' % (its, wanted, got), answers
        answers.append((asked, got))
    return broken_law(answers, given), answers


def tried(seed, number, counts, itself):
    """What is wrong with the answers about an export, or nothing."""
    draw = random.Random('%s %d' % (seed, number))
    world = World(draw)
    items = world.items()
    text, given = export(*items), Export([*map(whole, items)])
    wrong, answers = wrong_answer(questions(draw, world, given), given, None if itself else lambda words: told(words, text))
    for asked, lines in answers:
        count(counts, asked, lines)
    return wrong and '%s; %s' % (wrong, text.decode())


def example(itself):
    """What is wrong with the answers about the example cluster, or nothing: also how many have powers, and come to everything."""
    paths = [os.path.join(TOP, 'examples', 'cluster', name + '.json') for name in ('cluster', 'namespaced', 'accounts')]
    given = read_files(paths)
    words = [['powers'], *(['paths', escalation.principal_key(node)] for node in given.principals),
             ['who-can', '--indirect', '-A', 'delete', 'nodes'], ['who-can', '--indirect', '-n', 'payments', 'get', 'secrets']]
    wrong, answers = wrong_answer(words, given, None if itself else lambda words: told([*words, *paths], b''))
    powers = collections.Counter(line.split('\t')[0] for _, lines in answers[:1] for line in lines)
    rich = [asked.who for asked, lines in answers if asked.command == 'paths' and any(read(line).node == ('*', '*') for line in lines)]
    if not wrong and (powers, len(given.principals), len(rich)) != (POWERS, 46, 13):
        wrong = 'powers %s; everything for %s' % (powers, rich)
    return wrong


def count(counts, asked, lines):
    """What the answers have, to see that all of it is drawn."""
    command = 'one path' if asked.command == 'paths' and asked.to is not None else asked.command
    counts[command] += 1
    counts[command + ' without a line'] += not lines
    for text in lines:
        step = text.split('\t')[0] if command == 'powers' else read(text).step
        counts['%s by %s' % (command, step)] += 1
        if command != 'powers':
            counts['%s of %d steps' % (command, min(read(text).number, 4))] += 1
    if command == 'one path' and lines:
        counts['one path to ' + one_path.kind_of(asked.to)] += 1
    for kind in kinds_of(asked) if lines else ():
        counts['%s %s' % (asked.command, kind)] += 1


# What a question of `who-can` may be.
KINDS = ['of a URL', 'of a name', 'of a subresource', 'everywhere', 'in a namespace', 'by some steps']


def kinds_of(asked):
    if asked.command == 'who-can':
        is_url = asked.target.startswith('/')
        has = [is_url, not is_url and '/' in asked.target, asked.subresource, asked.all_namespaces, asked.namespace, asked.steps != STEPS]
        yield from (kind for kind, well in zip(KINDS, has) if well)


def too_few(counts, exports):
    """What is hardly drawn: each step in each command, each number of steps, and answers with and without a line."""
    wanted = ['%s by %s' % (command, step) for command in ('powers', 'paths', 'who-can') for step in STEPS
              if command == 'powers' or step not in escalation.POWERS_ALONE]
    wanted += ['%s of %d steps' % (command, number) for command in ('paths', 'who-can') for number in range(command == 'paths', 5)]
    wanted += [command + ' without a line' for command in ('powers', 'paths', 'who-can', 'one path')] + ['who-can ' + kind for kind in KINDS]
    wanted += ['one path to ' + kind for kind in one_path.KINDS] + ['one path of %d steps' % number for number in range(1, 5)]
    return [name for name in wanted if counts[name] < exports // 100]


def main(seed='1', number='300', itself=False):
    counts, passed, failed = collections.Counter(), 0, 0
    for at in ['example', *range(int(number))]:
        try:
            wrong = example(itself) if at == 'example' else tried(seed, at, counts, itself)
        except ValueError as fault:
            wrong = str(fault)
        passed, failed = passed + (not wrong), failed + bool(wrong)
        if wrong:
            print('FAIL export %s of seed %s: %s' % (at, seed, wrong))
    print('%s exports: %s' % (number, ', '.join('%s %d' % pair for pair in sorted(counts.items()))))
    if too_few(counts, int(number)):
        print('FAIL too few lines or answers: %s' % ', '.join(too_few(counts, int(number))))
        failed += 1
    print('%d passed, %d failed' % (passed, failed))
    return 1 if failed else 0


if __name__ == '__main__':
    MODE, WORDS = (sys.argv[1], sys.argv[2:]) if sys.argv[1:2] and sys.argv[1].startswith('--') else ('', sys.argv[1:3])
    sys.exit({'': lambda: main(*WORDS), '--itself': lambda: main(*WORDS, itself=True), '--rows': rows, '--reference': lambda: reference(WORDS)}[MODE]())
