"""Whom somebody can take over, by the definition: the table of steps, the nodes, and the lines of `powers`, `paths` and
`who-can --indirect`.

Nothing here is clever: whether a node takes over another is asked for each pair and each step, request by request, by what
tests/meaning.py says is allowed. A node is a tuple of a kind, a name, a scope and groups. Its kind is `u` or `g` (a principal,
whose scope is None), `ClusterRole` or `Role`, or `*` for everything in the scope. A scope is a namespace, or the empty text for
the whole cluster. Its groups are those that Group documents give a user; the one asked about may be given more.
"""

import collections
import itertools
import re

from meaning import (account, binding_text, field, groups_of, is_live, is_named, key_of, name_of, objects, role_of,
                     rule_allows, sources_of)

CLUSTER = ''
ANY = None
KUBE_SYSTEM = 'kube-system'
RBAC = '.rbac.authorization.k8s.io'
CERTIFICATES = '.certificates.k8s.io'
ADMISSION = '.admissionregistration.k8s.io'
REGISTRATION = '.apiregistration.k8s.io'

# Of a row of the table: the step, its verbs and types, of which object (without a name, NAME, or any), in what kind of scope it
# is asked, and what it takes over.
Row = collections.namedtuple('Row', 'step verbs types of place over')


def row(step, verbs, types, of, place, over):
    return Row(step, verbs.split(), types.split(), of, place, over)


TABLE = [
    row('impersonate', 'impersonate', 'users', 'NAME', 'cluster', 'user'),
    row('impersonate', 'impersonate', 'groups', 'NAME', 'cluster', 'group'),
    row('impersonate', 'impersonate', 'serviceaccounts', 'NAME', 'NS', 'account'),
    row('token', 'create', 'serviceaccounts/token', 'NAME', 'NS', 'account'),
    row('run', 'create', 'pods jobs.batch', 'any', 'NS', 'account'),
    row('run', 'create update patch', 'replicationcontrollers daemonsets.apps deployments.apps replicasets.apps statefulsets.apps '
        'cronjobs.batch controllerrevisions.apps', 'any', 'NS', 'account'),
    row('exec', 'create get', 'pods/attach pods/exec', 'any', 'NS', 'account'),
    row('exec', 'update patch', 'pods pods/ephemeralcontainers', 'any', 'NS', 'account'),
    row('secrets', 'get list watch update patch delete deletecollection', 'secrets', 'any', 'NS', 'account'),
    row('nodes', 'create get', 'nodes/proxy', 'any', 'cluster', 'account'),
    row('bind', 'bind', 'clusterroles' + RBAC, '-', 'scope', 'everything'),
    row('bind', 'bind', 'clusterroles' + RBAC, 'NAME', 'scope', 'ClusterRole'),
    row('bind', 'bind', 'roles' + RBAC, 'NAME', 'NS', 'Role'),
    row('escalate', 'escalate', 'clusterroles' + RBAC, 'any', 'cluster', 'everything'),
    row('escalate', 'escalate', 'roles' + RBAC, 'any', 'NS', 'everything'),
    row('certificates', 'update patch', 'certificatesigningrequests/approval' + CERTIFICATES, 'any', 'cluster', 'everything'),
    row('certificates', 'create', 'certificatesigningrequests/nodeclient' + CERTIFICATES + ' certificatesigningrequests/selfnodeclient'
        + CERTIFICATES, 'any', 'cluster', 'account'),
    row('webhooks', 'create update patch', ' '.join(word + ADMISSION for word in (
        'mutatingwebhookconfigurations', 'validatingwebhookconfigurations', 'mutatingadmissionpolicies', 'mutatingadmissionpolicybindings')),
        'any', 'cluster', 'everything'),
    row('apiservices', 'create update patch', 'apiservices' + REGISTRATION, 'any', 'cluster', 'everything'),
    row('bootstrap', 'create update patch', 'secrets', 'any', KUBE_SYSTEM, 'bootstrapper'),
    row('volumes', 'create', 'persistentvolumes', 'any', 'cluster', 'nobody'),
    row('namespaces', 'update patch', 'namespaces', 'any', 'NS', 'nobody'),
]
STEPS = [*dict.fromkeys(row.step for row in TABLE)]
# These are powers alone: they take over nobody.
POWERS_ALONE = {row.step for row in TABLE if row.over == 'nobody'}

Node = collections.namedtuple('Node', 'kind name scope groups', defaults=[frozenset()])
# What is asked of a node: where, the verb, the target, and whether the names of a rule don't count.
Request = collections.namedtuple('Request', 'namespace verb target any_name', defaults=[False])
# How a node comes to a rule: where it counts, the rule, and the five fields that tell it.
Holding = collections.namedtuple('Holding', 'home rule why')

NO_WHY = ('-',) * 5
ALL = {'verbs': ['*'], 'apiGroups': ['*'], 'resources': ['*'], 'nonResourceURLs': ['*']}
ACCOUNT = re.compile(r'system:serviceaccount:([^:]+):([^:]+)', re.S)


# ---- nodes

def node_of(key, groups=()):
    return Node(key[0], key[2:], None, frozenset(groups))


def principal_key(node):
    return node.kind + ':' + node.name


def account_of(node):
    """The namespace and the name of an account, or nothing."""
    found = ACCOUNT.fullmatch(node.name) if node.kind == 'u' else None
    return found and found.groups()


def is_everything(node):
    return node.kind == '*'


def is_role(node):
    return node.kind in ('ClusterRole', 'Role')


def role_name(node):
    """The kind, the namespace and the name of a node's role."""
    return node.kind, node.scope if node.kind == 'Role' else '', node.name


def scope_shown(scope):
    return {CLUSTER: '*', '*': '\\x2a'}.get(scope) or field(scope)


def shown(node):
    """Who and where, as printed."""
    if node.scope is None:
        return field(principal_key(node)), '-'
    return '*' if is_everything(node) else field(binding_text(*role_name(node))), scope_shown(node.scope)


def order(texts):
    return [text.encode() for text in texts]


def printed_order(node):
    return order(shown(node))


# ---- the requests of a row

def target(type_word, name):
    resource, _, group = type_word.partition('.')
    return 'resource', group, resource, name


def is_nameless(verb, type_word):
    """Whether a request has no object name, so that a rule limited to names doesn't allow it."""
    resource = type_word.partition('.')[0]
    is_of_nodes = resource in ('certificatesigningrequests/nodeclient', 'certificatesigningrequests/selfnodeclient')
    return verb == 'deletecollection' or verb == 'create' and ('/' not in resource or is_of_nodes)


def requests_of(row, namespace, name):
    """What a row asks in a scope, of an object or of any."""
    return [Request(namespace, verb, target(word, name or ''), name is ANY and not is_nameless(verb, word))
            for word in row.types for verb in row.verbs]


def requests_for(row, node):
    """Any of these takes over a node by a row; none does if the row takes over no such nodes."""
    namespace, name = account_of(node) or (node.scope, node.name)
    if row.place == KUBE_SYSTEM:
        namespace = KUBE_SYSTEM
    elif row.place == 'cluster' and node.scope is None:
        namespace = CLUSTER
    if row.over not in what_it_is(node) or row.place not in ('scope', KUBE_SYSTEM, 'cluster' if namespace == CLUSTER else 'NS'):
        return []
    return requests_of(row, namespace, {'-': '', 'NAME': name, 'any': ANY}[row.of])


def what_it_is(node):
    """The words of the table for such nodes."""
    if node.kind == 'g':
        is_bootstrapper = node.name == 'system:bootstrappers' or node.name.startswith('system:bootstrappers:')
        return {'group', 'bootstrapper'} if is_bootstrapper else {'group'}
    return {'account' if account_of(node) else {'u': 'user', '*': 'everything'}.get(node.kind, node.kind)}


def rule_gives(rule, request):
    bare = {**rule, 'resourceNames': []} if request.any_name else rule
    return rule_allows(bare, request.verb, request.target)


# ---- an export

class Export:
    """The nodes of an export, and how each comes to its rules."""

    def __init__(self, items):
        self.last, self.cluster_roles = objects(items)
        self.bindings = [name for name in sorted(self.last) if 'roleRef' in self.last[name]]
        self.grants = [*self.numbered_grants()]
        keys = {key_of(subject, home) for _, home, _, subjects in self.bound() for subject in subjects} - {None}
        keys |= {'u:' + account(*name[1:]) for name in self.last if name[0] == 'ServiceAccount'}
        self.listed = [(item['metadata']['name'], item.get('users') or []) for item in items if item['kind'] == 'Group']
        keys |= {'u:' + user for _, users in self.listed for user in users}
        self.principals = [self.named(key) for key in sorted(keys)]
        self.homes = sorted({home for kind, home, _ in self.bindings if kind == 'RoleBinding'})
        self.nodes = self.principals + [*self.nodes_in_scopes()]
        self.known_holdings, self.known, self.ways = {}, {}, {}

    def named(self, key, groups=()):
        """The user or group of a key, with the groups that documents give it beside these."""
        documents = {group for group, users in self.listed if key[0] == 'u' and key[2:] in users}
        return node_of(key, documents.union(groups))

    def bound(self):
        for kind, home, name in self.bindings:
            yield kind, home, name, self.last[kind, home, name]['subjects']

    def nodes_in_scopes(self):
        for scope in [CLUSTER, *self.homes]:
            yield Node('*', '', scope)
            yield from (Node('ClusterRole', name, scope) for name in sorted(self.cluster_roles))
        yield from (Node(kind, name, home) for kind, home, name in sorted(self.last) if kind == 'Role' and home in self.homes)

    def placed_rules(self, role):
        """Each rule of a role, with the fields SOURCE and RULE."""
        for source in sources_of(role, self.cluster_roles):
            for place, rule in enumerate(source['rules'], 1):
                yield rule, field(binding_text(*name_of(source))), str(place)

    def numbered_grants(self):
        """Each pair of a binding and a rule of its role, in order: its namespace, subjects and rule, and four fields."""
        for kind, home, name, subjects in self.bound():
            role = role_of(self.last[kind, home, name], self.last)
            for rule, source, place in self.placed_rules(role) if role else ():
                why = field(binding_text(kind, home, name)), field(binding_text(*name_of(role))), source, place
                yield home, subjects, rule, why

    def holdings(self, node):
        if node not in self.known_holdings:
            self.known_holdings[node] = [*(self.held(node) if node.scope is None else self.in_scope(node))]
        return self.known_holdings[node]

    def held(self, principal):
        """What the bindings that name a principal give."""
        groups = groups_of(principal.name, principal.groups) if principal.kind == 'u' else {principal.name}
        who = principal.kind, principal.name, groups
        for home, subjects, rule, why in self.grants:
            places = [place for place, subject in enumerate(subjects, 1) if is_named(subject, home, who)]
            if places:
                yield Holding(home, rule, (*why, str(places[0])))

    def in_scope(self, node):
        if is_everything(node):
            yield Holding(node.scope, ALL, NO_WHY)
            return
        role = self.last[role_name(node)]
        for rule, source, place in self.placed_rules(role):
            yield Holding(node.scope, rule, ('-', field(binding_text(*role_name(node))), source, place, '-'))

    def first(self, node, request):
        """The number of the first rule of a node that allows a request, or nothing."""
        if (node, request) not in self.known:
            self.known[node, request] = next((number for number, held in enumerate(self.holdings(node)) if is_live(
                held.home, request.namespace, request.target) and rule_gives(held.rule, request)), None)
        return self.known[node, request]

    def why(self, node, requests):
        """The five fields of the least grant that allows a node one of the requests, or nothing."""
        found = {self.first(node, request) for request in requests} - {None}
        return self.holdings(node)[min(found)].why if found else None


# ---- taking over

class Ways:
    """Which nodes take over which, by some steps of the table."""

    def __init__(self, given, steps=STEPS, who=None):
        """The one asked about stands in the place of the principal with the same key."""
        self.export, self.steps = given, [step for step in STEPS if step in steps]
        self.nodes = [node for node in given.nodes if who is None or shown(node) != shown(who)] + [who] * (who is not None)
        self.known = {}

    def grant(self, step, before, after):
        """The five fields of the least grant that allows a node what a step asks of another, or nothing."""
        requests = [request for row in TABLE if row.step == step for request in requests_for(row, after)]
        return self.export.why(before, requests) if step in self.steps else None

    def has_everything(self, before, scope):
        """Whether a node takes over everything in a scope, or in the cluster, by `bind` or `escalate`."""
        return any(self.grant(step, before, Node('*', '', each)) for step in ('bind', 'escalate') for each in {scope, CLUSTER})

    def is_untold(self, before, after):
        """Whether `bind` and `escalate` don't tell a node, since they tell one that has all of it."""
        if after.scope != CLUSTER and self.has_everything(before, CLUSTER):
            return True
        if not is_role(after):
            return False
        in_cluster = after._replace(scope=CLUSTER)
        is_wider = after.kind == 'ClusterRole' and after != in_cluster
        return self.has_everything(before, after.scope) or is_wider and bool(self.grant('bind', before, in_cluster))

    def goes_on(self, before, after):
        """Everything in the cluster takes over nothing further, and everything in a namespace principals alone."""
        return not is_everything(before) or before.scope != CLUSTER and after.scope is None

    def step(self, before, after):
        """The first step by which a node takes over another, and the five fields of its grant; or nothing."""
        if (before, after) not in self.known:
            found = ((step, self.grant(step, before, after)) for step in self.steps if self.goes_on(before, after)
                     and not (step in ('bind', 'escalate') and after.scope is not None and self.is_untold(before, after)))
            self.known[before, after] = next(((step, why) for step, why in found if why), None)
        return self.known[before, after]

    def levels(self, first, nodes, is_after):
        """The nodes to which a list of steps leads from the first ones, each with the least number of steps: in each level are
        those that a node of the level before it reaches, and no shorter list."""
        numbers, level = dict.fromkeys(first, 0), [*first]
        for number in itertools.count(1):
            if not level:
                return numbers
            level = [node for node in nodes if node not in numbers and any(is_after(other, node) for other in level)]
            numbers.update(dict.fromkeys(level, number))

    def reached(self, first):
        return self.levels(first, self.nodes, self.step)

    def leading(self, last, nodes):
        return self.levels(last, nodes, lambda after, node: self.step(node, after))


def ways_of(given, steps, who=None):
    """These are kept, since most questions about an export share them. A principal with no groups but those of documents is
    there anyway."""
    asked = tuple(steps), None if who in given.principals else who
    if asked not in given.ways:
        given.ways[asked] = Ways(given, *asked)
    return given.ways[asked]


def in_order(numbers):
    """The nodes in the order of lines."""
    return sorted(numbers, key=lambda node: (numbers[node], printed_order(node)))


def line(*fields):
    return '\t'.join(map(str, fields))


def paths(given, asked, groups=(), steps=STEPS):
    """The lines of `paths`."""
    who = given.named(asked, groups)
    ways = ways_of(given, steps, who)
    numbers = ways.reached([who])
    for node in in_order(numbers):
        if node != who:
            before = min((it for it in numbers if numbers[it] == numbers[node] - 1 and ways.step(it, node)), key=printed_order)
            step, why = ways.step(before, node)
            yield line(numbers[node], *shown(node), *shown(before), step, *why)


def indirect(given, request, steps=STEPS):
    """The lines of `who-can --indirect`."""
    ways = ways_of(given, steps)
    nodes = [*ways.reached(given.principals)]
    numbers = ways.leading([node for node in nodes if given.why(node, [request])], nodes)
    for node in in_order(numbers):
        if not numbers[node]:
            yield line(0, *shown(node), '-', '-', '-', *given.why(node, [request]))
            continue
        after = min((it for it in numbers if numbers[it] == numbers[node] - 1 and ways.step(node, it)), key=printed_order)
        step, why = ways.step(node, after)
        yield line(numbers[node], *shown(node), *shown(after), step, *why)


# ---- the watch list

def counts(row, home):
    """Whether a row counts for a binding in a scope."""
    return home == CLUSTER or row.place in ('NS', 'scope') or row.place == home == KUBE_SYSTEM


def gives(step, home, rule):
    """Whether a rule gives a step by a binding in a scope."""
    rows = [row for row in TABLE if row.step == step and counts(row, home)]
    return any(rule_gives(rule, request) for row in rows for request in requests_of(row, home, '' if row.of == '-' else ANY))


def powers(given):
    """The lines of `powers`."""
    for step in STEPS:
        found = {}
        for home, subjects, rule, why in given.grants:
            keys = [key_of(subject, home) for subject in subjects] if gives(step, home, rule) else []
            for place, key in enumerate(keys, 1):
                if key:
                    found.setdefault((field(key), scope_shown(home)), (*why, str(place)))
        for where in sorted(found, key=order):
            yield line(step, *where, *found[where])
