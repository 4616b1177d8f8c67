"""The one path of `paths --to`, by the definition: of all lines of `paths`, those that lead to TO, each one to the node before
the next.

A line names its node and the node before by two fields each, so that nothing but these fields is compared.
"""

import escalation
from meaning import binding_text, field


def lines_to(lines, to, namespace):
    """The lines of the path to TO, in order from WHO; of several nodes that are TO, the last one counts. `namespace` is that after
    `-n`, or empty."""
    above = {node_of(line): line for line in lines}
    ends = [node_of(line) for line in lines if is_end(node_of(line), to, namespace)]
    path, node = [], ends[-1] if ends else None
    while node in above:
        path.append(above[node])
        node = node_before(above[node])
    return path[::-1]


def node_of(line):
    return tuple(line.split('\t')[1:3])


def node_before(line):
    return tuple(line.split('\t')[3:5])


def is_end(node, to, namespace):
    """Whether a node is TO: users, groups and Roles are in no other place than their own."""
    who, where = node
    is_scoped = to == '*' or to.startswith('ClusterRole/')
    return who == field(to) and (not is_scoped or where == escalation.scope_shown(namespace or escalation.CLUSTER))


# What TO may be.
KINDS = ['a user', 'a group', 'a cluster role', 'a Role', 'everything']


def kind_of(to):
    fronts = {'u:': 'a user', 'g:': 'a group', 'ClusterRole/': 'a cluster role', 'Role/': 'a Role', '*': 'everything'}
    return next(kind for front, kind in fronts.items() if to.startswith(front))


def words_of(draw, node):
    """The options that ask for the path to a node."""
    if node.scope is None:
        return ['--to=' + escalation.principal_key(node)]
    to = '*' if escalation.is_everything(node) else binding_text(*escalation.role_name(node))
    if node.kind == 'Role':
        is_given = '/' not in node.scope and draw.random() < 0.3
    else:
        is_given = node.scope != escalation.CLUSTER
    return ['--to=' + to] + ['--namespace=' + node.scope] * is_given


def asked_end(draw, given, steps, key, groups):
    """The options for one end: mostly a node that the one asked about comes to, otherwise any node, or one near it."""
    who = given.named(key, groups)
    numbers = escalation.ways_of(given, steps, who).reached([who])
    found = [node for node in numbers if node != who]
    if not found or draw.random() < 0.2:
        node = draw.choice(given.nodes)
    else:
        roles = [node for node in found if node.kind == 'Role']
        node = max(draw.choices(roles if roles and draw.random() < 0.3 else found, k=3), key=numbers.get)
    words = words_of(draw, node)
    kind = draw.random()
    if kind < 0.05:
        return words[:1] if words[0][5:] == '*' or words[0].startswith('--to=ClusterRole/') else [words[0] + 'x']
    return [*words, '--namespace='] if len(words) == 1 and kind < 0.1 else words
