"""An input that is made to hurt, of at most 64 MiB.

    python3 generate_hostile.py KIND OUT [N [M]]

KIND is one of
    ring         N aggregated cluster roles, each of which selects the next
    all          N aggregated cluster roles that all select all
    steps        N aggregated cluster roles that select M plain ones
    expressions  M cluster roles, and a selector of N expressions
    values       M cluster roles, and a `NotIn` of N values
    labels       a cluster role of N labels, and a selector of as many
    groups       a binding of N groups
    names        N resources, and the name of one object, which has M bytes
    product      a rule of N API groups and N resources, and a user who has it
    bindings     N bindings of a user each
    chain        N cluster roles, each of which lets one bind the next; the first is bound in M namespaces, or in the cluster if M is 0
    aggregates   N aggregated cluster roles, each of which lets one bind each; the first is bound in M namespaces
    binders      N users, each bound to a cluster role that lets one bind N others
    imitators    N users, each bound to a cluster role that lets one impersonate all of them
    clique       N users and N groups in one binding, who may impersonate anybody; one of them reads gold
    nested       a list of lists of N documents, each nested as deep as may be
    items        N items that are small objects
    members      an item of N small objects
    collide      a binding of the users whose names stand on standard input, one a line (generate_collisions.c)
"""

import sys

LIMIT = 67_108_864
V1 = '"apiVersion":"rbac.authorization.k8s.io/v1"'
PODS = '{"verbs":["get"],"apiGroups":[""],"resources":["pods"]}'


def listed(items):
    return '{"apiVersion":"v1","kind":"List","items":[%s]}' % ','.join(items)


def role(name, rules='', labels='', selectors=None):
    metadata = '"name":"%s"' % name + (',"labels":{%s}' % labels if labels else '')
    parts = [V1, '"kind":"ClusterRole"', '"metadata":{%s}' % metadata, '"rules":[%s]' % rules]
    if selectors is not None:
        parts.append('"aggregationRule":{"clusterRoleSelectors":[%s]}' % selectors)
    return '{%s}' % ','.join(parts)


def binding(name, subjects):
    return '{%s,"kind":"ClusterRoleBinding","metadata":{"name":"%s"},"roleRef":{"kind":"ClusterRole","name":"r"},"subjects":[%s]}' % (
        V1, name, subjects)


def subject(kind, name):
    return '{"kind":"%s","name":"%s"}' % (kind, name)


def many(count, text):
    return (text % number for number in range(count))


def selecting(requirement):
    return role('a', selectors='{"matchExpressions":[%s]}' % requirement)


def ring(n, _):
    chain = (role('r%d' % i, '', '"l":"%d"' % i, '{"matchLabels":{"l":"%d"}}' % ((i + 1) % n)) for i in range(n))
    return [*chain, role('z', PODS, '"l":"0"')]


def select_all(n, _):
    return [*(role('r%d' % i, selectors='{}') for i in range(n)), role('z', PODS)]


def steps(n, m):
    aggregated = (role('a%d' % i, selectors='{"matchLabels":{"l":"1"}}') for i in range(n))
    return [*aggregated, *(role('p%d' % i, PODS, '"l":"1"') for i in range(m))]


def expressions(n, m):
    wanted = ','.join(many(n, '{"key":"k%d","operator":"DoesNotExist"}'))
    return [selecting(wanted), *(role('p%d' % i) for i in range(m))]


def values(n, m):
    wanted = '{"key":"k","operator":"NotIn","values":[%s]}' % ','.join(many(n, '"v%d"'))
    return [selecting(wanted), *(role('p%d' % i, labels='"k":"w"') for i in range(m))]


def labels(n, _):
    each = ','.join(many(n, '"k%d":"v"'))
    return [role('a', selectors='{"matchLabels":{%s}}' % each), role('p', labels=each)]


def groups(n, _):
    return [role('r', PODS), binding('b', ','.join(subject('Group', 'x%d' % i) for i in range(n)))]


def names(n, m):
    words = ','.join(many(n, '"r%d"'))
    named = '{"verbs":["get"],"apiGroups":[""],"resources":["x"],"resourceNames":["%s"]}' % ('n' * m)
    return [role('r', '{"verbs":["get"],"apiGroups":[""],"resources":[%s]},%s' % (words, named))]


def product(n, _):
    words = '{"verbs":["get"],"apiGroups":[%s],"resources":[%s]}' % (','.join(many(n, '"g%d"')), ','.join(many(n, '"r%d"')))
    return [role('r', words), binding('b', subject('User', 'u'))]


def bindings(n, _):
    return [role('r', PODS), *(binding('b%d' % i, subject('User', 'u%d' % i)) for i in range(n))]


def chain(n, m):
    bind = '{"verbs":["bind"],"apiGroups":["rbac.authorization.k8s.io"],"resources":["clusterroles"],"resourceNames":["%s"]}'
    roles = (role(name, bind % after) for name, after in zip(['r', *many(n - 1, 'r%d')], many(n, 'r%d')))
    bound = binding('b', subject('User', 'u'))
    homes = many(m, '"metadata":{"namespace":"n%d",')
    in_homes = (bound.replace('"ClusterRoleBinding"', '"RoleBinding"').replace('"metadata":{', home) for home in homes)
    return [*roles, role('r%d' % (n - 1), PODS), *(in_homes if m else [bound])]


def aggregates(n, m):
    names = ['r', *many(n - 1, 'a%d')]
    rule = '{"verbs":["bind"],"apiGroups":["rbac.authorization.k8s.io"],"resources":["clusterroles"],"resourceNames":["%s"]}' % '","'.join(names)
    bound = binding('b', subject('User', 'u')).replace('"ClusterRoleBinding"', '"RoleBinding"')
    in_homes = (bound.replace('"metadata":{', home) for home in many(m, '"metadata":{"namespace":"n%d",'))
    return [role('p', rule, '"l":"1"'), *(role(name, selectors='{"matchLabels":{"l":"1"}}') for name in names), *in_homes]


def naming(verb, group, resource, names):
    return '{"verbs":["%s"],"apiGroups":["%s"],"resources":["%s"],"resourceNames":["%s"]}' % (verb, group, resource, '","'.join(names))


def each_bound(n):
    return (binding('b%d' % i, subject('User', 'u%d' % i)) for i in range(n))


def binders(n, _):
    rule = naming('bind', 'rbac.authorization.k8s.io', 'clusterroles', many(n, 'r%d'))
    return [role('r', rule), *(role(name, PODS) for name in many(n, 'r%d')), *each_bound(n)]


def imitators(n, _):
    return [role('r', naming('impersonate', '', 'users', many(n, 'u%d'))), *each_bound(n)]


def clique(n, _):
    subjects = [subject(kind, name) for kind, names in (('User', many(n, 'u%d')), ('Group', many(n, 'g%d'))) for name in names]
    rule = '{"verbs":["impersonate"],"apiGroups":[""],"resources":["users","groups"]}'
    gold = binding('g', subject('User', 'u0')).replace('"name":"r"', '"name":"gold"')
    return [role('r', rule), binding('b', ','.join(subjects)), role('gold', PODS.replace('pods', 'gold')), gold]


def nested(n, _):
    return ['{"kind":"x","y":%s}' % ('[' * 120 + ']' * 120)] * n


def items(n, _):
    return ['{"":0}'] * n


def members(n, _):
    return ['{"kind":"x","y":[%s]}' % ','.join(items(n, 0))]


def collide(_n, _m):
    return [role('r', PODS), binding('b', ','.join(subject('User', name) for name in sys.stdin.read().split()))]


KINDS = {'ring': ring, 'all': select_all, 'steps': steps, 'expressions': expressions, 'values': values, 'labels': labels, 'groups': groups,
         'names': names, 'product': product, 'bindings': bindings, 'chain': chain, 'aggregates': aggregates, 'binders': binders,
         'imitators': imitators, 'clique': clique, 'nested': nested, 'items': items, 'members': members, 'collide': collide}


def main(kind, out, n='1000', m='1000'):
    text = listed(KINDS[kind](int(n), int(m)))
    if len(text) > LIMIT:
        sys.exit('%s %s %s: %d bytes are more than an input may have' % (kind, n, m, len(text)))
    with open(out, 'w', encoding='utf-8') as file:
        file.write(text)


if len(sys.argv) < 3 or sys.argv[1] not in KINDS:
    sys.exit(__doc__)
main(*sys.argv[1:])
