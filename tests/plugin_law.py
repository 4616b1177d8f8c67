"""The law of manifests alone: a change without a line that begins with + gives nobody anything, in any cluster that holds these manifests.

Random changes of random folders, each inside random clusters: with other bindings, and with aggregated roles of every kind of selector, that bind
and gather what the folder has. What such a cluster allows before and after is worked out here, slowly, by what docs/BEHAVIOUR.md says. The plugin
sees the folders alone, and refuses a change exactly if a binding's role is nowhere in them: some bindings are to roles of the cluster. The gate tries
some; more by hand, with a seed and a number: `python3 tests/plugin_law.py 7 2000`.
"""

import collections
import copy
import json
import os
import random
import sys

from common import TOP, V1, tested
from meaning import groups_of, is_named, name_of, rule_allows
from plugin_room import in_each_shell, room

with open(os.path.join(TOP, 'plugin', 'rbacaudit_kubectl', 'defaults.json'), encoding='utf-8') as file:
    OWN = [item for item in json.load(file)['items'] if 'rbacaudit/version' not in item['metadata'].get('annotations', {})]
OWN_NAMES = ['view', 'edit', 'system:aggregate-to-view', 'system:discovery', 'cluster-admin']
NAMES, OTHERS, SPACES = ['a', 'b', 'c', 'd'], ['o1', 'o2', 'o3'], ['n1', 'n2']
LABELS = [{}, {'x': '1'}, {'x': '2'}, {'y': '1'}, {'x': '1', 'y': '1'}, {'rbac.authorization.k8s.io/aggregate-to-view': 'true'}]
SUBJECTS = [{'kind': 'User', 'name': 'kim'}, {'kind': 'User', 'name': 'lee'}, {'kind': 'Group', 'name': 'g'}, {'kind': 'Group', 'name': 'system:authenticated'},
            {'kind': 'ServiceAccount', 'name': 'ci', 'namespace': 'n1'}, {'kind': 'User', 'name': 'system:anonymous'}]
WHO = [('u', name, frozenset(groups_of(name, given))) for name, given in (
    ('kim', []), ('lee', []), ('max', ['g']), ('max', []), ('system:serviceaccount:n1:ci', []), ('system:anonymous', []))]
TARGETS = [('resource', '', 'pods', ''), ('resource', '', 'secrets', ''), ('resource', '', 'secrets', 's'), ('resource', '', 'pods/log', ''),
           ('resource', 'apps', 'deployments', ''), ('resource', 'odd', 'odd', 'odd'), ('url', '/h'), ('url', '/h/x')]
REQUESTS = [(verb, target) for verb in ('get', 'list', 'odd') for target in TARGETS]
CLUSTERS = 8    # for each change


# ---- what a cluster allows

def is_selected(selector, labels):
    """Whether a selector selects a role with these labels."""
    def holds(part):
        value, values = labels.get(part['key']), part.get('values', [])
        return {'In': value in values, 'NotIn': value not in values, 'Exists': part['key'] in labels,
                'DoesNotExist': part['key'] not in labels}[part['operator']]

    return (selector.get('matchLabels') or {}).items() <= labels.items() and all(map(holds, selector.get('matchExpressions') or []))


def rules_of(role, roles):
    """The rules of a role, or those that an aggregated one gathers."""
    if 'aggregationRule' not in role:
        return role['rules']
    reached, waiting = {}, [role]
    while waiting:
        selectors = waiting.pop()['aggregationRule'].get('clusterRoleSelectors') or []
        for name, other in roles.items():
            if name not in reached and any(is_selected(one, other['metadata'].get('labels') or {}) for one in selectors):
                reached[name] = other
                waiting += [other] * ('aggregationRule' in other)
    return [rule for other in reached.values() if 'aggregationRule' not in other for rule in other['rules']]


def allowed(items):
    """Who may do what where in a cluster of these objects: a set."""
    last = {name_of(item): item for item in items}
    roles = {name: item for (kind, _, name), item in last.items() if kind == 'ClusterRole'}
    found, by_role = set(), {}
    for (kind, home, _), item in last.items():
        if 'roleRef' in item:
            wanted = item['roleRef']
            key = wanted['kind'], home if wanted['kind'] == 'Role' else '', wanted['name']
            if key in last and key not in by_role:
                rules = rules_of(last[key], roles)
                by_role[key] = [request for request in REQUESTS if any(rule_allows(rule, *request) for rule in rules)]
            for who in WHO:
                if any(is_named(subject, home, who) for subject in item.get('subjects') or []):
                    for place in [home] if kind == 'RoleBinding' else ['', *SPACES]:
                        found.update((who, place, *request) for request in by_role.get(key, ()) if kind[0] == 'C' or request[1][0] != 'url')
    return found


# ---- random objects

def some_rules(draw):
    def rule():
        if draw.random() < 0.15:
            return {'verbs': [draw.choice(['get', '*'])], 'nonResourceURLs': [draw.choice(['/h', '/h/*', '/*', '*'])]}
        names = {'resourceNames': ['s']} if draw.random() < 0.1 else {}
        return {'verbs': [draw.choice(['get', 'get', 'list', '*'])], 'apiGroups': [draw.choice(['', '', 'apps', '*'])],
                'resources': [draw.choice(['pods', 'secrets', 'pods/log', 'deployments', '*'])], **names}

    return [rule() for _ in range(draw.choice([0, 1, 1, 2]))]


def some_selectors(draw):
    def selector():
        key, operator = draw.choice('xy'), draw.choice(['In', 'NotIn', 'Exists', 'DoesNotExist', '', '', '', 'all'])
        if operator in ('', 'all'):
            return {'matchLabels': draw.choice(LABELS[1:])} if not operator else {}
        return {'matchExpressions': [{'key': key, 'operator': operator, **({'values': [draw.choice('12')]} if operator.endswith('In') else {})}]}

    return [selector() for _ in range(draw.choice([1, 1, 2]))]


def cluster_role(draw, name):
    metadata = {'name': name, 'labels': draw.choice(LABELS)}
    role = {'apiVersion': V1, 'kind': 'ClusterRole', 'metadata': metadata}
    return {**role, 'aggregationRule': {'clusterRoleSelectors': some_selectors(draw)}, 'rules': []} if draw.random() < 0.4 else {**role, 'rules': some_rules(draw)}


def role(draw, name):
    return {'apiVersion': V1, 'kind': 'Role', 'metadata': {'name': name, 'namespace': draw.choice(SPACES)}, 'rules': some_rules(draw)}


def binding(draw, name, known):
    """A binding to a cluster role of these names, or to a Role that is one of them as (namespace, name)."""
    to = draw.choice(known)
    home = to[0] if isinstance(to, tuple) else draw.choice(['', '', *SPACES])
    metadata = {'name': name, **({'namespace': home} if home else {})}
    wanted = {'kind': 'Role', 'name': to[1]} if isinstance(to, tuple) else {'kind': 'ClusterRole', 'name': to}
    return {'apiVersion': V1, 'kind': 'RoleBinding' if home else 'ClusterRoleBinding', 'metadata': metadata,
            'roleRef': {'apiGroup': V1[:-3], **wanted}, 'subjects': draw.sample(SUBJECTS, draw.choice([1, 1, 2]))}


def names_in(items):
    """What bindings may refer to."""
    return [item['metadata']['name'] if item['kind'] == 'ClusterRole' else (item['metadata']['namespace'], item['metadata']['name'])
            for item in items if item['kind'] in ('ClusterRole', 'Role')]


def folder(draw, own):
    roles = [cluster_role(draw, name) for name in draw.sample(NAMES, draw.choice([1, 2, 3]))] + [role(draw, name) for name in draw.sample(NAMES, draw.choice([0, 1]))]
    if own and draw.random() < 0.2:
        roles.append(cluster_role(draw, draw.choice(OWN_NAMES[:4])))
    known = names_in(roles) + own + OTHERS[:1] * (draw.random() < 0.05)
    return roles + [binding(draw, 'b%d' % at, known) for at in range(draw.choice([0, 1, 1, 2]))]


def changed(draw, items, own):
    """Another state of a folder, which differs in one thing or two."""
    items = copy.deepcopy(items)
    for _ in range(draw.choice([1, 1, 1, 2])):
        it, what = draw.choice(items) if items else {}, draw.randrange(8)
        known = names_in(items) + own
        if what == 0 and len(items) > 1:
            items.remove(it)
        elif what == 1:
            items.append(cluster_role(draw, draw.choice(NAMES)))
        elif what == 2 and known:
            items.append(binding(draw, 'b%d' % draw.randrange(4), known))
        elif 'roleRef' in it and known:
            fresh = binding(draw, it['metadata']['name'], known)
            it['subjects'] = fresh['subjects']
            if what == 3 and (fresh['kind'], fresh['metadata']) == (it['kind'], it['metadata']):
                it['roleRef'] = fresh['roleRef']
        elif it.get('kind') == 'ClusterRole' and what < 6:
            it['metadata']['labels'] = draw.choice(LABELS)
        elif it.get('kind') == 'ClusterRole' and what == 6:
            fresh = cluster_role(draw, it['metadata']['name'])
            it.pop('aggregationRule', None)
            it.update({name: fresh[name] for name in ('aggregationRule', 'rules') if name in fresh})
        elif it.get('aggregationRule'):
            it['aggregationRule'] = {'clusterRoleSelectors': some_selectors(draw)}
        elif it:
            it['rules'] = some_rules(draw)
    # (of several with one name the last counts; few bindings lose their role)
    last = {name_of(item): item for item in items}
    there = names_in(last.values()) + own + (OTHERS + NAMES if draw.random() < 0.1 else OTHERS)
    return [item for item in last.values() if 'roleRef' not in item or role_of(item) in there]


def role_of(item):
    """What a binding refers to, as names_in has it."""
    wanted = item['roleRef']
    return wanted['name'] if wanted['kind'] == 'ClusterRole' else (item['metadata'].get('namespace'), wanted['name'])


def has_unknown(before, after, own):
    """Whether a binding's role is in neither state, nor Kubernetes' own; or only in the one before, while the binding comes or changes."""
    known, kept = {*names_in(before + after), *own}, {*names_in(after), *own}
    said = [{name_of(item): (role_of(item), sorted(map(str, item['subjects']))) for item in side if 'roleRef' in item} for side in (before, after)]
    is_new = [role for name, (role, subjects) in said[1].items() if said[0].get(name) != (role, subjects)]
    return any(role not in known for side in said for role, _ in side.values()) or any(role not in kept for role in is_new)


def elsewhere(draw, before, after, own):
    """What else a cluster has."""
    roles = [cluster_role(draw, name) for name in draw.sample(OTHERS, draw.randrange(4))]
    known = names_in(roles + before + after) + own
    return roles + [binding(draw, 'e%d' % at, known) for at in range(draw.randrange(1, 5))]


def clusters(draw, before, after, own):
    """Clusters before and after the change. What the change deletes may stay, as kubectl apply leaves it."""
    names = {*map(name_of, after)}
    stays = [item for item in before if name_of(item) not in names]
    for _ in range(CLUSTERS):
        others = (OWN if own else []) + elsewhere(draw, before, after, own)
        for left in ([], stays) if stays else ([],):
            yield others + before, others + left + after


# ---- the law

def one(it, draw):
    """A change: what the plugin says of it, whether somebody gains something in some cluster, and whether it is refused for nothing, or isn't."""
    own = OWN_NAMES if draw.random() < 0.2 else []
    before = folder(draw, own)
    after = changed(draw, before, own)
    for name, items in (('before.json', before), ('after.json', after)):
        it.write(json.dumps({'apiVersion': 'v1', 'kind': 'List', 'items': items}), name)
    status, out, err = got = it.run('diff', '--from', 'before.json', '--to', 'after.json', *([] if own else ['--no-defaults']))
    refused = status == 2 and 'has a role or a binding' not in err
    # (rbacaudit refuses the URL of a Role, and kubectl a list of nothing)
    says = 'these bindings may grant anything' in err
    is_wrong = (says or not refused) and says != has_unknown(before, after, own)
    gains = any(allowed(later) - allowed(sooner) for sooner, later in clusters(draw, before, after, own))
    return got, refused, '\n+' in '\n' + out, gains, is_wrong, (before, after)


def tried(it, seed, count):
    """Tries changes, and counts how often the plugin tells a gain and how often there is one."""
    draw, found, wrong = random.Random(seed), collections.Counter(), []
    for _ in range(count):
        got, refused, told, gains, is_wrong, change = one(it, draw)
        found[told, gains] += not refused
        found['refused'] += refused
        if gains and not told and not refused or is_wrong:
            wrong.append((change, got))
    print('%d changes: %d with gains that are told, %d told and not found, %d with neither, %d refused' % (
        count, found[True, True], found[True, False], found[False, False], found['refused']))
    it.checked('the law', not wrong, wrong[:1])
    it.checked('the law: many changes have no gain, many have one, and some are refused', 10 * found[False, False] > count and 4 * found[True, True] > count
               and count < 40 * found['refused'] < 6 * count, found)


@in_each_shell
def law(it):
    """No gain in silence."""
    tried(it, 1, 250)


CHECKS = [law]


def by_hand():
    with room('sh') as it:
        tried(it, int(sys.argv[1]), int(sys.argv[2]))


if __name__ == '__main__':
    sys.exit(tested(by_hand))
