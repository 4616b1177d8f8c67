"""What docs/BEHAVIOUR.md says, written down once more: who is named, what a rule allows, which binding grants, and how a
field is printed.

The random tests work out by it what the program has to answer. A target is `('url', path)` or `('resource', group, resource,
name)`; who asks is `('u', name, groups)` or `('g', name, groups)`, with all groups, the implied ones too. Every cluster role
that is given has labels, and selectors have `matchLabels` alone.
"""

import json
import re

SHOWN = re.compile(r'\\x([0-9a-f]{2})|\\\\|[^\\]', re.S)


# ---- who asks, and whom a subject names

def account(namespace, name):
    return 'system:serviceaccount:%s:%s' % (namespace, name)


def groups_of(user, given):
    groups = set(given)
    parts = user.split(':')
    if len(parts) == 4 and parts[:2] == ['system', 'serviceaccount'] and parts[2] and parts[3]:
        groups |= {'system:serviceaccounts', 'system:serviceaccounts:' + parts[2]}
    if user == 'system:anonymous':
        return groups | {'system:unauthenticated'}
    return groups if 'system:unauthenticated' in groups else groups | {'system:authenticated'}


def key_of(subject, namespace):
    """The key of the principal that a subject stands for, if any."""
    kind, name = subject['kind'], subject['name']
    home = subject.get('namespace') or namespace
    if kind == 'ServiceAccount':
        return 'u:' + account(home, name) if home else None
    return {'User': 'u:', 'Group': 'g:'}[kind] + name


def is_named(subject, namespace, who):
    kind, name, groups = who
    if subject['kind'] == 'Group':
        return subject['name'] in groups
    return kind == 'u' and key_of(subject, namespace) == 'u:' + name


# ---- what a rule allows

def word_matches(words, text):
    return '*' in words or text in words


def resource_matches(words, resource):
    below = resource.partition('/')[2]
    return any(word in ('*', resource) or below and word == '*/' + below for word in words)


def name_matches(names, name):
    return not names or name in names


def path_matches(words, path):
    return any(word == path or word.endswith('*') and path.startswith(word.rstrip('*')) for word in words)


def rule_allows(rule, verb, target):
    if not word_matches(rule['verbs'], verb):
        return False
    if target[0] == 'url':
        return path_matches(rule.get('nonResourceURLs', []), target[1])
    _, group, resource, name = target
    return (word_matches(rule.get('apiGroups', []), group) and resource_matches(rule.get('resources', []), resource)
            and name_matches(rule.get('resourceNames'), name))


# ---- which binding grants

def sources_of(role, cluster_roles):
    """The roles that contain the rules of a role: itself, or if it is aggregated the plain ones that it leads to, by name."""
    if 'aggregationRule' not in role:
        return [role]
    reached, waiting = set(), [role]
    while waiting:
        selectors = waiting.pop()['aggregationRule']['clusterRoleSelectors']
        for name, other in cluster_roles.items():
            is_selected = any(selector['matchLabels'].items() <= other['metadata']['labels'].items() for selector in selectors)
            if is_selected and name not in reached:
                reached.add(name)
                waiting += [other] * ('aggregationRule' in other)
    return [cluster_roles[name] for name in sorted(reached) if 'aggregationRule' not in cluster_roles[name]]


def rules_of(role, cluster_roles):
    return [rule for source in sources_of(role, cluster_roles) for rule in source['rules']]


def name_of(item):
    """The kind, namespace and name by which an object replaces another, or is taken away."""
    kind, metadata = item['kind'], item['metadata']
    has_namespace = kind in ('Role', 'RoleBinding', 'ServiceAccount')
    return kind, (metadata.get('namespace') or 'default') if has_namespace else '', metadata['name']


def changed(items, without, over):
    """What a change makes of objects."""
    names = {*map(name_of, without)}
    return [item for item in items if name_of(item) not in names] + over


def objects(items):
    """The objects by name, after later ones have replaced earlier ones; and the cluster roles."""
    last = {name_of(item): item for item in items}
    return last, {name: item for (kind, _, name), item in last.items() if kind == 'ClusterRole'}


def role_of(bound, last):
    """The role that a binding refers to, or nothing if there is none."""
    _, namespace, _ = name_of(bound)
    wanted = bound['roleRef']
    return last.get((wanted['kind'], namespace if wanted['kind'] == 'Role' else '', wanted['name']))


def ordered_bindings(items):
    """Each binding by order, as its kind word, namespace and name, its subjects and the rules of its role."""
    last, cluster_roles = objects(items)
    for (kind, namespace, name), item in sorted(last.items()):
        if kind in ('ClusterRoleBinding', 'RoleBinding'):
            role = role_of(item, last)
            yield (kind, namespace, name), item['subjects'], rules_of(role, cluster_roles) if role else []


def is_live(home, namespace, target):
    """Whether a binding of this namespace, or of none, counts for a target there."""
    return not home or target[0] == 'resource' and home == namespace


def allows(binding, who, namespace, verb, target):
    (_, home, _), subjects, rules = binding
    return (is_live(home, namespace, target) and any(is_named(subject, home, who) for subject in subjects)
            and any(rule_allows(rule, verb, target) for rule in rules))


# ---- how it is printed

def field(text):
    shown = ''.join('\\x%02x' % ord(c) if ord(c) < 32 or ord(c) == 127 else c * 2 if c == '\\' else c for c in text)
    return {'': '-', '-': '\\x2d'}.get(shown, shown)


def text_shown(shown):
    """The text that a field shows, or a word of a list."""
    if shown == '-':
        return ''
    parts = [*SHOWN.finditer(shown)]
    if not shown or ''.join(part[0] for part in parts) != shown:
        raise ValueError('no field: %r' % shown)
    return ''.join(chr(int(part[1], 16)) if part[1] else part[0][-1] for part in parts)


def binding_text(kind, namespace, name):
    return '/'.join([kind, namespace, name] if namespace else [kind, name])


def json_text(text):
    return json.dumps(text, ensure_ascii=False)


def principal_json(entry):
    if 'group' in entry:
        return '{"group": %s}' % json_text(entry['group'])
    groups = ', "groups": [%s]' % ', '.join(map(json_text, entry['groups'])) if entry.get('groups') else ''
    return '{"user": %s%s}' % (json_text(entry['user']), groups)


def resource_json(entry):
    return '{"group": %s, "resource": %s, "namespaced": %s}' % (
        json_text(entry.get('group', '')), json_text(entry['resource']), 'true' if entry.get('namespaced', True) else 'false')


def document_text(lists):
    """The Universe document that is printed: the entries of each list once and in order, each on a line of its own."""
    members = ['"apiVersion": "rbacaudit/v1"', '"kind": "Universe"']
    for name, order, shown in (('principals', principal_order, principal_json), ('namespaces', str.encode, json_text), ('verbs', str.encode, json_text),
                               ('resources', resource_order, resource_json), ('names', str.encode, json_text), ('urls', str.encode, json_text)):
        entries = [*dict.fromkeys(map(shown, sorted(lists[name], key=order)))]
        members.append('"%s": %s' % (name, '[\n    %s\n  ]' % ',\n    '.join(entries) if entries else '[]'))
    return '{\n  %s\n}\n' % ',\n  '.join(members)


def principal_order(entry):
    """Groups before users, by name, and then by the groups that are given."""
    kind = 'group' if 'group' in entry else 'user'
    return kind, entry[kind].encode(), [group.encode() for group in entry.get('groups', [])]


def resource_order(entry):
    return entry.get('group', '').encode(), entry['resource'].encode(), entry.get('namespaced', True)
