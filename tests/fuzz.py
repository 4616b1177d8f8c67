"""Bad documents, drawn by a seed, through the built program, against the table of refusals written down once more.

First every field of a good document of each kind is in turn missing, null and of each other shape. Then come COUNT random
documents: several fields altered, alone or in lists, spelled in odd ways, cut and damaged. What has to be reported of each
input is worked out here from its bytes alone, as docs/FORMATS.md says it. `fuzz.py SEED COUNT` tries others; without them
the seed is a new one, and the count 20,000. The last line is `N passed, M failed`.
"""

import collections
import copy
import functools
import itertools
import json
import math
import multiprocessing
import os
import random
import re
import subprocess
import sys
import tempfile
import time

from common import PROGRAM, TOP, V1, V1BETA1, bare

RBAC = 'rbac.authorization.k8s.io'
RBAC_VERSIONS = V1, V1BETA1
USERS_V1 = 'user.openshift.io/v1'
DEEPEST = 127


# ---- the table of refusals: first which shapes are right

def is_text(value):
    return isinstance(value, str)


def is_name(value):
    return is_text(value) and value != ''


def is_flag(value):
    return isinstance(value, bool)


def is_object(value):
    return isinstance(value, dict)


def is_list(value):
    return isinstance(value, list)


def is_labels(value):
    return is_object(value) and all(map(is_text, value.values()))


def are(is_right):
    return lambda value: is_list(value) and all(map(is_right, value))


def may(is_right):
    """A field that may be missing; null counts as missing."""
    return lambda value: value is None or is_right(value)


def one_of(*words):
    return lambda value: is_text(value) and value in words


def has(**fields):
    """An object whose named fields are right; others don't matter."""
    return lambda value: is_object(value) and all(is_right(value.get(name)) for name, is_right in fields.items())


is_texts = are(is_text)
is_metadata = has(name=is_name, namespace=may(is_text), labels=may(is_labels))
RULE_FIELDS = ('verbs', 'apiGroups', 'resources', 'resourceNames', 'nonResourceURLs')
SUBJECT_GROUPS = {'User': RBAC, 'Group': RBAC, 'ServiceAccount': ''}


def is_rule(rule, in_cluster):
    if not has(**{field: may(is_texts) for field in RULE_FIELDS})(rule):
        return False
    verbs, groups, resources, names, urls = (rule.get(field) or [] for field in RULE_FIELDS)
    if urls:
        return bool(verbs and in_cluster and not (groups or resources or names))
    return bool(verbs and groups and resources)


def is_role_ref(ref, kinds):
    return has(name=is_name, kind=one_of(*kinds), apiGroup=may(one_of('', RBAC)))(ref)


def is_subject(subject):
    if not has(kind=one_of(*SUBJECT_GROUPS), name=is_name, apiGroup=may(is_text), namespace=may(is_text))(subject):
        return False
    wanted = SUBJECT_GROUPS[subject['kind']]
    return (subject.get('apiGroup') or wanted) == wanted


def is_expression(part):
    if not has(key=is_name, operator=one_of('In', 'NotIn', 'Exists', 'DoesNotExist'), values=may(is_texts))(part):
        return False
    return bool(part.get('values')) == (part['operator'] in ('In', 'NotIn'))


def is_group_version(value):
    return is_text(value) and value.count('/') <= 1 and all(value.split('/'))


def is_principal(entry):
    if not has(user=may(is_name), group=may(is_name), groups=may(is_texts))(entry):
        return False
    by_user, by_group, with_groups = (entry.get(field) is not None for field in ('user', 'group', 'groups'))
    return by_user != by_group and not (by_group and with_groups)


is_selector = has(matchLabels=may(is_labels), matchExpressions=may(are(is_expression)))
is_aggregation = has(clusterRoleSelectors=may(are(is_selector)))
is_api_resource = has(name=lambda value: is_name(value) and value[0] != '/', singularName=may(is_text), namespaced=may(is_flag),
                      shortNames=may(is_texts), verbs=may(is_texts))
is_catalogue = has(groupVersion=is_group_version, resources=may(are(is_api_resource)))
is_listed = has(group=may(is_text), resource=is_text, namespaced=may(is_flag))
is_universe = has(principals=may(are(is_principal)), resources=may(are(is_listed)),
                  **{field: may(is_texts) for field in ('namespaces', 'verbs', 'names', 'urls')})
is_group = has(users=may(are(is_name)))


# ---- then what is refused, and in which documents

def refused(message, is_right, field=None):
    """A row of the table: what is reported of a document, or of its field, if it isn't right."""
    return lambda document: None if is_right(document.get(field) if field else document) else message


def first_refused(message, field, is_right):
    """A row of the table that names the first bad item of a list, or 1 if there is no list."""
    def told(document):
        items = document.get(field)
        if not may(is_list)(items):
            return message % 1
        return next((message % number for number, item in enumerate(items or [], 1) if not is_right(item)), None)
    return told


M2, M3 = 'M2 not an object', 'M3 bad version'
M4 = refused('M4 bad metadata', is_metadata, 'metadata')
M5_ROLE = first_refused('M5 bad rule %d', 'rules', lambda rule: is_rule(rule, False))
M5_CLUSTER_ROLE = first_refused('M5 bad rule %d', 'rules', lambda rule: is_rule(rule, True))
M6 = refused('M6 bad roleRef', lambda ref: is_role_ref(ref, ('Role', 'ClusterRole')), 'roleRef')
M6_CLUSTER = refused('M6 bad roleRef', lambda ref: is_role_ref(ref, ('ClusterRole',)), 'roleRef')
M7 = first_refused('M7 bad subject %d', 'subjects', is_subject)
M8 = refused('M8 bad selector', may(is_aggregation), 'aggregationRule')
M9 = refused('M9 bad API resource list', is_catalogue)
M10 = refused('M10 bad universe', is_universe)
M13 = refused('M13 bad group', is_group)
RBAC_KINDS = {
    'Role': (M4, M5_ROLE),
    'ClusterRole': (M4, M5_CLUSTER_ROLE, M8),
    'RoleBinding': (M4, M6, M7),
    'ClusterRoleBinding': (M4, M6_CLUSTER, M7),
}
TABLE = {
    **{(version, kind): rows for version in RBAC_VERSIONS for kind, rows in RBAC_KINDS.items()},
    ('v1', 'Namespace'): (M4,),
    ('v1', 'ServiceAccount'): (M4,),
    ('v1', 'APIResourceList'): (M9,),
    (None, 'APIResourceList'): (M9,),
    ('rbacaudit/v1', 'Universe'): (M10,),
    (USERS_V1, 'Group'): (M4, M13),
}
# Each list, and which kind its items have that don't say theirs.
LISTS = {('v1', 'List'): None, ('v1', 'NamespaceList'): 'Namespace', ('v1', 'ServiceAccountList'): 'ServiceAccount',
         (USERS_V1, 'GroupList'): 'Group',
         **{(version, kind + 'List'): kind for version in RBAC_VERSIONS for kind in RBAC_KINDS}}
NEED_A_VERSION = {kind for _, kind in [*TABLE, *LISTS]} - {'APIResourceList'}


def document_fault(document, list_version=None, list_kind=None):
    """The least refusal of one document, whose list may imply its version and kind."""
    if not is_object(document):
        return M2
    kind, version = document.get('kind'), document.get('apiVersion')
    kind, version = list_kind if kind is None else kind, list_version if version is None else version
    if not is_text(kind):
        return M2
    if version is None and kind in NEED_A_VERSION or not may(is_text)(version):
        return M3
    if version and version.startswith(RBAC + '/') and version not in RBAC_VERSIONS:
        return M3
    return next(filter(None, (row(document) for row in TABLE.get((version, kind), ()))), None)


def fault_of(text):
    """What is reported of an input after its file's number, or nothing if it is accepted."""
    try:
        value = value_of(text)
    except ValueError:
        return ': M1 not JSON'
    version, kind = (value.get(field) if is_object(value) else None for field in ('apiVersion', 'kind'))
    if not (is_text(version) and is_text(kind) and (version, kind) in LISTS):
        fault = document_fault(value)
        return fault and ': ' + fault
    items = value.get('items')
    if not may(is_list)(items):
        return ': ' + M2
    implied = (version, LISTS[version, kind]) if kind != 'List' else (None, None)
    faults = ((number, document_fault(item, *implied)) for number, item in enumerate(items or [], 1))
    return next((' item %d: %s' % told for told in faults if told[1]), None)


def value_of(text):
    """The JSON value of an input; ValueError if it has none. Of members with one name the last one counts."""
    def number(digits):
        if math.isinf(float(digits)):
            raise ValueError('no number is as large')
        return float(digits)

    def constant(word):
        raise ValueError('%s is no JSON' % word)

    def members(pairs):
        # Half a surrogate pair has no UTF-8, so this raises ValueError; replaced members count here too.
        json.dumps(pairs, ensure_ascii=False).encode()
        return dict(pairs)

    text = text.decode()
    brackets = re.sub(r'"(?:[^"\\]|\\.)*"|[^][{}]', '', text, flags=re.S)
    if max(itertools.accumulate((1 if bracket in '[{' else -1 for bracket in brackets), initial=0)) > DEEPEST:
        raise ValueError('too deep')
    value = json.loads(text, parse_int=number, parse_float=number, parse_constant=constant, object_pairs_hook=members)
    json.dumps(value, ensure_ascii=False).encode()
    return value


# ---- what is drawn from: good documents, each with all of its fields, and some with fields that aren't read there

METADATA = {'name': 'n', 'namespace': 'dev', 'labels': {'to': 'x', 'é': '\U0001f511'},
            'annotations': {'a': '{"kind":"Role"}'}, 'managedFields': [{'manager': 'x', 'fieldsV1': {'f:rules': {}}, 'time': None}]}
RULE = {'verbs': ['get', '*'], 'apiGroups': ['', 'apps'], 'resources': ['pods', '*/scale'], 'resourceNames': ['c', '']}
LEAST_RULE = {'verbs': ['*'], 'apiGroups': ['*'], 'resources': ['*']}
URL_RULE = {'verbs': ['get'], 'nonResourceURLs': ['/healthz', '/x*']}
SUBJECTS = [{'kind': 'User', 'name': 'b', 'apiGroup': RBAC, 'namespace': 'dev'}, {'kind': 'Group', 'name': 'c', 'apiGroup': ''},
            {'kind': 'ServiceAccount', 'name': 'ci', 'apiGroup': '', 'namespace': 'dev'}]
EXPRESSIONS = [{'key': 'to', 'operator': 'In', 'values': ['x', '']}, {'key': 'to', 'operator': 'NotIn', 'values': ['y']},
               {'key': 'to', 'operator': 'Exists', 'values': []}, {'key': 'of', 'operator': 'DoesNotExist'}]
SELECTORS = {'clusterRoleSelectors': [{'matchLabels': {'to': 'x'}, 'matchExpressions': EXPRESSIONS}, {}]}


def bound(role_kind):
    return {'metadata': METADATA, 'roleRef': {'apiGroup': RBAC, 'kind': role_kind, 'name': 'n'}, 'subjects': SUBJECTS}


def of_kind(version, kind, fields):
    return {'apiVersion': version, 'kind': kind, **fields}


API_RESOURCES = [{'name': 'pods', 'singularName': 'pod', 'namespaced': True, 'shortNames': ['po', ''], 'verbs': ['get'], 'kind': 'Pod'},
                 {'name': 'pods/log', 'singularName': '', 'namespaced': False}]
ALONE = [
    of_kind(V1, 'Role', {'metadata': METADATA, 'rules': [LEAST_RULE, RULE], 'aggregationRule': 5}),
    of_kind(V1, 'ClusterRole', {'metadata': METADATA, 'rules': [RULE, URL_RULE]}),
    of_kind(V1, 'ClusterRole', {'metadata': METADATA, 'rules': [URL_RULE], 'aggregationRule': SELECTORS}),
    of_kind(V1, 'RoleBinding', bound('Role')),
    of_kind(V1, 'ClusterRoleBinding', bound('ClusterRole')),
    of_kind('v1', 'Namespace', {'metadata': METADATA}),
    of_kind('v1', 'ServiceAccount', {'metadata': METADATA}),
    of_kind('v1', 'APIResourceList', {'groupVersion': 'apps/v1', 'resources': API_RESOURCES}),
    {'kind': 'APIResourceList', 'groupVersion': 'v1', 'resources': API_RESOURCES},
    of_kind('rbacaudit/v1', 'Universe', {
        'principals': [{'user': 'b', 'groups': ['c', '']}, {'group': 'c'}], 'namespaces': ['', 'dev'], 'verbs': ['get'],
        'resources': [{'group': 'apps', 'resource': 'pods', 'namespaced': False}], 'names': ['', 'c'], 'urls': ['/x']}),
    of_kind(USERS_V1, 'Group', {'metadata': METADATA, 'users': ['b', 'c']}),
    of_kind('x.io/v1', 'Gadget', {'metadata': 5, 'rules': {}, 'items': 5}),
]


def listed(version, kind):
    """A list whose items say their kinds, and before them, where the list implies it, the same without."""
    implied = LISTS[version, kind]
    items = [document for document in ALONE if document['kind'] in ([implied] if implied else ['Role', 'Namespace', 'APIResourceList'])]
    return of_kind(version, kind, {'items': [*map(bare, items), *items] if implied else items})


GOOD = ALONE + [listed(*pair) for pair in LISTS]
WORKED = of_kind('v1', 'List', {'items': [
    of_kind(V1, 'Role', {'metadata': {'name': 'r'}, 'rules': [LEAST_RULE]}),
    of_kind(V1, 'RoleBinding', {'metadata': {'name': 'b'}, 'roleRef': {'kind': 'Role', 'name': 'r'}, 'subjects': SUBJECTS[1:2]})]})


class Raw(str):
    """A value that is printed as it stands."""


MISSING = Raw()
SHAPES = [MISSING, None, True, 5, '', 'x', [], [None], ['x'], [[]], [['x']], [{}], {}, {'x': None}, {'x': 'y'}]
# What a field may be mistaken for, by its name.
WORDS = {
    'apiVersion': ['v1', 'v2', V1, V1BETA1, V1 + 'alpha1', V1 + 'beta', V1BETA1 + '0', V1BETA1 + ' ', 'v1beta1', RBAC + '/', RBAC,
                   'rbacaudit/v1', USERS_V1, 'user.openshift.io/v2', 'Rbac.authorization.k8s.io/v2', ' v1'],
    'kind': [*sorted(NEED_A_VERSION), 'APIResourceList', 'User', 'Group', 'user', 'Gadget', 'APIVersions'],
    'operator': ['In', 'NotIn', 'Exists', 'DoesNotExist', 'in', 'Gt'],
    'groupVersion': ['v1', 'apps/v1', 'a/b/c', '/', '//', '/v1', 'apps/'],
    'name': ['/', '/pods', 'pods/', '*'],
    'apiGroup': [RBAC, V1, 'apps', ' '],
    'values': [[], ['y'], ['']],
}
RAWS = ['1e999', '-1e999', '1e-999', '0e999', '-0', '1E+2', '01', '.5', '5.', '1e', '+1', '-', '0x1', 'NaN', 'Infinity', '-Infinity',
        '9' * 400, '0.%s1' % ('0' * 400), '1%se-400' % ('0' * 400), '18446744073709551616', '-9223372036854775809', 'True', 'nul',
        "'x'", '[1,]', '{"x":1,}', '{"x"}', '{5:5}', '[1 2]', '/**/1', '"\\x41"', '"\\u12g4"', '"\t"', '"\x7f"', '"\\/\\b\\f"']
PAIRS = [('[', '', ']'), ('[', '1', ']'), ('{"x":', '1', '}')]
# Items with a member that no document has a use for; some begin like one that is read, or end like one.
UNREAD = [b'{"apiVersion":"v1","kind":"Namespace","metadata":{"name":"a"},"status":%s}',
          b'{"apiVersion":"v1","kind":"Namespace","metadata":{"name":"a","managedFields":[%s]}}',
          b'{"apiVersion":"v1","kind":"Namespace","metadata":{"nam":%s,"name":"a","namespaces":1,"Labels":1}}',
          b'{"apiVersion":"v1","kind":"Gadget","spec":{"metadata":%s,"kind":{}},"metadata":1}']
# Halves of surrogate pairs, alone and in a wrong order; and a whole pair.
ESCAPES = [b'\\ud800', b'\\udc00', b'\\ud83d\\ude00', b'\\uDE00\\uD83D', b'\\ud83d\\ud83d', b'\\ud83dx', b'\\ud83d\\n', b'\\u0000', b'\\\\ud800']
BAD_UTF8 = [b'\xff', b'\x80', b'\xc0\x80', b'\xe2\x82', b'\xed\xa0\x80', b'\xf4\x90\x80\x80', b'\xf0\x9f\x94']
GOOD_UTF8 = [b'\xc2\x80', b'\xee\x80\x80', b'\xf4\x8f\xbf\xbf', b'\xef\xbb\xbf']
AROUND = [b' ', b'\r\n\t', b'x', b',', b']', b'}', b'{}', b'null', b'"', b'\0', b'\x0b', b'\xc2\xa0', b'\xef\xbb\xbf', b'//', b'\xff\xfe']


# ---- drawing

def places(value, path=()):
    """The path of each part of a value, its own first."""
    yield path
    inside = value.items() if is_object(value) else enumerate(value) if is_list(value) else ()
    for key, part in inside:
        yield from places(part, path + (key,))


def part_at(value, path):
    return functools.reduce(lambda part, key: part[key], path, value)


def altered(value, path, change):
    """A copy whose part at the path is what `change` makes of it, or is missing."""
    if not path:
        return change(value)
    copied, part = copy.copy(value), altered(value[path[0]], path[1:], change)
    if part is MISSING:
        del copied[path[0]]
    else:
        copied[path[0]] = part
    return copied


def single_faults():
    """Each good document; each part of one in each shape; of the lists only their own fields and those of their items."""
    for document in GOOD:
        yield document
        for path in places(document):
            if document in ALONE or len(path) < 3 or path[2] in ('kind', 'apiVersion'):
                for shape in shapes(path):
                    yield altered(document, path, lambda part: shape)
            yield from with_more(document, path)


def with_more(document, path):
    """Each item of a list of objects with one more field, as another item of the list has it."""
    items = part_at(document, path)
    if are(is_object)(items) and document in ALONE:
        for at, other in itertools.product(range(len(items)), items):
            for field in sorted(other.keys() - items[at].keys()):
                yield altered(document, path + (at,), lambda item: {**item, field: other[field]})


def single_texts():
    """The texts of the single faults; then what is no matter of fields: odd values, depths, bytes, and each prefix of an export."""
    odd = [*map(Raw, RAWS), *(nested(pair, levels) for pair in PAIRS for levels in range(DEEPEST - 3, DEEPEST + 2))]
    for value in [*single_faults(), *odd, *({'kind': 'Gadget', 'more': value} for value in odd)]:
        yield plain(value)
    for part in [*ESCAPES, *BAD_UTF8, *GOOD_UTF8]:
        for text in (b'"%s"', b'{"kind":"%s"}', b'{"kind":"Gadget","more":["%s"]}', b'{"kind":"Gadget","more":"%s","more":1}',
                     b'{"kind":"Gadget","%s":1}'):
            yield text % part
    for part in AROUND:
        yield from (part + b'{"kind":"Gadget"}', b'{"kind":"Gadget"}' + part)
    yield from unread_texts()
    whole = plain(WORKED)
    yield from (whole[:end] for end in range(len(whole)))


def unread_texts():
    """Lists of one item that has an odd value, text or depth in a member that isn't read."""
    odd = [*map(Raw, RAWS), *(nested(pair, levels) for pair in PAIRS for levels in range(DEEPEST - 6, DEEPEST - 1))]
    values = [*map(plain, odd), *(b'"%s"' % part for part in [*ESCAPES, *BAD_UTF8, *GOOD_UTF8])]
    for item, value in itertools.product(UNREAD, values):
        yield b'{"apiVersion":"v1","kind":"List","items":[%s]}' % (item % value)
    for part in [*ESCAPES, *BAD_UTF8, *GOOD_UTF8]:
        yield b'{"apiVersion":"v1","kind":"List","items":[{"kind":"Gadget","%s":1}]}' % part


def nested(pair, levels):
    """Lists or objects in one another, with nothing or a number inside."""
    return Raw(pair[0] * levels + pair[1] + pair[2] * levels)


def shapes(path):
    return SHAPES + WORDS.get(path[-1] if path else None, [])


def part_of(draw, value):
    return part_at(value, draw.choice([*places(value)]))


def change(draw, path):
    """How one part is altered: what another part would be, or what no field may be."""
    chance = draw.random()
    if chance < 0.5:
        shape = draw.choice(shapes(path))
        return lambda part: shape
    if chance < 0.6:
        wrap = draw.choice([lambda part: [part], lambda part: [part, part], lambda part: [part, 5], lambda part: {'x': part}])
        return lambda part: wrap(part)
    if chance < 0.8:
        other = part_of(draw, draw.choice(ALONE))
        return lambda part: {**other, **part} if is_object(part) and is_object(other) else other
    if chance < 0.9:
        item, at = draw.choice(SHAPES[1:]), draw.randint(0, 3)
        return lambda part: part[:at] + [item] + part[at:] if is_list(part) else {'x': item, **part} if is_object(part) else item
    raw = nested(draw.choice(PAIRS), DEEPEST - draw.randint(-1, 5)) if chance < 0.94 else Raw(draw.choice(RAWS))
    return lambda part: raw


def document(draw, among):
    """A good document with none to three of its parts altered."""
    drawn = draw.choice(among)
    for _ in range(draw.choice([0, 1, 1, 1, 2, 3])):
        path = draw.choice([*places(drawn)])
        drawn = altered(drawn, path, change(draw, path))
        drawn = drawn if is_object(drawn) else draw.choice([drawn, draw.choice(among)])
    return drawn


def random_input(draw):
    if draw.random() < 0.6:
        return document(draw, GOOD)
    (version, kind), implied = draw.choice([*LISTS.items()])
    alike = [good for good in ALONE if good['kind'] == implied]
    items = [document(draw, alike if alike and draw.random() < 0.8 else GOOD) for _ in range(draw.randint(0, 4))]
    items = [bare(item) if implied and is_object(item) and draw.random() < 0.5 else item for item in items]
    return of_kind(version, kind, {'items': items})


def text_printed(draw, text, odd):
    """A text in quotes; an odd one is escaped from end to end, with surrogate pairs where UTF-16 has them."""
    if draw.random() >= odd:
        return json.dumps(text, ensure_ascii=draw.random() < 0.5)
    units = re.findall('....', text.encode('utf-16-be').hex())
    return '"%s"' % ''.join('\\u' + draw.choice([unit, unit.upper()]) for unit in units)


def printed(draw, value, odd):
    """A value as JSON; odd ones have members twice, in another order, spaces and escapes, and mean the same."""
    if isinstance(value, Raw):
        return str(value)
    space = draw.choice(['', ' ', '\n', '\t', '\r\n']) if draw.random() < odd else ''
    if is_list(value):
        return '[%s]' % (space + ',').join(space + printed(draw, item, odd) for item in value)
    if not is_object(value):
        return space + (text_printed(draw, value, odd) if is_text(value) else json.dumps(value))
    members = [*value.items()]
    if draw.random() < odd:
        draw.shuffle(members)
        twice = [(key, draw.choice(SHAPES[1:])) for key in value if draw.random() < 0.5]
        members = twice + members + [('more', draw.choice(SHAPES[1:]))] * draw.randint(0, 2)
    shown = ('%s%s:%s' % (text_printed(draw, key, odd), space, printed(draw, part, odd)) for key, part in members)
    return '{%s}' % (space + ',').join(shown)


def damaged(draw, text):
    """A text that is cut, goes on, has other bytes, or another encoding."""
    at = draw.randint(0, max(len(text) - 1, 0))
    quotes = [match.end() for match in re.finditer(b'"', text)] or [0]
    in_text = draw.choice(quotes)
    return draw.choice([
        lambda: text[:at],
        lambda: text[:-1],
        lambda: text + draw.choice(AROUND),
        lambda: draw.choice(AROUND) + text,
        lambda: text[:at] + bytes([draw.randrange(256)]) + text[at + 1:],
        lambda: text[:at] + text[at + 1:],
        lambda: text[:at] + draw.choice(AROUND) + text[at:],
        lambda: text[:in_text] + draw.choice(ESCAPES) + text[in_text:],
        lambda: text[:in_text] + draw.choice(ESCAPES + BAD_UTF8 + GOOD_UTF8) + text[in_text:],
        lambda: text.decode(errors='replace').encode(draw.choice(['utf-16', 'utf-16-be', 'utf-32', 'latin-1']), 'replace'),
    ])()


def plain(value):
    return printed(random.Random(1), value, 0).encode()


def random_text(seed, number):
    draw = random.Random('%s %d' % (seed, number))
    text = printed(draw, random_input(draw), draw.choice([0, 0, 0.1, 0.5])).encode()
    return damaged(draw, text) if draw.random() < 0.1 else text


# ---- running

def answer(texts):
    """Status, output and error of the program over the inputs as files."""
    with tempfile.TemporaryDirectory() as room:
        names = [str(number) for number in range(1, len(texts) + 1)]
        for name, text in zip(names, texts):
            with open(os.path.join(room, name), 'wb') as file:
                file.write(text)
        # Nobody in these documents is named `a`, so the answer is no.
        try:
            ended = subprocess.run([PROGRAM, 'can-i', '--as', 'a', 'get', 'pods', *names], cwd=room, stdin=subprocess.DEVNULL,
                                   stdout=subprocess.PIPE, stderr=subprocess.PIPE, timeout=60)
        except subprocess.TimeoutExpired:
            return 'no answer in 60 seconds'
    return ended.returncode, ended.stdout, ended.stderr


def wanted(faults):
    for number, fault in enumerate(faults, 1):
        if fault:
            return 2, b'', b'rbacaudit: file %d%s\n' % (number, fault.encode())
    return 1, b'no\n', b''


def wrong_ones(texts, after=()):
    """The inputs that are answered wrongly: all in one run, with others after them, and each alone only if that run is wrong."""
    faults = [*map(fault_of, texts)]
    got = answer([*texts, *after])
    if got == wanted(faults):
        return []
    told = [(answer([text]), wanted([fault]), [text]) for text, fault in zip(texts, faults)]
    return [one for one in told if one[0] != one[1]] or [(got, wanted(faults), [*texts, *after])]


def tried(texts):
    """A share of the inputs: which refusals they met, and those that were answered wrongly.

    A run ends at its first bad document. So the accepted ones stand before the next bad one in one run, and the bad one of
    the run before follows, which must not be reported.
    """
    met, wrong, waiting, last = collections.Counter(), [], [], []
    for text in texts:
        fault = fault_of(text)
        met[re.search(r'M\d+', fault).group() if fault else 'accepted'] += 1
        waiting.append(text)
        if fault:
            wrong += wrong_ones(waiting, last)
            waiting, last = [], [text]
    return met, wrong + (wrong_ones(waiting) if waiting else [])


def random_tried(task):
    seed, numbers = task
    return tried([random_text(seed, number) for number in numbers])


def all_tried(seed, count):
    """The same of all inputs, side by side on two processes."""
    singles = [*single_texts()]
    with multiprocessing.Pool(2) as pool:
        yield from pool.imap_unordered(tried, (singles[start:start + 100] for start in range(0, len(singles), 100)))
        yield from pool.imap_unordered(random_tried, ((seed, range(start, min(start + 100, count))) for start in range(0, count, 100)))


def disagreeing_rows():
    """The documents of rows.json and rows_groups.json, which others worked out, where the table above disagrees."""
    rows = []
    for name in ('rows.json', 'rows_groups.json'):
        with open(os.path.join(TOP, 'tests', name), encoding='utf-8') as file:
            rows += json.load(file)['documents']
    for row in rows:
        fault = fault_of(row['document'].encode())
        if (fault and 'file 1' + fault) != row['fault']:
            yield 'the table of fuzz.py says %r' % fault, row['fault'], [row['document'].encode()]


def main(seed, count):
    if not os.path.isfile(PROGRAM):
        print('FAIL the program is not built\n0 passed, 1 failed')
        return 1
    seed, count = seed or str(time.time_ns() // 1_000_000), int(count or 20_000)
    print('seed %s, %d random documents' % (seed, count), flush=True)
    met, wrong = collections.Counter(), [*disagreeing_rows()]
    for share_met, share_wrong in all_tried(seed, count):
        met += share_met
        wrong += share_wrong
    for got, right, texts in wrong[:5]:
        print('FAIL wanted %r, got %r for %s' % (right, got, ' and '.join(map(repr, texts))))
    refusals = ['accepted'] + ['M%d' % number for number in (*range(1, 11), 13)]
    never = [name for name in refusals if not met[name]]
    for name in never:
        print('FAIL no document met %s' % name)
    print('met: ' + ', '.join('%s %d' % (name, met[name]) for name in refusals))
    print('%d passed, %d failed' % (max(sum(met.values()) - len(wrong), 0), len(wrong) + len(never)))
    return 1 if wrong or never else 0


if __name__ == '__main__':
    sys.exit(main(*[*sys.argv[1:], '', ''][:2]))
