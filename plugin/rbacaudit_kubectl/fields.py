"""The lines that rbacaudit prints: the fields of each command, their escapes, and the powers of what a line allows."""

from __future__ import annotations

import functools
import re
from collections.abc import Sequence
from dataclasses import dataclass

from .escapes import bytes_of
from .escapes import text_of as text_of_bytes

# ---- escapes of a field

_ESCAPE = re.compile(rb'\\(?:\\|x([0-9a-f]{2}))')
_CONTROL = re.compile(r'[\x00-\x1f\x7f]')


def in_key(text: str) -> str:
    """A text as rbacaudit prints it in a key, such as that of a binding."""
    return _CONTROL.sub(lambda one: '\\x%02x' % ord(one[0]), text.replace('\\', '\\\\'))


def in_field(text: str) -> str:
    """A text as rbacaudit prints it as a field."""
    return in_key(text) if text not in ('', '-') else '\\x2d' if text else '-'


def text_of(field: str) -> str:
    """The text that a field stands for. Escapes are bytes: several may be one character."""
    if '\\' not in field:
        return '' if field == '-' else field
    return text_of_bytes(_ESCAPE.sub(lambda one: bytes([int(one[1], 16)]) if one[1] else b'\\', bytes_of(field)))


def words_of(field: str) -> list[str]:
    """The words of a list, each as a field."""
    return field[1:-1].split(',') if field != '[]' else []


def rows_of(text: str) -> list[list[str]]:
    """The lines of an answer, each as its fields."""
    return [line.split('\t') for line in text.split('\n') if line]


def place_of(binding: str) -> str:
    """The namespace of a binding; one with a further / doesn't tell its own."""
    parts = binding.split('/')
    return '' if binding.startswith('Cluster') else parts[1] if len(parts) == 3 else binding


# ---- the powers: the steps by which somebody takes over somebody else

# (the step; its verbs; its types, each with its group after the first dot; `cluster` where only a ClusterRoleBinding gives it, or the namespace whose
# RoleBindings give it too. docs/BEHAVIOUR.md shows this table.)
CLUSTER, KUBE_SYSTEM = 'cluster', 'kube-system'
OF_NODES = ('certificatesigningrequests/nodeclient.certificates.k8s.io', 'certificatesigningrequests/selfnodeclient.certificates.k8s.io')
STEPS = (
    ('impersonate', 'impersonate', 'users groups', CLUSTER),
    ('impersonate', 'impersonate', 'serviceaccounts', ''),
    ('token', 'create', 'serviceaccounts/token', ''),
    ('run', 'create', 'pods jobs.batch', ''),
    ('run', 'create update patch', 'replicationcontrollers daemonsets.apps deployments.apps replicasets.apps statefulsets.apps cronjobs.batch '
     'controllerrevisions.apps', ''),
    ('exec', 'create get', 'pods/attach pods/exec', ''),
    ('exec', 'update patch', 'pods pods/ephemeralcontainers', ''),
    ('secrets', 'get list watch update patch delete deletecollection', 'secrets', ''),
    ('nodes', 'create get', 'nodes/proxy', CLUSTER),
    ('bind', 'bind', 'clusterroles.rbac.authorization.k8s.io roles.rbac.authorization.k8s.io', ''),
    ('escalate', 'escalate', 'clusterroles.rbac.authorization.k8s.io', CLUSTER),
    ('escalate', 'escalate', 'roles.rbac.authorization.k8s.io', ''),
    ('certificates', 'update patch', 'certificatesigningrequests/approval.certificates.k8s.io', CLUSTER),
    ('certificates', 'create', ' '.join(OF_NODES), CLUSTER),
    ('webhooks', 'create update patch', 'mutatingwebhookconfigurations.admissionregistration.k8s.io '
     'validatingwebhookconfigurations.admissionregistration.k8s.io mutatingadmissionpolicies.admissionregistration.k8s.io '
     'mutatingadmissionpolicybindings.admissionregistration.k8s.io', CLUSTER),
    ('apiservices', 'create update patch', 'apiservices.apiregistration.k8s.io', CLUSTER),
    ('bootstrap', 'create update patch', 'secrets', KUBE_SYSTEM),
    ('volumes', 'create', 'persistentvolumes', CLUSTER),
    ('namespaces', 'update patch', 'namespaces', ''))
STEP_NAMES = tuple(dict.fromkeys(name for name, *_ in STEPS))
_TYPES = {type_ for _, _, types, _ in STEPS for type_ in types.split()}
# The words of a rule by which it may have one of these types.
POWER_GROUPS = {'*', *(type_.partition('.')[2] or '-' for type_ in _TYPES)}
POWER_RESOURCES = {'*', *(type_.partition('.')[0] for type_ in _TYPES), *('*/' + type_.partition('.')[0].partition('/')[2] for type_ in _TYPES if '/' in type_)}


def has_name(verb: str, type_: str) -> bool:
    """Whether such a request has an object's name, so that a rule which is limited to names may allow it."""
    return verb != 'deletecollection' and (verb != 'create' or '/' in type_ and type_ not in OF_NODES)


@functools.lru_cache(maxsize=4096)
def steps_of(verbs: tuple[str, ...], groups: tuple[str, ...], resources: tuple[str, ...], is_named: bool, place: str) -> tuple[str, ...]:
    """The steps that a rule gives in a place, in the order of the table. Words are fields."""
    def has(words: tuple[str, ...], *wanted: str) -> bool:
        return '*' in words or any(word in words for word in wanted)

    def has_type(type_: str) -> bool:
        resource, _, group = type_.partition('.')
        _, slash, below = resource.partition('/')
        return has(groups, group or '-') and has(resources, resource, *(['*/' + below] if slash else []))

    return tuple(dict.fromkeys(
        name for name, of_verbs, types, where in STEPS if place == CLUSTER or where in ('', place)
        for type_ in types.split() if has_type(type_)
        for verb in of_verbs.split() if has(verbs, verb) and (not is_named or has_name(verb, type_))))


def _place(namespace: str, of_cluster: str) -> str:
    """The place of a namespace, as far as the table tells places apart; the whole cluster is written in this way."""
    return CLUSTER if namespace == of_cluster else namespace if namespace == KUBE_SYSTEM else ''


def powers_of(command: str, cells: Sequence[str]) -> tuple[str, ...]:
    """The powers of a line of diff, of its summary, of matrix, of rules or of unused; lines of other commands tell none."""
    if command == 'diff' and cells[2] != '-':  # (a URL has no namespace)
        return steps_of((cells[3],), (cells[4],), (cells[5],), cells[6] not in ('*', '-'), _place(cells[2], '*'))
    if command == 'diff --summary':
        return tuple(words_of(cells[5]) + words_of(cells[6]))
    if command == 'matrix' and not cells[4].startswith('/'):
        return steps_of((cells[2],), (cells[3],), (cells[4],), cells[5] != '-', _place(cells[1], '-'))
    if command == 'unused' and cells[0] == 'permission':
        # (a URL may be nothing but stars)
        is_url = cells[8].startswith('/') or not cells[8].strip('*') and cells[7] == cells[9] == '-'
        return () if is_url else steps_of((cells[6],), (cells[7],), (cells[8],), cells[9] not in ('*', '-'), _place(place_of(cells[1]), ''))
    if command == 'rules':
        verbs, groups, resources, names = (tuple(words_of(cell)) for cell in cells[5:9])
        kind, _, key = cells[0].partition('/')
        return steps_of(verbs, groups, resources, bool(names) and '-' not in names, _place(key.partition('/')[0] if kind[0] == 'R' else '*', '*'))
    return ()


# ---- whoever has a role, and what an aggregated role gathers elsewhere: of diff of manifests alone

WHAT, ELSEWHERE = 'what', 'gathers elsewhere'   # the verb and the name in a line about that; its resource is the role
DIFFS = {'diff': 7, 'diff --summary': 2}        # where the binding stands


def is_gathered(cells: Sequence[str]) -> bool:
    """Whether a line of diff is about what an aggregated role gathers elsewhere."""
    return (cells[3], cells[6]) == (WHAT, ELSEWHERE)


# ---- the lines of each command

# (written so that no text is read twice: what follows a field is a tab or the end of the line)
_REST = r'[^\\\x00-\x1f\x7f]*(?:\\(?:\\|x[0-9a-f]{2})[^\\\x00-\x1f\x7f]*)*'
_WORD = r'(?:[^\\,\x00-\x1f\x7f]|\\(?:\\|x[0-9a-f]{2}))' + _REST.replace(r'[^\\', r'[^\\,')
FIELD = r'(?=[^\t])' + _REST
PRINCIPAL = '[ug]:' + FIELD
# (names may have slashes, so it is enough that one of them parts two)
ROLE, BINDING = (r'(?:Cluster{0}/(?=[^\t])|{0}/(?=[^\t]+/[^\t]))'.format(kind) + _REST for kind in ('Role', 'RoleBinding'))
NUMBER = '[1-9][0-9]{0,17}'
STEP = '(?:%s)' % '|'.join(STEP_NAMES)
# What a near grant lacks, and whether it has a list of the rule in its place.
LACKS = {'namespace': False, 'verb': True, 'group': True, 'subresource': True, 'name': True, 'member': False}
# What may be unused, and which of the last seven fields its line has: the others are empty, and those of words may be.
PARTS = {'binding': '.......', 'subject': '..xx...', 'rule': 'xx.....', 'permission': 'xx. '}
# What a field of each kind looks like. Fields of `any` may be *, which is no name then.
KINDS = {
    'text': FIELD, 'any': FIELD, 'detail': FIELD, 'who': PRINCIPAL, 'holder': '(?:%s|r:%s)' % (PRINCIPAL, ROLE),
    'whose': '(?:%s|r:%s|total)' % (PRINCIPAL, ROLE), 'binding': BINDING, 'role': ROLE,
    'node': r'(?:%s|\*|%s)' % (PRINCIPAL, ROLE), 'next': r'(?:%s|[-*]|%s)' % (PRINCIPAL, ROLE), 'bound': '(?:-|%s)' % BINDING, 'held': '(?:-|%s)' % ROLE,
    'number': NUMBER, 'count': '(?:0|%s)' % NUMBER, 'place': '(?:-|%s)' % NUMBER, 'list': r'\[(?:%s(?:,%s)*)?\]' % (_WORD, _WORD),
    'part': '(?:%s)' % '|'.join(PARTS), 'acted': FIELD,
    'code': 'L[1-9][0-9]*', 'sign': '[-+]', 'step': STEP, 'by': '(?:-|%s)' % STEP, 'what': '(?:%s)' % '|'.join(LACKS), 'has': FIELD}


@dataclass(frozen=True)
class Shape:
    """The lines of a command: which field says what they are about, and each field's head in tables, kind, and key in JSON."""
    command: str
    about: int
    fields: tuple[tuple[str, str, str], ...]

    @functools.cached_property
    def pattern(self) -> re.Pattern[str]:
        """What a whole line looks like, field by field."""
        return re.compile('\t'.join(KINDS[kind] for _, kind, _ in self.fields))

    def cells_of(self, line: str) -> list[str]:
        """The fields of a line, or none if it isn't one of these."""
        cells = line.split('\t') if self.pattern.fullmatch(line) else []
        if self.command in DIFFS and cells:
            # (whoever has a role has it by a binding elsewhere, and a total has none)
            needs_none = cells[self.about] == 'total' or cells[self.about].startswith('r:')
            return cells if (cells[DIFFS[self.command]] == '-') == needs_none else []
        if self.command == 'unused' and cells:
            is_whole = all((cell == '-') == (sign == '.') for cell, sign in zip(cells[3:], PARTS[cells[0]]) if sign != ' ')
            return cells if is_whole and (cells[0] != 'subject' or cells[6].startswith(('u:', 'g:'))) else []
        return [] if len(cells) == 11 and not tells_step(cells, self.command == 'paths') else cells


def _shape(command: str, about: int, fields: str) -> Shape:
    parts = ((word + '::').split(':')[:3] for word in fields.split())
    return Shape(command, about, tuple((head, kind or 'text', key or head.lower()) for head, kind, key in parts))


_GRANT = 'BINDING:binding ROLE:role SOURCE:role RULE:number SUBJECT:number'
_HELD = 'BINDING:bound ROLE:held SOURCE:held RULE:place SUBJECT:place'
_ROW = 'WHO:%s NAMESPACE%s VERB GROUP RESOURCE NAME%s BINDING:%s'
_FINDING = 'CODE:code NAME OBJECT PLACE:place DETAIL:detail'
# (HEAD, HEAD:KIND or HEAD:KIND:KEY)
SHAPES = (
    _shape('can-i', 0, _GRANT),
    _shape('can-i', 0, 'WHAT:what HAS:has ' + _GRANT),
    _shape('who-can', 0, 'WHO:who BINDING:binding'),
    _shape('who-can', 0, 'WHO:who ' + _GRANT),
    _shape('rules', 0, _GRANT + ' VERBS:list GROUPS:list:api_groups RESOURCES:list NAMES:list:resource_names URLS:list:non_resource_urls'),
    _shape('matrix', 0, _ROW % ('who', '', '', 'binding')),
    _shape('lint', 2, _FINDING),
    _shape('lint', 2, _FINDING + ' FILE'),
    _shape('powers', 1, 'STEP:step WHO:who WHERE:any ' + _GRANT),
    _shape('paths', 1, 'STEPS:number TO:node:who WHERE:any FROM:node WHERE:any:from_where STEP:step ' + _HELD),
    _shape('who-can --indirect', 1, 'STEPS:count WHO:node WHERE:any TO:next WHERE:any:to_where STEP:by ' + _HELD),
    _shape('diff', 1, 'CHANGE:sign ' + _ROW % ('holder', ':any', ':any', 'bound')),
    _shape('diff --summary', 0, 'WHO:whose NAMESPACE:any BINDING:bound GAINED:count LOST:count POWERS_GAINED:list POWERS_LOST:list'),
    _shape('unused', 1, 'LINE:part BINDING:binding ROLE:role SOURCE:held RULE:place SUBJECT:place WHO/VERB:acted GROUP RESOURCE NAME:any'))
# A row has its shape and its fields. What is no row, such as the last line of a matrix, has this shape and itself.
Row = tuple[Shape, list[str]]
REMARK = Shape('', 0, ())


# ---- which of two commands

ACCOUNT, ALL = 'u:system:serviceaccount:[^:]+:[^:]+\t-', r'\*\t\*'
# Which nodes a step takes over, and where, if not the service accounts. Some steps are powers alone, and take over nobody.
OVER = {'impersonate': '[ug]:.+', 'bind': '(?![ug]:).+', 'escalate': r'\*\t.+', 'certificates': '%s|%s' % (ALL, ACCOUNT),
        'webhooks': ALL, 'apiservices': ALL, 'bootstrap': 'g:system:bootstrappers(?::.*)?\t-', **dict.fromkeys(('volumes', 'namespaces'), '(?!)')}


def _is_node(node: str, where: str) -> bool:
    return node != '-' and node.startswith(('u:', 'g:')) == (where == '-')


def _has(node: str, grant: Sequence[str]) -> bool:
    """Whether a node has this grant: somebody by a binding, a role by its rules, and everything needs none."""
    lacks = ''.join(str(int(cell == '-')) for cell in grant)
    return lacks == ('00000' if node.startswith(('u:', 'g:')) else '11111' if node == '*' else '10001') and (lacks != '10001' or grant[1] == node)


def tells_step(cells: Sequence[str], is_of_paths: bool) -> bool:
    """Whether a line of paths, or of who-can --indirect, tells how a node takes over another or, with the number 0, why it allows the request itself.
    Only so can the lines of the two commands be told apart."""
    taken, taker = (cells[1:3], cells[3:5]) if is_of_paths else (cells[3:5], cells[1:3])
    if not _is_node(*taker) or not _has(taker[0], cells[6:]):
        return False
    if cells[0] == '0':
        return [*taken, cells[5]] == ['-', '-', '-']
    return cells[5] != '-' and _is_node(*taken) and bool(re.fullmatch(OVER.get(cells[5], ACCOUNT), '\t'.join(taken)))
