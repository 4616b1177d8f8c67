"""-o sarif: what lint and diff list as SARIF 2.1.0, which code hosts show beside a change (docs/FORMATS.md)."""

from __future__ import annotations

import json
import os
from collections.abc import Iterator
from dataclasses import dataclass
from itertools import accumulate, groupby, islice
from typing import Any, Dict

from . import VERSION
from .answer import Asking
from .documents import first_of, objects_in
from .escapes import escaped
from .fields import is_gathered
from .manifests import KUSTOMIZATIONS, NAMESPACED, Item, Manifests, is_held, key_of, key_of_item, role_of

Part = Dict[str, Any]   # of the SARIF
MOST = 25000    # GitHub refuses a file with more results
FEW = 10        # how many permissions a message lists
WHO = {'u': 'The user ', 'g': 'The group ', 'r': 'Whoever has '}
SCHEMA = 'https://docs.oasis-open.org/sarif/sarif/v2.1.0/os/schemas/sarif-schema-2.1.0.json'
DEEPEST = 100   # objects and lists within each other, of what is read for its lines


@dataclass(frozen=True)
class Rule:
    """What may be found: its id, name and level, what it is in short and in full, what to do, and the message of a result."""
    id: str
    name: str
    level: str
    short: str
    full: str
    help: str
    message: str


LINT = (
    Rule('L1', 'dangling-role', 'warning', 'A binding refers to a role that does not exist',
         'No role has this kind, namespace and name. Until somebody creates it, the binding grants nothing.',
         'Check that all files were read. If only manifests were read, the role may exist in the cluster. Otherwise delete the '
         'binding, or correct its roleRef.',
         '{object} refers to {detail}, which does not exist. So the binding grants nothing.'),
    Rule('L2', 'unused-role', 'note', 'A role is unused',
         'No binding refers to the role, or to an aggregated cluster role that includes its rules.',
         'If nobody is going to bind the role, delete it.', 'No binding uses {object}.'),
    Rule('L3', 'redundant-rule', 'note', 'A rule is redundant',
         'Another rule of the same role allows everything that this rule allows.', 'Delete this rule.',
         'Rule {place} of {object} is redundant: rule {detail} allows everything that rule {place} allows.'),
    Rule('L4', 'escalation', 'error', 'A rule allows privilege escalation',
         'The rule allows the verb bind or escalate on roles or cluster roles. With bind, users can bind roles with permissions that '
         'they do not have. With escalate, they can write such roles.',
         'List who has the permission: kubectl rbacaudit who-can -n NS VERB TYPE.rbac.authorization.k8s.io, where VERB is bind or '
         'escalate, and TYPE is roles or clusterroles. Take it from everybody who is not an administrator.',
         'Rule {place} of {object} allows {detail}: whoever has this rule can {does} roles with permissions that they do not have.'),
    Rule('L5', 'account-without-namespace', 'error', 'A ServiceAccount subject has no namespace',
         'A ServiceAccount subject of a ClusterRoleBinding has no namespace. It names nobody, and a server refuses such a binding.',
         'Add the namespace of the service account to the subject.',
         'Subject {place} of {object}, the service account {detail}, has no namespace. So it names nobody.'),
    Rule('L6', 'stale-aggregate', 'warning', 'An aggregated role has stale rules',
         'The rules written in the aggregated role differ from the rules that it gathers from other roles. A cluster grants the written rules.',
         'For a cluster, export again. If the finding remains, check that the controller manager runs, and that no aggregated roles '
         'select each other. For manifests, leave the rules of the aggregated role empty.',
         'The rules written in {object} differ from the rules that it gathers from other roles.'),
    Rule('L7', 'replaced-object', 'warning', 'An object replaces another',
         'Several objects have the same kind, namespace and name. Only the last one counts.',
         'Delete the other objects, or give the files in the right order.',
         '{object} is defined {times} times. Only this definition counts.'))
DIFF = (
    Rule('gained-permission', 'gained-permission', 'warning', 'A user or a group gains a permission',
         'After the change, a user or the members of a group can do something that they could not do before.',
         'Check that they need the permission. If not, remove it from the role, or remove them from the binding.',
         '{who} gains {permissions}{where}{by}: {listed}.'),
    Rule('lost-permission', 'lost-permission', 'note', 'A user or a group loses a permission',
         'After the change, a user or the members of a group can no longer do something that they could do before.',
         'Check that they no longer need the permission.',
         '{who} loses {permissions}{where}{by}: {listed}.'))


class Side:
    """The objects of a state, of which those of manifests may stand in files."""

    def __init__(self, exported: list[Item], *manifests: Manifests) -> None:
        self.home = home_folder()
        self.lines: dict[str, dict[str, int]] = {}
        objects = [(item, '') for item in exported] + [pair for some in manifests for pair in zip(some.items, some.origins)]
        # (of several with one name, the last counts)
        self.objects = {key_of_item(pair[0]): pair for pair in objects if is_held(pair[0])}

    def source(self, key: str) -> str:
        """The file in which an object stands, or '' if it is in none."""
        return source_of(self.objects[key][1]) if key in self.objects else ''

    def role(self, binding: str) -> str:
        """The role that a binding refers to."""
        return role_of(self.objects[binding][0]) if binding in self.objects and 'Binding/' in binding else ''

    def has_in_file(self, binding: str) -> bool:
        """Whether a binding or its role stands in a file."""
        return bool(self.source(binding) or self.source(self.role(binding)))

    def location(self, key: str) -> Part:
        """Where an object stands."""
        logical = {'logicalLocations': [{'fullyQualifiedName': escaped(key), 'kind': 'resource'}]}
        source = self.source(key)
        if not source:
            return logical
        address = {'uri': address_of(source, self.home)}
        if not address['uri'].startswith('file:'):
            address['uriBaseId'] = '%SRCROOT%'
        region = {'startLine': line_of(self.lines, source, key)}
        return {'physicalLocation': {'artifactLocation': address, 'region': region}, **logical}


# ---- results

def log_of(asking: Asking, rules: tuple[Rule, ...], results: Iterator[Part]) -> str:
    """The SARIF of results: as many as code hosts take, and how many more there are."""
    taken = list(islice(results, MOST))
    left = sum(1 for _ in results)
    ended: Part = {'executionSuccessful': True}
    if left:
        said = '%d more results are left out, because code hosts take at most %d' % (left, MOST)
        asking.session.report(said)
        ended['toolExecutionNotifications'] = [{'level': 'warning', 'message': {'text': said + '.'}}]
    described = [{'id': rule.id, 'name': rule.name, 'shortDescription': {'text': rule.short}, 'fullDescription': {'text': rule.full},
                  'help': {'text': rule.help}, 'defaultConfiguration': {'level': rule.level}} for rule in rules]
    driver = {'name': 'rbacaudit', 'semanticVersion': VERSION, 'rules': described}
    # (what is uploaded in another category stays)
    category = {'id': 'rbacaudit-%s/' % asking.question.command}
    run = {'tool': {'driver': driver}, 'automationDetails': category, 'results': taken, 'invocations': [ended]}
    return json.dumps({'$schema': SCHEMA, 'version': '2.1.0', 'runs': [run]}, ensure_ascii=False) + '\n'


def result_of(rules: tuple[Rule, ...], at: int, fields: dict[str, str], mark: list[str], location: Part, beside: Part | None = None) -> Part:
    """A result of a rule; `mark` tells it from others of the rule."""
    more = {'relatedLocations': [beside]} if beside else {}
    return {'ruleId': rules[at].id, 'ruleIndex': at, 'level': rules[at].level,
            'message': {'text': rules[at].message.format_map(fields)}, 'locations': [location], **more,
            'partialFingerprints': {'primaryLocationLineHash': escaped('\t'.join(mark))}}


def shown(name: str) -> str:
    """A field as messages have it: what a reader can't see is escaped, and so are the brackets and braces of which SARIF makes
    links and arguments. A name with a blank is quoted."""
    name = escaped(name)
    for one in '[]{}':
        name = name.replace(one, '\\x%02x' % ord(one))
    return '"%s"' % name.replace('"', '\\x22') if ' ' in name else name


def of_lint(asking: Asking, findings: list[list[str]]) -> str:
    """The findings of lint as SARIF."""
    side, numbers = Side([], *asking.manifests.values()), {rule.id: at for at, rule in enumerate(LINT)}

    def finding_of(code: str, _: str, about: str, place: str, detail: str) -> Part:
        fields = {'object': shown(about), 'place': place, 'detail': shown(detail), 'does': 'bind' if detail == 'bind' else 'write',
                  'times': str(int(detail) + 1) if detail.isdigit() else ''}
        mark = [about] if code == 'L7' else [about, place, detail]
        return result_of(LINT, numbers[code], fields, mark, side.location(about))

    return log_of(asking, LINT, (finding_of(*row) for row in findings))


# ---- changes

def of_diff(asking: Asking, old: Manifests | None, new: Manifests | None, rows: list[list[str]], own: list[Item]) -> str:
    """The changes of diff as SARIF. `own` are objects beside manifests alone."""
    files = asking.files('cluster.json', 'namespaced.json') if old or new else []
    exported = [*own, *objects_in(*files)]
    sides = [Side(exported, *([manifests] if manifests else [])) for manifests in (old, new)]
    return log_of(asking, DIFF, changes_of(sides, rows))


def changes_of(sides: list[Side], rows: list[list[str]]) -> Iterator[Part]:
    """The changes as results: a result has all that somebody gains, or loses, in one place through one binding. Gains come first,
    as they matter more where some results are left out."""
    for at, sign in enumerate('+-'):
        for (who, where), group in groupby((row for row in rows if row[0] == sign), key=lambda row: row[1:3]):
            by_binding: dict[str, list[list[str]]] = {}
            for row in group:
                by_binding.setdefault(row[7], []).append(row)
            for binding, some in by_binding.items():
                fields = {'who': WHO[who[0]] + shown(who[2:]), 'permissions': '%d permission%s' % (len(some), 's'[len(some) == 1:]),
                          'where': {'-': '', '*': ' in all namespaces'}.get(where, ' in the namespace ' + shown(where)),
                          'by': '' if binding == '-' else ', granted%s by %s' % (' before' * at, shown(binding)), 'listed': first_of([*map(permission_of, some)], FEW)}
                yield result_of(DIFF, at, fields, [who, where, binding], *locations_of(sides, 1 - at, who, binding))


def permission_of(row: list[str]) -> str:
    """The permission of a line of diff."""
    where, verb, group, resource, name = row[2:7]
    if is_gathered(row):
        return ' '.join((verb, shown(resource), name))
    text = '%s %s' % (shown(verb), shown(resource))
    if where != '-':
        text += ('' if group == '-' else '.' + shown(group)) + ('' if name == '*' else ' named ' + shown(name))
    return text


def locations_of(sides: list[Side], at: int, who: str, binding: str) -> tuple[Part, Part | None]:
    """Where a change is shown, and what stands beside it: a binding and its role. The role comes first if the binding is the same
    on both sides and the role isn't, or if only the role is in a file; of whoever has a role, it is alone. All are of this side, unless only
    the other has files."""
    key = who[2:] if binding == '-' else binding
    side = sides[at] if sides[at].has_in_file(key) or not sides[1 - at].has_in_file(key) else sides[1 - at]
    if binding == '-':
        return side.location(key), None
    role = side.role(binding)
    if not side.source(role):
        return side.location(binding), None
    if not side.source(binding) or is_same(sides, binding) and not is_same(sides, role):
        return side.location(role), side.location(binding)
    return side.location(binding), side.location(role)


def is_same(sides: list[Side], key: str) -> bool:
    """Whether manifests have the object on both sides, and have it in the same way."""
    found = [side.objects.get(key, ({}, '')) for side in sides]
    return bool(found[0][1] and found[1][1]) and found[0][0] == found[1][0]


# ---- where objects stand in manifests: the address of a file, and the lines of the names in it

def source_of(origin: str) -> str:
    """The file to show for what was read from there: of a folder, its kustomization. What is no file of a repository has none."""
    if origin.startswith(('/dev/', '/proc/')):
        return ''
    return next(filter(os.path.isfile, [origin, *(os.path.join(origin, name) for name in KUSTOMIZATIONS)]), '')


def home_folder() -> str:
    """The folder in which the plugin is called, by the name that the caller has for it."""
    named = os.environ.get('PWD', '')
    return named if os.path.isabs(named) and os.path.exists(named) and os.path.samefile(named, '.') else os.getcwd()


def address_of(path: str, home: str) -> str:
    """The address of a file: from the folder `home`, if it is below that. (.. goes back by the name, as in a shell)"""
    from urllib.parse import quote
    path, home = ('/' + os.path.normpath(os.path.join(home, name)).lstrip('/') for name in (path, home))
    below = os.path.join(home, '')
    return quote(os.fsencode(path[len(below):])) if path.startswith(below) else 'file://' + quote(os.fsencode(path))


def line_of(read: dict[str, dict[str, int]], path: str, key: str) -> int:
    """The line with the name of an object in a file, or 1 where nobody can tell."""
    return known_line(read, path, key) or 1


def known_line(read: dict[str, dict[str, int]], path: str, key: str) -> int:
    """The same, or 0 where nobody can tell. The names of files that were read are kept."""
    if path not in read:
        read[path] = dict(names_in(path))
    kind, _, name = key.partition('/')
    # (an object may have got its namespace from -n)
    bare = '%s/default/%s' % (kind, name.partition('/')[2]) if kind in NAMESPACED else key
    return read[path].get(key, read[path].get(bare, 0))


def names_in(path: str) -> Iterator[tuple[str, int]]:
    """The objects in a file, with the line of each name, as far as PyYAML reads it. Without PyYAML there are none."""
    import importlib
    import site
    try:
        site.main()  # (the plugin starts without the packages of others)
        yaml = importlib.import_module('yaml')
    except ImportError:
        return
    loader = getattr(yaml, 'CSafeLoader', yaml.SafeLoader)
    try:
        with open(path, 'rb') as file:
            text = file.read()
        events = (type(event).__name__ for event in yaml.parse(text, loader))
        if max(accumulate(name.endswith('StartEvent') - name.endswith('EndEvent') for name in events)) <= DEEPEST:
            for document in yaml.compose_all(text, loader):
                items = member(document, 'items')
                for item in [document] if items is None else items.value:
                    metadata = member(item, 'metadata')
                    parts = member(item, 'kind'), member(metadata, 'namespace'), member(metadata, 'name')
                    if parts[2] is not None:
                        yield key_of(*(str(part.value) if part else '' for part in parts)), parts[2].start_mark.line + 1
    except (OSError, ValueError, yaml.YAMLError):
        return


def member(node: Any, name: str) -> Any:
    """The value of a member of an object of YAML: of several, the last."""
    pairs = node.value if getattr(node, 'id', '') == 'mapping' else []
    return next((value for key, value in reversed(pairs) if key.value == name), None)
