"""Manifests alone, without an export and without a cluster: lint and diff, beside the objects that every cluster has.

Every cluster has Kubernetes' own cluster roles and bindings: those that a server of 1.20 made, with the rules that newer versions add to `edit`,
`view` and `system:basic-user`.

The cluster may bind each role of the manifests to others, and aggregated roles of its own may gather it. Nobody knows what an aggregated role of the
manifests gathers there. So diff asks rbacaudit about two made-up pairs of states. In the first, each binding to an aggregated role has another beside
it, of the same subjects to a made-up role: what the aggregated role gathers elsewhere. In the second, each role is bound to a user of its own: whoever
has the role elsewhere.
"""

from __future__ import annotations

import json
import os
from collections.abc import Iterable, Iterator
from typing import Any, List, Tuple

from .answer import Asking, ask, ask_well, show_text
from .changes import show_rows, take_side
from .documents import first_of, list_in, read_text, text_in
from .escapes import bytes_of
from .fields import ELSEWHERE, WHAT, in_key, rows_of
from .kubectl import RBAC
from .manifests import (BINDINGS, NAMESPACED, ROLES, Item, Manifests, check_inputs, is_held, is_of_rbac, key_of_item, labels_of, list_text,
                        need_held, role_of, take_manifests)
from .options import manifest_path
from .processes import Session
from .terminal import Refused

OWN = os.path.join(os.path.dirname(os.path.abspath(__file__)), 'defaults.json')
Row = List[str]
# What is said of bindings whose roles nobody knows: those that the change touches, those to a role that it deletes, and those that it doesn't touch.
UNKNOWN = ('nobody knows the roles of these bindings, which come, go or change: ',
           'nobody knows whether the cluster keeps the roles of these bindings, which the change deletes: ',
           "nobody knows the roles of these bindings, which are the same on both sides, so the change doesn't touch them: ")
MOST_NAMED = 10


def own_beside(asking: Asking) -> list[Item]:
    """Kubernetes' own objects, each once; standard error says that they count. In the file, what a newer version adds to a role stands in
    another of its name, with the version that has it."""
    found: dict[str, Item] = {}
    if not asking.options.bare:
        asking.session.report("Kubernetes' own roles and bindings count too; --no-defaults leaves them out")
        for item in json.loads(read_text(OWN))['items']:
            role = found.setdefault(key_of_item(item), item)
            if role is not item:
                role['rules'] += item['rules']
    return [*found.values()]


def list_file(session: Session, name: str, items: list[Item]) -> str:
    """A file with these objects, for rbacaudit."""
    return session.write('%s.json' % name, list_text([json.dumps(item, ensure_ascii=False) for item in items]))


# ---- lint

def lint_manifests(asking: Asking) -> int:
    """Answers lint, whose FILEs are paths of manifests: each finding with the file of its object, the last of several."""
    paths = [manifest_path(path) for path in asking.question.files]
    check_inputs(paths)
    found = take_manifests(asking.session, 'lint', paths, offers=False)
    need_held('checked', found)
    asking.manifests[found.file] = found
    own = list_file(asking.session, 'own', without(own_beside(asking), found))
    done = ask(asking, [*asking.question.line, found.file, own], [found.file, own])
    if done.status > 1:
        return done.status
    origins = {key_of_item(item): origin for item, origin in zip(found.items, found.origins) if is_held(item)}
    rows = [row for row in rows_of(done.out) if row[2] in origins]   # (and not of Kubernetes' own objects)
    if asking.options.format == 'sarif':
        from .sarif import of_lint
        text = of_lint(asking, rows)
    else:
        text = ''.join('%s\t%s\n' % ('\t'.join(row), in_key(origins[row[2]])) for row in rows)
    failed = show_text(asking, text)
    if any(row[0] == 'L1' for row in rows):
        asking.session.report('a role that L1 misses may be in the cluster: these are the manifests alone')
    return failed or int(bool(rows))


# ---- diff

def compare_states(asking: Asking) -> int:
    """Compares manifests. Kubernetes' own objects count on both sides, and so does whoever has a role elsewhere."""
    options, session = asking.options, asking.session
    sides = [take_side(asking, 'from', options.before), take_side(asking, 'to', options.after)]
    need_held('compared', *sides)
    own = own_beside(asking)
    before, after = states = [State(side, own) for side in sides]
    pair = Pair(before, after)
    bound, held = ['diff'], ['diff']
    for option, state in zip(('--before', '--after'), states):
        texts = [json.dumps(pair.apart(item), ensure_ascii=False) if is_of_rbac(item) and selectors_of(item) else text
                 for item, text in zip(state.manifests.items, state.manifests.texts)]
        file = session.write('state%s.json' % option, list_text(texts))
        asking.manifests[file] = state.manifests
        bound += [option, file, list_file(session, 'beside' + option, [*pair.beside(state)])]
        held += [option, list_file(session, 'held' + option, [*pair.held(state, state is after)])]
    done = ask(asking, bound, [word for word in bound[1:] if not word.startswith('--')])
    if done.status > 1:
        return done.status
    look_for_unknown(asking, before, after)
    look_for_stale(asking, before, after, bound[2:4], bound[5:7])
    rows = joined(map(pair.told, rows_of(done.out)), map(pair.told_of_holder, rows_of(ask_well(asking, held, held[2::2]).out)))
    return show_rows(asking, rows, sides[0], sides[1], own)


def look_for_unknown(asking: Asking, before: State, after: State) -> None:
    """Refuses bindings to roles that nobody knows, since nobody knows what they grant: also those that are the same on both sides."""
    changed, deleted, same = dict[str, Place](), dict[str, Place](), dict[str, Place]()
    for state in (before, after):
        for key, binding in state.of(BINDINGS).items():
            role, is_same = role_of(binding), grant_of(before, key) == grant_of(after, key)
            # (what the change deletes may stay in the cluster, and then somebody new may have it)
            is_deleted = role in before.objects and state is after and not is_same
            if role not in after.objects and (is_deleted or role not in before.objects):
                bindings = deleted if is_deleted else same if is_same else changed
                bindings['%s to %s' % (key, role)] = state, key
    found = [said + named(bindings) for said, bindings in zip(UNKNOWN, (changed, deleted, same)) if bindings]
    for text in found:
        asking.session.report(text)
    if found and not asking.options.partial:
        raise Refused('nothing is answered, because these bindings may grant anything: give a file with each role on both sides, or --export DIR, '
                      'an export of a cluster that has it; --partial leaves these bindings out')
    if found:
        asking.session.report('these bindings are left out: the answer has only what the others grant')


def named(bindings: dict[str, Place]) -> str:
    """The first of some bindings, each with where it stands, and how many more there are."""
    read: dict[str, dict[str, int]] = {}
    ordered = sorted(bindings, key=bytes_of)
    first = ['%s in %s' % (name, state.place_of(key, read)) for name in ordered[:MOST_NAMED] for state, key in [bindings[name]]]
    return first_of([*first, *ordered[MOST_NAMED:]], MOST_NAMED)


def look_for_stale(asking: Asking, before: State, after: State, *files: list[str]) -> None:
    """Refuses aggregated roles that come, go or change with written rules that they don't gather: roles that select each other keep these."""
    changed = {key for state in (before, after) for key, role in state.of(ROLES).items()
               if selectors_of(role) and role.get('rules') and before.objects.get(key) != after.objects.get(key)}
    found = [rows_of(ask_well(asking, ['lint', '--only=L6', *some], some).out) for some in files if changed]
    stale = sorted({row[2] for rows in found for row in rows} & changed)
    if stale and not asking.options.partial:
        raise Refused('stale aggregates (L6 of lint): %s; a cluster grants what is written in them, for ever if they select each other, so '
                      'nothing is answered; leave their rules empty, or --partial compares what they gather' % ', '.join(stale))


def grant_of(state: State, key: str) -> tuple[str, list[str]] | None:
    """What a binding says, if a state has it: its role and its subjects."""
    binding = state.objects.get(key)
    subjects = binding.get('subjects') or [] if binding else []
    return (role_of(binding), sorted(json.dumps(subject, sort_keys=True) for subject in subjects)) if binding else None


# ---- what a change does elsewhere

def selectors_of(role: Item) -> list[Any]:
    """The selectors of an aggregated cluster role."""
    return list_in(role.get('aggregationRule'), 'clusterRoleSelectors') if role['kind'] == 'ClusterRole' else []


def without(own: list[Item], manifests: Manifests) -> list[Item]:
    """The objects that no manifest replaces."""
    keys = {key_of_item(item) for item in manifests.items if is_of_rbac(item)}
    return [item for item in own if key_of_item(item) not in keys]


class State:
    """A state of manifests, and of Kubernetes' own objects those that they don't replace."""

    def __init__(self, manifests: Manifests, own: list[Item]) -> None:
        self.manifests, self.own = manifests, without(own, manifests)
        # (of several with one name the last counts)
        self.objects = {key_of_item(item): item for item in [*self.own, *manifests.items] if is_of_rbac(item)}
        self.origins = {key_of_item(item): origin for item, origin in zip(manifests.items, manifests.origins) if is_of_rbac(item)}

    def of(self, kinds: tuple[str, ...]) -> dict[str, Item]:
        return {key: item for key, item in self.objects.items() if item['kind'] in kinds}

    def place_of(self, key: str, read: dict[str, dict[str, int]]) -> str:
        """Where an object of the manifests stands: its file and, if that can be told, the line of its name. What was read of files is kept."""
        from .sarif import known_line
        origin = self.origins[key]
        line = known_line(read, origin, key) if os.path.isfile(origin) else 0
        return '%s line %d' % (origin, line) if line else origin


Place = Tuple[State, str]   # a state, and the key of an object in it


def home_of(item: Item) -> str:
    """The namespace of an object, or '' of one in the whole cluster."""
    return text_in(item, 'metadata', 'namespace') or 'default' if item['kind'] in NAMESPACED else ''


class Pair:
    """Two states, and what stands for what in those that are made up: each made-up name begins with a letter that no text of theirs has."""

    def __init__(self, *states: State) -> None:
        self.states = states
        text = json.dumps([[*state.objects.values()] for state in states], ensure_ascii=False)
        self.letter = next(one for one in map(chr, range(0xe000, 0xf900)) if one not in text)
        bindings = {key: item for state in states for key, item in state.of(BINDINGS).items()}
        self.bindings = sorted(bindings, key=lambda key: (bindings[key]['kind'], bytes_of(home_of(bindings[key])),
                                                          bytes_of(text_in(bindings[key], 'metadata', 'name'))))
        self.selections: dict[tuple[str, str], str] = {}    # the made-up resource of each selector of each aggregated role
        own = [key for state in states for item in state.own for key in [key_of_item(item)] if selectors_of(item)]
        of_manifests = [key_of_item(item) for state in states for item in state.manifests.items if is_of_rbac(item) and item['kind'] in ROLES]
        self.roles = [*dict.fromkeys([*own, *of_manifests])]     # those that somebody may have elsewhere

    # ---- what is made up

    def made(self, kind: str, name: str, namespace: str = '', **fields: Any) -> Item:
        place = {'namespace': namespace} if namespace else {}
        return {'apiVersion': RBAC + '/v1', 'kind': kind, 'metadata': {'name': self.letter + name, **place}, **fields}

    def apart(self, item: Item) -> Item:
        """A role, which selects no made-up one."""
        def lacking(selector: Any) -> Any:
            found = selector.get('matchExpressions') if isinstance(selector, dict) else []
            is_whole = isinstance(selector, dict) and isinstance(found or [], list)
            return {**selector, 'matchExpressions': [*(found or []), {'key': self.letter, 'operator': 'DoesNotExist'}]} if is_whole else selector

        selectors = selectors_of(item)
        return {**item, 'aggregationRule': {**item['aggregationRule'], 'clusterRoleSelectors': [*map(lacking, selectors)]}} if selectors else item

    def gathered(self, key: str, role: Item) -> Item:
        """The made-up role with what an aggregated role gathers elsewhere: of each selector a resource and a URL."""
        words = [self.selections.setdefault((key, json.dumps(one, sort_keys=True)), '%s%d' % (self.letter, len(self.selections)))
                 for one in selectors_of(role)]
        rules = [{'verbs': [self.letter], 'apiGroups': [self.letter], 'resources': words},
                 {'verbs': [self.letter], 'nonResourceURLs': ['/' + word for word in words]}]
        made = self.made('ClusterRole', key, rules=rules)
        made['metadata']['labels'] = {self.letter: ''}
        return made

    def bound(self, name: str, to: str, namespace: str, subjects: Any, kind: str = 'ClusterRole') -> Item:
        """A binding to a role."""
        return self.made('RoleBinding' if namespace else 'ClusterRoleBinding', name, namespace, roleRef={'kind': kind, 'name': to}, subjects=subjects)

    def beside(self, state: State) -> Iterator[Item]:
        """What stands beside a state: Kubernetes' own objects, and made-up roles and bindings for aggregated roles."""
        yield from map(self.apart, state.own)
        aggregated = {key: role for key, role in state.of(ROLES).items() if selectors_of(role)}
        for key, role in aggregated.items():
            yield self.gathered(key, role)
        numbers = {key: '%09d' % number for number, key in enumerate(self.bindings)}
        for key, binding in state.of(BINDINGS).items():
            if role_of(binding) in aggregated:
                yield self.bound(numbers[key], self.letter + role_of(binding), home_of(binding), binding.get('subjects'))

    def held(self, state: State, is_after: bool) -> Iterator[Item]:
        """The roles of a state, each bound to whoever has it. Where its labels differ, others may have it after, since they gather it."""
        roles = state.of(ROLES)
        yield from map(self.apart, roles.values())
        for number, key in enumerate(self.roles):
            if key in roles:
                is_other = is_after and self.has_other_labels(key)
                subjects = [{'kind': 'User', 'name': '%d%s' % (number, self.letter * is_other)}]
                yield from self.bindings_to(key, roles[key], '%d' % number, subjects)

    def bindings_to(self, key: str, role: Item, name: str, subjects: Any) -> Iterator[Item]:
        """The bindings by which somebody has a role, in the whole cluster or in its namespace."""
        yield self.bound(name, text_in(role, 'metadata', 'name'), home_of(role), subjects, role['kind'])
        if selectors_of(role):
            yield self.gathered(key, role)
            yield self.bound(name + '+', self.letter + key, '', subjects)

    def has_other_labels(self, key: str) -> bool:
        """Whether both states have a cluster role, with other labels."""
        labels = [labels_of(state.objects[key]) for state in self.states if key in state.objects]
        return key.startswith('Cluster') and labels[0] != labels[-1]

    # ---- what lines tell

    def told(self, row: Row) -> Row:
        """A line in which nothing is made up."""
        sign, who, where, verb, group, resource, name, binding = row
        if self.letter in binding:
            binding = self.bindings[int(binding.rpartition(self.letter)[2])]
        if verb == self.letter:
            roles = [key for key, _ in self.selections]
            where, verb, group, name = where if where != '-' else '*', WHAT, '-', ELSEWHERE
            resource = roles[int(resource.rpartition(self.letter)[2])]
        return [sign, who, where, verb, group, resource, name, binding]

    def told_of_holder(self, row: Row) -> Row:
        """The same of a line about whoever has a role."""
        number = row[1][2:].rstrip(self.letter)
        return [row[0], 'r:' + self.roles[int(number)], *self.told([*row[:7], '-'])[2:]]


def joined(by_name: Iterable[Row], by_role: Iterable[Row]) -> list[Row]:
    """All lines, each once and in order; those about whoever has a role where no other tells the permission."""
    rows = {tuple(row[:7]): row for row in by_name}
    known = {(row[0], *row[2:7]) for row in rows.values()}
    rows.update({tuple(row[:7]): row for row in by_role if (row[0], *row[2:7]) not in known})
    return sorted(rows.values(), key=lambda row: (bytes_of('\t'.join(row[1:])), row[0]))
