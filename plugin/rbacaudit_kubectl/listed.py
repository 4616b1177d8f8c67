"""Types: which the API resource lists have, which of them a word means, and the command universe."""

from __future__ import annotations

import json
from dataclasses import dataclass

from .answer import Asking, ask_well, open_asking
from .export import Export
from .kubectl import RBAC
from .options import Options, read_options
from .processes import Session
from .question import Question, check_cluster
from .terminal import print_text

V1 = RBAC + '/v1'


@dataclass(frozen=True)
class Type:
    """A type, or a subresource of one."""
    group: str
    name: str
    is_namespaced: bool = True


def list_types(asking: Asking, files: list[str]) -> list[Type]:
    """The types of a universe of these files, in order. Of a type that is listed both ways, namespaced counts."""
    derived = json.loads(ask_well(asking, ['universe', *files], files).out)
    types = {(entry['group'], entry['resource']): entry['namespaced'] for entry in derived.get('resources', ())}
    return [Type(*key, is_namespaced) for key, is_namespaced in types.items()]


class Lists:
    """The API resource lists of an export. What a word means is asked of rbacaudit: over the same lists, and a user who may get exactly what
    they have, its no says that it took the word as written, and the rule that allows it tells the type."""

    def __init__(self, asking: Asking, files: list[str]) -> None:
        self._asking, self._files, self._types = asking, files, list_types(asking, files)
        # (a rule with a star would allow other types too)
        rules = [{'verbs': ['none' if '*' in it.group + it.name else 'get'], 'apiGroups': [it.group], 'resources': [it.name]} for it in self._types]
        items = [{'apiVersion': V1, 'kind': 'ClusterRoleBinding', 'metadata': {'name': '/'}, 'roleRef': {'kind': 'ClusterRole', 'name': '/'},
                  'subjects': [{'kind': 'User', 'name': 'probe'}]},
                 {'apiVersion': V1, 'kind': 'ClusterRole', 'metadata': {'name': '/'}, 'rules': rules}]
        self._known = asking.session.write('known.json', json.dumps({'apiVersion': 'v1', 'kind': 'List', 'items': items}, ensure_ascii=False))

    def find(self, word: str, subresource: str = '') -> Type | None:
        """The type that a word means, or its subresource of this name."""
        files = [*self._files, self._known]
        done = ask_well(self._asking, ['can-i', '--why', '--as=probe', '--subresource=' + subresource, '--', 'get', word, *files], files)
        return None if done.status else self._types[int(done.out.split('\n')[1].split('\t')[3]) - 1]


def core_has(session: Session, export: Export, question: Question) -> bool:
    """Whether the core group has the type of a question."""
    core = export.files('api-v1.json')
    return bool(core) and Lists(Asking(session, Options(), question, export), core).find(question.type) is not None


def universe_command(session: Session, words: list[str]) -> int:
    """The command universe."""
    options, question = read_options('universe', words), Question('universe')
    session.need_rbacaudit()
    check_cluster(session, options)
    print_text(make_universe(open_asking(session, options, question))[0], as_json=True)
    return 0


def make_universe(asking: Asking) -> tuple[str, list[Type]]:
    """A Universe document for the export that is open, and its types: those of the API resource lists, and then those that only rules name.
    Such a subresource is namespaced if its resource is, as rbacaudit takes it; any other such type is namespaced, and so are cluster roles,
    since a server asks about bind in the namespace of a RoleBinding."""
    files = asking.files('api')
    types = list_types(asking, files) if files else []
    known = {(it.group, it.name): it.is_namespaced for it in types}
    types += [Type(it.group, it.name, known.get((it.group, it.name.partition('/')[0]), True))
              for it in types_of_rules(asking) if (it.group, it.name) not in known]
    entries = ','.join('\n    ' + json.dumps({'group': it.group, 'resource': it.name, 'namespaced': it.is_namespaced or (
        it.group, it.name) == (RBAC, 'clusterroles')}, ensure_ascii=False) for it in types)
    return '{\n  "apiVersion": "rbacaudit/v1",\n  "kind": "Universe",\n  "resources": [%s\n  ],\n  "names": [""]\n}\n' % entries, types


def types_of_rules(asking: Asking) -> list[Type]:
    """The types that rules name. Where these are too many, those of a Universe document among the FILEs, whose list replaces this one anyway:
    otherwise whoever can write a role could keep everybody from a page."""
    files = asking.files('cluster.json', 'namespaced.json')
    if asking.question.files and asking.session.capture(['rbacaudit', 'universe', *files]).status:
        files = [*asking.question.files, *files]
    return list_types(asking, files)
