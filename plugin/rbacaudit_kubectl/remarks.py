"""What is said beside an answer: a function for each remark, with its condition and its text; and whom a question is about."""

from __future__ import annotations

import json
import os
import re
from collections.abc import Iterator
from dataclasses import dataclass, field
from typing import Any

from .answer import Asking
from .documents import first_of, list_in, objects_in, read_document, read_text, text_in, told
from .fields import in_field, in_key, rows_of
from .kubectl import GROUPS, RBAC
from .listed import V1, Lists, Type
from .processes import Done, Session
from .question import ACCOUNT

SPELLING = ': check the spelling'
OTHER_PLACES = '-n NS asks about another, and -A about the whole cluster'
URL_VERBS = ('get', 'put', 'post', 'head', 'options', 'delete', 'patch')
# Verbs that no API resource list has.
SPECIAL = ('*', 'bind', 'escalate', 'use', 'approve', 'sign', 'attest')
READING, MOUNTED = ('get', 'list', 'watch'), ('secrets', 'configmaps')
# What a server asks about in the whole cluster, though no list has the type.
SIGNERS = ('signers.certificates.k8s.io',)
UNLISTED = {'impersonate': ('users', 'users.', 'groups', 'groups.', 'uids.authentication.k8s.io'), 'impersonate/x': ('userextras.authentication.k8s.io',),
            'approve': SIGNERS, 'sign': SIGNERS, 'attest': SIGNERS}
UNIVERSE_FIELDS = ('apiVersion', 'kind', 'metadata', 'principals', 'namespaces', 'verbs', 'names', 'resources', 'urls')
ITEM_FIELDS = {'principals': ('user', 'groups', 'group'), 'resources': ('group', 'resource', 'namespaced')}
STALE = 'stale aggregates (L6 of lint): %s; the cluster grants what is written in them, and %s what they gather'
# What an answer of each command has, and the fields of a line that tell something, by their number: the others say where a rule is written.
DIFFERS = {'who-can': 'holders', 'rules': 'rules', 'powers': 'powers', 'paths': 'paths'}
TELLING = {8: (0, 1, 2), 10: (0, 5, 6, 7, 8, 9), 11: (0, 1, 2, 3, 4, 5)}
# A binding of any role counts as one of the role that the probe has. No other object has the field, and a text that looks like it has a
# backslash before its last quote.
ROLE_REF = re.compile(rb'"roleRef"\s*:')
REBOUND = b'"roleRef":{"kind":"ClusterRole","name":"/"},"was":'
PROBE = json.dumps({'apiVersion': V1, 'kind': 'ClusterRole', 'metadata': {'name': '/'},
                    'rules': [{'verbs': ['get'], 'apiGroups': ['*'], 'resources': ['*']}]})
NAMED_ACCOUNT = re.compile(r'u:system:serviceaccount:([-a-z0-9.]+):([^:]+)')


def remark_on_question(asking: Asking) -> None:
    """What is said before an answer: of the type, the namespace, and whoever asks."""
    for remark in (on_type, on_url, on_own_object, on_place, on_implied, on_namespace, on_members, on_asker):
        for text in remark(asking):
            asking.session.report(text)


# ---- the type

def on_type(asking: Asking) -> Iterator[str]:
    """A type, a subresource, a verb or an object that isn't what it looks like, by the API resource lists."""
    question, files = asking.question, asking.files('api')
    if not question.type or question.type == '*.*':
        return
    if not files:
        yield 'the export has no API resource lists, so the type %s is taken as written' % question.type
        yield from on_mounts(asking, as_written(question.type))
        return
    lists = Lists(asking, files)
    meant = lists.find(question.type)
    below = lists.find(question.type, question.subresource) if question.subresource else None
    found = below or meant
    if found:
        yield from on_scope(asking, found)
    if found and (below or not question.subresource):
        yield from on_verb(asking, found, files)
        yield from on_object(asking, lists)
    elif question.type in UNLISTED.get(question.verb + '/x' * bool(question.subresource), ()):
        if not question.everywhere:
            yield 'no API resource list has %s, and a server asks about %s there in the whole cluster: -A does so' % (question.type, question.verb)
    else:
        unknown = 'subresource %s/%s' % (question.type, question.subresource) if meant else 'type ' + question.type
        yield "the API resource lists of the export don't have the %s%s" % (unknown, SPELLING)
    yield from on_mounts(asking, meant or as_written(question.type))


def as_written(word: str) -> Type:
    """The type that a word means where no list has it."""
    name, _, group = word.partition('.')
    return Type(group, name)


def on_mounts(asking: Asking, meant: Type) -> Iterator[str]:
    """Who can read secrets and config maps lacks whoever may create pods, which mount them: another question has these."""
    question = asking.question
    if question.command == 'who-can' and question.verb in READING and not question.subresource and not meant.group and meant.name in MOUNTED:
        named = '-n %s ' % question.asked_in if question.has_namespace else ''
        where = '-A ' if question.everywhere else '--anywhere ' if question.anywhere else named
        yield 'whoever may create pods in a namespace can read its %s too, by mounting them: kubectl rbacaudit who-can %s%screate pods lists them' % (
            meant.name, '--indirect ' * question.indirect, where)


def on_scope(asking: Asking, meant: Type) -> Iterator[str]:
    """A question about a cluster-scoped type is about no namespace, though the words say one: but some verbs a server asks about in a
    namespace."""
    question = asking.question
    if question.in_namespace or question.everywhere or question.own or meant.is_namespaced:
        return
    if not question.subresource:
        is_of_roles = (question.verb, meant.group, meant.name) == ('bind', RBAC, 'clusterroles')
        question.place_of = 'RoleBinding' if is_of_roles else 'pod' if question.verb == 'use' else ''
    if question.place_of:
        return
    question.asked_in = ''
    if question.has_namespace:
        where = '; without -n it is about the namespace %s, where a server asks' % question.object if question.names_namespace else ''
        yield "the type %s is cluster-scoped, so -n doesn't count: the question is about the whole cluster%s" % (question.type, where)
    elif question.anywhere and question.names_namespace:
        yield 'a server asks about %s/%s in the namespace %s: RoleBindings there count without --anywhere' % (
            question.type, question.object, question.object)


def on_verb(asking: Asking, meant: Type, files: list[str]) -> Iterator[str]:
    """A verb that the API resource lists don't have of the type. (a list with a text that JSON escapes isn't one that a server has made)"""
    question = asking.question
    entries = [*verbs_in(files), (meant.group, meant.name, '')]
    if question.verb in SPECIAL or question.verb.startswith('impersonate') or any(told(text) != text for entry in entries for text in entry):
        return
    others = dict.fromkeys(verb for group, name, verb in entries if verb and (group, name) == (meant.group, meant.name))
    if others and question.verb not in others:
        whole = question.type + (question.subresource and '/' + question.subresource)
        yield "the API resource lists of the export don't have the verb %s of %s, but %s%s" % (question.verb, whole, ', '.join(others), SPELLING)


def verbs_in(files: list[str]) -> Iterator[tuple[str, str, str]]:
    """Group, name and verb of each entry of API resource lists."""
    for one in objects_in(*files):
        group, is_named, _ = text_in(one, 'groupVersion').partition('/')
        for entry in list_in(one, 'resources'):
            yield from ((group if is_named else '', text_in(entry, 'name'), verb) for verb in list_in(entry, 'verbs') if isinstance(verb, str))


def on_object(asking: Asking, lists: Lists) -> Iterator[str]:
    """An object's name that is also a subresource of the type: pods/exec in TARGET means a pod named exec."""
    kind, name = asking.question.type, asking.question.object
    if name and not asking.question.subresource and lists.find(kind, name):
        yield '%s/%s is taken for an object named %s: to ask about the subresource, write %s --subresource %s' % (kind, name, name, kind, name)


def on_url(asking: Asking) -> Iterator[str]:
    """What of a question about a URL doesn't count, or is no verb of a URL."""
    question = asking.question
    if not question.type and question.command in ('can-i', 'who-can'):
        if question.has_namespace and not question.everywhere:
            yield "a URL has no namespace, so -n doesn't count"
        if question.verb not in (*URL_VERBS, '*'):
            yield 'a URL has no verb %s, but %s%s' % (question.verb, ', '.join(URL_VERBS), SPELLING)


# ---- the namespace

def on_own_object(asking: Asking) -> Iterator[str]:
    """A namespace's own object is asked about in it."""
    if asking.question.own:
        yield ('the question is about the object of the namespace %s, so it is asked in that namespace, as a server does; -A asks about the '
               'whole cluster' % asking.question.own)


def on_place(asking: Asking) -> Iterator[str]:
    """A question about a cluster-scoped type is about a namespace."""
    question = asking.question
    if question.place_of:
        about = 'the question is about the namespace %s; %s' % (question.asked_in, OTHER_PLACES if question.implied else '-A asks about the whole cluster')
        yield 'a server asks about %s in the namespace of the %s, so %s' % (
            question.verb, question.place_of, 'the RoleBindings of all namespaces count' if question.anywhere else about)


def on_implied(asking: Asking) -> Iterator[str]:
    """The namespace is that of the context."""
    question = asking.question
    if question.asked_in and question.implied and not question.place_of:
        yield 'the question is about the namespace %s; %s' % (question.implied, OTHER_PLACES)


def on_namespace(asking: Asking) -> Iterator[str]:
    """The export doesn't have the namespace."""
    asked_in = asking.question.asked_in
    there = list_there(asking, 'namespaces.json', 'namespaces') if asked_in else None
    if there is not None and asked_in not in there:
        yield 'the export has no namespace %s%s' % (asked_in, SPELLING)


def list_there(asking: Asking, name: str, field: str) -> list[Any] | None:
    """A list that rbacaudit derives from a file of the export: one that isn't there, or that it refuses, tells nothing."""
    files = asking.files(name)
    derived = asking.session.capture(['rbacaudit', 'universe', *files]) if files else None
    return None if derived is None or derived.status else list_in(json.loads(derived.out), field)


def on_members(asking: Asking) -> Iterator[str]:
    """Nothing says who is in which group."""
    if asking.question.members and not asking.question.files and not asking.files(GROUPS):
        yield 'the export has no %s, so --members lists nobody more: only Group documents tell who is in a group' % GROUPS


# ---- Universe documents

def documents_in(value: Any) -> Iterator[dict[str, Any]]:
    """The items of a list, or the document itself."""
    yield from (one for one in (list_in(value, 'items') or [value]) if isinstance(one, dict))


def look_for_universes(session: Session, files: list[str], once: bool) -> None:
    """Reports what of the FILEs is meant for a universe, and is ignored; and one of which --once lists nothing, since it lacks the whole
    cluster."""
    places = [place for path in files for place in look_for_universe(session, path)]
    if once and places and '' not in places:
        session.report('the namespaces of the universe lack "", the whole cluster, so what holds in it is in no row of --once: add "" to them')


def look_for_universe(session: Session, path: str, named: str = '', idle: bool = False) -> list[str]:
    """Reports what of a file is meant for a universe, and is ignored: in a change, all of it is. The namespaces that it lists."""
    text = read_text(path)
    documents = [*documents_in(read_document(path))] if 'rbacaudit' in text or '"Universe"' in text else []
    for line in dict.fromkeys(line for document in documents for line in universe_faults(document, idle)):
        session.report('%s: %s' % (named or path, line))
    return [place for document in documents for place in list_in(document, 'namespaces') if isinstance(place, str)]


def universe_faults(document: dict[str, Any], idle: bool) -> Iterator[str]:
    """What of a document is ignored that is meant to be a Universe document."""
    kind, version = text_in(document, 'kind'), text_in(document, 'apiVersion')
    if (kind, version) == ('Universe', 'rbacaudit/v1') and idle:
        yield 'a Universe document is ignored in a change, of which all requests are compared'
    elif (kind, version) == ('Universe', 'rbacaudit/v1'):
        names = [('a Universe document', name) for name in document if name not in UNIVERSE_FIELDS]
        names += [('an item of ' + field, name) for field, known in ITEM_FIELDS.items() for item in list_in(document, field)
                  if isinstance(item, dict) for name in item if name not in known]
        yield from ('%s has no field %s, so it is ignored' % (what, told(name)) for what, name in names)
    elif 'apiVersion' in document and (kind == 'Universe' or version.startswith('rbacaudit')):
        yield 'a document of the version %s and the kind %s is ignored: a Universe document has rbacaudit/v1 and Universe' % (told(version), told(kind))


# ---- whom a question is about: a user or a group that no binding names, and who was probably meant

def on_asker(asking: Asking) -> Iterator[str]:
    """A user and groups that no binding names: but an account by whether it is there, if that can be told."""
    question, asker = asking.question, asking.question.asker
    if question.command == 'who-can':
        return
    home, colon, name = asker[len(ACCOUNT):].partition(':')
    if asker.startswith(ACCOUNT) and colon and asking.export and asking.export.only in ('', home):
        there = list_accounts(asking)
        if there is not None:
            asker = ''
            if question.asker not in there:
                yield 'the export has no service account %s in the namespace %s%s' % (name, home, SPELLING)
    named = named_keys(asking) if asker or question.groups else None
    if named is not None:
        names = Names(question.command != 'can-i', question.asked_in or question.namespace or question.implied, named)
        if asker and any(names.unnamed(asker, question.groups)):
            names.known |= {'u:' + in_field(user) for user in list_accounts(asking) or ()}
        yield from names.unnamed(asker, question.groups)


def list_accounts(asking: Asking) -> list[str] | None:
    """The users that service accounts are, unless the export doesn't tell."""
    there = list_there(asking, 'accounts.json', 'principals')
    return None if there is None else [entry['user'] for entry in there if 'user' in entry]


def named_keys(asking: Asking) -> set[str] | None:
    """The key of each user and group that a binding names, and of each user whom documents list in such a group, as rbacaudit tells who may do
    what all bindings grant: nothing if a FILE can't be read twice, or rbacaudit refuses one."""
    copies: list[str] = []
    for path in [*asking.question.files, *asking.files('cluster.json', 'namespaced.json', GROUPS)]:
        if not os.path.isfile(path) or not os.access(path, os.R_OK):
            return None
        copies.append(asking.session.path('bound.%d' % len(copies)))
        with open(path, 'rb') as file, open(copies[-1], 'wb') as copy:
            copy.write(ROLE_REF.sub(REBOUND, file.read()))
    probe = asking.session.write('probe.json', PROBE)
    found = asking.session.capture(['rbacaudit', 'who-can', '--members', '--anywhere', '--in-namespace', 'get', 'bindings', *copies, probe])
    return None if found.status else {line.partition('\t')[0] for line in found.out.split('\n')}


@dataclass
class Names:
    """The keys that bindings name; and those that are known, with service accounts."""
    is_who: bool        # whether the command takes keys
    home: str           # the namespace asked about
    named: set[str]
    known: set[str] = field(default_factory=set)

    def __post_init__(self) -> None:
        self.known |= self.named

    def unnamed(self, asker: str, groups: list[str]) -> Iterator[str]:
        """A line for a user, and one for groups, that no binding names. A user with a group that a binding names, or one of Kubernetes' own,
        needs no binding."""
        keys = {group: 'g:' + in_key(group) for group in groups}
        unnamed = [group for group, key in keys.items() if key not in self.named and not key.startswith('g:system:')]
        is_member = any(group not in unnamed and group != 'system:authenticated' for group in groups)
        if asker not in ('', 'system:anonymous') and not is_member and 'u:' + in_key(asker) not in self.named:
            yield 'no binding of the export names the user %s%s' % (in_key(asker), self._of_user(asker, bool(groups)))
        if unnamed:
            hint = next(filter(None, map(self._of_group, unnamed)), SPELLING)
            yield 'no binding of the export names the group%s %s%s' % ('s' * (len(unnamed) > 1), first_of([*map(in_key, unnamed)]), hint)

    def _of_user(self, name: str, has_groups: bool) -> str:
        """Who was probably meant."""
        account = self._account(name)
        if name.startswith('g:') and name != 'g:':
            return ': to ask about the group, write ' + self._group(name[2:])
        if name.startswith('u:') and name != 'u:':
            return ': write ' + self._user(name[2:])
        if account not in ('', name):
            return ': to ask about the service account, write ' + self._user(account)
        if 'g:' + in_key(name) in self.named:
            return ', but a group of that name: write ' + self._group(name)
        other = self._alike('u:' + name)
        has_only = ', so it has only what its groups have' + ('' if has_groups or account else '; --groups A,B names them')
        return ', but the user %s%s' % (other, SPELLING) if other else has_only

    def _of_group(self, name: str) -> str:
        if name.startswith('g:') and name != 'g:':
            return ': write ' + self._group(name[2:])
        if 'u:' + in_key(name) in self.named:
            return ', but a user of that name: write ' + self._user(name)
        other = self._alike('g:' + name)
        commas = ": --groups splits at commas, and --group doesn't" if ',' in name and not self.is_who else ''
        return ', but the group %s%s' % (other, SPELLING) if other else commas

    def _alike(self, key: str) -> str:
        """The name of a key that is this one but for capitals."""
        return min((other[2:] for other in self.named if other.lower() == in_key(key).lower()), default='')

    def _user(self, name: str) -> str:
        return ('u:' if self.is_who else '--as ') + name

    def _group(self, name: str) -> str:
        return ('g:' if self.is_who else '--group ' if ',' in name else '--groups ') + name

    def _account(self, name: str) -> str:
        """The user name of the service account that a name was meant for: in the namespace asked about, or the only one of this name."""
        rest = re.sub('^(system:)?(serviceaccounts?|sa)[:/]', '', name)
        is_told, parts = rest != name, re.split('[:/]', rest)
        if len(parts) > 2 or '' in parts:
            return ''
        account = ACCOUNT + ':'.join(parts if len(parts) == 2 else [self.home, rest])
        if 'u:' + in_key(account) in self.known or (is_told and len(parts) == 2):
            return account
        found = [match for match in map(NAMED_ACCOUNT.fullmatch, self.known) if match and match[2] == in_key(rest)]
        return '%s%s:%s' % (ACCOUNT, found[0][1] if len(found) == 1 else 'NS', rest) if len(parts) == 1 and (found or is_told) else ''


# ---- stale aggregates

def stale_in(findings: str) -> list[str]:
    """Stale aggregates in use, by the findings L2 and L6: aggregated roles whose written rules, which a cluster grants, aren't those that they
    gather."""
    rows = rows_of(findings)
    unused = {row[2] for row in rows if row[0] == 'L2'}
    return [row[2] for row in rows if row[0] == 'L6' and row[2] not in unused]


def find_stale(asking: Asking, *more: str) -> list[str]:
    """The stale aggregates of an export, with files of more objects."""
    files = [*asking.files('cluster.json', 'namespaced.json'), *more]
    is_needed = more or asking.files('cluster.json')
    return stale_in(asking.session.capture(['rbacaudit', 'lint', '--only=L2,L6', *files]).out) if is_needed else []


def remark_on_stale(asking: Asking, stale: str, line: list[str], answer: Done) -> None:
    """Asks again as a cluster decides, by the rules that are written in aggregated roles, and says what it answers."""
    session, command = asking.session, asking.question.command
    if command == 'matrix':
        session.report(STALE % (stale, 'this matrix has'))
        return
    # (no other object has the field, and a text that looks like it has a backslash before its last quote; of documents that
    # have an object, the last counts)
    text = read_text(asking.files('cluster.json')[0]).replace('"aggregationRule":', '"was":')
    written = session.capture(['rbacaudit', *line, session.write('as-written.json', text)])
    differs = ''
    if command == 'can-i' and {answer.status, written.status} == {0, 1}:
        differs = 'answers no' if written.status else 'answers yes'
    elif command in DIFFERS and {answer.status, written.status} <= {0, 1} and telling(answer) != telling(written):
        differs = 'has other ' + ('paths' if asking.question.indirect else DIFFERS[command])
    if differs:
        session.report('the cluster %s now, because of stale aggregates (L6 of lint): %s' % (differs, stale))


def telling(answer: Done) -> set[tuple[str, ...]]:
    """What an answer says, wherever a rule is written."""
    return {tuple(row[at] for at in TELLING.get(len(row), (0,))) for row in rows_of(answer.out)}
