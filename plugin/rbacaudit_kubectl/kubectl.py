"""The calls of kubectl: what reads a cluster into a folder, file by file, whole or not at all."""

from __future__ import annotations

import json
import os
import re
import select
from collections.abc import Iterable, Iterator
from dataclasses import dataclass, field

from .documents import list_in, read_document, text_in
from .escapes import bytes_of, printable, text_of
from .options import Options
from .processes import NOTHING, PIPE, Child, Session
from .terminal import Refused

SIDE_BY_SIDE = 8    # how many calls go on at once, which wait for most of their time
RBAC = 'rbac.authorization.k8s.io'
# Who is in which group, which OpenShift tells by this API version; and the list of its types, where no other list is read.
GROUPS, OF_USERS, PROBE = 'groups.json', 'user.openshift.io/v1', 'users-api'
LONGEST = 200       # bytes of an API version in a file's name, of which a folder takes 255
# How lines of kubectl's own begin; any other is the rest of what somebody else said.
KUBECTL_SAYS = re.compile(r"Warning: |[Ee]rror|Unable to |The |You |Please |no |couldn't |[EFIW]\d{4} ")
LOG = re.compile(r'[EFIW]\d{4} ')


@dataclass
class Call:
    """A call of kubectl, and the file that it is for."""
    name: str
    words: list[str]
    child: Child | None = None
    status: int = 0
    said: list[str] = field(default_factory=list)

    @property
    def told(self) -> str:
        return 'kubectl get ' + ' '.join(self.words)


@dataclass
class Read:
    """What was read: a note for each file that was kept, for each that is missing, and for each API version whose file has a shorter name."""
    kept: list[str] = field(default_factory=list)
    missing: list[str] = field(default_factory=list)
    shortened: list[str] = field(default_factory=list)

    @property
    def incomplete(self) -> str:
        """The text of incomplete.txt."""
        return ''.join(line + '\n' for line in self.missing)


def targets(options: Options) -> list[str]:
    """The options that say which cluster is read, and as whom."""
    given = (('--context', options.context), ('--kubeconfig', options.kubeconfig), ('--as', options.as_user), ('--request-timeout', options.timeout))
    return ['%s=%s' % pair for pair in given if pair[1]] + ['--as-group=' + group for group in options.as_groups]


def look_at_context(session: Session, options: Options) -> tuple[str, str, str]:
    """The context's name, server and namespace. A name and a password in the server's URL are nobody else's business."""
    wanted = ''.join('{.%s}{"\\n"}' % path for path in ('current-context', 'clusters[0].cluster.server', 'contexts[0].context.namespace'))
    said = session.capture(['kubectl', 'config', 'view', '--minify', '-o', 'jsonpath=' + wanted, *targets(options)], stdin=NOTHING)
    name, server, namespace, *_ = [*said.out.split('\n'), '', '', '']
    return name, re.sub('://.*@', '://', server), namespace


def say_kubectl(session: Session, lines: Iterable[str]) -> None:
    """Passes on what kubectl says. A line break within the words of a server is told as \\n, so that no line begins with them."""
    is_open = False
    for line in lines:
        session.say(('\n' if KUBECTL_SAYS.match(line) else '\\n') * is_open + printable(line))
        is_open = True
    session.say('\n' * is_open)


def without_log(lines: Iterable[str]) -> Iterator[str]:
    """A call that got what it asked for also logs each API group that doesn't answer; that group's own call reports it."""
    return (line for line in lines if not LOG.match(line))


def lines_said(child: Child, number: int) -> Iterator[str]:
    """The lines of a child's standard error as they come: until it ends, since what it has begun, such as a browser, may keep that open."""
    rest = b''
    while True:
        is_there = bool(select.select([number], [], [], 0.1)[0])
        data = os.read(number, 1 << 16) if is_there else b''
        *lines, rest = (rest + data).split(b'\n')
        yield from map(text_of, lines)
        if not data and (is_there or child.poll() is not None):
            break
    if rest:
        yield text_of(rest)


def version_name(version: str, used: list[str]) -> str:
    """The file for the list of an API version: each has its own, and none is too long for a folder."""
    name = 'api-' + re.sub(r'[/\x00-\x1f]', '-', version)
    if len(bytes_of(name)) > LONGEST:
        import hashlib
        name = '%s..%s' % (bytes_of(name)[:LONGEST].decode('utf-8', 'ignore'), hashlib.sha256(bytes_of(version)).hexdigest()[:16])
    while name + '.json' in used:
        name += '_'     # two versions of one name, such as a-b/v1 and a/b-v1
    return name + '.json'


def is_cut(path: str) -> bool:
    """Whether a list in a file goes on elsewhere: the server has given a part of it."""
    with open(path, 'rb') as file:
        data = file.read()
    try:
        return b'"continue"' in data and bool(json.loads(data)['metadata']['continue'])
    except (ValueError, KeyError, TypeError):
        return False


class Reader:
    """Reads parts of an export into a folder, perhaps of one namespace. What is needed is reported and noted if it can't be read."""

    def __init__(self, session: Session, options: Options, stage: str, namespace: str = '') -> None:
        self.session, self.options, self.stage, self.namespace = session, options, stage, namespace
        self.read = Read()
        self._signed_in, self._users = False, ''    # (the latter is the file for the list of OF_USERS, where the server has one)
        self._going: list[Call] = []
        self._settled = self._total = 0

    def read_parts(self, needed: list[str], wanted: list[str]) -> Read:
        """Reads the parts, of which `api` is all API resource lists, and `wanted` those that may be missing in silence."""
        versions = self._list_versions() if 'api' in needed + wanted else []
        self._read_calls([call for part in [*needed, *wanted] for call in self._calls_of(part, versions)], [*wanted, PROBE])
        if GROUPS in needed and self._has_groups():
            self._read_calls([Call(GROUPS, ['groups.' + OF_USERS.partition('/')[0], '-o', 'json'])], wanted)
        self.session.progress.erase()
        if not self.read.kept:
            raise Refused('nothing could be read')
        return self.read

    def _read_calls(self, calls: list[Call], wanted: list[str]) -> None:
        self._total += len(calls)
        for call in calls:
            self._begin(call)
            if len(self._going) >= SIDE_BY_SIDE or not self._signed_in:
                self._settle(wanted)
        while self._going:
            self._settle(wanted)

    def _has_groups(self) -> bool:
        """Whether the server has groups with members, as OpenShift has: also where it has a list that can't be read, which may have them."""
        path = os.path.join(self.stage, self._users)
        types = list_in(read_document(path), 'resources') if os.path.isfile(path) else [{'name': 'groups'}]
        return bool(self._users) and any(text_in(it, 'name') == 'groups' for it in types)

    def _calls_of(self, part: str, versions: list[str]) -> Iterator[Call]:
        one, rbac = ['-n', self.namespace] if self.namespace else ['--all-namespaces'], RBAC
        known = {'version': ['--raw', '/version'], 'cluster.json': ['clusterroles.%s,clusterrolebindings.%s' % (rbac, rbac)],
                 'namespaced.json': ['roles.%s,rolebindings.%s' % (rbac, rbac), *one], 'namespaces.json': ['namespaces', *one[1:]],
                 'accounts.json': ['serviceaccounts', *one]}
        if part == GROUPS:
            yield from [] if versions else [Call(PROBE, ['--raw', '/apis/' + OF_USERS])]
            return
        if part != 'api':
            yield Call(part, known[part] + (['-o', 'json'] if part != 'version' else []))
            return
        yield Call('api-v1.json', ['--raw', '/api/v1'])
        used: list[str] = []
        for version in versions:
            used.append(version_name(version, used))
            self._users = used[-1] if version == OF_USERS else self._users
            if '..' in used[-1]:
                self.read.shortened.append('%s has the API version %s' % (used[-1], version))
            yield Call(used[-1], ['--raw', '/apis/' + version])

    def _list_versions(self) -> list[str]:
        """The API versions of /apis: kubectl api-versions leaves out a group that doesn't answer just now, and so would pass over it."""
        call = Call('apis', ['--raw', '/apis'])
        self._begin(call)
        self._end(self._going.pop())
        why, found = 'ended with status %d' % call.status if call.status else 'printed none', []
        try:
            with open(self._path(call), 'rb') as file:
                found = [version['groupVersion'] for group in json.load(file)['groups'] for version in group['versions']]
        except (ValueError, KeyError, TypeError):
            pass
        if call.status or not found or not all(isinstance(version, str) for version in found):
            raise Refused("the API groups can't be read: %s %s; so nothing is read" % (call.told, why))
        return list(dict.fromkeys(found))

    def _path(self, call: Call) -> str:
        return self.session.path('got-' + call.name)

    def _begin(self, call: Call) -> None:
        """The first call has the plugin's own standard input and error, so that whoever has to sign in can do it."""
        words = ['kubectl', 'get', *call.words, *targets(self.options)]
        with open(self._path(call), 'wb') as out, open(self._path(call) + '.said', 'wb') as said:
            if self._signed_in:
                call.child = self.session.start(words, stdin=NOTHING, stdout=out, stderr=said)
            else:
                call.child = self.session.start(words, stdout=out, stderr=None if os.isatty(2) else PIPE)
        self._going.append(call)

    def _end(self, call: Call) -> None:
        """Waits for a call; what it said is kept, or passed on at once where it may ask who signs in."""
        assert call.child is not None
        if call.child.stderr is not None:
            say_kubectl(self.session, lines_said(call.child, call.child.stderr.fileno()))
        call.status, self._signed_in = self.session.end(call.child), True
        with open(self._path(call) + '.said', 'rb') as file:
            said = text_of(file.read()).removesuffix('\n')
        call.said = said.split('\n') if said else []

    def _settle(self, wanted: list[str]) -> None:
        """Takes what the oldest call has printed to its file, whole or not at all."""
        call = self._going.pop(0)
        self._end(call)
        self._settled += 1
        path = self._path(call)
        if call.name == PROBE and not any('(NotFound)' in line for line in call.said):
            self._users = PROBE
        why = 'ended with status %d' % call.status if call.status else 'printed nothing' if not os.path.getsize(path) else (
            "printed a part of its list, which isn't whole" if is_cut(path) else '')
        if not why or call.name not in wanted:
            say_kubectl(self.session, call.said if call.status else without_log(call.said))
        if not why:
            put(path, os.path.join(self.stage, call.name))
            self.read.kept += ['%s: %s' % (call.name, call.told)] * (call.name not in wanted)
        elif call.name not in wanted:
            self.session.report("%s can't be read: %s %s" % (call.name, call.told, why))
            # (the note has the server's own reason too, without kubectl's warnings and log)
            reason = printable(' '.join(line for line in without_log(call.said) if not line.startswith('Warning: '))).rstrip(' ')
            self.read.missing.append('%s: %s %s%s' % (call.name, call.told, why, reason and ': ' + reason))
        self.session.progress.draw('reading the cluster, %d of %d' % (self._settled, self._total))


def put(path: str, place: str) -> None:
    """Puts a file in its place, whole."""
    try:
        os.replace(path, place)
    except OSError as fault:
        raise Refused("can't write %s" % place) from fault
