"""What an audit log tells, by docs/BEHAVIOUR.md ("What is used"): the requests of its lines, or the fault of its first bad line.

Nothing here is clever, and nothing is taken from the program. A request has the user with the groups that were given, the
namespace, the verb, and a target as tests/meaning.py has it. Bytes of a path that are no UTF-8 are kept as Python's
`surrogateescape` has them.
"""

import collections
import json
import re

from meaning import groups_of

VERSION = 'audit.k8s.io/v1'
DEEPEST = 127
ACCOUNT = re.compile(r'system:serviceaccount:([^:]+):([^:]+)', re.S)

Request = collections.namedtuple('Request', 'user given namespace verb target')


class Fault(Exception):
    """A line is refused: its code and name."""


def who_of(request):
    """Who asked, as tests/meaning.py has it."""
    return 'u', request.user, groups_of(request.user, request.given)


# ---- the fields of a value

def field(value, name):
    """A field, or nothing if it is missing or null; a value that isn't an object has none."""
    return value.get(name) if isinstance(value, dict) else None


def text(value, name, fault):
    """The text of a field, which is empty if it is missing."""
    found = field(value, name)
    if found is not None and not isinstance(found, str):
        raise Fault(fault)
    return found or ''


def full_text(value, name, fault):
    found = text(value, name, fault)
    if not found:
        raise Fault(fault)
    return found


def texts(value, name, fault):
    found = field(value, name)
    found = [] if found is None else found
    if not isinstance(found, list) or not all(isinstance(it, str) for it in found):
        raise Fault(fault)
    return found


# ---- an event

def counts(event):
    """Whether an event counts: it wasn't only received, the server hasn't forbidden it, and it knew who asked."""
    stage = full_text(event, 'stage', 'G3 bad stage')
    annotations = field(event, 'annotations')
    if annotations is not None and not isinstance(annotations, dict):
        raise Fault('G4 bad annotations')
    decision = text(annotations, 'authorization.k8s.io/decision', 'G4 bad annotations')
    code = field(field(event, 'responseStatus'), 'code')
    is_unknown = type(code) is int and code == 401
    return stage != 'RequestReceived' and decision != 'forbid' and not is_unknown


def user_in(value, fault):
    """The name and the given groups of a user."""
    return full_text(value, 'username', fault), frozenset(texts(value, 'groups', fault))


def target_of(verb, event):
    """The namespace and the target that are asked for; without a proper target, nothing."""
    reference = field(event, 'objectRef')
    if reference is None:
        path = decoded(text(event, 'requestURI', 'G9 bad requestURI').partition('?')[0])
        return ('', ('url', path)) if path.startswith('/') else None
    if not isinstance(reference, dict):
        raise Fault('G8 bad objectRef')
    group, resource, below, namespace, name = (
        text(reference, name, 'G8 bad objectRef') for name in ('apiGroup', 'resource', 'subresource', 'namespace', 'name'))
    whole = '/'.join([resource, below]) if below else resource
    if not whole or whole.startswith('/'):
        return None
    return namespace, ('resource', group, whole, '' if verb == 'create' and not below else name)


def decoded(path):
    """A path with its %XX decoded."""
    found = re.sub(rb'%([0-9A-Fa-f]{2})', lambda code: bytes([int(code[1], 16)]), path.encode())
    return found.decode(errors='surrogateescape')


def impersonation(user, given, namespace, resource, name):
    return Request(user, given, namespace, 'impersonate', ('resource', '', resource, name))


def impersonations(user, given, other, groups):
    """What a user asks who acts as another, who has these groups."""
    account = ACCOUNT.fullmatch(other)
    if account:
        yield impersonation(user, given, account[1], 'serviceaccounts', account[2])
    else:
        yield impersonation(user, given, '', 'users', other)
    for group in sorted(groups):
        yield impersonation(user, given, '', 'groups', group)


def requests_of(event):
    """The requests of an event."""
    if not counts(event):
        return
    verb = full_text(event, 'verb', 'G5 bad verb')
    if field(event, 'user') is None:
        raise Fault('G6 bad user')
    user, given = user_in(event['user'], 'G6 bad user')
    other = field(event, 'impersonatedUser')
    other = other if other is None else user_in(other, 'G7 bad impersonatedUser')
    asked = target_of(verb, event)
    if other:
        yield from impersonations(user, given, *other)
        user, given = other
    if asked:
        namespace, target = asked
        yield Request(user, given, namespace, verb, target)


# ---- a line

def is_no_number(word):
    raise ValueError('no number: ' + word)


def number(word):
    """A number that isn't an integer; one that is too large is refused."""
    found = float(word)
    return is_no_number(word) if found in (float('inf'), float('-inf')) else found


def depth(value):
    """How deep lists and objects are nested."""
    inner = value if isinstance(value, list) else value.values() if isinstance(value, dict) else None
    return 0 if inner is None else 1 + max(map(depth, inner), default=0)


def value_of(line):
    """The value of a line, whose texts have no lone surrogates."""
    try:
        value = json.loads(line.decode(), parse_constant=is_no_number, parse_float=number)
        json.dumps(value, ensure_ascii=False).encode()
        if depth(value) <= DEEPEST:
            return value
    except (ValueError, RecursionError):
        pass
    raise Fault('G1 not JSON')


def is_kind(value, kind, is_item=False):
    """Whether a value has this kind and the version that is read; an item of a list may lack them."""
    return isinstance(value, dict) and all(
        field(value, name) == wanted or is_item and field(value, name) in (None, '')
        for name, wanted in (('kind', kind), ('apiVersion', VERSION)))


def requests_in(line):
    """The requests of a line, which is bytes without the newline."""
    if not line.strip(b' \t\r\n'):
        return
    value = value_of(line)
    if is_kind(value, 'Event'):
        yield from requests_of(value)
        return
    items = field(value, 'items') if is_kind(value, 'EventList') else 'none'
    if items is not None and not isinstance(items, list):
        raise Fault('G2 not an audit event')
    for item in items or []:
        if not is_kind(item, 'Event', is_item=True):
            raise Fault('G2 not an audit event')
        yield from requests_of(item)


def requests_in_logs(logs):
    """The set of the requests of some logs, each as bytes. The fault of the first bad line has its place."""
    found = set()
    for log_number, log in enumerate(logs, 1):
        for line_number, line in enumerate(log.split(b'\n'), 1):
            try:
                found.update(requests_in(line))
            except Fault as fault:
                raise Fault('log %d: line %d: %s' % (log_number, line_number, fault)) from None
    return found
