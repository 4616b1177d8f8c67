"""The logs over which tests/memory.py refuses memory, reads and writes: for each the arguments of a `Case` about `unused` or `least`."""

import json
import os

from common import PODS, V1, export
from least import document_of

VERSION = 'audit.k8s.io/v1'
LONG_USER = 'carol-who-acts-as-others-and-has-a-rather-long-name'


def event(user, verb, name='', **more):
    return {'kind': 'Event', 'apiVersion': VERSION, 'stage': 'ResponseComplete', 'verb': verb, 'user': {'username': user, 'groups': ['ops']},
            'objectRef': {'resource': 'pods', 'namespace': 'dev', 'name': name}, **more}


def put(room, name, *lines):
    """Writes a log, whose last line has no newline."""
    path = os.path.join(room, name + '.log')
    with open(path, 'w', encoding='utf-8') as file:
        file.write('\n'.join(it if isinstance(it, str) else json.dumps(it) for it in lines))
    return path


def item(kind, metadata, **more):
    return {'apiVersion': V1, 'kind': kind, 'metadata': metadata, **more}


def bound(name, role, *subjects):
    return item('ClusterRoleBinding', {'name': name}, roleRef={'kind': 'ClusterRole', 'name': role}, subjects=[*subjects])


def user(name):
    return {'kind': 'User', 'name': name}


# A binding of each kind of line.
EXPORT = export(
    item('ClusterRole', {'name': 'r'}, rules=[{**PODS, 'verbs': ['get', 'list'], 'resourceNames': ['a', 'another-with-a-rather-long-name']},
                                              {'verbs': ['get'], 'nonResourceURLs': ['/healthz*', '/livez']},
                                              {'verbs': ['impersonate'], 'apiGroups': [''], 'resources': ['users', 'groups', 'serviceaccounts']}]),
    bound('a', 'r', {'kind': 'Group', 'name': 'dev'}, user('alice'), user(LONG_USER)), bound('b', 'r', {'kind': 'Group', 'name': 'dev'}),
    bound('system:c', 'r', user('bob')))
# Each kind of event, one as an item of a list, and lines of blanks.
EVENTS = ('', event('alice', 'get', 'a'), event('bob', 'list', 'a', annotations={'authorization.k8s.io/decision': 'forbid'}),
          {'kind': 'EventList', 'apiVersion': VERSION, 'items': [
              event(LONG_USER, 'create', 'x', impersonatedUser={'username': 'boss', 'groups': ['a-group-with-a-rather-long-name']}),
              event('alice', 'get', objectRef=None, requestURI='/healthz/%41-part-that-is-rather-long?x')]}, ' \t')
LINES = (
    'subject\tClusterRoleBinding/a\tClusterRole/r\t-\t-\t1\tg:dev\t-\t-\t-',
    'permission\tClusterRoleBinding/a\tClusterRole/r\tClusterRole/r\t1\t-\tget\t-\tpods\tanother-with-a-rather-long-name',
    'permission\tClusterRoleBinding/a\tClusterRole/r\tClusterRole/r\t1\t-\tlist\t-\tpods\ta',
    'permission\tClusterRoleBinding/a\tClusterRole/r\tClusterRole/r\t1\t-\tlist\t-\tpods\tanother-with-a-rather-long-name',
    'permission\tClusterRoleBinding/a\tClusterRole/r\tClusterRole/r\t2\t-\tget\t-\t/livez\t-',
    'permission\tClusterRoleBinding/a\tClusterRole/r\tClusterRole/r\t3\t-\timpersonate\t-\tserviceaccounts\t*',
    'binding\tClusterRoleBinding/b\tClusterRole/r\t-\t-\t-\t-\t-\t-\t-',
    'binding\tClusterRoleBinding/system:c\tClusterRole/r\t-\t-\t-\t-\t-\t-\t-')


def text(lines):
    return ''.join(line + '\n' for line in lines)


def few(room):
    """A log with each kind of event, and lines of each kind but `rule`."""
    return 'unused', ['unused', '--log', put(room, 'few', *EVENTS)], EXPORT, 1, text(LINES)


def few_of_two(room):
    """The same events in two logs, of which one has them all; and a rule that none of them uses."""
    words = ['unused', '--skip-system', '--log', put(room, 'one', *EVENTS[:2]), '--log', put(room, 'two', *EVENTS[1:2])]
    rules = ('rule\tClusterRoleBinding/a\tClusterRole/r\tClusterRole/r\t%d\t-\t-\t-\t-\t-' % place for place in (2, 3))
    unnamed = 'subject\tClusterRoleBinding/a\tClusterRole/r\t-\t-\t3\tu:%s\t-\t-\t-' % LONG_USER
    return 'unused of two logs', words, EXPORT, 1, text([LINES[0], unnamed, *LINES[1:4], *rules, LINES[6]])


def none(room):
    """All is used."""
    given = export(item('ClusterRole', {'name': 'r'}, rules=[PODS]), bound('a', 'r', user('alice')))
    return 'unused, nothing', ['unused', '--log', put(room, 'none', event('alice', 'get'))], given, 0, ''


def long(room):
    """Names that are ever longer, so that memory is taken after a piece was written."""
    names = [letter * size for letter, size in (('a', 40_000), ('b', 40_000), ('c', 150_000), ('d', 600_000))]
    given = export(item('ClusterRole', {'name': 'r'}, rules=[{**PODS, 'resourceNames': ['x', *names]}]), bound('b', 'r', user('kim')))
    line = 'permission\tClusterRoleBinding/b\tClusterRole/r\tClusterRole/r\t1\t-\tget\t-\tpods\t%s'
    return 'unused with long names', ['unused', '--log', put(room, 'long', event('kim', 'get', 'x'))], given, 1, text(line % name for name in names)


def needs(room):
    """What a user needs: a URL of the whole cluster, and an object in a namespace."""
    rules = {'': [{'nonResourceURLs': ['/healthz/A-part-that-is-rather-long'], 'verbs': ['get']}],
             'dev': [{'apiGroups': [''], 'resources': ['pods'], 'resourceNames': ['a'], 'verbs': ['get']}]}
    words = ['least', '--log', put(room, 'needs', *EVENTS), '--names', '--name=a-role-with-a-rather-long-name', 'u:alice']
    return 'least', words, EXPORT, 0, document_of(rules, 'alice', 'a-role-with-a-rather-long-name')


def long_needs(room):
    """Names of objects that are ever longer, each in a namespace of its own."""
    names = {letter * 10: letter * size for letter, size in (('a', 40_000), ('b', 40_000), ('c', 150_000), ('d', 600_000))}
    given = export(item('ClusterRole', {'name': 'r'}, rules=[PODS]), bound('b', 'r', user('kim')))
    log = put(room, 'long-needs', *(event('kim', 'get', objectRef={'resource': 'pods', 'namespace': home, 'name': name}) for home, name in names.items()))
    rules = {home: [{'apiGroups': [''], 'resources': ['pods'], 'resourceNames': [name], 'verbs': ['get']}] for home, name in names.items()}
    return 'least with long names', ['least', '--log', log, '--names', 'u:kim'], given, 0, document_of(rules, 'kim', 'least')


def faults(room):
    """Logs that are refused: a line of the second one, half of an event, and one that isn't there."""
    good, bad = put(room, 'good', *EVENTS), put(room, 'bad', *EVENTS, {**event('alice', 'get'), 'user': {'groups': []}})
    missing = os.path.join(room, 'missing.log')
    yield 'G6', ['unused', '--log', good, '--log', bad], EXPORT, 2, '', 'log 2: line 6: G6 bad user'
    yield 'G1', ['unused', '--log', put(room, 'half', json.dumps(EVENTS[1])[:-1])], EXPORT, 2, '', 'log 1: line 1: G1 not JSON'
    yield 'U12', ['least', '--log', missing, '--name', 'a/b', 'u:kim'], b'', 2, '', 'U12 --name is empty, . or .., or has / or %'
    yield 'U5 of least', ['least', '--log', missing, 'g:kim'], b'', 2, '', 'U5 bad principal'
    yield 'G6 of least', ['least', '--log', good, '--log', bad, 'u:alice'], EXPORT, 2, '', 'log 2: line 6: G6 bad user'
    yield 'I1 of a log', ['unused', '--log', good, '--log', missing], EXPORT, 2, '', 'log 2: I1 read fault'
