"""The texts of SARIF, and where a change is shown."""

import unittest

from rbacaudit_kubectl import sarif
from rbacaudit_kubectl.manifests import RBAC, Manifests

ROLE = {'apiVersion': RBAC + 'v1', 'kind': 'ClusterRole', 'metadata': {'name': 'r'}}
BINDING = {'apiVersion': RBAC + 'v1', 'kind': 'ClusterRoleBinding', 'metadata': {'name': 'b'}, 'roleRef': {'kind': 'ClusterRole', 'name': 'r'}}
FILE = __file__     # a file that is there


def side(exported=(), **origins):
    """A state: what is exported, and role and binding of manifests, by the file of each."""
    pairs = [(item, origins[name]) for name, item in (('role', ROLE), ('binding', BINDING)) if name in origins]
    return sarif.Side(list(exported), Manifests([], [item for item, _ in pairs], [origin for _, origin in pairs]))


def named(location):
    return location and location['logicalLocations'][0]['fullyQualifiedName'], bool(location) and 'physicalLocation' in location


class Texts(unittest.TestCase):
    def test_shown(self):
        for name, text in (('[x](https://a)', '\\x5bx\\x5d(https://a)'), ('{0}', '\\x7b0\\x7d'), ('a "b" c', '"a \\x22b\\x22 c"'), ('"', '"'),
                           ('a\u034f\u3164\ufe0f', 'a\\xcd\\x8f\\xe3\\x85\\xa4\\xef\\xb8\\x8f'), ('\u2800', '\\xe2\\xa0\\x80'), ('\u3000', '\\xe3\\x80\\x80')):
            self.assertEqual(sarif.shown(name), text)

    def test_permissions(self):
        for row, text in ((['+', 'u:a', '-', 'get', '-', '/x', '-', 'b'], 'get /x'), (['+', 'u:a', 'n', 'get', 'apps', 'deployments', '*', 'b'], 'get deployments.apps'),
                          (['+', 'u:a', '*', 'get', '-', 'pods', 'p', 'b'], 'get pods named p'),
                          (['+', 'u:a', '*', 'what', '-', 'ClusterRole/r', 'gathers elsewhere', 'b'], 'what ClusterRole/r gathers elsewhere')):
            self.assertEqual(sarif.permission_of(row), text)

    def test_rules(self):
        fields = {name: '{x}' for name in ('object', 'place', 'detail', 'does', 'times', 'who', 'permissions', 'where', 'by', 'listed')}
        for rule in sarif.LINT + sarif.DIFF:
            self.assertRegex(rule.message.format_map(fields), r'\{x\}.*\.$')


class Places(unittest.TestCase):
    def shown(self, old, new, who='u:a', binding='ClusterRoleBinding/b'):
        return [named(location) for location in sarif.locations_of([old, new], 1, who, binding)]

    def test_where_a_change_is_shown(self):
        role, binding = ('ClusterRole/r', True), ('ClusterRoleBinding/b', True)
        both = side(role=FILE, binding=FILE)
        self.assertEqual(self.shown(side(), both), [binding, role])
        self.assertEqual(self.shown(both, side()), [binding, role])
        self.assertEqual(self.shown(side(binding=FILE), both), [role, binding])
        self.assertEqual(self.shown(side(), side([BINDING], role=FILE)), [role, ('ClusterRoleBinding/b', False)])
        self.assertEqual(self.shown(side(), side([ROLE], binding=FILE)), [binding, (None, False)])
        self.assertEqual(self.shown(side(), side([ROLE, BINDING])), [('ClusterRoleBinding/b', False), (None, False)])

    def test_where_a_change_for_whoever_has_a_role_is_shown(self):
        for sides, is_in_file in (((side(), side(role=FILE)), True), ((side(role=FILE), side()), True), ((side(), side([ROLE])), False), ((side(), side(binding=FILE)), False)):
            self.assertEqual(self.shown(*sides, 'r:ClusterRole/r', '-'), [('ClusterRole/r', is_in_file), (None, False)])
