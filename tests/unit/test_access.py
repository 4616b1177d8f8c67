"""Types by verbs, from lines of rules; and how graphs and reports quote names."""

import unittest

from rbacaudit_kubectl import access, dot, fields, report
from rbacaudit_kubectl.terminal import Refused


def lines(*rows):
    """Lines of rules: the binding, and its five lists."""
    return [[binding, 'Role/a/r', 'Role/a/r', '1', '1', *lists.split(' ')] for binding, lists in rows]


class Accesses(unittest.TestCase):
    def cells_of(self, rows, asked_in=''):
        types, urls = access.accesses_of(lines(*rows), asked_in)
        return [(it.where, it.group, it.resource, sorted(it.verbs), it.limited()) for it in types], [(it.resource, sorted(it.verbs)) for it in urls]

    def test_places(self):
        rows = [(binding, '[get] [-] [pods] [] [/%d]' % at) for at, binding in enumerate(
            ('ClusterRoleBinding/a/b', 'RoleBinding/dev/b', 'RoleBinding/*/b', 'RoleBinding/-/b', 'RoleBinding/a/b/c'))]
        found = [(where, '-', 'pods', ['get'], {}) for where in ('*', '\\x2a', '\\x2d', 'RoleBinding/a/b/c', 'dev')]
        self.assertEqual(self.cells_of(rows), (found, [('/0', ['get'])]))
        for asked_in, where in (('dev', 'dev'), ('*', '\\x2a'), ('-', '\\x2d'), ('a\tb', 'a\\x09b')):
            self.assertEqual(self.cells_of(rows[:2], asked_in)[0], [(where, '-', 'pods', ['get'], {})])

    def test_limits(self):
        rows = [('RoleBinding/a/b', '[get,list] [-,apps] [x] [one] []'), ('RoleBinding/a/c', '[get] [-] [x] [] []'), ('RoleBinding/a/b', '[list] [-] [x] [two,-] []')]
        self.assertEqual(self.cells_of(rows)[0], [('a', '-', 'x', ['get'], {'list': ['-', 'one', 'two']}), ('a', 'apps', 'x', [], {'get': ['one'], 'list': ['one']})])

    def test_nothing(self):
        for lists in ('[get] [] [pods] [] []', '[get] [-] [] [] []'):
            self.assertEqual(self.cells_of([('ClusterRoleBinding/b', lists)]), ([], []))

    def test_powers(self):
        for binding, lists, wanted in (('RoleBinding/a/b', '[get] [-] [secrets,pods] [] []', [False, True]), ('RoleBinding/cluster/b', '[create] [-] [secrets] [] []', [False]),
                                       ('ClusterRoleBinding/b', '[create] [-] [secrets] [] []', [True]), ('ClusterRoleBinding/b', '[create] [-] [secrets] [x] []', [False])):
            self.assertEqual([it.has_power for it in access.accesses_of(lines((binding, lists)), '')[0]], wanted)


    def test_all_powers(self):
        groups, resources = ({text.partition('.')[at] or '-' for _, _, types, _ in fields.STEPS for text in types.split()} for at in (2, 0))
        words = [*resources, *('*/' + word.partition('/')[2] for word in resources if '/' in word), '*', '*/x', 'x', 'x/exec', 'pods/x', '-']
        for binding in ('ClusterRoleBinding/b', 'RoleBinding/kube-system/b', 'RoleBinding/a/b'):
            row, *_ = lines((binding, '[*] [] [] [] []'))
            found = [access.has_power(row, group, word) for group in (*groups, '*', 'x') for word in words]
            self.assertEqual(found, [bool(fields.powers_of('rules', [*row[:6], '[%s]' % group, '[%s]' % word, *row[8:]]))
                                     for group in (*groups, '*', 'x') for word in words])
            self.assertTrue(any(found) and not all(found))

    def test_size(self):
        many = '[%s]' % ','.join('x%d' % at for at in range(500)), '[%s]' % ','.join('x%d' % at for at in range(1000))
        rows = lines(('ClusterRoleBinding/b', '[get] %s %s [] []' % many))
        access.check_size(rows)
        with self.assertRaises(Refused):
            access.check_size([*rows, *lines(('ClusterRoleBinding/b', '[get] [-] [x] [] []'))])


class Quoting(unittest.TestCase):
    def test_graphs(self):
        for text, wanted in (('a\\x09"b', '"a\\\\x09\\"b"'), ('&lt;', '"&amp;lt;"'), ('\u202e', '"\\\\xe2\\\\x80\\\\xae"'), ('é', '"é"')):
            self.assertEqual(dot.quoted(text), wanted)

    def test_markdown(self):
        for text, wanted in (('a|`b', '`a\\x7c\\x60b`'), (' a  b ', '`\\x20a \\x20b\\x20`'), ('-', ''), ('\\x2d', '`\\x2d`'), ('\u202ea', '`\\xe2\\x80\\xaea`'),
                             ('a\x1b[2J\rb\x7f\n', '`a?[2J?b?\\n`')):
            self.assertEqual(report.code(text), wanted)


if __name__ == '__main__':
    unittest.main()
