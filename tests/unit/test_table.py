"""Tables: how wide columns are, what is cut, and the words of rules."""

import itertools
import json
import time
import unittest

from rbacaudit_kubectl.fields import SHAPES
from rbacaudit_kubectl.show import Reader, names_of, objects_of
from rbacaudit_kubectl.table import Table, columns_of, cut, narrowed

[HOLDERS, WHY] = (shape for shape in SHAPES if shape.command == 'who-can')


def table_of(rows, shape=HOLDERS, rules='', **how):
    """What a table writes of these rows."""
    table = Table(**how)
    table.take_rules(rules.splitlines())
    return ''.join(table.texts_of((shape, table.seen(row).split('\t')) for row in rows))


class Tables(unittest.TestCase):
    def test_columns(self):
        for text, wide in (('abc', 3), ('中文', 4), ('e\u0301', 1), ('한', 2), ('👍', 2), ('\udcff', 1)):
            self.assertEqual(columns_of(text), wide, text)
        self.assertEqual(cut('aa中文', 5), ('aa中…', 5))
        self.assertEqual(cut('aa中文', 4), ('aa…', 3))

    def test_narrowed_as_one_by_one(self):
        for widths in itertools.product((2, 3, 5, 9, 14), repeat=3):
            for screen in (8, 14, 20, 29, 60):
                wanted = list(widths)
                while sum(wanted) + 4 > screen and max(wanted) > 3:
                    wanted[wanted.index(max(wanted))] -= 1
                wanted[-1] += max(0, screen - 4 - sum(wanted)) if sum(widths) + 4 < screen else 0
                found = narrowed(widths, screen)
                self.assertEqual((sorted(found), sum(found)), (sorted(wanted), sum(wanted)), (widths, screen))

    def test_blanks_and_hidden(self):
        self.assertEqual(table_of(['u: a  b \tRoleBinding/a/b']), 'WHO                BINDING\nu: a \\x20b\\x20     RoleBinding/a/b\n'.replace('     R', '  R').replace('WHO    ', 'WHO '))
        self.assertEqual(table_of(['u:\u200b\tRoleBinding/a/b'], is_on_terminal=True).split()[2], 'u:\\xe2\\x80\\x8b')

    def test_words_of_rules(self):
        row = 'u:a\tRoleBinding/s/b\tRole/s/r\tRole/s/r\t1\t1'
        rules = 'x\tx\tRole/s/r\t1\t1\t[get,list]\t[-]\t[pods]\t[]\t[]'
        self.assertEqual(table_of([row], WHY, rules).splitlines()[2], '    VERBS get,list  GROUPS -  RESOURCES pods')
        self.assertEqual(table_of([row], WHY, rules, screen=20).splitlines()[2:], ['    VERBS get,list', '      GROUPS -', '      RESOURCES pods'])


class Shown(unittest.TestCase):
    def test_long_names_in_time(self):
        """100,000 unseen characters in less than a second, in each form."""
        line = 'u:%s\tRoleBinding/a/b' % ('\u202e' * 100_000)
        for form in (lambda: ''.join(objects_of(Reader().rows_of([line]))), lambda: table_of([line]), lambda: table_of([line], is_on_terminal=True, screen=80),
                     lambda: ''.join(names_of(Reader().rows_of([line])))):
            began = time.process_time()
            form()
            self.assertLess(time.process_time() - began, 1)

    def test_objects(self):
        rows = Reader().rows_of(['u:a\udcff"\\xe2\\x80\\xae\tRoleBinding/a/b'])
        self.assertEqual([json.loads(text) for text in objects_of(rows)],
                         [{'who': 'u:a\ufffd"\u202e', 'who_bytes': 'dTph/yLigK4=', 'binding': 'RoleBinding/a/b'}])

    def test_where_reading_ends(self):
        reader = Reader()
        self.assertEqual(len([*reader.rows_of(['end', 'u:a\tRoleBinding/a/b'])]), 1)
        self.assertTrue(reader.fault.startswith('standard input line 2: no line of matrix as before'))


if __name__ == '__main__':
    unittest.main()
