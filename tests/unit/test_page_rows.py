"""The rows of a page: sets say the same rows in the same order, each set once, whatever the order of the rows."""

import itertools
import json
import random
import unittest

from rbacaudit_kubectl.page import pieces_of
from rbacaudit_kubectl.page_rows import LONGEST_RUN, Rows
from rbacaudit_kubectl.terminal import Progress
from written import rows_in

BINDINGS = {'-': ('ClusterRoleBinding/b', 'ClusterRoleBinding/a'),
            'x': ('RoleBinding/x/b', 'RoleBinding/x/a', 'ClusterRoleBinding/b'), 'y': ('RoleBinding/y/c', 'RoleBinding/y/\\x2d')}


def coded(rows):
    """What a page has of rows."""
    read = Rows()
    read.read([line.encode() + b'\n' for line in [*rows, 'end']], Progress())
    return json.loads(''.join(pieces_of(read.coded())))


def a_row(rng):
    namespace = rng.choice([*BINDINGS])
    return '\t'.join((rng.choice(('u:a', 'g:b', 'g:\\x09é')), namespace, rng.choice(('get', 'list', '*')), rng.choice(('-', 'apps', '\\x2d')),
                      rng.choice(('pods', 'secrets', '/metrics')), rng.choice(('-', 'n', '\\\\')), rng.choice(BINDINGS[namespace])))


def sorted_rows(rows):
    """Rows in the order of a matrix, each once: of fields that have no escapes, and of the core group first."""
    return sorted({*rows}, key=lambda row: [text if text != '-' else '' for text in row.split('\t')[:6]] + [row.split('\t')[6]])


class PageRows(unittest.TestCase):
    def test_any_rows(self):
        for seed in range(200):
            rng = random.Random(seed)
            rows = [a_row(rng) for _ in range(rng.randrange(60))]
            self.assertEqual(rows_in(coded(rows)), rows)

    def test_rows_in_order_are_a_run_for_each_principal_and_namespace(self):
        for seed in range(100):
            rng = random.Random(seed)
            rows = sorted_rows(row for row in (a_row(rng) for _ in range(300)) if '\\' not in row)
            found = coded(rows)
            self.assertEqual(rows_in(found), rows)
            self.assertEqual(len(found['runs'][0]), len({tuple(row.split('\t')[:2]) for row in rows}))

    def test_a_set_stands_once(self):
        requests = sorted(itertools.product(('get', 'list'), ('pods', 'secrets', 'services')))
        rows = ['\t'.join((who, 'x', verb, '-', kind, '-', 'RoleBinding/x/' + who[2:])) for who in ('u:a', 'u:b', 'u:c') for verb, kind in requests]
        found = coded(rows)
        self.assertEqual(([len(column) for column in found['sets']], len(found['grants'][0]), len(found['entries'][0])), ([1, 6], 3, 6))

    def test_long_runs(self):
        rows = ['u:a\tx\tget\t-\tpods\tp%06d\tRoleBinding/x/b' % at for at in range(LONGEST_RUN + 30_000)]
        found = coded(rows)
        self.assertEqual(len(found['runs'][0]), 2)
        self.assertEqual(rows_in(found), rows)

    def test_a_last_line_without_its_end(self):
        read = Rows()
        self.assertTrue(read.read([b'u:a\tx\tget\t-\tpods\t-\tRoleBinding/x/b\n', b'u:a\tx\tlist\t-\tpods\t-\tRoleBinding/x/b\n', b'end'], Progress()))
        self.assertEqual(len(read.bindings), 1)


if __name__ == '__main__':
    unittest.main()
