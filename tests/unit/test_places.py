"""Addresses of files, and the lines of names in them."""

import os
import tempfile
import unittest
from unittest import mock

from rbacaudit_kubectl import sarif

try:
    import yaml
except ImportError:
    yaml = None

TEXT = '''\
kind: Role
metadata: {name: flow, namespace: n, ? {a: b} : c}
---
kind: List
metadata: {name: l}
items:
- {kind: Role, metadata: {namespace: n, name: n/1}}
- 5
- kind: ClusterRole
  metadata: &m
    labels: {name: no}
    "name": 'c'
---
- no object
--- # a name of two lines, and one without a namespace
{"kind": "Role", "metadata": {"name":
"bare"}}
---
metadata: *m
'''
LINES = {'Role/n/flow': 2, 'Role/n/n/1': 7, 'ClusterRole/c': 12, 'Role/default/bare': 17}


class Addresses(unittest.TestCase):
    def test_from_home(self):
        for path, address in (('m/a b.json', 'm/a%20b.json'), ('./m//x/../c#1?.json', 'm/c%231%3F.json'), ('/home/kim/m/x', 'm/x'),
                              ('../kim/m/\udcff', 'm/%FF'), ('../beside/x', 'file:///home/beside/x'), ('/home/kimono/x', 'file:///home/kimono/x')):
            self.assertEqual(sarif.address_of(path, '/home/kim'), address)
        self.assertEqual(sarif.address_of('/x', '/'), 'x')

    def test_what_has_no_file(self):
        self.assertEqual([sarif.source_of(origin) for origin in ('standard input', '/dev/stdin', '/proc/self/fd/0', '', __file__)], [''] * 4 + [__file__])


class Lines(unittest.TestCase):
    def setUp(self):
        self.folder = tempfile.TemporaryDirectory()
        self.addCleanup(self.folder.cleanup)

    def found(self, text):
        path = os.path.join(self.folder.name, 'x.yaml')
        with open(path, 'w', encoding='utf-8', newline='') as file:
            file.write(text)
        read = {}
        return {key: sarif.line_of(read, path, key) for key in LINES}

    @unittest.skipUnless(yaml, 'PyYAML')
    def test_lines(self):
        self.assertEqual(self.found(TEXT), LINES)
        self.assertEqual(self.found(TEXT.replace('\n', '\r\n')), LINES)
        self.assertEqual(self.found(TEXT + '---\nkind: Role\nmetadata: {name: flow}')['Role/n/flow'], 2)
        self.assertEqual(self.found(TEXT.replace(', namespace: n, ?', ', ?'))['Role/n/flow'], 2)

    def test_what_nobody_can_tell(self):
        nothing = dict.fromkeys(LINES, 1)
        for text in ('', '\x00', '{"kind": "Role"}{}', '- ' * 3000 + 'x', '{a: ' * 200 + '1' + '}' * 200):
            self.assertEqual(self.found(text), nothing)
        with mock.patch.dict('sys.modules', yaml=None):
            self.assertEqual(self.found(TEXT), nothing)
