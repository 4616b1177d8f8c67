"""Which files of a folder are read, what calls of kubectl read them, and what objects are called."""

import json
import os
import tempfile
import unittest

from rbacaudit_kubectl import manifests
from rbacaudit_kubectl.terminal import Refused

BINDING = {'apiVersion': 'rbac.authorization.k8s.io/v1', 'kind': 'RoleBinding', 'metadata': {'name': 'b\\\n'},
           'roleRef': {'kind': 'ClusterRole', 'name': 'view'}}


class Folder(unittest.TestCase):
    def setUp(self):
        self.folder = tempfile.TemporaryDirectory()
        self.addCleanup(self.folder.cleanup)

    def put(self, *names):
        for name in names:
            path = self.at(name)
            os.makedirs(os.path.dirname(path), exist_ok=True)
            with open(path, 'w', encoding='utf-8') as file:
                file.write('kind: Role')

    def at(self, name):
        return os.path.join(self.folder.name, name)

    def found(self):
        return [os.path.relpath(path, self.at('m')) for path in manifests.files_in(self.at('m'))]

    def refused(self, said):
        with self.assertRaisesRegex(Refused, said):
            manifests.files_in(self.at('m'))

    def test_order(self):
        self.put('m/b.yaml', 'm/a/z.yml', 'm/a-b.json', 'm/.c.json', 'm/notes.txt', 'm/a/b/y.json')
        self.assertEqual(self.found(), ['.c.json', 'a/b/y.json', 'a/z.yml', 'a-b.json', 'b.yaml'])

    def test_a_link_within_is_read_once(self):
        self.put('m/a.yaml', 'm/notes.txt', 'm/in/b.yaml')
        for name, target in (('m/z.yaml', 'a.yaml'), ('m/0.yaml', 'in/b.yaml'), ('m/n1.yaml', 'notes.txt'), ('m/n2.yaml', 'notes.txt'), ('m/more', 'in')):
            os.symlink(target, self.at(name))
        self.assertEqual(self.found(), ['a.yaml', 'in/b.yaml', 'n1.yaml'])

    def test_a_link_that_leads_out(self):
        for target in (self.at('other/x.yaml'), '../../mm/x.yaml', '/proc/self/environ', '../in/../../other/x.yaml', '..'):
            self.put('m/a.yaml', 'm/in/a.yaml', 'mm/x.yaml', 'other/x.yaml')
            os.symlink(target, self.at('m/in/x.yaml'))
            self.refused('m/in/x.yaml is a link that leads out of .*/m, so nothing is read')
            os.remove(self.at('m/in/x.yaml'))

    def test_calls(self):
        self.put(*('m/%04d.yaml' % number for number in range(1001)), 'm/a,"b".yaml')
        with open(self.at('m/a,"b".yaml'), 'w', encoding='utf-8') as file:
            file.write('kind: Role\n---\nkind: Role\n')
        calls = list(manifests.calls_for(self.at('m'), '/tmp/mark.json'))
        self.assertEqual([(len(call.files), len(call.words), call.marked) for call in calls], [(1000, 2000, set()), (2, 6, {self.at('m/a,"b".yaml')})])
        self.assertEqual(calls[1].words[2:], ['-f', '"%s"' % self.at('m/a,""b"".yaml'), '-f', '/tmp/mark.json'])
        self.put('m/Kustomization')
        self.assertEqual([call.words for call in manifests.calls_for(self.at('m'), 'mark')], [['-k', self.at('m')]])

    def test_files_in_a_row_share_a_call(self):
        self.put('a.yaml', 'b.yaml', 'm/c.yaml', 'd.yaml', 'e.json')
        given = [self.at(name) for name in ('a.yaml', 'b.yaml', 'm', 'd.yaml')]
        self.assertEqual([(call.path, call.files) for call in manifests.calls_of(given, 'mark')],
                         [('', given[:2]), (given[2], [self.at('m/c.yaml')]), (given[3], given[3:])])
        self.assertEqual([(call.path, call.files) for call in manifests.calls_of(['-', *given[:1], '/dev/null'], 'mark')],
                         [('-', ['standard input']), (given[0], given[:1]), ('/dev/null', ['/dev/null'])])
        # (kubectl refuses a file without objects)
        with open(self.at('b.yaml'), 'w', encoding='utf-8') as file:
            file.write('# nothing\n')
        self.assertEqual([call.path for call in manifests.calls_of([*given[:2], *given[3:], self.at('e.json')], 'mark')], [*given[:2], ''])
        with self.assertRaisesRegex(Refused, 'there is no .*/no.yaml'):
            list(manifests.calls_of([*given, self.at('no.yaml')], 'mark'))

    def test_files_that_need_a_mark(self):
        for text, is_one in (('kind: Role\n', True), ('# x\nmetadata: {name: x}\nkind: Role', True), ('# x\n', False), ('', False), (' kind: Role', False),
                             ('kind: List\nitems: []', False), ('kind: Role\n---\nkind: Role', False), ('{\nkind: Role}\n', False), (' \n {\nkind: x}{}', False),
                             ('kind: L\n"it\\u0065ms": []', False), ('kind: L\n!!binary aXRlbXM=: []', False), ('kind: x\n\0', False)):
            with open(self.at('x.yaml'), 'w', encoding='utf-8') as file:
                file.write(text)
            self.assertEqual(manifests.has_one(self.at('x.yaml')), is_one, text)


class Objects(unittest.TestCase):
    def test_names(self):
        self.assertEqual(manifests.key_of_item(BINDING), 'RoleBinding/default/b\\\\\\x0a')
        self.assertEqual(manifests.role_of(BINDING), 'ClusterRole/view')
        self.assertEqual(manifests.role_of({**BINDING, 'roleRef': {'kind': 'Role', 'name': 'r'}, 'metadata': {'namespace': 'n'}}), 'Role/n/r')

    def test_what_rbacaudit_holds(self):
        held = [manifests.is_held({'apiVersion': version, 'kind': kind}) for version in (manifests.RBAC + 'v1', 'v1', 'example.com/v1', '')
                for kind in ('Role', 'Namespace', 'Pod')]
        self.assertEqual(held, [True, False, False, False, True, False] + [False] * 6)

    def test_texts_stay_as_they_are(self):
        first, second = '{\n    "a": 1.00\n}', json.dumps(BINDING)
        self.assertEqual(list(manifests.objects_in('%s\n%s\n' % (first, second))), [(first, {'a': 1}), (second, BINDING)])
        for bad in ('{} x', '[' * 100_000):
            with self.assertRaisesRegex(Refused, "can't be read"):
                list(manifests.objects_in(bad))
