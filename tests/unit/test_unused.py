"""logs.py and unused.py: logs one behind the other, which line of which log a line of all is, and how much isn't used."""

import gzip
import json
import os
import tempfile
import unittest

from rbacaudit_kubectl.logs import Logs
from rbacaudit_kubectl.terminal import Progress, Refused
from rbacaudit_kubectl.unused import count_bindings, head_of

V1 = 'rbac.authorization.k8s.io/v1'


class Folder(unittest.TestCase):
    def setUp(self):
        folder = tempfile.TemporaryDirectory()
        self.addCleanup(folder.cleanup)
        self.folder = folder.name

    def file(self, name, data):
        path = os.path.join(self.folder, name)
        with open(path, 'wb') as file:
            file.write(data)
        return path


class Read(Folder):
    def logs(self, *texts):
        return Logs([self.file('%d.log' % number, text) for number, text in enumerate(texts)], Progress())

    def test_each_log_has_lines_of_its_own(self):
        for texts, wanted in (((b'a\nb', b'c\n'), b'a\nb\nc\n'), ((b'', b'\n', b'x'), b'\nx\n'), ((b'a\n', b'', b'b\n'), b'a\nb\n'), ((), b'')):
            logs = self.logs(*texts)
            self.assertEqual(b''.join(logs.pieces()), wanted)
            self.assertEqual((sum(logs.lines), logs.read, logs.total), (wanted.count(b'\n'), sum(map(len, texts)), sum(map(len, texts))))

    def test_packed(self):
        data = gzip.compress(b'a\n') + gzip.compress(b'b')
        logs = self.logs(data, b'c\n')
        self.assertEqual((b''.join(logs.pieces()), logs.read == logs.total), (b'a\nb\nc\n', True))
        self.assertEqual(b''.join(self.logs(gzip.compress(b''), data).pieces()), b'a\nb\n')
        for bad in (data[:-3], data + b'x', b'\x1f\x8b', data[:12] + b'\xff\xff' + data[14:]):
            with self.assertRaisesRegex(Refused, "can't read all of .*0.log, so nothing is answered: "):
                b''.join(self.logs(bad).pieces())

    def test_places(self):
        logs = self.logs(b'a\nb', b'', b'c\nd\n', b'e')
        list(logs.pieces())
        places = [logs.place_of(number).replace(os.path.join(self.folder, ''), '') for number in range(1, 8)]
        self.assertEqual(places, ['line 1 of 0.log', 'line 2 of 0.log', 'line 1 of 2.log', 'line 2 of 2.log', 'line 1 of 3.log', 'line 2 of 3.log', 'line 3 of 3.log'])

    def test_what_cannot_be_read(self):
        for path, said in ((os.path.join(self.folder, 'none'), 'there is no '), (self.folder, ' is a folder: ')):
            with self.assertRaisesRegex(Refused, said):
                Logs([path], Progress())


class Counted(Folder):
    def bindings(self, name, *items, **more):
        return self.file(name, json.dumps({'apiVersion': 'v1', 'kind': 'List', **more, 'items': items}).encode())

    def test_bindings(self):
        def item(kind, name, namespace=None, version=V1):
            return {'apiVersion': version, 'kind': kind, 'metadata': {'name': name, **({'namespace': namespace} if namespace else {})}}

        items = [item('RoleBinding', 'a', 'x'), item('RoleBinding', 'a', 'y'), item('ClusterRoleBinding', 'a'), item('ClusterRoleBinding', 'system:a'),
                 item('Role', 'a', 'x'), item('RoleBinding', 'b', 'x', 'authorization.openshift.io/v1')]
        some = self.bindings('some.json', *items)
        typed = self.bindings('typed.json', {'metadata': {'name': 'c'}}, {'metadata': {'name': 'a'}}, apiVersion=V1, kind='ClusterRoleBindingList')
        alone = self.file('alone.json', json.dumps(item('RoleBinding', 'd', 'x')).encode())
        for files, found, without in (([some], 4, 3), ([some, some], 4, 3), ([typed], 2, 2), ([some, typed, alone], 6, 5), ([], 0, 0), (['/dev/null'], None, None)):
            self.assertEqual((count_bindings(files, False), count_bindings(files, True)), (found, without))

    def test_heads(self):
        def head(parts, *rest):
            return head_of([[part] for part in parts.split()], *rest)

        self.assertEqual(head('binding subject rule permission permission', 7, False),
                         'Not used: 1 of 7 bindings; of the others, 1 subject, 1 rule and 2 permissions.\n')
        self.assertEqual(head('', 1, True), 'Not used: 0 of 1 binding; of the others, 0 subjects, 0 rules and 0 permissions. Bindings named system:.. are left out.\n')
        self.assertEqual(head('binding', None, False), 'Not used: 1 binding; of the others, 0 subjects, 0 rules and 0 permissions.\n')
        self.assertEqual(head('', 0, False), 'Not used: 0 of 0 bindings; of the others, 0 subjects, 0 rules and 0 permissions.\n')
