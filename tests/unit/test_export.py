"""Exports: the names of files, what is whole, and what an export lacks."""

import json
import os
import subprocess
import tempfile
import time
import unittest

from rbacaudit_kubectl.terminal import Refused
from rbacaudit_kubectl.export import gaps_of, look_at_about, old_files
from rbacaudit_kubectl.kubectl import is_cut, lines_said, say_kubectl, version_name
from rbacaudit_kubectl.options import read_options
from rbacaudit_kubectl.question import Question


class Said:
    """A session that keeps what is said."""

    def __init__(self):
        self.text = ''

    def say(self, text):
        self.text += text

    def report(self, message):
        self.text += message + '\n'


class Kubectl(unittest.TestCase):
    def test_names(self):
        self.assertEqual(version_name('apps/v1', []), 'api-apps-v1.json')
        self.assertEqual(version_name('apps/v1', ['api-apps-v1.json']), 'api-apps-v1_.json')
        long = [version_name('%s.%s/v1' % ('é' * 124, end), []) for end in 'ab']
        self.assertTrue(long[0] != long[1] and all(len(name.encode()) < 240 for name in long))

    def test_lines(self):
        for lines, wanted in ((['Warning: old', 'error: no'], 'Warning: old\nerror: no\n'), ([], ''),
                              (['Error from server: a', '::error::b', 'c\x1b'], 'Error from server: a\\n::error::b\\nc?\n')):
            it = Said()
            say_kubectl(it, lines)
            self.assertEqual(it.text, wanted)


    def test_lines_as_they_come(self):
        script = 'echo "error: a" >&2; sleep 30 & echo b >&2; printf "Warning: c" >&2'
        child = subprocess.Popen(['sh', '-c', script], stderr=subprocess.PIPE)
        began = time.monotonic()
        self.assertEqual([*lines_said(child, child.stderr.fileno())], ['error: a', 'b', 'Warning: c'])
        self.assertLess(time.monotonic() - began, 25)
        child.stderr.close()
        child.wait()


class Exports(unittest.TestCase):
    def setUp(self):
        folder = tempfile.TemporaryDirectory()
        self.addCleanup(folder.cleanup)
        self.folder = folder.name

    def put(self, name, value):
        with open(os.path.join(self.folder, name), 'w', encoding='utf-8') as file:
            file.write(value if isinstance(value, str) else json.dumps(value))

    def gaps(self, command='matrix'):
        question = Question(command)
        return [*gaps_of(Said(), look_at_about(self.folder), question, question.parts()[0])]

    def test_whole(self):
        for name in ('cluster.json', 'namespaced.json', 'namespaces.json', 'accounts.json', 'api-v1.json'):
            self.put(name, {'metadata': {'continue': ''}, 'items': [{'continue': 'x'}]})
        self.assertEqual(self.gaps(), [])
        self.put('namespaced.json', {'metadata': {'continue': 'abc'}, 'items': []})
        self.assertTrue(is_cut(os.path.join(self.folder, 'namespaced.json')))
        self.assertEqual(self.gaps('lint'), ["namespaced.json in %s isn't whole: its metadata.continue says that the list goes on" % self.folder])

    def test_missing(self):
        self.put('cluster.json', '{}')
        self.put('incomplete.txt', 'namespaced.json: kubectl get roles ended with status 1: no\nexport: it was cut\n')
        self.assertEqual(self.gaps('lint'), ['there is no namespaced.json in %s: kubectl get roles ended with status 1: no' % self.folder,
                                             'export: it was cut'])

    def test_listed(self):
        for name in ('cluster.json', 'namespaced.json', 'api-v1.json'):
            self.put(name, '{}')
        self.put('about.txt', 'only: dev\nnamespace: dev\nfile: api-apps-v1.json: kubectl get --raw /apis/apps/v1\n')
        self.assertEqual(self.gaps('universe'), ['there is no api-apps-v1.json in %s, and about.txt lists it' % self.folder])
        self.assertEqual(look_at_about(self.folder).only, 'dev')

    def test_old(self):
        self.put('mine.json', '')
        self.assertEqual(old_files(self.folder, False), [])
        self.put('api-v1.json', '')
        self.assertEqual(old_files(self.folder, True), ['api-v1.json'])
        self.assertRaises(Refused, old_files, self.folder, False)


class Options(unittest.TestCase):
    def test_read(self):
        options = read_options('export', ['-nshop', '--as-group', 'a', '--as-group=b', '--context=x', '-'])
        self.assertEqual((options.namespace, options.as_groups, options.context, options.paths), ('shop', ['a', 'b'], 'x', ['-']))
        for words in (['--as', '-x'], ['-n='], ['--force=x'], ['--as=a', '--as=b'], ['--partial']):
            self.assertRaises(Refused, read_options, 'export', words)
        self.assertEqual(read_options('page', ['--', '--every']).paths, ['--every'])
        self.assertEqual(read_options('diff', ['--export', 'a', '--export=-b', '--with', '-']).exports, ['a', './-b'])
