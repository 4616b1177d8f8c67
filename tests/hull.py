"""The hull's package: its types, its rooms by their unit tests, and how it is written.

Types are checked where mypy is installed. Unit tests are those of tests/unit. The last line is `N passed, M failed`.
"""

import ast
import glob
import os
import resource
import shutil
import subprocess
import sys
import tempfile
import unittest

from common import PROGRAM, TOP, checked, skipped, tested

PLUGIN = os.path.join(TOP, 'plugin')
PACKAGE = os.path.join(PLUGIN, 'rbacaudit_kubectl')
ENTRIES = 'kubectl-rbacaudit', 'kubectl_complete-rbacaudit', 'rbacaudit-page', 'rbacaudit-show'
MOST_OF_FUNCTION, MOST_OF_FILE = 40, 500
MOST_OF_START = 0.15    # seconds of a processor


def types():
    """Each function has types, as Python 3.9 has them."""
    if not shutil.which('mypy'):
        skipped('mypy', 'the types of the plugin')
        return
    ended = subprocess.run(['mypy', '--strict', '--python-version', '3.9', '--cache-dir', os.devnull, PACKAGE], cwd=PLUGIN, stdout=subprocess.PIPE,
                           stderr=subprocess.STDOUT, timeout=600)
    checked('mypy --strict', ended.returncode == 0, ended.stdout.decode())


class Noted(unittest.TestResult):
    """Each test is one that passed or failed."""

    def addSuccess(self, test):
        checked('unit: ' + test.id(), True)

    def addFailure(self, test, err):
        checked('unit: ' + test.id(), False, self._exc_info_to_string(err, test))

    addError = addFailure

    def addSkip(self, test, reason):
        skipped(reason, test.id())


def units():
    """The rooms of the package, each by itself."""
    sys.path.insert(0, PLUGIN)
    suite = unittest.TestLoader().discover(os.path.join(TOP, 'tests', 'unit'))
    checked('there are unit tests', suite.countTestCases() > 0)
    suite.run(Noted())


def functions_of(tree):
    return [node for node in ast.walk(tree) if isinstance(node, (ast.FunctionDef, ast.AsyncFunctionDef))]


def text():
    """Short functions and files, with a line on each; no shell but the line by which an entry becomes Python."""
    for path in sorted(glob.glob(os.path.join(PACKAGE, '*.py'))):
        name = os.path.basename(path)
        with open(path, encoding='utf-8') as file:
            source = file.read()
        tree = ast.parse(source, feature_version=(3, 9))
        long = [node.name for node in functions_of(tree) if node.end_lineno - node.lineno >= MOST_OF_FUNCTION]
        checked('%s: no long function' % name, not long, repr(long))
        checked('%s: no long file' % name, source.count('\n') < MOST_OF_FILE, str(source.count('\n')))
        checked('%s: says what it is' % name, ast.get_docstring(tree))
        checked('%s: changes no globals' % name, not any(isinstance(node, ast.Global) for node in ast.walk(tree)))
    for name in ENTRIES:
        with open(os.path.join(PLUGIN, name), encoding='utf-8') as file:
            checked('%s is a few lines' % name, len(file.readlines()) < 30)
    # (what Python and mypy keep there begins with these)
    others = sorted(name for name in {*os.listdir(PLUGIN)} - {*ENTRIES, 'rbacaudit_kubectl'} if not name.startswith(('.', '__')))
    checked('plugin/ has the package and its entries alone', not others, repr(others))


def seconds_of(words, **how):
    """The least processor time that a command takes in some runs: on a busy machine most of them take more."""
    def spent():
        used = resource.getrusage(resource.RUSAGE_CHILDREN)
        return used.ru_utime + used.ru_stime

    times = []
    for _ in range(25):
        before = spent()
        subprocess.run(words, stdin=subprocess.DEVNULL, stdout=subprocess.PIPE, check=True, timeout=60, **how)
        times.append(spent() - before)
    return min(times)


def start():
    """A question to an export costs little beside rbacaudit's own time."""
    with tempfile.TemporaryDirectory() as room:
        for name, source in (('cluster.json', 'shop.json'), ('api-shop.json', 'shop-api.json')):
            shutil.copy(os.path.join(TOP, 'examples', source), os.path.join(room, name))
        with open(os.path.join(room, 'namespaced.json'), 'w', encoding='utf-8') as file:
            file.write('{"apiVersion": "v1", "kind": "List"}')
        question = 'can-i --as system:serviceaccount:shop:ci -n shop update deployments.apps'.split()
        environment = dict(os.environ, PATH=os.path.dirname(PROGRAM) + os.pathsep + os.environ['PATH'])
        of_plugin = seconds_of([os.path.join(PLUGIN, 'kubectl-rbacaudit'), *question, '--export', room], env=environment)
        of_program = seconds_of([PROGRAM, *question, *(os.path.join(room, name) for name in sorted(os.listdir(room)))])
        checked('a question starts soon', of_plugin - of_program <= MOST_OF_START, '%.3f s beside %.3f s' % (of_plugin, of_program))


if __name__ == '__main__':
    sys.exit(tested(types, units, text, start))
