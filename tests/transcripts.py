"""What the documents show: each `console` block is run by the built program, and what follows a command is what it must print.

A command begins with `$ `, and lines with `> ` right below carry it on; so what is printed never begins with these. The commands
of a document run in order, in a copy of examples/ of its own: those of docs/RECIPES.md and docs/WIDE-MATRIX.md in cluster/, all
others at the top. A command with sqlite3, jq or git is skipped where that isn't installed, and one with kubectl is run by a
stand-in where there is none, or skipped where that can't read YAML; the last line but one says so.
"""

import os
import re
import shutil
import subprocess
import sys
import tempfile
import textwrap

from common import PODS, PROGRAM, TOP, V1, checked, export, skipped
from local_kubectl import yaml
from plugin_room import LOCAL_KUBECTL, PLUGIN

EXAMPLES = os.path.join(TOP, 'examples')
FOLDERS = {'RECIPES.md': 'cluster', 'WIDE-MATRIX.md': 'cluster'}
# kubectl as far as documents call it: the plugin, and manifests as JSON.
KUBECTL = '''#!/bin/sh
case $1 in
    rbacaudit) shift; exec sh "%s" "$@" ;;
    patch) shift 7; exec "%s" "%s" "$@" ;;
esac
exit 97
''' % (PLUGIN, sys.executable, LOCAL_KUBECTL)


def text_of(*path):
    with open(os.path.join(TOP, *path), encoding='utf-8') as file:
        return file.read()


def steps(text):
    """Each command of a document's console blocks, and what it must print."""
    for block in re.findall(r'^```console\n(.*?)^```', text, re.S | re.M):
        for part in re.split(r'^\$ ', block, flags=re.M)[1:]:
            command, more, wanted = re.fullmatch(r'([^\n]*\n)((?:> [^\n]*\n)*)(.*)', part, re.S).groups()
            yield (command + re.sub('^> ', '', more, flags=re.M)).rstrip('\n'), wanted


def documents():
    """The paths of README.md, of each document of docs/, and of bench/README.md."""
    names = sorted(name for name in os.listdir(os.path.join(TOP, 'docs')) if name.endswith('.md'))
    return ['README.md', *(os.path.join('docs', name) for name in names), 'bench/README.md']


def transcripts():
    """Each console block of the documents."""
    for path in documents():
        with tempfile.TemporaryDirectory() as room:
            examples = shutil.copytree(EXAMPLES, os.path.join(room, 'examples'))
            name = os.path.basename(path)
            for command, wanted in steps(text_of(path)):
                shown(name, command, wanted, os.path.join(examples, FOLDERS.get(name, '')))


def shown(name, command, wanted, folder):
    """Whether the command prints in this folder what the document shows."""
    for tool in ('sqlite3', 'jq', 'git'):
        if re.search(r'\b%s\b' % tool, command) and not shutil.which(tool):
            skipped(tool, 'commands of ' + name)
            return
    tools = [os.path.dirname(PROGRAM), os.path.dirname(PLUGIN), os.environ['PATH']]
    # (a commit calls the hook, which calls kubectl)
    if re.search(r'\b(kubectl|commit)\b', command) and not shutil.which('kubectl'):
        skipped('kubectl', 'commands of %s, but by a stand-in' % name)
        if yaml is None:
            skipped('PyYAML', 'manifests of ' + name)
            return
        tools.insert(0, made_kubectl(folder))
    environment = dict(os.environ, PATH=os.pathsep.join(tools), HOME=folder)
    ended = subprocess.run(['bash', '-c', command], cwd=folder, env=environment, stdout=subprocess.PIPE, stderr=subprocess.STDOUT,
                           timeout=60)
    checked('%s: %s' % (name, command), ended.stdout.decode() == wanted, 'got %r' % ended.stdout.decode())


def made_kubectl(folder):
    """The folder of a stand-in for kubectl, beside the examples."""
    tools = os.path.join(folder, '.tools')
    os.makedirs(tools, exist_ok=True)
    with open(os.path.join(tools, 'kubectl'), 'w', encoding='utf-8') as file:
        file.write(KUBECTL)
    os.chmod(os.path.join(tools, 'kubectl'), 0o755)
    return tools


def spaced_bindings():
    """The recipe "What a binding adds" counts bindings whose names hold a space: of these three, `b c`
    alone grants `list`."""
    def bound(name, role):
        return {'apiVersion': V1, 'kind': 'ClusterRoleBinding', 'metadata': {'name': name},
                'roleRef': {'kind': 'ClusterRole', 'name': role},
                'subjects': [{'kind': 'User', 'name': 'kim'}]}

    def role(verb):
        return {'apiVersion': V1, 'kind': 'ClusterRole', 'metadata': {'name': verb},
                'rules': [{**PODS, 'verbs': [verb]}]}

    part = text_of('docs', 'RECIPES.md').partition('### What a binding adds\n')[2]
    with tempfile.TemporaryDirectory() as folder:
        with open(os.path.join(folder, 'all.json'), 'wb') as file:
            file.write(export(role('get'), role('list'), bound('b', 'get'), bound('b d', 'get'),
                              bound('b c', 'list'),
                              {'apiVersion': 'rbacaudit/v1', 'kind': 'Universe',
                               'namespaces': ['']}))
        shown('bindings with spaces', next(steps(part))[0] + '; cat one-binding.rows',
              'u:kim\t-\tlist\t-\tpods\t-\tClusterRoleBinding/b c\n', folder)


def headings(text):
    """The names of a document's headings in links, as GitHub makes them."""
    found = re.findall(r'^#+ (.*)$', re.sub(r'^```.*?^```', '', text, flags=re.S | re.M), re.M)
    return {re.sub(r'[^\w -]', '', heading.lower()).replace(' ', '-') for heading in found}


def leads(path, target):
    """Whether a link in a document leads to a file, and to a heading that it has."""
    name, _, heading = target.partition('#')
    file = os.path.normpath(os.path.join(os.path.dirname(path), name)) if name else path
    is_there = os.path.isfile(os.path.join(TOP, file))
    return is_there and (not heading or heading in headings(text_of(file)))


def links_and_heads():
    """Links lead somewhere, documents say at their head whom they are for, and README.md is short."""
    for path in documents():
        text = text_of(path)
        wrong = [it for it in re.findall(r'\]\(([^)\s]+)\)', text) if not leads(path, it)]
        checked('%s: its links lead somewhere' % path, not wrong, 'not so: %r' % wrong)
        head = re.match(r'# .*\n(?:(?!## ).*\n)*?(?:For|This page is for) \w', text)
        checked('%s says whom it is for' % path, head, text[:300])
    lines = text_of('README.md').count('\n')
    checked('README.md has at most 350 lines', lines <= 350, 'it has %d' % lines)


def loop_of_pages():
    """docs/WIDE-MATRIX.md shows the loop of pages.sh."""
    loop = re.search(r'^after=\n.*^done\n', text_of('examples', 'cluster', 'pages.sh'), re.S | re.M)[0]
    shows = textwrap.indent(loop, '    ') in text_of('docs', 'WIDE-MATRIX.md')
    checked('the loop of pages.sh', shows)


def example_cluster():
    """examples/cluster/ has what examples/make_cluster.py writes, the scripts of a wide matrix, and
    nothing else."""
    with tempfile.TemporaryDirectory() as room:
        subprocess.run([sys.executable, os.path.join(EXAMPLES, 'make_cluster.py'), room], check=True, timeout=60)
        made, kept = contents(room), contents(os.path.join(EXAMPLES, 'cluster'))
    for script in ('slices.py', 'pages.sh'):
        del kept[script]
    differ = sorted(name for name in made.keys() | kept.keys() if made.get(name) != kept.get(name))
    checked('examples/cluster is what make_cluster.py writes', not differ, 'not so: ' + ', '.join(differ))


def contents(folder):
    """Each file below the folder by its name, with its bytes."""
    found = {}
    for place, _, names in os.walk(folder):
        for name in names:
            path = os.path.join(place, name)
            with open(path, 'rb') as file:
                found[os.path.relpath(path, folder)] = file.read()
    return found
