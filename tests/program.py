"""Tests of the built program: what only a process can show.

Texts and statuses on the real streams, files that can't be read, full disks, inputs at the limits, and every
`console` block of the documents (transcripts.py). What is skipped stands in the last line but one; the last line is
`N passed, M failed`.
"""

import base64
import itertools
import json
import os
import re
import resource
import subprocess
import sys
import tempfile

from common import PODS, PROGRAM, TOP, V1, V1BETA1, bare, checked, export, put_in, tested
from meaning import document_text
from transcripts import (example_cluster, links_and_heads, loop_of_pages, spaced_bindings,
                         transcripts)

MOST_BYTES = 67_108_864
LEAST = b'{"apiVersion":"v1","kind":"List"}'

# The user, the verb or the target is empty.
EMPTY_WORDS = (['can-i', '--as', '', 'get', 'pods'], ['can-i', '--as', 'alice', '', 'pods'], ['can-i', '--as', 'alice', 'get', ''],
               ['who-can', '', 'pods'], ['who-can', 'get', ''], ['who-can', '--any-name', 'get', ''])
# WHO is no key, or groups are given to a group. The words of `rules` are those of `paths` too, but for -A.
NOBODY = (['rules', ''], ['rules', 'u:'], ['rules', 'g:'], ['rules', 'kim'], ['rules', 'u'], ['rules', ':kim'], ['rules', 'x:kim'],
          ['rules', 'U:kim'], ['rules', ' u:kim'], ['rules', '-A', 's:kim'], ['rules', '--groups', 'ops', 'g:dev'],
          ['rules', 'g:dev', '--groups=,'], ['rules', '--group', 'ops', 'g:dev'], ['rules', '--group', '', '--group', ',', 'g:dev'],
          ['rules', '--group=ops', 'u:'], ['rules', '--groups', 'ops', 'u:'], ['rules', '--groups=', 'g:'])
NOBODY += tuple(['paths', *words[1:]] for words in NOBODY if '-A' not in words)
# The side before a change isn't given, or more than the files of a change.
NO_CHANGES = ([], ['a'], ['a', 'b'], ['--after', 'a'], ['--with', 'a'], ['--without', 'a', '--with', 'b'],
              *([*words, '--before', 'a', '--after', 'b'] for words in (['c'], ['-n', 'dev'], ['--why'], ['-q'], ['--limit', '1'])),
              ['--before', 'a', '--after', 'b', '--', 'c'])
# What is given beside the side before is no change, or two.
BAD_CHANGES = ([], ['--before', 'b'], ['--after', 'b', '--with', 'c'], ['--without', 'b', '--after', 'c'],
               ['--after', 'b', '--without', 'c', '--with', 'd'])


# The steps of the table, in its order.
STEPS = ('impersonate', 'token', 'run', 'exec', 'secrets', 'nodes', 'bind', 'escalate', 'certificates', 'webhooks', 'apiservices',
         'bootstrap', 'volumes', 'namespaces')
BAD_STEP = b'rbacaudit: U8 steps are impersonate, token, run, exec, secrets, nodes, bind, escalate, certificates, webhooks, ' \
           b'apiservices, bootstrap, volumes, namespaces\n'
BAD_INDIRECT = b'rbacaudit: U9 --indirect excludes --anywhere, --any-name, --every, --members and --why; --steps needs --indirect\n'
BAD_END = b'rbacaudit: U10 --to takes u:USER, g:GROUP, ClusterRole/NAME, Role/NS/NAME or *; -n NS needs one of the last three\n'
# What no line of `paths` has as its second field, and a namespace that nothing is asked for in.
NO_ENDS = [*(['--to=' + to] for to in (
    '', 'kim', 'u', 'u:', 'g:', 'U:kim', 'x:kim', ' u:kim', ':kim', 'admin', 'ClusterRole', 'ClusterRole/', 'clusterrole/a', 'ClusterRoles/a', ' ClusterRole/a',
    'Role', 'Role/', 'Role/a', 'Role/a/', 'Role//a', 'Role//', 'role/dev/a', 'RoleBinding/dev/a', 'a/b', '**', ' *', '* ', '*/dev', '-', '\\x2a')),
    ['-n', 'dev'], ['--namespace=dev', '--steps', 'run'], ['--to', 'u:kim', '-n', 'dev'], ['-n', 'dev', '--to', 'g:ops'], ['--to', 'u:*', '-n', 'dev'],
    ['--to', 'Role/dev/a', '-n', 'prod'], ['--to', 'Role/dev/a', '-n', 'de'], ['--to', 'Role/dev/a', '-n', 'dev/a'], ['--to', 'Role/dev/dev', '-n', 'a'],
    ['--to', 'Role/a', '-n', 'a'], ['--to=', '-n', 'dev']]
# What can be one, though none is.
ENDS = [*(['--to', to] for to in ('u:kim', 'g:kim', 'u:u:', 'g: ', 'u:/', 'ClusterRole/a', 'ClusterRole//', 'ClusterRole/a/b', 'Role/a/b', 'Role/a/b/c', 'Role/a//', '*')),
        ['--to=*', '-n', 'dev'], ['--to', 'ClusterRole/a', '--namespace', '*'], ['--to', 'Role/dev/a', '-n', 'dev'], ['--to', 'Role/dev/a/b', '-n', 'dev'],
        *(['--to', to, '--namespace='] for to in ('u:kim', 'g:kim', 'ClusterRole/a', 'Role/a/b', '*')), ['--to', '*', '--steps', 'run']]
# Options of `who-can` that don't go together.
NO_WAYS = [*(['--indirect', *options] for count in range(1, 6) for options in itertools.combinations(['--anywhere', '--any-name', '--every', '--members', '--why'], count)),
           ['--why', '--indirect'], ['-A', '--anywhere', '--indirect'], ['--indirect', '--steps', 'run', '--every'], ['--steps', 'run'],
           ['--steps', 'run', '--why'], ['--steps=' + ','.join(STEPS), '-A']]


def run(words, given=b'', stdout=subprocess.PIPE, most=resource.RLIM_INFINITY):
    """Ends within two minutes, and takes at most so many bytes of memory."""
    def limited():
        resource.setrlimit(resource.RLIMIT_AS, (most, most))

    return subprocess.run([PROGRAM, *words], input=given, stdout=stdout, stderr=subprocess.PIPE, timeout=120, preexec_fn=limited)


def expect(name, words, status, out=b'', err=b'', given=b''):
    ended = run(words, given)
    got = (ended.returncode, ended.stdout, ended.stderr)
    checked(name, got == (status, out, err), 'got %r' % (got,))


def role(namespace, name, rules):
    return {'apiVersion': V1, 'kind': 'Role', 'metadata': {'namespace': namespace, 'name': name}, 'rules': rules}


def cluster_role(name, rules):
    return {'apiVersion': V1, 'kind': 'ClusterRole', 'metadata': {'name': name}, 'rules': rules}


def binding(kind, name, role_kind, role_name, namespace=None):
    metadata = {'name': name}
    if namespace is not None:
        metadata['namespace'] = namespace
    return {'apiVersion': V1, 'kind': kind, 'metadata': metadata,
            'roleRef': {'kind': role_kind, 'name': role_name}, 'subjects': [{'kind': 'User', 'name': 'alice'}]}


def token_of(text):
    return base64.urlsafe_b64encode(text.encode()).rstrip(b'=').decode()


def listed(version, kind, *items):
    return json.dumps({'apiVersion': version, 'kind': kind, 'items': items}).encode()


ALICE_GETS_PODS = ['can-i', '--as', 'alice', 'get', 'pods']
BOUND = binding('RoleBinding', 'b', 'Role', 'r', 'default')
GRANTED = export(role('default', 'r', [PODS]), BOUND)
CI = {'apiVersion': 'v1', 'kind': 'ServiceAccount', 'metadata': {'namespace': 'dev', 'name': 'ci'}}


def streams():
    """Standard input, files in their order, statuses, and faults on standard error alone."""
    expect('yes from standard input', ALICE_GETS_PODS, 0, b'yes\n', given=GRANTED)
    expect('no has status 1', ALICE_GETS_PODS, 1, b'no\n', given=export())
    expect('a bad document has status 2', ALICE_GETS_PODS, 2, err=b'rbacaudit: file 1: M1 not JSON\n', given=b'')
    expect('an empty word has status 2', ['can-i', '--as', 'alice', 'get', '.apps'], 2,
           err=b'rbacaudit: U2 empty word\n')
    for words in EMPTY_WORDS:
        expect('an empty word has status 2: %r' % (words,), words, 2, err=b'rbacaudit: U2 empty word\n')
    for words in NOBODY:
        expect('no principal: %r' % (words,), words, 2, err=b'rbacaudit: U5 bad principal\n')
    expect('rules of nobody have status 0', ['rules', 'u:kim'], 0, given=GRANTED)
    for command in ('rules', 'paths'):
        expect('groups of a group that are empty: %s' % command, [command, '--groups=', '--group=', '--group=', 'g:dev'], 0, given=GRANTED)
    expect('a namespace that is empty, and no end', ['paths', '--namespace=', 'u:kim'], 0, given=GRANTED)
    for words in ENDS:
        expect('no path has status 1: %s' % ' '.join(words), ['paths', *words, 'u:kim'], 1, given=GRANTED)
    expect('a subresource of a URL has status 2',
           ['can-i', '--as', 'alice', '--subresource', 'log', 'get', '/healthz'], 2,
           err=b'rbacaudit: U3 subresource with a URL\n')
    expect('so it has with any name', ['who-can', '--any-name', '--subresource', 'log', 'get', '/healthz'], 2,
           err=b'rbacaudit: U3 subresource with a URL\n')
    with tempfile.TemporaryDirectory() as room:
        put = put_in(room)
        roles = put('roles.json', listed(V1, 'RoleList', {'metadata': {'name': 'r'}, 'rules': [PODS]}))
        bindings = put('bindings.json', export(BOUND))
        missing = os.path.join(room, 'missing.json')
        expect('two files are one export', ALICE_GETS_PODS + [roles, bindings], 0, b'yes\n')
        older = put('older.json', listed(V1BETA1, 'RoleBindingList', bare(BOUND)))
        expect('lists of both versions are one export', ALICE_GETS_PODS + [roles, older], 0, b'yes\n')
        expect('a list of one version replaces objects of the other', ['lint', older, roles, bindings], 1,
               b'L7\treplaced-object\tRoleBinding/default/b\t-\t1\n')
        expect('a missing file', ALICE_GETS_PODS + [missing], 2, err=b'rbacaudit: file 1: I1 read fault\n')
        expect('the first fault of the files stands', ALICE_GETS_PODS + [roles, missing, missing], 2,
               err=b'rbacaudit: file 2: I1 read fault\n')
        expect('a folder is no file', ALICE_GETS_PODS + [room], 2, err=b'rbacaudit: file 1: I1 read fault\n')
        expect('a dash is a file as any other', ALICE_GETS_PODS + ['-'], 2, err=b'rbacaudit: file 1: I1 read fault\n',
               given=GRANTED)
        expect('a bad token before a missing file', ['matrix', '--after', 'MQ', missing], 2, err=b'rbacaudit: U4 bad token\n')
        expect('a bad code before a missing file', ['lint', '--only', 'L8', missing], 2, err=b'rbacaudit: U6 bad code\n')
        expect('no codes, and a file in their place', ['lint', '--only', roles], 2, err=b'rbacaudit: U6 bad code\n')
        for words in BAD_CHANGES:
            expect('no change before a missing file: %s' % ' '.join(words), ['diff', '--before', missing, *words], 2,
                   err=b'rbacaudit: U7 give either --after, or --with or --without\n')
        for command in ('rules', 'paths'):
            expect('no principal before a missing file: %s' % command, [command, 'kim', missing], 2, err=b'rbacaudit: U5 bad principal\n')
        expect('no principal before no step', ['paths', '--steps', 'runs', 'kim', missing], 2, err=b'rbacaudit: U5 bad principal\n')
        expect('no step before a missing file', ['paths', '--steps', 'runs', 'u:kim', missing], 2, err=BAD_STEP)
        for words in NO_ENDS:
            expect('no end before a missing file: %s' % ' '.join(words), ['paths', *words, 'u:kim', missing], 2, err=BAD_END)
        expect('no step before no end', ['paths', '--steps', 'runs', '--to', 'kim', 'u:kim', missing], 2, err=BAD_STEP)
        expect('no principal before no end', ['paths', '--to', 'kim', 'kim', missing], 2, err=b'rbacaudit: U5 bad principal\n')
        expect('rules of two files', ['rules', 'u:alice', roles, bindings], 0,
               b'RoleBinding/default/b\tRole/default/r\tRole/default/r\t1\t1\t[get]\t[-]\t[pods]\t[]\t[]\n')
        expect('WHO first, and then files', ['rules', roles, 'u:alice'], 2, err=b'rbacaudit: U5 bad principal\n')
        expect('the file of a bad document', ALICE_GETS_PODS + [roles, put('bad.json', b'[]')], 2,
               err=b'rbacaudit: file 2: M2 not an object\n')
        changes_of(roles, bindings, missing)
        full = put('full.json', LEAST + b' ' * (MOST_BYTES - len(LEAST)))
        expect('the longest input is read', ALICE_GETS_PODS + [full], 1, b'no\n')
        with open(full, 'ab') as file:
            file.write(b' ')
        expect('a byte more is refused', ALICE_GETS_PODS + [full], 2, err=b'rbacaudit: file 1: I2 too long\n')
        expect('so it is on the second side', ['diff', '--before', roles, '--after', full], 2, err=b'rbacaudit: file 2: I2 too long\n')


def changes_of(roles, bindings, missing):
    """Sides of several files, in each order of the words; standard input isn't read."""
    gained = b'+\tu:alice\tdefault\tget\t-\tpods\t*\tRoleBinding/default/b\n'
    for words in (['--before', roles, '--after', roles, bindings], ['--after', roles, bindings, '--before', roles],
                  ['--after', bindings, '--before', roles, '--after', roles], ['--before=' + roles, '--after=' + roles, '--after=' + bindings],
                  ['--before', roles, '--before', roles, '--after', bindings, '--after', roles],
                  ['--before', roles, '--with', bindings], ['--with', bindings, '--without', bindings, '--before', roles],
                  ['--without', bindings, '--before', roles, '--with', roles, bindings], ['--with=' + bindings, '--before=' + roles, '--with=' + roles]):
        expect('changes: %s' % ' '.join(map(os.path.basename, words)), ['diff', *words], 1, gained, given=b'[]')
    for words, place in (([missing, '--after', roles], 1), ([roles, '--after', missing], 2), ([roles, bindings, '--after', missing, roles], 3),
                         ([missing, '--after', missing], 1), ([roles, '--after', roles, '-'], 3), ([roles, '--after', os.path.dirname(roles)], 2),
                         ([roles, '--with', missing], 2), ([roles, '--without', roles, missing, '--with', missing], 3),
                         ([roles, '--with', roles, missing, '--without', roles], 4)):
        expect('a side that is not there: %s' % ' '.join(map(os.path.basename, words)), ['diff', '--before', *words], 2,
               err=b'rbacaudit: file %d: I1 read fault\n' % place, given=GRANTED)
    expect('files after, before files before', ['diff', '--after', missing, '--before', roles, bindings], 2,
           err=b'rbacaudit: file 3: I1 read fault\n')
    expect('a file that is no UTF-8 word', ['diff', '--before', roles, '--after', b'\xff'], 2, err=b'rbacaudit: argument 5: not UTF-8\n')
    with open('/dev/full', 'wb') as full:
        ended = run(['diff', '--before', roles, '--after', roles, bindings], stdout=full)
    got = (ended.returncode, ended.stderr)
    checked('changes on a full disk', got == (2, b'rbacaudit: write failed after 0 bytes\n'), repr(ended))


def help_and_usage():
    """Help on standard output with status 0; a refused line on standard error with status 2."""
    for words in (['--help'], ['can-i', '--help'], ['who-can', '--help'], ['rules', '--help'], ['matrix', '--help'], ['universe', '--help'],
                  ['lint', '--help'], ['powers', '--help'], ['paths', '--help'], ['diff', '--help'], ['unused', '--help'], ['least', '--help'], ['-h'],
                  ['lint', '-h']):
        ended = run(words)
        checked('%s is on standard output' % ' '.join(words),
             ended.returncode == 0 and b'Usage' in ended.stdout and not ended.stderr, repr(ended))
    commands = run(['--help']).stdout
    for command in (b'can-i', b'who-can', b'rules', b'matrix', b'universe', b'lint', b'powers', b'paths', b'diff', b'unused', b'least'):
        checked('help names %s' % command.decode(), command in commands, repr(commands))
    options = run(['can-i', '--help']).stdout
    for option in (b'--as', b'--groups', b'--group <G>', b'-n, --namespace', b'-A, --all-namespaces', b'--in-namespace', b'--subresource', b'-q, --quiet',
                   b'--why', b'VERB', b'TARGET', b'FILE'):
        checked('help names %s' % option.decode(), option in options, repr(options))
    for line in (b'Namespace to check (default: default)', b'five fields, joined by tabs', b'rbacaudit can-i --as alice -n dev get pods'):
        checked('help of can-i says "%s"' % line.decode(), line in options, repr(options))
    for command in ('who-can', 'rules', 'matrix', 'lint', 'powers', 'paths', 'diff', 'unused', 'least'):
        text = run([command, '--help']).stdout
        checked('help of %s names FILE and has an example' % command, b'FILE' in text and b'rbacaudit %s ' % command.encode() in text, repr(text))
    for option in (b'--every', b'--once', b'--after <TOKEN>', b'--limit <N>'):
        checked('help names %s' % option.decode(), option in run(['matrix', '--help']).stdout)
    for said in (b'--groups <A,B>', b'--group <G>', b'-n, --namespace <NS>', b'-A, --all-namespaces', b'ten fields, joined by tabs', b'[] is the empty list'):
        checked('help of rules says "%s"' % said.decode(), said in run(['rules', '--help']).stdout)
    for said in (b'--groups <A,B>', b'--group <G>', b'--steps <STEPS>', b'--to <TO>', b'-n, --namespace <NS>', b'WHO', b'eleven fields, joined by tabs',
                 b'and so on back to WHO'):
        checked('help of paths says "%s"' % said.decode(), said in run(['paths', '--help']).stdout)
    for said in (b'[FILE]', b'matrix over the same files and this document lists the same rows'):
        checked('help of universe says "%s"' % said.decode(), said in run(['universe', '--help']).stdout)
    for said in (b'--before <FILE>', b'--after <FILE>', b'--without <FILE>', b'--with <FILE>', b'eight fields, joined by tabs'):
        checked('help of diff says "%s"' % said.decode(), said in run(['diff', '--help']).stdout)
    for option in (b'--in-namespace', b'--anywhere', b'--any-name', b'--every', b'--members', b'--why', b'--indirect', b'--steps <STEPS>', b'eleven fields'):
        checked('help of who-can names %s' % option.decode(), option in run(['who-can', '--help']).stdout)
    for said in (b'--only <CODES>', b'--skip-system', b'The exit status is 1 if a finding is listed', b'rbacaudit lint --only L1,L6 ',
                 b'rbacaudit lint --skip-system '):
        checked('help of lint says "%s"' % said.decode(), said in run(['lint', '--help']).stdout)
    for said in (b'--log <LOG>', b'--skip-system', b'ten fields, joined by tabs', b'The exit status is 1 if a line is listed'):
        checked('help of unused says "%s"' % said.decode(), said in run(['unused', '--help']).stdout)
    for said in (b'--log <LOG>', b'--names', b'--name <NAME>', b'<WHO>'):
        checked('help of least says "%s"' % said.decode(), said in run(['least', '--help']).stdout)
    no_tokens = ['', 'MQ==', 'M', 'OQ', 'MQ', 'Mg', 'Mw', 'MQlnOmEJLQktCS0JeAkt=']
    key = '\tg:a\t-\t-\t-\tx\t-'
    no_tokens += map(token_of, ['2' + key, '1' + key + '\tClusterRoleBinding\t-\tb', '3' + key + '\tClusterRoleBinding\t-\tb',
                                '2' + key + '\tClusterRoleBinding\tdev\tb', '2' + key + '\tRole\tdev\tb', '2' + key + '\tRoleBinding\tdev'])
    for token in no_tokens:
        for form in (['matrix'], ['matrix', '--every']):
            expect('"%s" is no token of %s' % (token, ' '.join(form)), [*form, '--after', token], 2, err=b'rbacaudit: U4 bad token\n')
    for text in ('1' + key, '2' + key + '\tClusterRoleBinding\t-\tb', '2' + key + '\tRoleBinding\tdev\tb', '2' + key + '\tRoleBinding\t-\t-'):
        for form in (['matrix'], ['matrix', '--every']):
            expect('%r is a token of %s' % (text, ' '.join(form)), [*form, '--after', token_of(text)], 0, b'end\n', given=export())
    codes()
    steps()
    expect('--version prints name and version', ['--version'], 0, b'rbacaudit 0.1.0\n')
    expect('-V is --version', ['-V'], 0, b'rbacaudit 0.1.0\n')
    expect('a word that is not UTF-8', ['can-i', '--as', b'al\xffce', 'get', 'pods'], 2,
           err=b'rbacaudit: argument 3: not UTF-8\n')
    for words in ([], ['can-i'], ['can-i', 'get', 'pods'], ['who-knows'], ['can-i', '--as', 'alice', '--why', 'get'],
                  ['can-i', '--as', 'a', '--as', 'b', 'get', 'pods'], ['can-i', '--as', 'a', '-A', '-A', 'get', 'pods'],
                  ['can-i', '--as', '-a', 'get', 'pods'], ['who-can', 'get'], ['who-can', '--as', 'alice', 'get', 'pods'],
                  ['who-can', '--limit', '1', 'get', 'pods'],
                  ['who-can', '--every', '--every', 'get', 'pods'], ['who-can', '--every=x', 'get', 'pods'], ['who-can', '--members', '--members', 'get', 'pods'],
                  ['who-can', '--members=x', 'get', 'pods'], ['can-i', '--as', 'a', '--members', 'get', 'pods'], ['rules', '--members', 'u:a'], ['who-can', '--anywhere=x', 'get', 'pods'],
                  ['who-can', '--any-name', '--any-name', 'get', 'pods'], ['who-can', '--any-name=x', 'get', 'pods'], ['lint', '--any-name'],
                  ['can-i', '--as', 'a', '--any-name', 'get', 'pods'], ['rules', '--any-name', 'u:a'], ['who-can', '--only', 'L1', 'get', 'pods'],
                  ['lint', '--only', 'L1', '--only', 'L2'], ['lint', '--only', '-L1'], ['matrix', '--only', 'L1'],
                  ['lint', '--skip-system', '--skip-system'], ['lint', '--skip-system=x'], ['matrix', '--skip-system'],
                  ['who-can', '--anywhere', '--anywhere', 'get', 'pods'], ['who-can', '--group', 'a', 'get', 'pods'], ['can-i', '--as', 'a', '--anywhere', 'get', 'pods'],
                  ['can-i', '--as', 'a', '--every', 'get', 'pods'], ['can-i', '--as', 'a', '--in-namespace', '--in-namespace', 'get', 'pods'],
                  ['rules', '--in-namespace', 'u:a'], ['rules', '--anywhere', 'u:a'], ['matrix', '--group', 'a'], ['matrix', '--anywhere'], ['lint', '--group', 'a'],
                  ['can-i', '--as', 'a', '--group', '-x', 'get', 'pods'], ['lint', '--every'], ['matrix', '--every', '--every'], ['matrix', '--every=x'],
                  ['matrix', '--once', '--once'], ['matrix', '--once=x'], ['who-can', '--once', 'get', 'pods'], ['lint', '--once'],
                  ['universe', '--once'], ['universe', '--every'], ['universe', '--limit', '1'], ['universe', '--after', 'MQ'], ['universe', '-n', 'dev'],
                  ['powers', '-n', 'dev'], ['powers', '-A'], ['powers', '--as', 'a'], ['powers', '--every'], ['powers', '--why'], ['powers', '--only', 'run'],
                  ['powers', '--limit', '1'], ['power'], ['powers', '--steps', 'run'], ['rules', '--steps', 'run', 'u:a'],
                  ['paths'], ['path', 'u:a'], ['paths', '-A', 'u:a'], ['paths', '--as', 'a', 'u:a'], ['paths', '--why', 'u:a'],
                  ['paths', '--every', 'u:a'], ['paths', '--limit', '1', 'u:a'], ['paths', '--only', 'L1', 'u:a'], ['paths', '--step', 'run', 'u:a'],
                  ['paths', '--steps', 'run', '--steps', 'exec', 'u:a'], ['paths', '--steps', '-run', 'u:a'], ['paths', '--to', '*', '--to', '*', 'u:a'],
                  ['paths', '--to', '-x', 'u:a'], ['paths', '--to', '*', '-n', 'dev', '-n', 'dev', 'u:a'], ['rules', '--to', '*', 'u:a'], ['powers', '--to', '*'],
                  ['who-can', '--indirect', '--to', '*', 'get', 'pods'], ['paths', '--to', '*', '-A', 'u:a'], ['paths', '--until', '*', 'u:a'],
                  ['paths', '--groups', 'a', '--groups', 'b', 'u:a'], ['paths', '--groups', '-a', 'u:a'], ['paths', '--group', '-a', 'u:a'],
                  ['who-can', '--indirect'], ['who-can', '--indirect', 'get'], ['who-can', '--indirect', '--indirect', 'get', 'pods'],
                  ['who-can', '--indirect=x', 'get', 'pods'], ['who-can', '--indirect', '--as', 'a', 'get', 'pods'],
                  ['who-can', '--indirect', '--groups', 'a', 'get', 'pods'], ['who-can', '--indirect', '--limit', '1', 'get', 'pods'],
                  ['who-can', '--indirect', '--steps', 'run', '--steps', 'exec', 'get', 'pods'], ['who-can', '--indirect', '--steps', '-run', 'get', 'pods'],
                  ['paths', '--indirect', 'u:a'], ['can-i', '--as', 'a', '--indirect', 'get', 'pods'], ['can-i', '--as', 'a', '--steps', 'run', 'get', 'pods'],
                  ['rules', '--indirect', 'u:a'], ['powers', '--indirect'], ['lint', '--indirect'], ['matrix', '--indirect'],
                  ['matrix', '--limit', '1', '--limit', '1'], ['matrix', '--after', 'MQ', '--after', 'MQ'], ['matrix', '-n', 'dev'],
                  ['lint', '--limit', '1'], ['lint', '-n', 'dev'], ['help'], ['rules'], ['rules', '-A'], ['rules', '--why', 'u:a'], ['rules', '-q', 'u:a'],
                  ['rules', '--as', 'a', 'u:a'], ['rules', '-A', '-A', 'u:a'], ['rules', '--groups', 'a', '--groups', 'b', 'u:a'],
                  ['rules', '--subresource', 'log', 'u:a'], ['rules', '-n', 'a', '--namespace', 'b', 'u:a'], ['rules', '-n', '-x', 'u:a'],
                  ['who-can', '--why', '--why', 'get', 'pods'], ['who-can', '--why=x', 'get', 'pods'], ['matrix', '--why'], ['lint', '--groups', 'a'],
                  *(['diff', *words] for words in NO_CHANGES)):
        ended = run(words)
        checked('refused: %s' % (' '.join(words) or 'no words'),
             ended.returncode == 2 and not ended.stdout and b'Usage' in ended.stderr, repr(ended))
    for words, option in ((['diff', '--before', '--after', 'a'], b'--before <FILE>'), (['diff', '--after', 'a', '--before'], b'--before <FILE>'),
                          (['diff', '--before', 'a', '--with'], b'--with <FILE>'), (['diff', '--without', '--before', 'a'], b'--without <FILE>'),
                          (['lint', '--only'], b'--only <CODES>'), (['paths', 'u:a', '--steps'], b'--steps <STEPS>'),
                          (['paths', 'u:a', '--to'], b'--to <TO>'), (['paths', '--to', '*', 'u:a', '-n'], b'--namespace <NS>'),
                          (['who-can', '--indirect', 'get', 'pods', '--steps'], b'--steps <STEPS>')):
        ended = run(words)
        checked('refused: %s' % ' '.join(words), ended.returncode == 2 and not ended.stdout and option in ended.stderr, repr(ended))
    for limit in ('0', '1000001', '4294967297', '-1', '1.5', 'x', ''):
        ended = run(['matrix', '--limit=' + limit])
        checked('refused: matrix --limit=%s' % limit, ended.returncode == 2 and not ended.stdout and b'--limit <N>' in ended.stderr, repr(ended))


def codes():
    """Lists of codes that are refused, and others that differ from them by little."""
    for text in ('', ',', ',L1', 'L1,', 'L1,,L2', 'l6', 'L1,l6', 'L0', 'L8', 'L9', 'L', 'L1L2', 'L11', 'L1,L10', 'L01', 'L+1', 'L-1', 'L1-L3',
                 ' ', ' L1', 'L1 ', 'L1, L2', 'L1\t', 'L1\n', 'L1;L2', 'L1.', '1', '1,2', '-', '*', 'all', 'unused-role', 'L2 unused-role', 'M1',
                 'U6', 'LL1', 'Ll', 'L\uff11', '\u216c1'):
        for form in (['lint', '--only=' + text], ['lint', '--skip-system', '--only=' + text]):
            expect('%r are no codes: %s' % (text, ' '.join(form)), form, 2, err=b'rbacaudit: U6 bad code\n', given=GRANTED)
    expect('no code in a word of its own', ['lint', '--only', ''], 2, err=b'rbacaudit: U6 bad code\n', given=GRANTED)
    for text in ('L1', 'L7', 'L7,L6,L5,L4,L3,L2,L1', 'L1,L1', ','.join(['L6'] * 1000)):
        expect('%.30r are codes' % text, ['lint', '--only', text], 0, given=GRANTED)


def steps():
    """Lists of steps that are refused, and which lines those that are taken leave: alice can read secrets, and create Pods, where an account is."""
    rules = [{'verbs': [verb], 'apiGroups': [''], 'resources': [resource]} for verb, resource in (('get', 'secrets'), ('create', 'pods'))]
    given = export(role('dev', 'r', rules), binding('RoleBinding', 'b', 'Role', 'r', 'dev'), CI)
    line = '1\tu:system:serviceaccount:dev:ci\t-\tu:alice\t-\t%s\tRoleBinding/dev/b\tRole/dev/r\tRole/dev/r\t%d\t1\n'
    by_secrets, by_run = (line % told for told in (('secrets', 1), ('run', 2)))
    for text in ('', ',', ',run', 'run,', 'run,,exec', 'Run', 'RUN', 'run,Exec', 'runs', 'ru', 'run exec', 'run;exec', ' run', 'run ', 'run, exec', 'run\t',
                 'run\n', 'impersonat', 'impersonates', 'tokens', 'secret', 'node', 'binds', 'escalation', 'certificate', 'webhook', 'runexec', '*', 'all',
                 'none', '1', 'L1', 'create', 'pods', 'r\uff55n'):
        for form in (['paths', '--steps=' + text, 'u:alice'], ['paths', '--groups', 'ops', 'u:alice', '--steps=' + text]):
            expect('%r are no steps: %s' % (text, ' '.join(form)), form, 2, err=BAD_STEP, given=given)
    expect('no step in a word of its own', ['paths', '--steps', '', 'u:alice'], 2, err=BAD_STEP, given=given)
    others = [step for step in STEPS if step not in ('run', 'secrets')]
    for text, wanted in (('run', by_run), ('secrets', by_secrets), ('secrets,run', by_run), ('run,secrets', by_run), ('secrets,secrets', by_secrets),
                         ('secrets,run,secrets', by_run), (','.join(STEPS), by_run), (','.join(STEPS[::-1]), by_run), (','.join(['secrets'] * 1000), by_secrets),
                         (','.join(others), ''), *((step, '') for step in others)):
        expect('steps %.60s' % text, ['paths', '--steps', text, 'u:alice'], 0, wanted.encode(), given=given)
    expect('all steps', ['paths', 'u:alice'], 0, by_run.encode(), given=given)
    asked = ['who-can', '--indirect', '-n', 'dev']
    for text in ('', 'run,', 'run,,exec', 'Run', 'runs', 'run exec', ' run', '*', 'create'):
        expect('%r are no steps of who-can' % text, [*asked, '--steps=' + text, 'get', 'configmaps'], 2, err=BAD_STEP, given=given)
    given = export(role('dev', 'r', rules), binding('RoleBinding', 'b', 'Role', 'r', 'dev'), role('dev', 's', [{**PODS, 'resources': ['configmaps']}]),
                   {**binding('RoleBinding', 'c', 'Role', 's', 'dev'), 'subjects': [{'kind': 'ServiceAccount', 'name': 'ci'}]})
    ci = '0\tu:system:serviceaccount:dev:ci\t-\t-\t-\t-\tRoleBinding/dev/c\tRole/dev/s\tRole/dev/s\t1\t1\n'
    line = ci + '1\tu:alice\t-\tu:system:serviceaccount:dev:ci\t-\t%s\tRoleBinding/dev/b\tRole/dev/r\tRole/dev/r\t%d\t1\n'
    by_secrets, by_run = (line % told for told in (('secrets', 1), ('run', 2)))
    for text, wanted in (('run', by_run), ('secrets', by_secrets), ('secrets,run', by_run), ('secrets,secrets', by_secrets), (','.join(STEPS[::-1]), by_run),
                         (','.join(others), ci), *((step, ci) for step in others)):
        expect('steps %.60s of who-can' % text, [*asked, '--steps', text, 'get', 'configmaps'], 0, wanted.encode(), given=given)
    expect('all steps of who-can', [*asked, 'get', 'configmaps'], 0, by_run.encode(), given=given)


def full_disk():
    with open('/dev/full', 'wb') as full:
        ended = run(ALICE_GETS_PODS, GRANTED, stdout=full)
    checked('a full disk', (ended.returncode, ended.stderr) == (2, b'rbacaudit: write failed after 0 bytes\n'), repr(ended))


def little_memory():
    """With 128 MiB neither the longest input nor the values of four million items find room: nothing is written."""
    inputs = {'reading': LEAST + b' ' * (MOST_BYTES - len(LEAST)), 'loading': b'[' + b','.join([b'{}'] * 4_000_000) + b']'}
    for name, given in inputs.items():
        ended = run(ALICE_GETS_PODS, given, most=2 ** 27)
        got = (ended.returncode, ended.stdout, ended.stderr)
        checked('out of memory in %s' % name, got == (2, b'', b'rbacaudit: out of memory\n'), repr(got))


def rows():
    """The worked rows of rows.json, of rows_paths.json and of rows_groups.json, each under the rule that it shows."""
    with open(os.path.join(TOP, 'tests', 'rows.json'), encoding='utf-8') as file:
        table = json.load(file)
    for name in ('rows_paths.json', 'rows_groups.json'):
        with open(os.path.join(TOP, 'tests', name), encoding='utf-8') as file:
            for kind, more in json.load(file).items():
                table[kind] += more
    answers(table['answers'])
    lines(table['lines'])
    changes(table['changes'])
    matrices(table['matrices'])
    universes(table['universes'])
    documents(table['documents'])


def answers(table):
    """Questions over an export, each with yes or no."""
    for row in table:
        for line, answer in row['asks']:
            status = 0 if answer == 'yes' else 1
            expect('%s can-i %s' % (row['rule'], line), ['can-i', *line.split(' ')], status, answer.encode() + b'\n',
                   given=export(*row['items']))


def lines(table):
    """Commands over an export, which may have more documents, each with its status and the lines that it writes."""
    for row in table:
        with tempfile.TemporaryDirectory() as room:
            files = put_files(room, 'file', [row['items'], *map(json.dumps, row['more'])])[1:] if 'more' in row else []
            for line, status, wanted in row['asks']:
                expect('%s %s' % (row['rule'], line), line.split(' ') + files, status, ''.join(l + '\n' for l in wanted).encode(),
                       given=export(*row['items']))


def changes(table):
    """Files before a change and after it, or those that are taken away and put over, each a list of items or a text, with the
    lines that `diff` writes, or its fault. With the sides exchanged, the lines have the other sign."""
    for row in table:
        with tempfile.TemporaryDirectory() as room:
            given = {side: put_files(room, side, row[side]) for side in ('before', 'after', 'without', 'with') if side in row}
            words = ['diff', *itertools.chain.from_iterable(given.values())]
            if 'fault' in row:
                expect(row['rule'], words, 2, err=b'rbacaudit: %s\n' % row['fault'].encode())
                continue
            told = ''.join(line + '\n' for line in row['lines'])
            status = 1 if row['lines'] else 0
            expect(row['rule'], words, status, told.encode())
            if 'after' in given:
                exchanged = re.sub('^[+-]', lambda sign: '-+'['+-'.index(sign[0])], told, flags=re.M)
                expect('%s Exchanged.' % row['rule'], ['diff', '--before', *given['after'][1:], '--after', *given['before'][1:]], status,
                       exchanged.encode())


def put_files(room, side, files):
    """Writes the files of a side: the words that give it."""
    paths = [os.path.join(room, '%s%d.json' % (side, number)) for number in range(len(files))]
    for path, content in zip(paths, files):
        with open(path, 'wb') as file:
            file.write(content.encode() if isinstance(content, str) else export(*content))
    return ['--' + side, *paths]


def matrices(table):
    """Matrices of an export, each with its rows, and pages of them, or the fault that refuses it."""
    for row in table:
        if 'fault' in row:
            wanted = 2, b'', b'rbacaudit: %s\n' % row['fault'].encode()
        else:
            wanted = 0, '\n'.join([*row['rows'], 'end', '']).encode(), b''
        expect('%s matrix' % row['rule'], ['matrix'], *wanted, given=export(*row['items']))
        for options, page in row.get('pages', []):
            expect('%s matrix %s' % (row['rule'], options), ['matrix', *options.split(' ')], 0,
                   ''.join(l + '\n' for l in page).encode(), given=export(*row['items']))


def universes(table):
    """Exports, each with the Universe document of its lists; over both the document and the matrix are as over the export alone."""
    for row in table:
        given, document = export(*row['items']), '\n'.join([*row['document'], '']).encode()
        matrix = run(['matrix'], given)
        checked('%s matrix' % row['rule'], matrix.returncode == 0 and matrix.stdout.endswith(b'end\n'), repr(matrix))
        expect('%s universe' % row['rule'], ['universe'], 0, document, given=given)
        with tempfile.TemporaryDirectory() as room:
            both = put_files(room, 'both', [given.decode(), document.decode()])[1:]
            expect('%s universe with the document' % row['rule'], ['universe', *both], 0, document)
            expect('%s matrix with the document' % row['rule'], ['matrix', *both], 0, matrix.stdout)


def documents(table):
    """Texts that are the whole input, each with the fault that refuses it; those without one are accepted."""
    for row in table:
        wanted = (1, b'no\n', b'') if row['fault'] is None else (2, b'', b'rbacaudit: %s\n' % row['fault'].encode())
        expect(row['rule'], ALICE_GETS_PODS, *wanted, given=row['document'].encode())


def matrix_streams():
    """Matrices of inputs that are no list, and on a full disk."""
    expect('a matrix of a bad document', ['matrix'], 2, err=b'rbacaudit: file 1: M2 not an object\n', given=b'[]')
    expect('a matrix of a document that is passed over', ['matrix'], 0, b'end\n',
           given=b'{"kind":"APIVersions","versions":["v1"]}')
    for form in (['matrix'], ['matrix', '--every']):
        with open('/dev/full', 'wb') as full:
            ended = run(form, export(), stdout=full)
        got = (ended.returncode, ended.stderr)
        checked('%s on a full disk' % ' '.join(form), got == (2, b'rbacaudit: write failed after 0 bytes\n'), repr(ended))


def universe_streams():
    """Universes of inputs that are no list, of a missing file, and on a full disk."""
    expect('a universe of a bad document', ['universe'], 2, err=b'rbacaudit: file 1: M2 not an object\n', given=b'[]')
    expect('a universe of a missing file', ['universe', 'missing.json'], 2, err=b'rbacaudit: file 1: I1 read fault\n')
    expect('a universe of too many grants', ['universe'], 2, err=b'rbacaudit: M11 too many grants\n', given=export(*many_grants(1001)))
    with open('/dev/full', 'wb') as full:
        ended = run(['universe'], export(), stdout=full)
    checked('a universe on a full disk', (ended.returncode, ended.stderr) == (2, b'rbacaudit: write failed after 0 bytes\n'), repr(ended))


def rules_streams():
    """Rules of a list of bindings, of a bad document, and on a full disk; so with why each holder is one."""
    for words in (['rules', 'u:alice'], ['who-can', '--why', 'get', 'pods']):
        name = ' '.join(words)
        expect('%s of a bad document' % name, words, 2, err=b'rbacaudit: file 1: M2 not an object\n', given=b'[]')
        expect('%s of nothing' % name, words, 0, given=listed(V1, 'RoleBindingList', bare(BOUND)))
        with open('/dev/full', 'wb') as full:
            ended = run(words, GRANTED, stdout=full)
        got = (ended.returncode, ended.stderr)
        checked('%s on a full disk' % name, got == (2, b'rbacaudit: write failed after 0 bytes\n'), repr(ended))


def lint_streams():
    """Lint of an input that is a list of its own kind, of a bad document, on a full disk, and its help."""
    for version in (V1, V1BETA1):
        expect('lint of a RoleList of %s' % version, ['lint'], 1, b'L2\tunused-role\tRole/dev/r\t-\t-\n', given=listed(
            version, 'RoleList', {'metadata': {'name': 'r', 'namespace': 'dev'}, 'rules': None}))
    expect('lint of a bad document', ['lint'], 2, err=b'rbacaudit: file 1: M2 not an object\n', given=b'[]')
    with open('/dev/full', 'wb') as full:
        ended = run(['lint'], export(role('dev', 'r', [PODS])), stdout=full)
    checked('lint on a full disk', (ended.returncode, ended.stderr) == (2, b'rbacaudit: write failed after 0 bytes\n'), repr(ended))
    text = run(['lint', '--help']).stdout
    for code in range(1, 8):
        checked('help of lint names L%d' % code, b'L%d  ' % code in text, repr(text))


def event(user, verb, **fields):
    return {'kind': 'Event', 'apiVersion': 'audit.k8s.io/v1', 'stage': 'ResponseComplete', 'verb': verb, 'user': {'username': user}, **fields}


def log_of(*events):
    return b''.join(json.dumps(it).encode() + b'\n' for it in events)


def unused_streams():
    """What isn't used by logs of standard input and of files, in pieces of any size; logs that are refused; standard input for two."""
    pods = {'verbs': ['get', 'delete'], 'apiGroups': [''], 'resources': ['pods']}
    items = [role('dev', 'r', [pods]), binding('RoleBinding', 'b', 'Role', 'r', 'dev')]
    used = event('alice', 'get', objectRef={'resource': 'pods', 'namespace': 'dev', 'name': 'a'})
    whole = b'binding\tRoleBinding/dev/b\tRole/dev/r\t-\t-\t-\t-\t-\t-\t-\n'
    left = b'permission\tRoleBinding/dev/b\tRole/dev/r\tRole/dev/r\t1\t-\tdelete\t-\tpods\t*\n'
    other = event('bob', 'get', objectRef={'resource': 'pods', 'namespace': 'dev'})
    both = event('alice', 'delete', objectRef={'resource': 'pods', 'namespace': 'dev', 'name': 'a'})
    twice = 'U11 --log - may be given once, and needs a FILE: standard input can be read only once'
    with tempfile.TemporaryDirectory() as room:
        put = put_in(room)
        given, empty, first = put('export.json', export(*items)), put('empty.log', b''), put('first.log', log_of(other, used))
        second, bad = put('second.log', log_of(both).rstrip()), put('bad.log', log_of(used, other) + b'{}\n' + log_of(both))
        for name, log, status, lines in (('an empty log', b'', 1, whole), ('blank lines', b'\n \r\n\t\n', 1, whole), ('others', log_of(other), 1, whole),
                                         ('one request', log_of(used), 1, left), ('lines that end in CR', log_of(used).replace(b'\n', b'\r\n'), 1, left),
                                         ('all of it', log_of(used, both), 0, b''), ('a last line without its end', log_of(used, both).rstrip(), 0, b''),
                                         ('lines longer than a read', log_of({**used, 'note': 'n' * 200_000}, {**both, 'note': 'n' * 65_536}), 0, b''),
                                         ('many lines', log_of(other) * 2_000 + log_of(used), 1, left)):
            expect('unused by a log with %s' % name, ['unused', '--log', '-', given], status, lines, given=log)
        expect('unused by a log in a file', ['unused', '--log', first], 1, left, given=export(*items))
        expect('unused by two logs', ['unused', '--log', first, '--log', second, given], 0)
        expect('unused by a file and by standard input', ['unused', '--log', first, '--log', '-', given], 0, given=log_of(both))
        expect('unused, without names that begin with system:', ['unused', '--skip-system', '--log', empty, put('system.json', export(
            role('dev', 'r', [pods]), binding('RoleBinding', 'system:b', 'Role', 'r', 'dev')))], 0)
        for words, said in ((['--log', bad, given], 'log 1: line 3: G2 not an audit event'), (['--log', first, '--log', bad, given], 'log 2: line 3: G2 not an audit event'),
                            (['--log', os.path.join(room, 'none'), given], 'log 1: I1 read fault'), (['--log', '-', given], 'log 1: line 1: G1 not JSON'),
                            (['--log', '-'], twice), (['--log', '-', '--log', '-', given], twice), (['--log', '-', '--log', first, '--log', '-', given], twice)):
            expect('unused %s' % ' '.join(map(os.path.basename, words)), ['unused', *words], 2, err=b'rbacaudit: %s\n' % said.encode(), given=b'\xff\n')
        with open('/dev/full', 'wb') as full:
            ended = run(['unused', '--log', empty, given], stdout=full)
        checked('unused on a full disk', (ended.returncode, ended.stderr) == (2, b'rbacaudit: write failed after 0 bytes\n'), repr(ended))
    for words in (['unused'], ['unused', 'a'], ['unused', '--log'], ['unused', '--log', 'a', '--skip-system', '--skip-system'], ['lint', '--log', 'a']):
        ended = run(words)
        checked('refused: %s' % ' '.join(words), ended.returncode == 2 and not ended.stdout and ended.stderr, repr(ended))


def powers_streams():
    """Powers by an export in files, of a bad document, on a full disk, and the help, which has a line for each step."""
    runs = cluster_role('r', [{'verbs': ['create'], 'apiGroups': [''], 'resources': ['pods']}])
    line = b'run\tu:alice\t*\tClusterRoleBinding/b\tClusterRole/r\tClusterRole/r\t1\t1\n'
    with tempfile.TemporaryDirectory() as room:
        files = put_files(room, 'powers', [[runs], [binding('ClusterRoleBinding', 'b', 'ClusterRole', 'r')]])[1:]
        expect('powers of two files', ['powers', *files], 0, line)
        expect('powers of a file and a missing one', ['powers', files[0], room], 2, err=b'rbacaudit: file 2: I1 read fault\n')
        with open('/dev/full', 'wb') as full:
            ended = run(['powers', *files], stdout=full)
        checked('powers on a full disk', (ended.returncode, ended.stderr) == (2, b'rbacaudit: write failed after 0 bytes\n'), repr(ended))
    expect('powers of a bad document', ['powers'], 2, err=b'rbacaudit: file 1: M2 not an object\n', given=b'[]')
    text = run(['powers', '--help']).stdout
    for said in (*(b'  %-12s  ' % step.encode() for step in STEPS), b'eight fields, joined by tabs', b'* is the whole cluster'):
        checked('help of powers says "%s"' % said.decode(), said in text, repr(text))


def paths_streams():
    """Paths by an export in files, to which other documents add nothing, of a bad document, of nothing, and on a full disk."""
    runs = cluster_role('r', [{'verbs': ['create'], 'apiGroups': [''], 'resources': ['pods']}])
    line = b'1\tu:system:serviceaccount:dev:ci\t-\tu:alice\t-\trun\tClusterRoleBinding/b\tClusterRole/r\tClusterRole/r\t1\t1\n'
    asked = ['paths', 'u:alice']
    with tempfile.TemporaryDirectory() as room:
        files = put_files(room, 'paths', [[runs], [binding('ClusterRoleBinding', 'b', 'ClusterRole', 'r'), CI]])[1:]
        others = put_files(room, 'other', [
            [{'apiVersion': 'rbacaudit/v1', 'kind': 'Universe', 'principals': [], 'namespaces': []}],
            [{'kind': 'APIResourceList', 'groupVersion': 'v1', 'resources': [{'name': 'pods', 'namespaced': False}]}]])[1:]
        expect('paths of two files', [*asked, *files], 0, line)
        expect('a universe hides nobody, and an API resource list says nothing', [*asked, *files, *others], 0, line)
        expect('paths of a file and a missing one', [*asked, files[0], room], 2, err=b'rbacaudit: file 2: I1 read fault\n')
        expect('WHO first, and then the files of paths', ['paths', files[0], 'u:alice'], 2, err=b'rbacaudit: U5 bad principal\n')
        with open('/dev/full', 'wb') as full:
            ended = run([*asked, *files], stdout=full)
        checked('paths on a full disk', (ended.returncode, ended.stderr) == (2, b'rbacaudit: write failed after 0 bytes\n'), repr(ended))
    expect('paths of a bad document', asked, 2, err=b'rbacaudit: file 1: M2 not an object\n', given=b'[]')
    expect('paths of no roles', asked, 0, given=export(BOUND))
    expect('paths of too many grants', asked, 2, err=b'rbacaudit: M11 too many grants\n', given=export(*many_grants(1001)))


def ways_streams():
    """Who comes to a request by an export in files, of a bad document, of nothing, and on a full disk."""
    runs = cluster_role('r', [{'verbs': ['create'], 'apiGroups': ['batch'], 'resources': ['jobs']}, {'verbs': ['get'], 'nonResourceURLs': ['/x']}])
    bound = {**binding('ClusterRoleBinding', 'a', 'ClusterRole', 's'), 'subjects': [{'kind': 'ServiceAccount', 'name': 'ci', 'namespace': 'dev'}]}
    line = (b'0\tu:system:serviceaccount:dev:ci\t-\t-\t-\t-\tClusterRoleBinding/a\tClusterRole/s\tClusterRole/s\t1\t1\n'
            b'1\tu:alice\t-\tu:system:serviceaccount:dev:ci\t-\trun\tClusterRoleBinding/b\tClusterRole/r\tClusterRole/r\t1\t1\n')
    asked = ['who-can', '--indirect', 'get', 'pods']
    with tempfile.TemporaryDirectory() as room:
        files = put_files(room, 'ways', [[runs, cluster_role('s', [PODS])], [binding('ClusterRoleBinding', 'b', 'ClusterRole', 'r'), bound]])[1:]
        others = put_files(room, 'other', [
            [{'apiVersion': 'rbacaudit/v1', 'kind': 'Universe', 'principals': [], 'namespaces': []}],
            [{'kind': 'APIResourceList', 'groupVersion': 'batch/v1', 'resources': [{'name': 'jobs', 'namespaced': False}]}]])[1:]
        expect('who comes to pods by two files', [*asked, *files], 0, line)
        expect('a universe hides nobody, and an API resource list changes no step', [*asked, *files, *others], 0, line)
        expect('who comes to it by a file and a missing one', [*asked, files[0], room], 2, err=b'rbacaudit: file 2: I1 read fault\n')
        for words in NO_WAYS:
            expect('not together: %s' % ' '.join(words), ['who-can', *words, 'get', 'pods', room], 2, err=BAD_INDIRECT)
            expect('not together behind a URL: %s' % ' '.join(words), ['who-can', 'get', '/x', *words], 2, err=BAD_INDIRECT)
            expect('an empty word before %s' % ' '.join(words), ['who-can', *words, 'get', ''], 2, err=b'rbacaudit: U2 empty word\n')
        for words in (['--steps', 'runs'], ['--steps', 'runs', '--indirect', '--why'], ['--steps', '', '--every']):
            expect('no steps before what goes together: %s' % ' '.join(words), ['who-can', *words, 'get', 'pods', room], 2, err=BAD_STEP)
        expect('no steps before a missing file', ['who-can', '--indirect', '--steps', 'runs', 'get', 'pods', room], 2, err=BAD_STEP)
        expect('an empty word before no steps', ['who-can', '--indirect', '--steps', 'runs', '', 'pods', room], 2, err=b'rbacaudit: U2 empty word\n')
        expect('a subresource of a URL before no steps', ['who-can', '--indirect', '--steps', 'runs', '--subresource', 'x', 'get', '/x', room], 2,
               err=b'rbacaudit: U3 subresource with a URL\n')
        with open('/dev/full', 'wb') as full:
            ended = run([*asked, *files], stdout=full)
        checked('who comes to it on a full disk', (ended.returncode, ended.stderr) == (2, b'rbacaudit: write failed after 0 bytes\n'), repr(ended))
    expect('who comes to it by a bad document', asked, 2, err=b'rbacaudit: file 1: M2 not an object\n', given=b'[]')
    expect('who comes to it without roles', asked, 0, given=export(BOUND))
    expect('who comes to it by too many grants', asked, 2, err=b'rbacaudit: M11 too many grants\n', given=export(*many_grants(1001)))


def universe(**lists):
    return export({'apiVersion': 'rbacaudit/v1', 'kind': 'Universe', **lists})


def universe_limits():
    """The most verbs, namespaces, users and targets, and one more of each; a universe that a matrix refuses is printed."""
    verbs = ['v%d' % i for i in range(65536)]
    users = [{'user': verb} for verb in verbs]
    large = dict(status=2, err=b'rbacaudit: P4 universe too large\n')
    expect('65,535 verbs, each twice', ['matrix'], 0, b'end\n', given=universe(verbs=verbs[:65535] * 2))
    expect('65,536 verbs', ['matrix'], given=universe(verbs=verbs), **large)
    expect('65,535 namespaces, each twice', ['matrix'], 0, b'end\n', given=universe(namespaces=verbs[:65535] * 2))
    expect('65,536 namespaces', ['matrix'], given=universe(namespaces=verbs), **large)
    expect('65,535 users, each twice', ['matrix'], 0, b'end\n', given=universe(principals=users[:65535] * 2))
    expect('65,536 users', ['matrix'], given=universe(principals=users), **large)
    expect('a bad target before too many verbs', ['matrix'], 2, err=b'rbacaudit: P3 bad target\n',
           given=universe(verbs=verbs, urls=['x']))
    targets = {'resources': [{'resource': 'r%d' % i} for i in range(1000)], 'names': ['n%d' % i for i in range(1000)]}
    expect('1,000 resources by 1,000 names', ['matrix'], 0, b'end\n', given=universe(**targets))
    expect('the same and a URL', ['matrix'], given=universe(urls=['/x'], **targets), **large)
    printed(verbs=verbs, urls=['x'])
    printed(resources=[{'group': '', 'resource': resource, 'namespaced': True} for resource in ('', '/pods')])
    printed(names=verbs * 2, principals=users, namespaces=verbs)


def product(groups, words, **more):
    """A cluster role that names each of these resources in each of these groups."""
    return {**cluster_role('w', [{'verbs': ['get'], 'apiGroups': groups, 'resources': words}]), **more}


def wide_rules():
    """Rules of a million resources, and of more. A rule that alone names too many is refused before its resources take memory."""
    groups, words = (['%s%d' % (letter, i) for i in range(1001)] for letter in 'gr')
    most, wide = product(groups[:1000], words[:1000]), product(groups, words[:1000])
    one_more = cluster_role('o', [PODS])
    large = dict(status=2, err=b'rbacaudit: P4 universe too large\n')
    few = {
        'a rule of a million resources': [most],
        'groups twice, and words that name no resource': [product([*groups[:1000] * 2, '*', 'g*'], [*words[:1000], '*', '*/log', '/x', ''])],
        'some of them by another rule too': [most, product(groups[:2], words[:2], metadata={'name': 'o'})],
        'a wide rule that is aggregated over': [{**wide, 'aggregationRule': {'clusterRoleSelectors': []}}],
        'a wide rule where resources are given': [wide, {'apiVersion': 'rbacaudit/v1', 'kind': 'Universe', 'resources': []}],
        'a wide rule where no name is asked for': [wide, {'apiVersion': 'rbacaudit/v1', 'kind': 'Universe', 'names': []}],
        'a wide rule beside an API resource list': [wide, {'kind': 'APIResourceList', 'groupVersion': 'v1', 'resources': []}],
    }
    for name, items in few.items():
        expect(name, ['matrix'], 0, b'end\n', given=export(*items))
    expect('a rule of one group more', ['matrix'], given=export(wide), **large)
    expect('one resource more by another rule', ['matrix'], given=export(most, one_more), **large)
    expect('a wide rule of a Role', ['matrix'], given=export(role('n', 'w', wide['rules'])), **large)
    expect('a bad URL beside a wide rule', ['matrix'], 2, err=b'rbacaudit: P3 bad target\n',
           given=export(wide, {'apiVersion': 'rbacaudit/v1', 'kind': 'Universe', 'urls': ['x']}))
    expect('the universe of a wide rule', ['universe'], given=export(wide), **large)
    expect('a universe of one resource more', ['universe'], given=export(most, one_more), **large)
    lists = {'principals': [], 'namespaces': [''], 'verbs': ['get'], 'names': [''], 'urls': [],
             'resources': [{'group': group, 'resource': word, 'namespaced': True} for group in groups[:1000] for word in words[:1000]]}
    got = run(['universe'], export(most))
    checked('a universe of a million resources', (got.returncode, got.stdout) == (0, document_text(lists).encode()), repr(got.stdout[:300]))
    words = ['r%d' % i for i in range(4000)]
    for command in 'matrix', 'universe':
        ended = run([command], export(product(words, words)), most=2 ** 26)
        checked('%s of 16 million resources in 64 MiB' % command, (ended.returncode, ended.stdout, ended.stderr) == (2, b'', large['err']), repr(ended))


def printed(**lists):
    """The document of lists that replace all that follow from nothing."""
    whole = {'principals': [], 'namespaces': [''], 'verbs': [], 'resources': [], 'names': [''], 'urls': [], **lists}
    expect('a universe of %s' % ', '.join(map(str, lists)), ['universe'], 0, document_text(whole).encode(), given=universe(**lists))


def many_grants(bindings):
    """A thousand rules by so many bindings."""
    return [cluster_role('r', [PODS] * 1000), *(binding('ClusterRoleBinding', 'b%04d' % i, 'ClusterRole', 'r') for i in range(bindings))]


def limits():
    """A million grants, and one binding more."""
    many = many_grants(1001)
    expect('1,000 rules by 1,000 bindings', ALICE_GETS_PODS, 0, b'yes\n', given=export(*many[:-1]))
    lines = ('ClusterRoleBinding/b%04d\tClusterRole/r\tClusterRole/r\t%d\t1\t[get]\t[-]\t[pods]\t[]\t[]\n' % place
             for place in itertools.product(range(1000), range(1, 1001)))
    got = run(['rules', 'u:alice'], export(*many[:-1]))
    checked('a million rules', got.returncode == 0 and got.stdout == ''.join(lines).encode(), repr(got.stdout[:300]))
    expect('1,000 rules by 1,001 bindings', ALICE_GETS_PODS, 2, err=b'rbacaudit: M11 too many grants\n',
           given=export(*many))
    with tempfile.TemporaryDirectory() as room:
        most, more = (put_files(room, name, [items])[1] for name, items in (('most', many[:-1]), ('more', many)))
        expect('a million grants on both sides', ['diff', '--before', most, '--after', most], 0)
        for before, after in ((most, more), (more, most)):
            expect('more on one of them', ['diff', '--before', before, '--after', after], 2, err=b'rbacaudit: M11 too many grants\n')
        last, bad = (put_files(room, name, [items])[1] for name, items in (('last', many[-1:]), ('bad', '[]')))
        expect('a binding takes the place of another', ['diff', '--before', most, '--without', put_files(room, 'first', [many[1:2]])[1], '--with', last], 0)
        for words, said in (([most, '--with', last], b'M11 too many grants'), ([more, '--without', last], b'M11 too many grants'),
                            ([more, '--with', bad], b'M11 too many grants'), ([most, '--with', last, bad], b'file 3: M2 not an object')):
            expect('more with a change: %s' % ' '.join(map(os.path.basename, words)), ['diff', '--before', *words], 2, err=b'rbacaudit: %s\n' % said)


def ring():
    """Two hundred aggregated roles, each of which selects the next one: each has the rule of the plain role that one of them selects."""
    def labelled(name, label, rules, **more):
        return {'apiVersion': V1, 'kind': 'ClusterRole', 'metadata': {'name': name, 'labels': {'to': label}}, 'rules': rules, **more}

    items = [labelled('plain', '0', [PODS])]
    for i in range(200):
        selects = {'clusterRoleSelectors': [{'matchLabels': {'to': str((i + 1) % 200)}}]}
        deletes = [{'verbs': ['delete'], 'apiGroups': [''], 'resources': ['pods']}]
        items.append(labelled('r%03d' % i, str(i), deletes, aggregationRule=selects))
        bound = binding('ClusterRoleBinding', 'b%03d' % i, 'ClusterRole', 'r%03d' % i)
        items.append({**bound, 'subjects': [{'kind': 'User', 'name': 'u%03d' % i}]})
    holders = ''.join('u:u%03d\tClusterRoleBinding/b%03d\n' % (i, i) for i in range(200))
    expect('two hundred roles in a ring', ['who-can', '-A', 'get', 'pods'], 0, holders.encode(), given=export(*items))
    expect('their written rules', ['who-can', '-A', 'delete', 'pods'], 0, given=export(*items))


def long_paths():
    """A chain of three hundred accounts, each of which runs pods where the next one is; and two thousand accounts that all run pods everywhere,
    of which alice gets the token of one."""
    def subject(number):
        return {'kind': 'ServiceAccount', 'namespace': 'n%03d' % number, 'name': 'x'}

    def key(home, name):
        return 'u:system:serviceaccount:%s:%s' % (home, name)

    runs = cluster_role('r', [{'verbs': ['create'], 'apiGroups': [''], 'resources': ['pods']}])
    items = [{**binding('RoleBinding', 'b', 'ClusterRole', 'r', 'n%03d' % (i + 1)), 'subjects': [subject(i)]} for i in range(300)]
    chain = ''.join('%d\t%s\t-\t%s\t-\trun\tRoleBinding/n%03d/b\tClusterRole/r\tClusterRole/r\t1\t1\n'
                    % (i, key('n%03d' % i, 'x'), key('n%03d' % (i - 1), 'x'), i) for i in range(1, 300))
    expect('a chain of three hundred accounts', ['paths', key('n000', 'x')], 0, chain.encode(), given=export(runs, *items))
    sees = [role('z', 's', [PODS]), {**binding('RoleBinding', 'b', 'Role', 's', 'z'), 'subjects': [subject(299)]}]
    chain = '0\t%s\t-\t-\t-\t-\tRoleBinding/z/b\tRole/z/s\tRole/z/s\t1\t1\n' % key('n299', 'x')
    chain += ''.join('%d\t%s\t-\t%s\t-\trun\tRoleBinding/n%03d/b\tClusterRole/r\tClusterRole/r\t1\t1\n'
                     % (299 - i, key('n%03d' % i, 'x'), key('n%03d' % (i + 1), 'x'), i + 1) for i in reversed(range(299)))
    expect('the same backwards', ['who-can', '--indirect', '-n', 'z', 'get', 'pods'], 0, chain.encode(), given=export(runs, *items, *sees))

    names = ['a%04d' % i for i in range(2000)]
    accounts = [{'apiVersion': 'v1', 'kind': 'ServiceAccount', 'metadata': {'namespace': 'dev', 'name': name}} for name in names]
    token = cluster_role('t', [{'verbs': ['create'], 'apiGroups': [''], 'resources': ['serviceaccounts/token'], 'resourceNames': ['a0007']}])
    all_run = {**binding('ClusterRoleBinding', 'c', 'ClusterRole', 'r'), 'subjects': [{'kind': 'Group', 'name': 'system:serviceaccounts'}]}
    lines = ['1\t%s\t-\tu:alice\t-\ttoken\tClusterRoleBinding/b\tClusterRole/t\tClusterRole/t\t1\t1\n' % key('dev', 'a0007')]
    lines += ['2\t%s\t-\t%s\t-\trun\tClusterRoleBinding/c\tClusterRole/r\tClusterRole/r\t1\t1\n' % (key('dev', name), key('dev', 'a0007'))
              for name in names if name != 'a0007']
    items = [runs, token, all_run, binding('ClusterRoleBinding', 'b', 'ClusterRole', 't'), *accounts]
    expect('two thousand accounts that take over each other', ['paths', 'u:alice'], 0, ''.join(lines).encode(), given=export(*items))
    sees = [role('z', 's', [PODS]), {**binding('RoleBinding', 'b', 'Role', 's', 'z'), 'subjects': [{'kind': 'ServiceAccount', 'namespace': 'dev', 'name': 'a0007'}]}]
    by_run = '1\t%s\t-\t' + key('dev', 'a0007') + '\t-\trun\tClusterRoleBinding/c\tClusterRole/r\tClusterRole/r\t1\t1\n'
    lines = ['0\t%s\t-\t-\t-\t-\tRoleBinding/z/b\tRole/z/s\tRole/z/s\t1\t1\n' % key('dev', 'a0007'), by_run % 'g:system:serviceaccounts',
             '1\tu:alice\t-\t%s\t-\ttoken\tClusterRoleBinding/b\tClusterRole/t\tClusterRole/t\t1\t1\n' % key('dev', 'a0007')]
    lines += [by_run % key('dev', name) for name in names if name != 'a0007']
    expect('whoever comes to what one of them may do', ['who-can', '--indirect', '-n', 'z', 'get', 'pods'], 0, ''.join(lines).encode(), given=export(*items, *sees))


if __name__ == '__main__':
    sys.exit(tested(streams, help_and_usage, full_disk, little_memory, rows, matrix_streams, universe_streams, rules_streams, lint_streams, unused_streams,
                    powers_streams, paths_streams, ways_streams, limits, universe_limits, wide_rules, ring, long_paths, transcripts,
                    links_and_heads, spaced_bindings, loop_of_pages, example_cluster))
