"""Exports of the kubectl plugin: what is read, kept and reported, and what an early end leaves."""

import contextlib
import fcntl
import fnmatch
import json
import os
import pty
import re
import resource
import shutil
import signal
import subprocess
import sys
import textwrap
import time

from common import TOP
from plugin_groups import openshift
from plugin_room import (CAUTION, CI, METRICS, PLUGIN, RBAC, READ, REFUSAL, STAND_IN, UNLISTED, WHOLE, api_groups,
                         document, in_each_shell, served)


@in_each_shell
def whole_export(it):
    """All files, as they were served; in folders with odd names; by the context and kubeconfig that are named."""
    for folder in ('prod', 'a folder/with  spaces', './-x', "it's $HOME", 'x y*[z]\\q', 'two\nlines', 'region=eu'):
        told_as = './' * ('=' in folder) + folder
        it.expect('export to "%s"' % folder, ['export', folder], 0, 'The export in %s is whole: 8 files.\n' % told_as)
        it.checked('its files', it.files(folder) == WHOLE, it.files(folder))
    for name, value in served().items():
        if name + '.json' in READ:
            it.checked('%s is as it was served' % name, document(it.read('prod', name + '.json')) == value, it.read('prod', name + '.json'))
    it.checked('no target is named', not it.lines('targets'), 'a target')
    for target in (['--context', 'a b', '--kubeconfig=k=1', '--request-timeout', '9s', '--as', 'x',
                    '--as-group=g h', '--as-group', 'i'],
                   ['--as-group', 'g h', '--as-group=i', '--as=x', '--request-timeout=9s',
                    '--context=a b', '--kubeconfig', 'k=1']):
        it.run('export', '--force', *target, 'prod')
        targets = it.lines('targets')
        it.checked('%s reaches kubectl' % target,
                   targets == ['|--context=a b|--kubeconfig=k=1|--as=x|--request-timeout=9s'
                               '|--as-group=g h|--as-group=i'] * 11, targets)
    alike = api_groups()
    alike['groups'] += [{'versions': [{'groupVersion': 'apps/v1-v2'}]}, {'versions': [{'groupVersion': 'apps-v1/v2'}]}]
    it.serve({'apis': alike, 'api-apps-v1-v2': METRICS}, indent=2)
    it.expect('an index with blanks, and versions of one name', ['export', 'spaced'], 0, 'The export in spaced is whole: 10 files.\n')
    it.checked('each has a file', it.files('spaced') == sorted([*WHOLE, 'api-apps-v1-v2.json', 'api-apps-v1-v2_.json']), it.files('spaced'))


@in_each_shell
def about(it):
    """An export says where it is from and when, and gives away no password."""
    it.run('export', 'prod')
    wanted = ('context: far away\nserver: https://10.0.0.1:6443\nversion: v1.32.4\n'
              'namespace: %s\n%stime: ')
    time_ = r'\d{4}-\d\d-\d\dT\d\d:\d\d:\d\dZ\n'

    def files(of_all, of_one):
        return ''.join('file: %s: kubectl get %s\n' % line for line in (
            ('cluster.json', 'clusterroles.{0},clusterrolebindings.{0} -o json'.format(RBAC)),
            ('namespaced.json', 'roles.{0},rolebindings.{0} {1} -o json'.format(RBAC, of_all)),
            ('namespaces.json', 'namespaces%s -o json' % of_one), ('accounts.json', 'serviceaccounts %s -o json' % of_all),
            ('api-v1.json', '--raw /api/v1'), ('api-apps-v1.json', '--raw /apis/apps/v1'),
            ('api-%s-v1.json' % RBAC, '--raw /apis/%s/v1' % RBAC),
            ('api-metrics.k8s.io-v1beta1.json', '--raw /apis/metrics.k8s.io/v1beta1')))

    for namespace, words_, told_, trouble in (
            ('', [], wanted % ('default', ''), []), ('dev', [], wanted % ('dev', ''), []),
            ('dev', ['-n', 'shop'], wanted % ('shop', 'only: shop\n'), []),
            ('dev', [], wanted.replace('v1.32.4', '') % ('dev', ''), ['forbid version'])):
        it.at_context(namespace)
        status, _, err = got = it.run('export', '--force', 'prod', *words_, trouble=trouble)
        said = it.read('prod', 'about.txt')
        listed = files('-n shop', ' shop') if words_ else files('--all-namespaces', '')
        it.checked('about an export: %s %s %s' % (namespace, words_, trouble),
                   (status, err) == (0, '') and re.fullmatch(re.escape(told_) + time_ + re.escape(listed), said),
                   (got, said))
    it.run('export', '--force', 'prod', trouble=['forbid accounts', 'down api-apps-v1'])
    listed = [line for line in files('--all-namespaces', '').splitlines(True) if 'accounts' not in line and '/apps/' not in line]
    it.checked('about an export that lacks files', it.read('prod', 'about.txt').endswith('Z\n' + ''.join(listed)),
               it.read('prod', 'about.txt'))
    it.write('', it.at('context'))
    it.run('export', '--force', 'prod')
    said = it.read('prod', 'about.txt')
    it.checked('about an export without a context',
               said.startswith('context: \nserver: \nversion: v1.32.4\nnamespace: default\ntime: '),
               said)


@in_each_shell
def one_namespace(it):
    """export -n reads the roles, bindings and accounts of one namespace."""
    for number, option in enumerate((['-n', 'shop'], ['-nshop'], ['-n=shop'],
                                     ['--namespace', 'shop'], ['--namespace=shop'])):
        it.lines('calls')
        it.expect('export %s' % option, ['export', *option, 'own%d' % number], 0,
                  'The export in own%d is whole for the namespace shop: 8 files.\n' % number)
        calls = it.lines('calls')
        it.checked('it asks about no other namespace',
                   not any('all-namespaces' in call for call in calls) and len(calls) == 10, calls)
    for name in ('namespaced', 'namespaces', 'accounts'):
        it.checked('its %s' % name,
                   document(it.read('own0', name + '.json')) == served()[name + '-shop'],
                   it.read('own0', name + '.json'))
    it.expect('a question to it', ['can-i', '--export', 'own0', *CI, 'update', 'deployments.apps'],
              0, 'yes\n')
    status, out, err = got = it.run('export', '-n', 'shop', 'part',
                                    trouble=['forbid cluster', 'forbid namespaces-shop'])
    it.checked('without cluster roles', (status, out) == (1, '')
               and it.read('part', 'incomplete.txt').count('\n') == 2, got)
    for words_, said in ((['-n', ''], '-n needs a value'),
                         (['-n', 'a', '-nb'], '-n is given twice'),
                         (['--namespace'], '--namespace needs'),
                         (['--as', 'a', '--as=b'], '--as is given twice'),
                         (['--as-group='], '--as-group needs a value'),
                         (['--request-timeout', '1s', '--request-timeout=2s'],
                          '--request-timeout is given twice')):
        status, out, err = got = it.run('export', 'none', *words_)
        it.checked('refused: %s' % words_, (status, out) == (2, '')
                   and err.startswith('kubectl-rbacaudit: ' + said), got)


@in_each_shell
def side_by_side(it):
    """The calls go on side by side, at most eight; the first is made alone, and may ask who signs in."""
    many = api_groups()
    many['groups'] += [{'versions': [{'groupVersion': 'metrics%02d/v1' % number}
                                     for number in range(20)]}]
    it.serve({'apis': many, **{'api-metrics%02d-v1' % number: METRICS for number in range(20)}})
    for words_, least, most in ((['export', 'prod'], 3, 8), (['lint'], 1, 1)):
        it.run(*words_, trouble=['slow'])
        course, going = it.lines('course'), [0]
        for step in course:
            going.append(going[-1] + (1 if step == 'begun' else -1))
        it.checked('%s: the first call is made alone' % words_[0], course[:2] == ['begun', 'ended'],
                   course)
        it.checked('%s: side by side' % words_[0], least <= max(going) <= most and going[-1] == 0,
                   going)
    with open(os.path.join(it.bin, 'kubectl'), 'w', encoding='utf-8') as file:
        file.write('#!/bin/sh\nread -r word && echo "$word" >> "$ROOM/heard"; echo "sign in" >&2\n'
                   + STAND_IN)
    for words_ in (['export', 'new'], ['lint']):
        it.run(*words_, stdin=None, input=b'me\nagain\n')
        heard = it.lines('heard')
        it.checked('%s: the first call alone may ask' % words_[0], heard == ['me'], heard)


def on_terminal(it, *words_, trouble=()):
    """What a run writes to its standard error, which is a terminal."""
    ours, theirs = pty.openpty()
    process = subprocess.Popen([it.shell, PLUGIN, *words_], cwd=it.work,
                               env=it.environment(trouble), stdin=subprocess.DEVNULL,
                               stdout=subprocess.PIPE, stderr=theirs)
    os.close(theirs)
    said = b''
    with contextlib.suppress(OSError):
        while chunk := os.read(ours, 4096):
            said += chunk
    os.close(ours)
    process.communicate(timeout=60)
    return said.decode()


@in_each_shell
def progress(it):
    """On a terminal a line says how far it is, and is gone before anything else is said."""
    erased = '\r%60s\r' % ''
    counts = ['\rkubectl-rbacaudit: reading the cluster, %d of 9' % number for number in range(1, 10)]
    said = on_terminal(it, 'export', 'prod')
    it.checked('an export', said == ''.join(counts) + erased, said)
    said = on_terminal(it, 'export', 'part', trouble=['down api-apps-v1'])
    before, _, after = said.partition(erased)
    it.checked('a part is missing',
               before == ''.join(counts[:counts.index(before[before.rindex('\r'):]) + 1])
               and after.startswith('Warning: old\r\n') and after.count(erased) == 1, said)
    it.checked('it says so',
               after.endswith(erased + 'kubectl-rbacaudit: a part of the export is missing; '
                              'part/incomplete.txt repeats it\r\n'), said)
    it.checked('an export in a folder has none', on_terminal(it, 'lint', '--export', 'prod') == '',
               'text')


# The calls that need a permission: what is listed or got.
LISTED = re.compile(r'\|get\|([a-z.,0-9]+)\|')


@in_each_shell
def exporter(it):
    """The ClusterRole of export --help is docs/EXPORT.md's, and has just what the calls ask for, on OpenShift
    too; README.md has it in a sentence."""
    role = textwrap.dedent(re.search(r'^  apiVersion: .*?\n\n', it.run('export', '--help')[1],
                                     re.S | re.M)[0]).strip()
    with open(os.path.join(TOP, 'docs', 'EXPORT.md'), encoding='utf-8') as file:
        it.checked('it is in EXPORT.md', textwrap.indent(role, '    ') in file.read(), role)
    openshift(it)
    it.run('export', 'prod')
    calls = it.lines('calls')
    names = {name for call in calls for listed in LISTED.findall(call)
             for name in listed.split(',')}
    paths = {call.rpartition('|')[2] for call in calls if '|--raw|' in call}
    groups, lists, verbs = ([tuple(found.split(', '))
                             for found in re.findall(r'%s: \[(.*)\]' % field, role)]
                            for field in ('apiGroups', 'resources', 'verbs'))
    given = {name + '.' * (group != '""') + group.strip('"') for (group,),
             listed in zip(groups, lists) for name in listed}
    it.checked('it lists what the calls list', given == names
               and verbs == [('list',), ('list',), ('list',), ('get',)], (given, names))
    urls = re.search(r'nonResourceURLs: \[(.*)\]', role)[1].split(', ')
    with open(os.path.join(TOP, 'README.md'), encoding='utf-8') as file:
        said = re.search(r'An export needs `list` on (.*?);', file.read(), re.S)[1]
    it.checked('README says what is listed', re.findall('`(.*?)`', said) ==
               [name for listed in lists for name in listed], said)
    it.checked('it gets what they get', all(any(fnmatch.fnmatchcase(path, url) for url in urls)
                                            for path in paths), (urls, paths))


@in_each_shell
def export_faults(it):
    """What can't be read is reported and noted; the other files are whole."""
    for number, (trouble, missing, said, why) in enumerate([
            ('forbid accounts', 'accounts.json',
             'Error from server (Forbidden): accounts is? forbidden\\nsorry\n',
             'ended with status 1'),
            ('half-forbid cluster', 'cluster.json', 'Error from server (Forbidden): half of cluster\n', 'ended with status 1'),
            ('down api-metrics.k8s.io-v1beta1', 'api-metrics.k8s.io-v1beta1.json',
             'Warning: old\nError from server (ServiceUnavailable): try later\n',
             'ended with status 1'),
            ('die namespaced', 'namespaced.json', None, 'ended with status 137'),
            ('empty api-apps-v1', 'api-apps-v1.json', '', 'printed nothing')]):
        folder = 'faulty%d' % number
        status, out, err = got = it.run('export', folder, trouble=[trouble])
        it.checked('%s: status 1' % trouble, (status, out) == (1, ''), got)
        line = next((line for line in err.splitlines() if line.startswith("kubectl-rbacaudit: %s can't be read: " % missing)), '')
        it.checked('%s is reported' % trouble, line.endswith(why) and (said is None or err.startswith(said)), err)
        it.checked('%s: the other files are there' % trouble,
                it.files(folder) == sorted({*WHOLE, 'incomplete.txt'} - {missing}), it.files(folder))
        noted = it.read(folder, 'incomplete.txt')
        reason = ' '.join(line for line in (said or '').splitlines()
                          if not line.startswith('Warning')).replace('\\n', ' ')
        it.checked('%s is noted, with its reason' % trouble,
                   noted.startswith(missing + ': kubectl get ')
                   and noted.endswith('%s%s\n' % (why, reason and ': ' + reason)), noted)
    both = ['forbid accounts', 'down api-v1']
    it.run('export', 'two', trouble=both)
    it.checked('two faults are noted', it.read('two', 'incomplete.txt').count('\n') == 2, it.read('two', 'incomplete.txt'))
    # (its log, of the other groups, isn't shown)
    it.expect("kubectl's warnings", ['export', 'warned'], 0, 'The export in warned is whole: 8 files.\n',
              'Warning: cluster is old\nWarning: api-v1 is old\n', trouble=['warn cluster', 'warn api-v1'])


@in_each_shell
def no_export(it):
    """Where nothing can be read or written, there is no export and no folder."""
    nothing = ['forbid ' + name for name in served() if name not in ('apis', 'version')]
    for name, trouble, said in (('no group list', ['down apis'], 'kubectl get --raw /apis ended with status 1; so nothing is read'),
                                ('an empty group list', ['empty apis'], 'kubectl get --raw /apis printed none; so nothing is read'),
                                ('nothing may be read', nothing, 'nothing could be read')):
        status, out, err = got = it.run('export', 'none', trouble=trouble)
        it.checked(name, (status, out) == (2, '') and err.endswith(said + '\n'), got)
        it.checked('%s: no folder' % name, not os.path.exists(os.path.join(it.work, 'none')), 'a folder')
    it.write('', 'file')
    for folder in ('file', 'file/below'):
        calls = it.lines('calls')
        status, out, err = got = it.run('export', folder)
        it.checked('a folder that can\'t be made: %s' % folder,
                (status, out) == (2, '') and err.endswith("kubectl-rbacaudit: can't make the folder %s\n" % folder), got)
        calls = it.lines('calls')
        it.checked('kubectl isn\'t asked for it', not calls, calls)
    for words, said in ((['export'], 'export needs a folder'), (['export', ''], 'the name of the folder is empty'),
                        (['export', 'a', 'b'], 'export writes one folder'), (['export', '--partial', 'a'], 'export has no --partial'),
                        (['export', 'a', '--context'], '--context needs a value'), (['export', '--context=', 'a'], '--context needs a value'),
                        (['export', '--kubeconfig', '--force', 'a'], '--kubeconfig needs a value')):
        status, out, err = got = it.run(*words)
        it.checked('refused: %s' % ' '.join(words), (status, out) == (2, '') and err.startswith('kubectl-rbacaudit: ' + said), got)
    it.checked('nothing was read for a refused line', not it.lines('calls'), 'a call')


def nobody():
    """What a process needs to be a user whom permissions bind: root is made nobody."""
    return {'user': 65534, 'group': 65534, 'extra_groups': []} if os.getuid() == 0 else {}


@in_each_shell
def closed_folder(it):
    """A folder that may be read but not written, and a file that can't grow: reported, and nothing half."""
    os.chmod(it.path, 0o755)
    for path, folders, names in os.walk(it.path):
        for name in folders:
            os.chmod(os.path.join(path, name), 0o777)
    shutil.copytree(os.path.dirname(PLUGIN), it.at('plugin'))
    os.mkdir(os.path.join(it.work, 'closed'), 0o555)
    ended = subprocess.run([it.shell, it.at('plugin/kubectl-rbacaudit'), 'export',
                            os.path.join(it.work, 'closed')], cwd=it.work,
                           stdin=subprocess.DEVNULL, env=it.environment(), stdout=subprocess.PIPE,
                           stderr=subprocess.PIPE, timeout=60,
                           **nobody())
    it.checked('a folder that may not be written', ended.returncode == 2 and not ended.stdout and
            ended.stderr.endswith(b"can't make a temporary folder in %s\n" % os.path.join(it.work, 'closed').encode()), ended)
    it.checked('it stays empty', not it.files('closed'), it.files('closed'))

    def small():
        resource.setrlimit(resource.RLIMIT_FSIZE, (1024, 1024))

    status, out, err = got = it.run('export', 'small', preexec_fn=small)
    it.checked('files that can\'t grow', (status, out) == (1, '') and "cluster.json can't be read" in err, got)
    it.checked('they are absent', 'cluster.json' not in it.files('small') and 'accounts.json' in it.files('small'), it.files('small'))
    it.checked('and no file is cut', all(len(it.read('small', name)) < 1024
                                         and (name.endswith('.txt')
                                              or document(it.read('small', name)))
                                     for name in it.files('small')), it.files('small'))


@in_each_shell
def old_exports(it):
    """An export is replaced only with --force, and then wholly; other files stay."""
    it.run('export', 'prod')
    it.write('mine', 'prod', 'universe.json')
    it.write('old', 'prod', 'cluster.json')
    it.write('old', 'prod', 'api-gone-v1.json')
    it.lines('calls')
    it.expect('an old export', ['export', 'prod'], 2, '',
              'kubectl-rbacaudit: prod already holds an export (cluster.json); --force puts a new one in its place\n')
    it.checked('it stays', it.read('prod', 'cluster.json') == 'old' and not it.lines('calls'), it.read('prod', 'cluster.json'))
    for name in ('api-v1.json', 'incomplete.txt', 'accounts.json'):
        os.makedirs(os.path.join(it.work, 'only', name))
        status, _, err = got = it.run('export', 'only')
        it.checked('%s is an export' % name, status == 2 and '(%s)' % name in err, got)
        shutil.rmtree(os.path.join(it.work, 'only'))
    status, _, _ = got = it.run('export', '--force', 'prod', trouble=['down apis'])
    it.checked('--force and no answer: the old export stays', status == 2 and it.read('prod', 'cluster.json') == 'old', got)
    it.run('export', 'prod', '--force', trouble=['forbid accounts'])
    it.checked('--force: the files of the new export alone, and mine',
            it.files('prod') == sorted({*WHOLE, 'incomplete.txt', 'universe.json'} - {'accounts.json'}), it.files('prod'))
    it.checked('--force: they are new', document(it.read('prod', 'cluster.json')) == served()['cluster'], it.read('prod', 'cluster.json'))
    it.expect('--force: a whole one after it', ['export', '--force', 'prod'], 0, 'The export in prod is whole: 8 files.\n')
    it.checked('--force: nothing is noted any more', it.files('prod') == sorted([*WHOLE, 'universe.json']), it.files('prod'))
    it.checked('mine stays', it.read('prod', 'universe.json') == 'mine', it.read('prod', 'universe.json'))


# ---- interruptions

ENDING = (signal.SIGINT, signal.SIGQUIT, signal.SIGTERM, signal.SIGHUP)


def hear_signals():
    """A shell can't trap a signal that was ignored when it began, as SIGINT and SIGQUIT are in the background and SIGHUP under nohup."""
    for number in ENDING:
        signal.signal(number, signal.SIG_DFL)


def ended_by(it, number, words):
    """Status and seconds of a run that a signal ends while kubectl hangs; whether that kubectl is gone."""
    process = subprocess.Popen([it.shell, PLUGIN, *words], cwd=it.work, env=it.environment(['hang namespaced']), stdin=subprocess.DEVNULL,
                               stdout=subprocess.PIPE, stderr=subprocess.PIPE,
                               preexec_fn=hear_signals)
    until = time.monotonic() + 60
    while not it.read(it.at('hangs')) and time.monotonic() < until:
        time.sleep(0.02)
    before, began = it.left(), time.monotonic()
    process.send_signal(number)
    out = process.communicate(timeout=100)[0]
    kubectl = int(it.lines('hangs')[0])
    with contextlib.suppress(ProcessLookupError):
        os.kill(kubectl, 0)
        os.kill(kubectl, signal.SIGKILL)
        return process.returncode, out, time.monotonic() - began, before, False
    return process.returncode, out, time.monotonic() - began, before, True


@in_each_shell
def interruptions(it):
    """A signal ends a run at once, with its kubectl and its temporary folder; an old export stays whole."""
    it.run('export', 'old')
    for number in ENDING:
        for words_ in (['lint'], ['export', 'new'], ['export', '--force', 'old']):
            status, out, took, before, gone = got = ended_by(it, number, words_)
            name = '%s during %s' % (number.name, ' '.join(words_))
            it.checked(name, (status, out) == (128 + number, b'') and took < 30, got)
            it.checked(name + ': there was something to remove, and it is gone', before and not it.left(), (before, it.left()))
            it.checked(name + ': kubectl is gone', gone, got)
            it.checked(name + ': no half export', not os.path.exists(os.path.join(it.work, 'new')) and it.files('old') == WHOLE, it.files('.'))


# Runs the plugin in this process, which dies when it puts the first file in its place.
KILLED = r'''
import os, runpy, signal, sys
put = os.replace
def replace(path, place):
    if os.path.dirname(place) == 'prod' and place.endswith('.json'):
        os.kill(os.getpid(), signal.SIGKILL)
    put(path, place)
os.replace = replace
sys.argv = sys.argv[2:]
runpy.run_path(sys.argv[0], run_name='__main__')
'''


@in_each_shell
def publishing(it):
    """An export that is cut off while its files are put in place says so, and doesn't answer."""
    it.run('export', 'prod')
    status, _, _ = got = it.run('export', '--force', 'prod', within=[sys.executable, '-c', KILLED])
    it.checked('it is killed', status == -signal.SIGKILL, got)
    for name in os.listdir(os.path.join(it.work, 'prod')):
        if name.startswith('.rbacaudit'):
            shutil.rmtree(os.path.join(it.work, 'prod', name))
    it.checked('the old files are gone, and it is noted', it.files('prod') == ['incomplete.txt'], it.files('prod'))
    status, out, err = got = it.run('lint', '--export', 'prod', '--partial')
    it.checked('it says so', (status, out) == (2, '') and 'it was interrupted while its files were put in place' in err, got)


LOCKED = ('kubectl-rbacaudit: another export into prod goes on; if none does, one was killed: '
          'remove prod/.rbacaudit-lock, and try again\n')


@in_each_shell
def two_at_a_time(it):
    """While an export goes on, another into its folder is refused; a lock that was left keeps exports out, and no question."""
    it.run('export', 'prod')
    for number in (signal.SIGTERM, signal.SIGKILL):
        it.lines('calls')
        process = subprocess.Popen([it.shell, PLUGIN, 'export', '--force', 'prod'], cwd=it.work,
                                   env=it.environment(['hang namespaced']), stdin=subprocess.DEVNULL, stdout=subprocess.PIPE, stderr=subprocess.PIPE)
        until = time.monotonic() + 60
        while not it.read(it.at('hangs')) and time.monotonic() < until:
            time.sleep(0.02)
        it.expect('while another goes on', ['export', '--force', 'prod'], 2, '', LOCKED)
        calls = it.lines('calls')
        it.checked('nothing is read for it', calls.count('|get|--raw|/apis') == 1, calls)
        it.expect('another folder', ['export', '--force', 'other'], 0, 'The export in other is whole: 8 files.\n')
        it.checked('the first still has its lock', os.path.isdir(os.path.join(it.work, 'prod', '.rbacaudit-lock')), it.files('prod'))
        process.send_signal(number)
        process.communicate(timeout=60)
        with contextlib.suppress(ProcessLookupError):
            os.kill(int(it.lines('hangs')[0]), signal.SIGKILL)
        if number == signal.SIGTERM:
            it.expect('once it has ended', ['export', '--force', 'prod'], 0, 'The export in prod is whole: 8 files.\n')
    it.expect('once it was killed', ['export', '--force', 'prod'], 2, '', LOCKED)
    it.expect('a question', ['can-i', '--export', 'prod', *CI, 'update', 'deployments.apps'], 0, 'yes\n')
    os.rmdir(os.path.join(it.work, 'prod', '.rbacaudit-lock'))
    it.expect('without the lock', ['export', '--force', 'prod'], 0, 'The export in prod is whole: 8 files.\n')
    for name in it.files('prod'):
        if name.startswith('.rbacaudit.'):
            shutil.rmtree(os.path.join(it.work, 'prod', name))
    it.write('', 'prod', '.rbacaudit-lock')
    it.expect('a file in the place of the lock', ['export', '--force', 'prod'], 2, '', LOCKED)
    os.remove(os.path.join(it.work, 'prod', '.rbacaudit-lock'))


GONE = 'kubectl-rbacaudit: there is no api-apps-v1.json in %s, and about.txt lists it\n'


@in_each_shell
def files_gone(it):
    """A file that an export lists and no longer has is a gap; an export without a list is taken as it is."""
    update = ['can-i', *CI, 'update', 'deployments.apps']
    for folder, words_ in (('prod', []), ('own', ['-n', 'shop'])):
        it.run('export', *words_, folder)
        os.remove(os.path.join(it.work, folder, 'api-apps-v1.json'))
        it.expect('a list is gone', [*update, '--export', folder], 2, '', GONE % folder + REFUSAL)
        it.expect('a list is gone, --partial', [*update, '--export', folder, '--partial'], 0, 'yes\n',
                  GONE % folder + CAUTION + UNLISTED % 'type deployments.apps')
        it.expect('a type that it may have', ['can-i', *CI, 'list', 'deploy', '--export', folder], 2, '', GONE % folder + REFUSAL)
        it.expect('a type that it can\'t have', ['can-i', *CI, 'list', 'pods', '--export', folder], 1, 'no\n')
        it.expect('a URL', ['can-i', *CI[:2], 'get', '/metrics', '--export', folder], 1, 'no\n')
        status, out, err = got = it.run('universe', '--export', folder)
        it.checked('a universe', (status, out) == (2, '') and err.startswith(GONE % folder) and err.endswith(REFUSAL), got)
        it.checked('lint reads none', 'about.txt' not in it.run('lint', '--export', folder)[2], 'a gap')
        os.remove(os.path.join(it.work, folder, 'accounts.json'))
        alone = words_ and 'kubectl-rbacaudit: the export has the namespace shop alone, and this answer knows no other\n'
        it.expect('a matrix', ['matrix', '--export', folder], 2, '',
                  'kubectl-rbacaudit: there is no accounts.json in %s\n' % folder + GONE % folder + (alone or '') + REFUSAL)
        lines = it.read(folder, 'about.txt').splitlines(True)
        it.write(''.join(line for line in lines if not line.startswith('file: ')), folder, 'about.txt')
        it.expect('no list of files', [*update, '--export', folder], 0, 'yes\n', UNLISTED % 'type deployments.apps')


@in_each_shell
def owned(it):
    """An export is for its owner alone, and so is the folder that it makes; a folder that was there stays as it was."""
    os.mkdir(os.path.join(it.work, 'mine'), 0o755)
    for folder, wanted in (('prod', 0o700), ('mine', 0o755)):
        it.run('export', folder)
        modes = {name: os.stat(os.path.join(it.work, folder, name)).st_mode & 0o777 for name in it.files(folder)}
        it.checked('%s: its files' % folder, set(modes.values()) == {0o600}, modes)
        it.checked('%s: the folder' % folder, os.stat(os.path.join(it.work, folder)).st_mode & 0o777 == wanted, folder)


@in_each_shell
def long_names(it):
    """The file of an API version whose name no folder takes has a shorter one, and about.txt says so."""
    groups, long = api_groups(), ['%s.%s/v1' % ('g' * 246, end) for end in 'ab']
    groups['groups'] += [{'versions': [{'groupVersion': version}]} for version in long]
    it.serve({'apis': groups})
    with open(os.path.join(it.bin, 'kubectl'), 'r+', encoding='utf-8') as file:
        script = file.read().replace('    "|get|--raw|/apis/"*)', '    "|get|--raw|/apis/ggg"*) file=api-metrics.k8s.io-v1beta1 ;;\n    "|get|--raw|/apis/"*)')
        file.seek(0)
        file.write(script)
    it.expect('an export', ['export', 'prod'], 0, 'The export in prod is whole: 10 files.\n')
    names = sorted(set(it.files('prod')) - set(WHOLE))
    said = it.read('prod', 'about.txt')
    it.checked('its files', len(names) == 2 and all(len(name) < 256 for name in names), names)
    it.checked('about.txt says so', all(any('shortened: %s has the API version %s\n' % (name, version) in said for name in names) for version in long), said)
    it.expect('a question', ['can-i', '--export', 'prod', *CI, 'update', 'deployments.apps'], 0, 'yes\n')


CUT = "kubectl-rbacaudit: namespaced.json in prod isn't whole: its metadata.continue says that the list goes on\n"


@in_each_shell
def cut_lists(it):
    """A list that goes on elsewhere isn't whole: neither where it is read, nor in a folder."""
    it.run('export', 'prod')
    half = {**served()['namespaced'], 'metadata': {'continue': 'abc'}}
    it.serve({'namespaced': half})
    status, out, err = got = it.run('export', 'half')
    it.checked('an export', (status, out) == (1, '') and "namespaced.json can't be read: " in err and "printed a part of its list, which isn't whole\n" in err
               and 'namespaced.json' not in it.files('half'), got)
    it.write(json.dumps(half), 'prod', 'namespaced.json')
    it.expect('a question to a part', ['lint', '--export', 'prod'], 2, '', CUT + REFUSAL)
    status, out, err = got = it.run('lint', '--export', 'prod', '--partial')
    it.checked('--partial', status == 1 and out and err == CUT + CAUTION, got)


@in_each_shell
def full_disk(it):
    """An export whose last word can't be written ends with 2, and says why."""
    with open('/dev/full', 'wb') as full:
        ended = subprocess.run([it.shell, PLUGIN, 'export', 'prod'], cwd=it.work, env=it.environment(), stdin=subprocess.DEVNULL, stdout=full,
                               stderr=subprocess.PIPE, timeout=60)
    it.checked('a full disk', (ended.returncode, ended.stderr) == (
        2, b"kubectl-rbacaudit: can't write to standard output: No space left on device\n"), ended)
    it.checked('the export is whole', it.files('prod') == WHOLE, it.files('prod'))


@in_each_shell
def closed_files(it):
    """With standard files closed, no file of the run takes their places."""
    it.run('export', 'prod')
    for numbers, status in (((0,), 1), ((0, 1, 2), 2), ((1,), 2), ((2,), 1)):
        got = it.run('lint', '--export', 'prod', preexec_fn=lambda numbers=numbers: [os.close(number) for number in numbers])
        it.checked('closed: %s' % (numbers,), got[0] == status, got)
        status = it.run('export', '--force', 'new', preexec_fn=lambda numbers=numbers: [os.close(number) for number in numbers])[0]
        it.checked('an export, closed: %s' % (numbers,), status == (2 if 1 in numbers else 0) and it.files('new') == WHOLE, (status, it.files('new')))


@in_each_shell
def killed(it):
    """What an export that was killed has left is removed by the next one, but not what one that goes on has."""
    it.run('export', 'prod')
    for name in ('.rbacaudit.dead', '.rbacaudit.alive', '.rbacaudit.old'):
        os.mkdir(os.path.join(it.work, 'prod', name))
    it.write('half', 'prod', '.rbacaudit.old', 'got.1')
    for name in ('.rbacaudit.dead', '.rbacaudit.alive'):
        it.write('', 'prod', name, 'alive')
    with open(os.path.join(it.work, 'prod', '.rbacaudit.alive', 'alive'), 'rb') as alive:
        fcntl.flock(alive, fcntl.LOCK_EX)
        it.expect('the next export', ['export', '--force', 'prod'], 0, 'The export in prod is whole: 8 files.\n')
    it.checked('what it leaves', it.files('prod') == sorted([*WHOLE, '.rbacaudit.alive']), it.files('prod'))
    shutil.rmtree(os.path.join(it.work, 'prod', '.rbacaudit.alive'))


CHECKS = [owned, long_names, cut_lists, full_disk, closed_files, killed, whole_export, about, two_at_a_time, files_gone, one_namespace, side_by_side, progress, exporter, export_faults,
          no_export, closed_folder, old_exports, interruptions, publishing]
