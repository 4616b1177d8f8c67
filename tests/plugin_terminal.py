"""The kubectl plugin on a terminal: what could act on it, or hide there, is escaped; statuses and signals are as ever."""

import contextlib
import fcntl
import itertools
import json
import os
import pty
import shutil
import signal
import struct
import subprocess
import termios
import time

from common import V1, skipped
from plugin_exports import hear_signals
from plugin_room import PLUGIN, document, in_each_shell, of_kinds, served

# ---- answers

def on_terminal(it, *words, columns=0, more=(), plugin=PLUGIN):
    """Status, what a terminal gets as standard output, and standard error. A terminal of 0 columns doesn't know how many it has."""
    ours, theirs = pty.openpty()
    fcntl.ioctl(theirs, termios.TIOCSWINSZ, struct.pack('HHHH', 50, columns, 0, 0))
    mine = {name: value for name, value in it.environment().items() if name not in ('COLUMNS', 'NO_COLOR')}
    process = subprocess.Popen([it.shell, plugin, *words], cwd=it.work, env={**mine, 'TERM': 'dumb', **dict(more)}, stdin=subprocess.DEVNULL,
                               stdout=theirs, stderr=subprocess.PIPE)
    os.close(theirs)
    out = b''
    with contextlib.suppress(OSError):
        while chunk := os.read(ours, 4096):
            out += chunk
    os.close(ours)
    err = process.communicate(timeout=60)[1]
    return process.returncode, out.decode().replace('\r\n', '\n'), err.decode()


# Names that act on a terminal, and how they are shown: one begins to erase the line, one turns round, one is no longer than it looks.
USER, BINDING, TYPE = 'kim\u202emoc', 'b\u009b2K\u009b1G', 'w\u200bidgets\U000e0041'
SEEN_USER, SEEN_BINDING, SEEN_TYPE = 'kim\\xe2\\x80\\xaemoc', 'b\\xc2\\x9b2K\\xc2\\x9b1G', 'w\\xe2\\x80\\x8bidgets\\xf3\\xa0\\x81\\x81'
ROLE = 'r\u00e9\u2028'
SEEN_ROLE = 'r\u00e9\\xe2\\x80\\xa8'


def hostile():
    """A user of an odd name who may delete an odd type, by a binding of an odd name."""
    return of_kinds([
        {'apiVersion': V1, 'kind': 'ClusterRole', 'metadata': {'name': ROLE}, 'rules': [
            {'verbs': ['delete'], 'apiGroups': [''], 'resources': [TYPE]}, {'verbs': ['bind'], 'apiGroups': ['*'], 'resources': ['clusterroles']}]},
        {'apiVersion': V1, 'kind': 'ClusterRoleBinding', 'metadata': {'name': BINDING},
         'roleRef': {'kind': 'ClusterRole', 'name': ROLE}, 'subjects': [{'kind': 'User', 'name': USER}]}],
        'ClusterRole', 'ClusterRoleBinding')


WHY = '\tClusterRoleBinding/{0}\tClusterRole/{1}\tClusterRole/{1}\t1\t1\n'
RULES = ('ClusterRoleBinding/{0}\tClusterRole/{1}\tClusterRole/{1}\t1\t1\t[delete]\t[-]\t[{2}]\t[]\t[]\n'
         'ClusterRoleBinding/{0}\tClusterRole/{1}\tClusterRole/{1}\t2\t1\t[bind]\t[*]\t[clusterroles]\t[]\t[]\n')
GAINED = ('+\tu:{3}\t*\tdelete\t-\t{2}\t*\tClusterRoleBinding/{0}\n+\tu:{3}\t*\tbind\t*\tclusterroles\t*\tClusterRoleBinding/{0}\n')
ANSWERS = [
    (['can-i', '--as', USER, '-A', '--why', 'delete', TYPE], 0, 'yes\n' + WHY[1:]),
    (['can-i', '--as', USER, '-A', 'get', TYPE], 1, 'no\n'), (['can-i', '-q', '--as', USER, '-A', 'delete', TYPE], 0, ''),
    (['who-can', '-A', '--why', 'delete', TYPE], 0, 'u:{3}' + WHY), (['rules', 'u:' + USER], 0, RULES),
    (['matrix', 'u.json'], 0, 'u:{3}\t-\tdelete\t-\t{2}\t-\tClusterRoleBinding/{0}\nend\n'),
    (['lint'], 1, 'L4\tescalation\tClusterRole/{1}\t2\tbind\n'),
    (['powers'], 0, 'bind\tu:{3}\t*\tClusterRoleBinding/{0}\tClusterRole/{1}\tClusterRole/{1}\t2\t1\n'),
    (['paths', 'u:' + USER], 0, '1\t*\t*\tu:{3}\t-\tbind\tClusterRoleBinding/{0}\tClusterRole/{1}\tClusterRole/{1}\t2\t1\n'),
    (['who-can', '--indirect', '-A', 'delete', TYPE], 0, '0\t*\t*' + '\t-' * 8 + '\n0\tu:{3}' + '\t-' * 4 + WHY)]


@in_each_shell
def answers(it):
    """Each answer on a terminal and through a pipe, with its status."""
    it.serve({'cluster': hostile(), 'namespaced': of_kinds([])})
    it.run('export', 'prod')
    it.write(json.dumps({'apiVersion': 'rbacaudit/v1', 'kind': 'Universe', 'names': [''], 'verbs': ['delete'], 'namespaces': [''],
                         'resources': [{'resource': TYPE}]}), 'u.json')
    for line, status, out in ANSWERS:
        for place in ([], ['--export', 'prod']):
            got = on_terminal(it, *line, *place, '-o', 'tsv')
            wanted = status, out.format(SEEN_BINDING, SEEN_ROLE, SEEN_TYPE, SEEN_USER)
            it.checked('on a terminal: %s %s' % (line[0], place), got[:2] == wanted, got)
            got = it.run(*line, *place)
            wanted = status, out.format(BINDING, ROLE, TYPE, USER)
            it.checked('through a pipe: %s %s' % (line[0], place), got[:2] == wanted, got)
    it.serve({'cluster': of_kinds([])})
    it.run('export', 'none')
    line = ['diff', '--export', 'none', '--export', 'prod']
    for got, names in ((on_terminal(it, *line, '-otsv'), (SEEN_BINDING, SEEN_ROLE, SEEN_TYPE, SEEN_USER)), (it.run(*line), (BINDING, ROLE, TYPE, USER))):
        it.checked('diff', (got[0], sorted(got[1].splitlines())) == (1, sorted(GAINED.format(*names).splitlines())), got)
    status, out, err = got = on_terminal(it, 'universe', '--export', 'prod')
    it.checked('a universe on a terminal', (status, err) == (0, '') and '"resource": "w\\u200bidgets\\udb40\\udc41"' in out
               and document(out) == document(it.run('universe', '--export', 'prod')[1]), got)
    it.checked('a universe through a pipe', '"resource": "%s"' % TYPE in it.run('universe', '--export', 'prod')[1], 'escaped')
    name = 'm\u202e.json'
    it.write(json.dumps(hostile()), name)
    status, out, err = got = on_terminal(it, 'read', name)
    it.checked('manifests on a terminal', status == 0 and SEEN_ROLE not in out and '"name": "r\u00e9\\u2028"' in out
               and document(out) == document(it.run('read', name)[1]), got)
    line = 'L4\tescalation\tClusterRole/%s\t2\tbind\t%s\n'
    got = on_terminal(it, 'lint', name, '-o', 'tsv')
    it.checked('their findings on a terminal', got[:2] == (1, line % (SEEN_ROLE, 'm\\xe2\\x80\\xae.json')), got)
    got = it.run('lint', name)
    it.checked('their findings through a pipe', got[:2] == (1, line % (ROLE, name)), got)
    it.write('[', 'bad.json')
    status, out, err = got = on_terminal(it, 'lint', '--export', 'prod', 'bad.json')
    it.checked('a fault', (status, out) == (2, '') and err.startswith('rbacaudit: file 1: M1 not JSON\n'), got)


@in_each_shell
def stale_answers(it):
    """An answer that the plugin keeps, to compare it with the cluster's, and one that fills a pipe many times over."""
    cluster = hostile()
    role = {'apiVersion': V1, 'kind': 'ClusterRole', 'metadata': {'name': 'all'}, 'aggregationRule': {'clusterRoleSelectors': []},
            'rules': [{'verbs': ['delete'], 'apiGroups': [''], 'resources': [TYPE]}]}
    again = {**cluster['items'][1], 'metadata': {'name': 'all'}, 'roleRef': {'kind': 'ClusterRole', 'name': 'all'}}
    it.serve({'cluster': {**cluster, 'items': [*cluster['items'], role, {**again, 'subjects': [{'kind': 'User', 'name': 'lee'}]}]},
              'namespaced': of_kinds([])})
    it.run('export', 'prod')
    status, out, err = got = on_terminal(it, 'who-can', '--export', 'prod', '-A', 'delete', TYPE, '-o', 'tsv')
    it.checked('holders', (status, out) == (0, 'u:%s\tClusterRoleBinding/%s\n' % (SEEN_USER, SEEN_BINDING))
               and 'the cluster has other holders now' in err, got)
    names = ['n%05d' % number for number in range(5000)]
    it.write(json.dumps({'apiVersion': 'rbacaudit/v1', 'kind': 'Universe', 'names': names, 'verbs': ['delete'], 'namespaces': [''],
                         'resources': [{'resource': TYPE}]}), 'u.json')
    status, out, err = got = on_terminal(it, 'matrix', '--export', 'prod', 'u.json', '--output', 'tsv')
    wanted = ''.join('u:%s\t-\tdelete\t-\t%s\t%s\tClusterRoleBinding/%s\n' % (SEEN_USER, SEEN_TYPE, name, SEEN_BINDING) for name in names)
    it.checked('many rows', (status, out) == (0, wanted + 'end\n'), (status, out[:300], err))


@in_each_shell
def reports(it):
    """What kubectl says, and names in reports, wherever standard error goes."""
    it.run('export', 'prod')
    it.write('[', 'bad\u202e\u009b2Jé.json')
    got = it.run('lint', '--export', 'prod', 'bad\u202e\u009b2Jé.json')
    it.checked('the name of a file', got[2].splitlines()[1:] == ['kubectl-rbacaudit: file 1 is bad\\xe2\\x80\\xae\\xc2\\x9b2Jé.json'], got)
    with open(os.path.join(it.bin, 'kubectl'), 'r+', encoding='utf-8') as file:
        script = file.read().replace('forbidden\\nsorry', 'forbidden\\342\\200\\256\\233\\302\\2332J\\nsorry')
        file.seek(0)
        file.write(script)
    status, out, err = got = it.run('export', 'part', trouble=['forbid accounts'])
    said = 'accounts is? forbidden\\xe2\\x80\\xae\\x9b\\xc2\\x9b2J'
    it.checked('what kubectl says', (status, out) == (1, '') and said + '\\nsorry\n' in err, got)
    it.checked('what is noted of it', said + ' sorry\n' in it.read('part', 'incomplete.txt'), it.read('part', 'incomplete.txt'))
    it.at_context('', name='far\u202e')
    it.run('export', 'named')
    it.checked('what an export says of itself', it.read('named', 'about.txt').startswith('context: far\\xe2\\x80\\xae\n'),
               it.read('named', 'about.txt'))


# ---- signals, and a terminal that shows what it got

# Answers the words of a question, and then begins to answer it and goes on for long.
LONG = r'''#!/bin/sh
[ $# -gt 1 ] || exit 0
echo $$ > "$ROOM/hangs"
printf 'L2\tunused-role\tClusterRole/a\t-\t-\n'
exec sleep 300
'''


def ended_by(it, send):
    """Status, output and seconds of a question that its own terminal ends while rbacaudit writes; whether that is gone."""
    ours, theirs = pty.openpty()

    def take():
        hear_signals()
        os.setsid()
        fcntl.ioctl(theirs, termios.TIOCSCTTY, 0)

    process = subprocess.Popen([it.shell, PLUGIN, 'lint', '--export', 'prod'], cwd=it.work, env=it.environment(), stdin=theirs,
                               stdout=theirs, stderr=subprocess.PIPE, preexec_fn=take)
    until = time.monotonic() + 60
    while not it.read(it.at('hangs')) and time.monotonic() < until:
        time.sleep(0.02)
    before, began = it.left(), time.monotonic()
    send(ours, process)
    process.communicate(timeout=100)
    took = time.monotonic() - began
    os.close(theirs)
    out = b''
    with contextlib.suppress(OSError):
        while chunk := os.read(ours, 4096):
            out += chunk
    os.close(ours)
    hung = int(it.lines('hangs')[0])
    with contextlib.suppress(ProcessLookupError):
        os.kill(hung, 0)
        os.kill(hung, signal.SIGKILL)
        return process.returncode, out, took, before, False
    return process.returncode, out, took, before, True


@in_each_shell
def signals(it):
    """Ctrl-C, and other signals, end a question on a terminal at once, with its rbacaudit."""
    it.run('export', 'prod')
    os.remove(os.path.join(it.bin, 'rbacaudit'))
    it.write(LONG, it.bin, 'rbacaudit')
    os.chmod(os.path.join(it.bin, 'rbacaudit'), 0o755)
    for name, number, send in (('Ctrl-C', signal.SIGINT, lambda ours, _: os.write(ours, b'\x03')),
                               ('TERM', signal.SIGTERM, lambda _, process: process.terminate()),
                               ('HUP', signal.SIGHUP, lambda _, process: process.send_signal(signal.SIGHUP))):
        status, out, took, before, gone = got = ended_by(it, send)
        it.checked('%s ends it' % name, status == 128 + number and took < 30 and gone, got)
        it.checked('%s leaves no file' % name, before and not it.left(), (before, it.left()))


SOCKETS = itertools.count()


def in_tmux(it, words, columns=170):
    """The lines that tmux shows, once a command in it has ended."""
    # (a server that has just ended may still hold its socket)
    socket = it.at('tmux%d' % next(SOCKETS))
    tmux = ['tmux', '-f', '/dev/null', '-S', socket]
    environment = {**it.environment(), 'LC_ALL': 'C.UTF-8', 'TERM': 'xterm'}
    subprocess.run([*tmux, '-u', 'new-session', '-d', '-x', str(columns), '-y', '40',
                    'sh', '-c', '"$@"; echo "status $?"; exec sleep 100', 'sh', *words], cwd=it.work, env=environment, check=True,
                   timeout=60)
    until, seen = time.monotonic() + 60, ''
    try:
        while 'status ' not in seen and time.monotonic() < until:
            time.sleep(0.05)
            seen = subprocess.run([*tmux, 'capture-pane', '-p'], stdout=subprocess.PIPE, env=environment, timeout=60, check=False).stdout.decode()
    finally:
        subprocess.run([*tmux, 'kill-server'], env=environment, timeout=60, check=False)
    return seen.rstrip('\n').split('\n')


@in_each_shell
def shown(it):
    """A terminal shows the names, letter for letter."""
    it.serve({'cluster': hostile(), 'namespaced': of_kinds([])})
    it.run('export', 'prod')
    got = in_tmux(it, [it.shell, PLUGIN, 'who-can', '--export', 'prod', '-A', 'delete', TYPE])
    it.checked('in tmux', [line.split() for line in got[-2:]] ==
               [['u:' + SEEN_USER, 'ClusterRoleBinding/' + SEEN_BINDING], ['status', '0']], got)


def in_a_terminal():
    if shutil.which('tmux'):
        shown()
    else:
        skipped('tmux', 'what a terminal shows')


CHECKS = [answers, stale_answers, reports, signals, in_a_terminal]
