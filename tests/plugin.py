"""The kubectl plugin, with a stand-in for kubectl and the built program.

plugin_room.py has the stand-in, plugin_exports.py the exports, plugin_questions.py the questions, plugin_paths.py those of paths,
plugin_remarks.py what is said beside answers, plugin_changes.py and plugin_manifests.py changes and manifests, plugin_advice.py what is said behind errors,
plugin_groups.py who is in a group, plugin_server.py both once more with kubectl itself, plugin_terminal.py what a terminal shows, plugin_show.py formats and summaries,
plugin_sarif.py what code hosts get, plugin_access.py one person's access and graphs of paths, plugin_unused.py audit logs, plugin_report.py reports, plugin_states.py what manifests
alone don't know of a cluster, plugin_law.py the law of that, and plugin_applied.py what kubectl would do and the files don't say.
Here are the tools that the plugin needs, its texts, completions and man page, and make. What is
skipped, since this machine lacks a tool, stands in the last line but one. The last line is
`N passed, M failed`.
"""

import os
import re
import shutil
import stat
import subprocess
import sys
import tempfile

import plugin_access
import plugin_advice
import plugin_applied
import plugin_changes
import plugin_exports
import plugin_groups
import plugin_law
import plugin_least
import plugin_manifests
import plugin_paths
import plugin_questions
import plugin_remarks
import plugin_report
import plugin_sarif
import plugin_server
import plugin_show
import plugin_states
import plugin_terminal
import plugin_unused
from common import PROGRAM, TOP, checked, skipped, tested
from plugin_room import KIM, PLUGIN, SHELLS, in_each_shell
from shells import VERBS, commands, contents, options, options_in, renders, steps

COMPLETER = os.path.join(TOP, 'plugin', 'kubectl_complete-rbacaudit')
MAN = os.path.join(TOP, 'man', 'kubectl-rbacaudit.1')
VERSIONS = 'kubectl-rbacaudit 0.1.0\nrbacaudit 0.1.0\n'


@in_each_shell
def tools(it):
    """What is missing is reported with what to do; versions and help."""
    bare = it.at('bare')
    os.mkdir(bare)
    os.symlink(shutil.which(it.shell), os.path.join(bare, it.shell))
    status, out, err = got = it.run('lint', environment=dict(it.environment(), PATH=bare))
    it.checked('without Python', (status, out) == (2, '') and 'there is no python3 on the PATH' in err, got)
    os.symlink(sys.executable, os.path.join(bare, 'python3'))
    environment = dict(it.environment(), PATH=bare)
    for line, said in ((['lint'], 'there is no rbacaudit on the PATH'), (['universe'], 'there is no rbacaudit on the PATH'),
                       (['export', 'x'], 'there is no kubectl on the PATH')):
        status, out, err = got = it.run(*line, environment=environment)
        it.checked('%s: %s' % (line[0], said), (status, out) == (2, '') and said in err, got)
    status, out, err = got = it.run('--version', environment=environment)
    it.checked('the version of the plugin alone', (status, out) == (2, 'kubectl-rbacaudit 0.1.0\n') and 'make install' in err, got)
    it.run('export', 'prod')
    os.symlink(PROGRAM, os.path.join(bare, 'rbacaudit'))
    it.expect('an export needs no kubectl', ['can-i', '--export', 'prod', *KIM, 'list', 'pods'], 0, 'yes\n', environment=environment)
    status, out, err = got = it.run('lint', environment=environment)
    it.checked('a fresh one does', (status, out) == (2, '') and 'there is no kubectl on the PATH' in err, got)
    it.expect('versions', ['--version'], 0, VERSIONS)
    for line, said in ((['--help'], 'kubectl rbacaudit who-can'), (['-h'], '--partial'), (['export', '--help'], 'incomplete.txt'),
                       (['universe', '-h'], 'Universe document'), (['can-i', '--help'], '--why'),
                       (['who-can', '-Ah'], 'with kubectl rbacaudit who-can'), (['rules', '-h'], 'u:USER or g:GROUP'), (['matrix', '-h'], '--after'), (['lint', '--help'], 'dangling-role'), (['powers', '-h'], 'act as a user, a group'), (['paths', '-h'], 'with kubectl rbacaudit paths'),
                       (['diff', '--help'], 'objects that the change deletes'), (['diff', '-h'], 'folder with a kustomization'), (['read', '-h'], 'refused'),
                       (['unused', '-h'], 'no request of an audit log used'), (['least', '-h'], 'as JSON for kubectl apply'), (['access', '-h'], 'a table of types by verbs'), (['access', '--help'], 'names are in the last column'), (['report', '--help'], 'stale aggregates')):
        status, out, err = got = it.run(*line)
        it.checked('help: %s' % ' '.join(line), (status, err) == (0, '') and said.lower() in out.lower(), got)
    for line, options in ((['--help'],
                           ['--export', '--partial', '--context', '--kubeconfig',
                            '--request-timeout', '-o', '--output', '--no-headers', '--color', '--version']),
                          (['export', '--help'],
                           ['--force', '-n', '--context', '--kubeconfig', '--request-timeout',
                            '--as',
                                                  '--as-group']),
                          (['access', '--help'], ['--groups', '--group', '-n', '-A', '-o']), (['unused', '--help'], ['--log', '--skip-system', '-o']), (['least', '--help'], ['--log', '--names', '--name']), (['report', '--help'], ['-o', '--export', '--partial'])):
        out = it.run(*line)[1]
        it.checked('%s fits a screen' % line, out.count('\n') <= 40 and max(map(len, out.splitlines())) <= 120, out)
        it.checked('%s has all options' % line, all(re.search(option + r'\b', out) for option in options), out)
    for command in ('unused', 'least', 'diff', 'can-i'):
        it.checked('help %s' % command, it.run('help', command) == it.run(command, '--help'), command)
    it.checked('help alone', it.run('help') == it.run('--help'), 'another text')
    it.expect('help of nothing', ['help', 'none'], 2, '', 'kubectl-rbacaudit: there is no command none; kubectl rbacaudit --help lists them\n')
    it.expect('help of two', ['help', 'lint', 'diff'], 2, '', 'kubectl-rbacaudit: there is no command help; kubectl rbacaudit --help lists them\n')
    calls = it.lines('calls')
    it.checked('help asks no cluster', calls.count('|get|--raw|/apis') == 1, calls)
    status, out, err = got = it.run('can-i', *KIM, 'list', 'pods', preexec_fn=lambda: os.close(0))
    it.checked('with standard input closed', (status, out) == (0, 'yes\n'), got)


def script():
    """What make install installs, called by links."""
    checked('the plugin may be run', os.stat(PLUGIN).st_mode & 0o111 == 0o111, stat.filemode(os.stat(PLUGIN).st_mode))
    with tempfile.TemporaryDirectory() as path:
        # (the program is built, and isn't to be proved once more)
        subprocess.run(['make', '-s', '-o', 'build', 'install', 'PREFIX=' + path], cwd=TOP,
                       check=True, timeout=60)
        os.mkdir(os.path.join(path, 'far'))
        os.symlink('../bin/kubectl-rbacaudit', os.path.join(path, 'far', 'near'))
        os.symlink(os.path.join(path, 'far', 'near'), os.path.join(path, 'link'))
        for installed in ('bin/kubectl_complete-rbacaudit', 'share/man/man1/kubectl-rbacaudit.1'):
            checked('installed: %s' % installed, os.path.isfile(os.path.join(path, installed)),
                    'no file')
        checked('the completer may be run',
                os.access(os.path.join(path, 'bin/kubectl_complete-rbacaudit'), os.X_OK), 'no')
        for called in ('bin/kubectl-rbacaudit', 'far/near', 'link', './link'):
            got = told([os.path.join(path, called), '--version'], path)
            checked('installed, called as %s' % called, got == (0, VERSIONS, ''), repr(got))
        for shell in SHELLS:
            got = told([shell, 'kubectl-rbacaudit', '--version'], os.path.join(path, 'bin'))
            checked('installed, as a script of %s' % shell, got == (0, VERSIONS, ''), repr(got))
        shutil.rmtree(os.path.join(path, 'lib'))
        status, out, err = got = told([os.path.join(path, 'link'), '--version'], path)
        checked('without its parts', (status, out) == (2, '')
                and "the parts of this plugin aren't there" in err, repr(got))


# ---- completions, and the man page

OWN = {('--export',): 'DIR', ('--partial',): '', ('--context',): 'NAME', ('--kubeconfig',): 'FILE',
       ('--request-timeout',): 'TIME'}
SHOWN = {('-o', '--output'): 'FORMAT', ('--no-headers',): '', ('--color',): 'WHEN'}
HELP = ('-h', '--help')
OF_REPORT = {('-o', '--output'): 'FORMAT'}
# The commands that rbacaudit hasn't, but universe; and unused and least, whose logs the plugin reads.
ALONE = ('access', 'unused', 'least', 'read', 'universe', 'report', 'page', 'export')
OF_PAGE = {('-n', '--namespace'): 'NS', ('--output',): 'FILE', ('--title',): 'TEXT',
           ('--diff',): 'FILE', ('--every',): ''}
OF_READ = {('-n', '--namespace'): 'NS'}
OF_UNUSED = {('--log',): 'LOG', ('--skip-system',): ''}
OF_LEAST = {('--log',): 'LOG', ('--names',): '', ('--name',): 'NAME'}
BARE = {('--no-defaults',): ''}
OF_DIFF = {('--with',): 'PATH', ('--without',): 'PATH', ('--from',): 'PATH', ('--to',): 'PATH', ('--summary',): '', ('--fail-on',): 'WHAT', ('--kustomize',): '', **BARE, **OF_READ}
OF_EXPORT = {('--force',): '', ('-n', '--namespace'): 'NS', ('--context',): 'NAME',
             ('--kubeconfig',): 'FILE',
             ('--request-timeout',): 'TIME', ('--as',): 'USER', ('--as-group',): 'GROUP'}
NOTHING, FILES, FOLDERS = ':4', ':0', ':16'
COMPLETED = [
    ([''], ['can-i', 'who-can', 'rules', 'access', 'matrix', 'powers', 'paths', 'lint', 'unused', 'least', 'diff', 'read', 'universe', 'report', 'page', 'export'], NOTHING),
    (['a'], ['access'], NOTHING), (['access', ''], [], NOTHING), (['access', '-n', 'x', 'u:kim', ''], [], FILES), (['access', '-o', ''], ['table', 'wide', 'json'], NOTHING),
    (['r'], ['rules', 'read', 'report'], NOTHING), (['report', ''], [], NOTHING), (['report', '-o', ''], ['md', 'json', 'html'], NOTHING),
    (['report', '--output='], ['md', 'json', 'html'], NOTHING), (['paths', '-o', 'd'], ['dot'], NOTHING), (['paths', '--output=t'], ['table', 'tsv'], NOTHING),
    (['m'], ['matrix'], NOTHING),
    (['-'], ['-h', '--help', '-V', '--version'], NOTHING), (['no', ''], [], NOTHING),
    (['no', '-'], [], NOTHING),
    (['can-i', ''], VERBS, NOTHING), (['who-can', '-nshop', 'delete'],
                                      ['delete', 'deletecollection'], NOTHING),
    (['can-i', '--as', 'x', '-qA', 'get', ''], [], NOTHING),
    (['who-can', '-An', 'shop', 'get', 'pods', ''], [], FILES),
    (['who-can', '-n=shop', '--', '-x', '-y', '-'], [], FILES),
    (['who-can', '--in'], ['--in-namespace', '--indirect'], NOTHING), (['who-can', '--indirect', '--steps', 'e'], ['exec', 'escalate'], NOTHING),
    (['who-can', '--steps=run', '--indirect', 'get', 'pods', '--s'], ['--subresource'], NOTHING), (['who-can', '--steps', 'run', 'get', 'pods', ''], [], FILES),
    (['rules', ''], [], NOTHING), (['rules', '--groups', ''], [], NOTHING),
    (['rules', '-An', 'x', '--groups=y', ''], [], NOTHING), (['rules', 'u:kim', ''], [], FILES),
    (['rules', '--groups', 'x', 'u:kim', 'y', ''], [], FILES),
    (['matrix', '--limit', ''], [], NOTHING),
    (['matrix', '--limit=3', 'a'], [], FILES), (['lint', '--export', ''], [], FOLDERS),
    (['p'], ['powers', 'paths', 'page'], NOTHING), (['paths', ''], [], NOTHING), (['paths', '--steps', 'e'], ['exec', 'escalate'], NOTHING),
    (['paths', '--steps=r'], ['run'], NOTHING), (['paths', '--t'], ['--to'], NOTHING), (['paths', '--to', ''], [], NOTHING),
    (['paths', '--to=*', '-n', 'x', 'u:kim', ''], [], FILES), (['paths', '--steps', 'run,exec', '--group', ''], [], NOTHING), (['paths', '--steps', 'run', 'u:kim', ''], [], FILES),
    (['powers', ''], [], FILES), (['powers', '--export', ''], [], FOLDERS), (['powers', 'a', '--exp'], ['--export'], NOTHING),
    (['lint', '--only', ''], [], NOTHING), (['lint', '--only', 'L6', 'a'], [], FILES),
    (['lint', '--kubeconfig', 'x'], [], FILES),
    (['lint', '--context', ''], ['far away', 'near'], NOTHING),
    (['export', '--context', 'n'], ['near'], NOTHING),
    (['export', ''], [], FOLDERS), (['export', '--as-group', 'x', '--as-'], ['--as-group'],
                                    NOTHING), (['export', 'x', ''], [], NOTHING),
    (['page', '--title', ''], [], NOTHING), (['page', '--diff', ''], [], FILES),
    (['page', '--output', ''], [], FILES), (['page', '-n', ''], [], NOTHING),
    (['page', ''], [], FILES),
    (['help', 'un'], ['unused', 'universe'], NOTHING), (['help', 'unused', ''], [], NOTHING),
    (['u'], ['unused', 'universe'], NOTHING), (['unused', ''], [], FILES), (['unused', '--log', ''], [], FILES), (['unused', '--log='], [], FILES),
    (['l'], ['lint', 'least'], NOTHING), (['least', ''], [], NOTHING), (['least', 'u:kim', ''], [], FILES), (['least', '--log', ''], [], FILES), (['least', '--log='], [], FILES),
    (['least', '--names', '--name', ''], [], NOTHING), (['least', '--name', 'x', '--log', 'y', 'u:kim', 'z', ''], [], FILES), (['least', '--n'], ['--names', '--name'], NOTHING),
    (['unused', '--log', 'x', '--log', 'y', '--l'], ['--log'], NOTHING), (['unused', '--s'], ['--skip-system'], NOTHING), (['unused', '-o', 'j'], ['json'], NOTHING),
    (['diff', ''], [], NOTHING), (['diff', '--with', ''], [], FILES), (['diff', '--to', ''], [], FILES), (['diff', '--without='], [], FILES),
    (['read', ''], [], FILES), (['read', '-n', ''], [], NOTHING),
    (['matrix', '-o', ''], ['table', 'wide', 'json', 'name', 'tsv'], NOTHING), (['can-i', '--output', 'j'], ['json'], NOTHING),
    (['can-i', '--output=t'], ['table', 'tsv'], NOTHING), (['rules', '-ojson', ''], [], NOTHING), (['lint', '-o', 'json', ''], [], FILES),
    (['lint', '--color', 'a'], ['auto', 'always'], NOTHING), (['diff', '--fail-on', ''], ['changes', 'gains', 'powers'], NOTHING),
    (['lint', '-o', 's'], ['sarif'], NOTHING), (['diff', '--output='], ['table', 'wide', 'json', 'name', 'tsv', 'sarif'], NOTHING),
    (['page', '--output='], [], FILES), (['page', '-o', ''], [], FILES), (['diff', '--s'], ['--summary'], NOTHING),
    (['diff', '-n', ''], [], NOTHING), (['diff', '-nx', '--w'], ['--with', '--without'], NOTHING),
    (['diff', '--export', 'x', '--export', ''], [], FOLDERS),
    (['diff', '--export', 'x', '--e'], ['--export'], NOTHING),
    (['universe', ''], [], NOTHING), (['can-i', '-qAn', 'x', '--as=y', '--g'], ['--groups', '--group'],
                                      NOTHING),
    (['can-i', '-qA', '--a'], ['--as'], NOTHING),
    (['can-i', '--namespace', 'x', '-n'], [], NOTHING),
    (['lint', '--context=n'], ['near'], NOTHING),
    (['lint', '--request-timeout=', ''], [], FILES), (['lint', '--request-timeout='], [], NOTHING),
    (['lint', '--export=p'], [], FOLDERS), (['page', '--diff='], [], FILES),
    (['lint', '--partial='], [], NOTHING), (['lint', '--', '--context='], [], FILES)]


def options_of(command):
    """The options of a command, with their values: those of rbacaudit, and the plugin's own."""
    if command in ('diff', 'read', 'export', 'universe', 'report', 'page', 'unused', 'least'):
        own = {'unused': {**OF_UNUSED, **OWN, **SHOWN}, 'least': {**OF_LEAST, **OWN}, 'export': OF_EXPORT, 'universe': OWN, 'report': {**OWN, **OF_REPORT}, 'page': {**OWN, **OF_PAGE}, 'diff': {**OWN, **OF_DIFF, **SHOWN}, 'read': OF_READ}[command]
        return {**own, HELP: ''}
    command = {'access': 'rules'}.get(command, command)
    return {**{names: value for names, (value, _) in options(command).items()}, **OWN, **SHOWN, **(BARE if command == 'lint' else {})}


@in_each_shell
def completions(it):
    """What kubectl is told to offer; each command has the options that it takes, each once."""
    with open(os.path.join(it.bin, 'kubectl'), 'w', encoding='utf-8') as file:
        file.write("#!/bin/sh\n[ \"$*\" = 'config get-contexts -o name' ] &&"
                   " printf 'far away\\nnear\\n'\n")

    def offered(words_):
        ended = subprocess.run([it.shell, COMPLETER, *words_], env=it.environment(),
                               stdout=subprocess.PIPE, stderr=subprocess.STDOUT,
                               timeout=60)
        *found, last = ended.stdout.decode().splitlines()
        return [line.partition('\t')[0] for line in found], last

    for words_, found, last in [*COMPLETED, (['paths', '--steps', ''], steps(), NOTHING)]:
        got = offered(words_)
        it.checked('completions of %s' % words_, (sorted(got[0]), got[1]) == (sorted(found), last),
                   got)
    for command in dict.fromkeys((*commands(), *ALONE)):
        here = options_of(command)
        got = offered([command, '-'])
        it.checked('the options of %s' % command,
                   sorted(got[0]) == sorted(name for names in here for name in names), got)
        for names, value in here.items():
            for name in names if names != HELP else ():
                got = offered([command, name, *['x'] * bool(value), '--'])[0]
                wanted = [others[-1] for others in here if others != names
                          or names in (('--group',), ('--as-group',), ('--log',)) or (command, name) == ('diff', '--export')]
                it.checked('%s %s is given once' % (command, name), sorted(got) == sorted(wanted),
                           got)


def in_kubectl():
    """kubectl itself finds the completer, where it is installed and new enough."""
    with tempfile.TemporaryDirectory() as home:
        environment = dict(os.environ, HOME=home, KUBECONFIG=os.path.join(home, 'none'),
                           PATH=os.path.dirname(PLUGIN) + os.pathsep + os.environ['PATH'])
        version = shutil.which('kubectl') and subprocess.run(['kubectl', 'version', '--client'],
                                                             env=environment,
                                                             stdout=subprocess.PIPE,
                                                             stderr=subprocess.DEVNULL,
                                                             timeout=60).stdout.decode()
        found = re.search(r'v1\.(\d+)', version or '')
        if not found or int(found[1]) < 26:
            skipped('kubectl 1.26', 'its completion')
            return
        ended = subprocess.run(['kubectl', '__complete', 'rbacaudit', 'who-can', 'del'],
                               env=environment, stdout=subprocess.PIPE,
                               stderr=subprocess.DEVNULL, timeout=60)
        checked('kubectl completes', ended.stdout.decode() == 'delete\ndeletecollection\n:4\n',
                repr(ended.stdout))


def man_page():
    """The man page has the options of help with their values, the version, and is rendered well."""
    text = contents(MAN)
    wanted = {**OWN, **SHOWN, **OF_EXPORT, **OF_PAGE, **OF_DIFF, ('--log',): 'LOG', HELP: '', ('-V', '--version'): ''}
    got = {names: value for names, (value, _) in options_in(text).items()}
    checked('man: the options', got == wanted, repr(got))
    checked('man: the version', '"kubectl\\-rbacaudit 0.1.0"' in text, text[:300])
    for command in (*commands(), *ALONE):
        checked('man: %s' % command,
                '.SY "kubectl rbacaudit %s"' % command.replace('-', '\\-') in text, 'no synopsis')
    renders(MAN, {name for names in wanted for name in names})


def make_run():
    """`make run` without a built program says that the answer is the sources'; of the kit's own lines it
    shows something only if it fails."""
    with tempfile.TemporaryDirectory() as path:
        for status, said in ((0, ''), (3, 'run=ended status=3\n')):
            with open(os.path.join(path, 'rt'), 'w', encoding='utf-8') as file:
                file.write('#!/bin/sh\necho yes\necho run=ended status=%d >&2\nexit %d\n'
                           % (status, status))
            os.chmod(os.path.join(path, 'rt'), 0o755)
            ended, out, err = got = told(['make', '-s', 'run', 'PROGRAM=none'], TOP, path)
            notes = [line for line in err.splitlines(True)
                     if not line.startswith('make')]
            checked('make run: the kit ends with %d' % status,
                    (bool(ended), out, ''.join(notes)) == (bool(status), 'yes\n', said), repr(got))
            checked('make run says that it is unproved',
                    "make run: this answer isn't from a proved build" in err, err)


def told(words_, folder, tools_=os.path.dirname(PROGRAM)):
    """Status, standard output and standard error of a command, with the program or other tools first on
    the PATH."""
    ended = subprocess.run(words_, cwd=folder,
                           env=dict(os.environ, PATH=tools_ + os.pathsep + os.environ['PATH']),
                           stdin=subprocess.DEVNULL, stdout=subprocess.PIPE, stderr=subprocess.PIPE,
                           timeout=60)
    return ended.returncode, ended.stdout.decode(), ended.stderr.decode()


if __name__ == '__main__':
    sys.exit(tested(*plugin_exports.CHECKS, *plugin_groups.CHECKS, *plugin_questions.CHECKS, *plugin_paths.CHECKS, *plugin_remarks.CHECKS, *plugin_changes.CHECKS, *plugin_manifests.CHECKS, *plugin_advice.CHECKS,
                    *plugin_server.CHECKS, *plugin_terminal.CHECKS, *plugin_show.CHECKS, *plugin_sarif.CHECKS, *plugin_access.CHECKS, *plugin_report.CHECKS,
                    *plugin_unused.CHECKS, *plugin_least.CHECKS, *plugin_states.CHECKS, *plugin_applied.CHECKS, *plugin_law.CHECKS,
                    tools, script, make_run, completions, in_kubectl, man_page))
