"""What `make dist` packs: the same bytes each time, from the commit alone, at work without the kit.

It packs copies of this repository that have one commit, of a known date, and the built program. The
archive is unpacked into an empty folder and installed, with the base tools alone on the PATH.
The Containerfile's steps are tried as commands, krew's as its documents tell them, and the jobs of
docs/RECIPES.md as they are written. If the machine lacks a tool, all is skipped, as the last line
but one says. The last line is `N passed, M failed`.
"""

import glob
import hashlib
import json
import os
import re
import shutil
import stat
import subprocess
import sys
import tarfile
import tempfile

from common import PROGRAM, TOP, checked, results, skipped, tested
from local_kubectl import yaml
from plugin_exports import nobody
from plugin_room import LOCAL_KUBECTL
from transcripts import contents, steps, text_of

ROOT = 'rbacaudit-0.1.0-x86_64-linux'
ARCHIVE = ROOT + '.tar.gz'
MADE = ['Containerfile', 'SHA256SUMS', 'krew.yaml', ARCHIVE]
# The commit's date, and the seconds from 1970 to it: 11,356 days, 4 hours, 5 minutes, 6 seconds.
DATE, SECONDS = '2001-02-03T04:05:06+00:00', 11_356 * 86_400 + 4 * 3600 + 5 * 60 + 6
DOCUMENTS = 'README.md', 'bench/README.md', 'docs', 'examples'
NOT_COPIED = '.git', 'out', 'dist', '__pycache__', 'must-fail', 'wrong-bodies'
WHO = {'GIT_%s_%s' % (who, what): value for who in ('AUTHOR', 'COMMITTER')
       for what, value in (('NAME', 'tests'), ('EMAIL', 'tests@example.com'), ('DATE', DATE))}
GIT = {'GIT_CONFIG_GLOBAL': '/dev/null', 'GIT_CONFIG_SYSTEM': '/dev/null', **WHO}
# What every system has, and with it tar and gzip. The plugin's tools are those that its help names.
BASE = 'cat cp dirname find gzip install mkdir mkfifo mv readlink rm sh sha256sum sort tar tr'.split()
PLUGIN_TOOLS = 'python3',
QUESTION = 'can-i --as system:serviceaccount:shop:ci -n shop --why update deployments.apps'.split()
ANSWER = 'yes\nRoleBinding/shop/ci-deploys\tRole/shop/deployer\tRole/shop/deployer\t1\t1\n'
PLACES = {'bin/rbacaudit': None, 'bin/kubectl-rbacaudit': 'plugin/kubectl-rbacaudit', 
          'bin/rbacaudit-page': 'plugin/rbacaudit-page', 'bin/rbacaudit-show': 'plugin/rbacaudit-show',
          'bin/kubectl_complete-rbacaudit': 'plugin/kubectl_complete-rbacaudit',
          **{'share/bash-completion/completions/' + name: 'completions/%s.bash' % name for name in ('rbacaudit', 'rbacaudit-page', 'rbacaudit-show')},
          **{'share/zsh/site-functions/_' + name: 'completions/_' + name for name in ('rbacaudit', 'rbacaudit-page', 'rbacaudit-show')},
          **{'share/fish/vendor_completions.d/%s.fish' % name: 'completions/%s.fish' % name for name in ('rbacaudit', 'rbacaudit-page', 'rbacaudit-show')},
          **{'share/man/man1/%s.1' % name: 'man/%s.1' % name for name in ('rbacaudit', 'rbacaudit-page', 'rbacaudit-show', 'kubectl-rbacaudit')},
          **{'lib/rbacaudit/rbacaudit_kubectl/' + name: 'plugin/rbacaudit_kubectl/' + name
             for name in os.listdir(os.path.join(TOP, 'plugin', 'rbacaudit_kubectl')) if name.endswith(('.py', '.json'))},
          **{'share/rbacaudit/page/' + name: 'page/' + name for name in os.listdir(os.path.join(TOP, 'page'))}}


def run(words, folder, environment=None, **how):
    """What a command in a folder ends with: its status, and all that it prints."""
    ended = subprocess.run(words, cwd=folder, env=environment, stdin=subprocess.DEVNULL,
                           stdout=subprocess.PIPE,
                           stderr=subprocess.STDOUT, timeout=120, **how)
    return ended.returncode, ended.stdout.decode(errors='replace')


def holds(name, well, got=None):
    checked(name, well, 'got %r' % (got,))


def expect(name, words, folder, environment, status, out):
    got = run(words, folder, environment)
    holds(name, got == (status, out), got)


def git(folder, *words):
    status, out = run(['git', *words], folder, dict(os.environ, **GIT))
    if status:
        raise RuntimeError('git %s: %s' % (words[0], out))
    return out.strip()


def write(text, *path):
    with open(os.path.join(*path), 'w', encoding='utf-8') as file:
        file.write(text)


def bytes_of(*path):
    with open(os.path.join(*path), 'rb') as file:
        return file.read()


def sum_of(path):
    return hashlib.sha256(bytes_of(path)).hexdigest()


# ---- the repository that is packed, and what make dist made there

class Room:
    """A temporary folder with a copy of this repository, of one commit, and what it makes."""

    def __init__(self, path):
        self.path, self.repository = path, os.path.join(path, 'repository')
        shutil.copytree(TOP, self.repository, ignore=shutil.ignore_patterns(*NOT_COPIED))
        git(self.repository, 'init', '-q')
        commit(self.repository, {})
        self.put_program(self.repository)
        self.tools = self.linked('tools', *BASE, *PLUGIN_TOOLS)

    def at(self, *names):
        return os.path.join(self.path, *names)

    @staticmethod
    def put_program(repository):
        out = os.path.join(repository, os.path.relpath(os.path.dirname(PROGRAM), TOP))
        os.makedirs(out)
        shutil.copy(PROGRAM, out)

    def linked(self, name, *tools):
        """A folder of links to these tools, for a PATH."""
        os.mkdir(self.at(name))
        for tool in tools:
            # (what python3 is on the PATH may be a script that finds Python by the name that it is called by)
            os.symlink(sys.executable if tool == 'python3' else shutil.which(tool), self.at(name, tool))
        return self.at(name)

    def without_kit(self, *folders, **more):
        """An environment whose PATH has these folders and the base tools."""
        return {'PATH': os.pathsep.join([*folders, self.tools]), 'HOME': self.path, **more}

    def make(self, *words, repository=None, **how):
        words = ['make', '-s', 'dist', *words]
        return run(words, repository or self.repository, dict(os.environ, **GIT), **how)

    def made(self, *names):
        return os.path.join(self.repository, 'dist', *names)

    def unpacked(self, name):
        """The archive's folder, unpacked into a new folder by the base tools."""
        os.mkdir(self.at(name))
        run(['tar', '-xzf', self.made(ARCHIVE)], self.at(name), self.without_kit())
        return self.at(name, ROOT)

    def export(self, examples):
        """A folder with the files of an export, of the example."""
        folder = self.at('export')
        os.mkdir(folder)
        shutil.copy(examples + '/shop.json', folder + '/cluster.json')
        shutil.copy(examples + '/shop-api.json', folder + '/api-shop.json')
        write('{"apiVersion": "v1", "kind": "List"}', folder, 'namespaced.json')
        return folder


def packed(room):
    """The four files, and the same bytes from another copy, later and with another umask."""
    got = room.make()
    holds('make dist', got[0] == 0 and sorted(os.listdir(room.made())) == MADE, got)
    other = room.at('other')
    git(room.path, 'clone', '-q', room.repository, other)
    room.put_program(other)
    os.utime(os.path.join(other, 'README.md'))
    got = room.make(repository=other, preexec_fn=lambda: os.umask(0o077))
    holds('make dist in another copy', got[0] == 0, got)
    first, second = contents(room.made()), contents(os.path.join(other, 'dist'))
    for name in MADE:
        holds('the same bytes twice: ' + name, name in first and first[name] == second.get(name))
    expect('SHA256SUMS', ['sha256sum', '-c', 'SHA256SUMS'], room.made(), None, 0,
           'Containerfile: OK\nkrew.yaml: OK\n%s: OK\n' % ARCHIVE)


def entries(room):
    """What the archive has, and for whom."""
    with tarfile.open(room.made(ARCHIVE)) as tar:
        found = {entry.name: entry for entry in tar.getmembers()}
    documents = git(room.repository, 'ls-files', *DOCUMENTS).splitlines()
    names = (*PLACES, *documents, 'PROVED.txt', 'install.sh')
    wanted = sorted('%s/%s' % (ROOT, name) for name in names)
    holds('the names, in order', list(found) == wanted, list(found))
    holds('files alone', all(entry.isreg() for entry in found.values()))
    given = {(entry.uid, entry.gid, entry.uname, entry.gname, entry.mtime)
             for entry in found.values()}
    holds('owners and times', given == {(0, 0, '', '', SECONDS)}, given)
    for name in ('bin/rbacaudit', 'bin/kubectl-rbacaudit', 'install.sh'):
        holds('may be run: ' + name, found[ROOT + '/' + name].mode == 0o755)
    holds('may be read: README.md', found[ROOT + '/README.md'].mode == 0o644)


def proved_text(room, gate):
    """What PROVED.txt says, but for the libraries, which only the program knows."""
    commit = git(room.repository, 'rev-parse', 'HEAD')
    kit = run(['rt', 'version'], room.path)[1].strip()
    return ('rbacaudit 0.1.0 for Linux on x86-64\n\n'
            'commit  %s\ndate    %s\nkit     %s\ngate    %s\n' % (commit, DATE, kit, gate))


def proved(room):
    """PROVED.txt, without the gate's last line and with it."""
    text = bytes_of(room.unpacked('proved'), 'PROVED.txt').decode()
    wanted = proved_text(room, "not known: make dist wasn't given what the gate printed")
    holds('PROVED.txt', text.startswith(wanted), text)
    needs = re.search(r'^needs   (.*); glibc (2\.\d+) or later$', text, re.M)
    loaded = run(['ldd', PROGRAM], room.path)[1]
    holds('PROVED.txt names what is loaded', needs and 'libc.so.6' in needs[1] and all(
        name in loaded for name in needs[1].split(', ')), text)
    write('ok   all\n7 passed, 0 failed\n', room.at('gate'))
    got = room.make('GATE=' + room.at('gate'))
    text = bytes_of(room.unpacked('with-gate'), 'PROVED.txt').decode()
    well = got[0] == 0 and text.startswith(proved_text(room, '7 passed, 0 failed'))
    holds('PROVED.txt with GATE', well, (got, text))


# ---- what make dist refuses

def refused(room, name, said, *words):
    shutil.rmtree(room.made(), ignore_errors=True)
    status, out = room.make(*words)
    well = status != 0 and said in out and not os.path.exists(room.made())
    holds('refused: ' + name, well, (status, out))


def refusals(room):
    """A gate that failed, a change outside the commit, a program that isn't there or is too old."""
    for text in ('6 passed, 1 failed\n', '', '7 passed, 0 failed\nmore\n'):
        write(text, room.at('gate'))
        refused(room, 'a gate that printed %r' % text, "doesn't end as a gate that passed",
                'GATE=' + room.at('gate'))
    refused(room, 'a file that is not there', "can't read %s" % room.at('none'),
            'GATE=' + room.at('none'))
    write('new', room.repository, 'docs', 'NEW.md')
    refused(room, 'a file that is not in the commit', "docs/NEW.md isn't as in the commit")
    os.remove(os.path.join(room.repository, 'docs', 'NEW.md'))
    readme = bytes_of(room.repository, 'README.md').decode()
    write(readme + 'more\n', room.repository, 'README.md')
    refused(room, 'a file that has changed', "README.md isn't as in the commit")
    write(readme, room.repository, 'README.md')
    program = os.path.join(room.repository, os.path.relpath(PROGRAM, TOP))
    os.utime(os.path.join(room.repository, 'crates.txt'), (os.stat(program).st_mtime + 1,) * 2)
    refused(room, 'a source that is newer than the program', 'a source has changed since')
    os.utime(program)
    os.rename(program, room.at('program'))
    refused(room, 'no program', "the program isn't built")
    os.rename(room.at('program'), program)
    os.utime(program, (os.stat(os.path.join(room.repository, 'crates.txt')).st_mtime + 2,) * 2)
    got = room.make()
    holds('after these, make dist', got[0] == 0, got)


# ---- make install

# In the place of the kit: it only says that it was called.
KIT = '#!/bin/sh\necho called >> "$PLACE/called"\nexit 1\n'


def instant(room):
    """make install builds nothing where the program is newer than its sources, and another user's make install neither; where a
    source is newer it builds first, and installs nothing if that fails."""
    os.mkdir(room.at('kit'))
    write(KIT, room.at('kit', 'rt'))
    os.chmod(room.at('kit', 'rt'), 0o755)
    os.chmod(room.path, 0o755)
    program = os.path.join(room.repository, os.path.relpath(PROGRAM, TOP))
    for name, who in (('', {}), (' as another user', nobody())):
        to = tempfile.mkdtemp(dir=room.path)
        os.chmod(to, 0o777)
        environment = dict(os.environ, PATH=room.at('kit') + os.pathsep + os.environ['PATH'], PLACE=to)
        got = run(['make', '-s', 'install', 'PREFIX=' + to], room.repository, environment, **who)
        well = got == (0, '') and bytes_of(to, 'bin', 'rbacaudit') == bytes_of(program)
        holds('make install' + name, well and not os.path.exists(to + '/called'), got)
    os.utime(os.path.join(room.repository, 'crates.txt'), (os.stat(program).st_mtime + 1,) * 2)
    to = tempfile.mkdtemp(dir=room.path)
    got = run(['make', '-s', 'install', 'PREFIX=' + to], room.repository, {**environment, 'PLACE': to})
    holds('make install with a newer source', got[0] != 0 and os.listdir(to) == ['called'], (got, os.listdir(to)))
    os.utime(program, (os.stat(os.path.join(room.repository, 'crates.txt')).st_mtime + 2,) * 2)


# ---- installed without the kit

def same_files(room, to, unpacked):
    """Each file stands where it is looked for, and may be read by everybody."""
    for place, source in PLACES.items():
        path = os.path.join(to, place)
        wanted = bytes_of(TOP, source) if source else bytes_of(unpacked, place)
        mode = 0o755 if place.startswith('bin/') else 0o644
        well = os.path.isfile(path) and bytes_of(path) == wanted
        holds('installed: ' + place, well and stat.S_IMODE(os.stat(path).st_mode) == mode)
    documents = contents(os.path.join(to, 'share/doc/rbacaudit'))
    for name in ('PROVED.txt', 'README.md', 'docs/FORMATS.md', 'examples/shop.json'):
        well = documents.get(name) == bytes_of(unpacked, name)
        holds('installed: share/doc/rbacaudit/' + name, well)


def installed(room):
    """install.sh with PREFIX, and then the first question; with DESTDIR."""
    unpacked, to = room.unpacked('unpacked'), room.at('prefix')
    expect('install.sh with PREFIX', ['sh', ROOT + '/install.sh'], room.at('unpacked'),
           room.without_kit(PREFIX=to), 0,
           'rbacaudit is installed: %s/bin/rbacaudit\n' % to)
    same_files(room, to, unpacked)
    symbols = run(['readelf', '-SW', to + '/bin/rbacaudit'], room.path)[1]
    holds('the program is stripped', '.dynsym' in symbols and '.symtab' not in symbols, symbols)
    path = room.without_kit(to + '/bin')
    examples = to + '/share/doc/rbacaudit/examples'
    expect('the first question', ['rbacaudit', *QUESTION, 'shop.json'], examples, path, 0, ANSWER)
    export = room.export(examples)
    words = ['kubectl-rbacaudit', *QUESTION, '--export', export]
    expect('the plugin', words, room.path, path, 0, ANSWER)
    again, destination = ['sh', unpacked + '/install.sh'], room.at('destination')
    got = run(again, room.path, room.without_kit(DESTDIR=destination, PREFIX='/usr'))
    well = contents(to + '/bin') == contents(destination + '/usr/bin')
    holds('install.sh with DESTDIR', got[0] == 0 and well, got)
    got = run(again, room.path, room.without_kit(PREFIX=to))
    holds('install.sh once more, over the same', got[0] == 0, got)


def as_told(room):
    """The commands of README.md, in a folder with what make dist wrote."""
    part = text_of('README.md').partition('\n## Install a built archive\n')[2].partition('\n## ')[0]
    commands = ''.join(re.findall(r'^    (.*\n)', part, re.M))
    folder = shutil.copytree(room.made(), room.at('handed-on'))
    got = run(['sh', '-ec', commands], folder, room.without_kit())
    well = contents(room.at('.local/bin')) == contents(room.at('prefix/bin'))
    holds('README.md installs the same', got[0] == 0 and well, got)


# ---- the Containerfile, as commands

class Image:
    """The steps of a Containerfile as commands: each stage is a folder, which stands for its /."""

    def __init__(self, room):
        self.room, self.arguments, self.stages, self.user = room, {}, {}, ''
        for line in bytes_of(room.made('Containerfile')).decode().splitlines():
            word, _, rest = line.partition(' ')
            if line and word != '#':
                getattr(self, 'do_' + word)(self.given(rest))

    def given(self, text):
        """The text with the arguments in their places."""
        return re.sub(r'\$([A-Z]+)', lambda place: self.arguments[place[1]], text)

    def path(self, name):
        """A path of the stage, seen from outside."""
        return self.root + os.path.join(self.folder, name)

    def environment(self):
        return self.room.without_kit(self.root + '/usr/local/bin')

    def do_ARG(self, rest):
        self.arguments.update([rest.split('=')])

    def do_FROM(self, rest):
        self.base, _, name = rest.partition(' AS ')
        self.root, self.folder = self.room.at('stage%d' % len(self.stages)), '/'
        self.stages[name] = self.root
        os.mkdir(self.root)

    def do_WORKDIR(self, rest):
        self.folder = rest
        os.makedirs(self.path(''), exist_ok=True)

    def do_COPY(self, rest):
        *stage, source, to = rest.split(' ')
        if stage:
            source = self.stages[stage[0].partition('=')[2]] + source
        else:
            source = self.room.made(source)
        os.makedirs(os.path.dirname(self.path(to)), exist_ok=True)
        shutil.copy(source, self.path(to))

    def do_RUN(self, rest):
        got = run(['sh', '-c', rest], self.path(''), self.environment())
        holds('Containerfile: RUN ' + rest, got[0] == 0, got)

    def do_USER(self, rest):
        self.user = rest

    def do_ENTRYPOINT(self, rest):
        self.entry = json.loads(rest)


def containerfile(room):
    """An image with the program alone, which other users than root may run, and what it answers."""
    image = Image(room)
    holds('the image is based on Debian', image.base == 'debian:bookworm-slim', image.base)
    names = [*contents(image.root)]
    holds('the image has the program alone', names == ['usr/local/bin/rbacaudit'], names)
    well = re.fullmatch('[1-9][0-9]*:[1-9][0-9]*', image.user)
    holds("the image's user isn't root", well, image.user)
    mode = os.stat(image.root + '/usr/local/bin/rbacaudit').st_mode
    holds('the image: anybody may run the program', mode & 0o555 == 0o555, stat.filemode(mode))
    shutil.copy(os.path.join(TOP, 'examples', 'shop.json'), image.path(''))
    expect('the image answers', [*image.entry, *QUESTION, 'shop.json'], image.path(''),
           image.environment(), 0, ANSWER)


# ---- krew

def field(text, name):
    return re.search(r'^ *-? ?%s: (.*)$' % name, text, re.M)[1]


def krew(room):
    """What krew does: check the sum, move files to its store, and link to the plugin alone."""
    text = bytes_of(room.made(), 'krew.yaml').decode()
    holds('krew: nothing is left to fill in', '@' not in text, text)
    holds('krew: the sum', field(text, 'sha256') == sum_of(room.made(ARCHIVE)))
    holds('krew: the version', field(text, 'version') == 'v0.1.0')
    holds('krew: the address', field(text, 'uri') == 'https://downloads.example.com/' + ARCHIVE)
    store, links = room.at('store'), room.at('links')
    for folder in (store, links):
        os.mkdir(folder)
    top = os.path.dirname(room.unpacked('for-krew'))
    for path in glob.glob(os.path.join(top, field(text, 'from'))):
        shutil.move(path, store)
    os.symlink(os.path.join(store, field(text, 'bin')), os.path.join(links, 'kubectl-rbacaudit'))
    names = sorted(os.listdir(store))
    holds('krew: the store', {'bin', 'lib', 'share'} <= set(names), names)
    path = room.without_kit(links)
    expect('krew: the versions', ['kubectl-rbacaudit', '--version'], room.path, path, 0,
           'kubectl-rbacaudit 0.1.0\nrbacaudit 0.1.0\n')
    words = ['kubectl-rbacaudit', *QUESTION, '--export', room.at('export')]
    expect('krew: the plugin', words, room.path, path, 0, ANSWER)
    got = room.make('URL=https://files.example.com/a.tar.gz')
    text = bytes_of(room.made(), 'krew.yaml').decode()
    well = got[0] == 0 and field(text, 'uri') == 'https://files.example.com/a.tar.gz'
    holds('krew: with URL', well, (got, text))


# ---- the jobs of docs/RECIPES.md

# Serves the archive, under the address of the jobs alone.
CURL = """#!/bin/sh
[ "$#,$1,$3" = "3,-fsSLo,https://downloads.example.com/%s" ] && cp '%s' "$2"
"""
JOB_TOOLS = 'bash', 'comm', 'cut', 'env', 'fold', 'git', 'grep', 'mkdir', 'mktemp', 'sed', 'wc', *PLUGIN_TOOLS


def part_of(job, key, margin):
    """The lines of a job below a key, without their margin."""
    lines = re.search(r'^ *(?:- )?%s:(?: \|)?\n((?:%s.*\n)+)' % (key, margin), job, re.M)[1]
    return re.sub('^' + margin, '', lines, flags=re.M)


def jobs_text():
    """The jobs of docs/RECIPES.md for GitHub and for GitLab, and the commands that write the scripts which these call."""
    text = text_of('docs', 'RECIPES.md')
    jobs = re.findall(r'^```yaml\n(.*?)^```', text.partition('\n## A check in CI\n')[2].partition('\n## ')[0], re.S | re.M)
    return jobs, '\n'.join(command for command, _ in steps(text) if re.match(r'cat > (review|results|quality)\.sh ', command))


def shell_parts(has_results, options=''):
    """The shell parts of both jobs, as GitHub and GitLab run them, with more options. Without results beside the change, the lines are
    left out that the document names for this."""
    (github, gitlab), _ = jobs_text()
    script = re.sub(r'^"(.*)"$', r'\1', part_of(gitlab, 'script', '    - '), flags=re.M)
    for shell in part_of(github, 'run', ' ' * 10), 'set -eo pipefail\n' + script:
        if not has_results:
            shell = re.sub(r'^.*/(?:results|quality)\.sh".*\n', '', shell, flags=re.M)
        yield re.sub(r'^.*/(?:results|review)\.sh".*$', lambda line: line[0] + options, shell, flags=re.M)


def with_branches(folder, branches):
    """Makes a repository of a folder, with branches that have other texts in these files, or lack them; its address."""
    git(folder, 'init', '-q', '-b', 'main')
    commit(folder, {})
    for branch, files in branches.items():
        git(folder, 'checkout', '-q', '-b', branch, 'main')
        commit(folder, files)
    return 'file://' + folder


def commit(folder, files):
    for name, text in files.items():
        if text is None:
            os.remove(os.path.join(folder, name))
        else:
            write(text, folder, name)
    git(folder, 'add', '-A')
    git(folder, 'commit', '-q', '-m', 'Roles')


class Job:
    """A job in a checkout of one branch, as deep as GitHub's."""

    def __init__(self, room, address, branch):
        self.folder = tempfile.mkdtemp(dir=room.path)
        git(self.folder, 'clone', '-q', '--depth', '1', '--branch', branch, address, 'work')
        self.work = os.path.join(self.folder, 'work')
        self.summary = os.path.join(self.folder, 'summary')
        self.environment = room.without_kit(
            room.at('job-tools'), **GIT, ARCHIVE='https://downloads.example.com/' + ARCHIVE,
            GITHUB_BASE_REF='main',
            GITHUB_STEP_SUMMARY=self.summary, RUNNER_TEMP=self.folder, CI_MERGE_REQUEST_TARGET_BRANCH_NAME='main',
            SHA256=sum_of(room.made(ARCHIVE)))

    def run(self, shell, **more):
        return run(['bash', '-ec', shell], self.work, {**self.environment, **more})

    def told(self):
        return bytes_of(self.summary).decode() if os.path.exists(self.summary) else None


# A change that carries programs, a script, links, hidden files and files of folders within, and a name that hides.
HOSTILE = '''{"apiVersion": "rbac.authorization.k8s.io/v1", "kind": "ClusterRoleBinding", "metadata": {"name": "%s"},
"roleRef": {"apiGroup": "rbac.authorization.k8s.io", "kind": "ClusterRole", "name": "cluster-admin"}, "subjects": [{"kind": "User", "name": "%s"}]}'''
OWN_PROGRAM = '#!/bin/sh\necho ran >> ../ran\n'


# What a job leaves, beside its log and its summary.
LEFT = 'summary.md', 'quality.json', '../results/lint.sarif', '../results/diff.sarif'


def hostile(room, address, shells):
    """A job runs nothing of the change, writes through no link of it, and reads what kubectl reads."""
    folder = room.at('hostile')
    git(room.path, 'clone', '-q', address, folder)
    git(folder, 'checkout', '-q', '-b', 'hostile', 'origin/main')
    scripts = 'review.sh', 'results.sh', 'quality.sh'
    programs = [os.path.join(place, name) for place in ('rbacaudit-0/bin', 'rbacaudit-0.1.0-x86_64-linux/bin', 'bin', 'main')
                for name in ('git', 'kubectl', 'kubectl-rbacaudit', 'rbacaudit', 'tr', 'sed', 'jq', *scripts)]
    for name, text in [*((name, OWN_PROGRAM) for name in (*programs, *scripts)), ('rbac/.hidden.json', HOSTILE % ('hidden', 'eve')),
                       ('rbac/in/.x/y.yaml', HOSTILE % ('within', 'x\u202ey')), ('main/rbac/all.json', HOSTILE % ('main', 'eve')),
                       ('rbacaudit.tar.gz', 'no archive')]:
        os.makedirs(os.path.dirname(os.path.join(folder, name)), exist_ok=True)
        write(text, folder, name)
        os.chmod(os.path.join(folder, name), 0o755)
    for name in ('summary.md', 'quality.json', 'results', 'summary', 'changes', 'found', 'log', 'read.json', 'diff.sarif'):
        os.symlink('../stolen', os.path.join(folder, name))
    git(folder, 'add', '-Af')
    git(folder, 'commit', '-q', '-m', 'Better roles')
    git(folder, 'push', '-q', address, 'hostile')
    for shell, name in zip(shells, ('GitHub', 'GitLab')):
        job = Job(room, address, 'hostile')
        write('safe', job.folder, 'stolen')
        got = job.run(shell, **({'GITHUB_STEP_SUMMARY': ''} if name == 'GitLab' else {}))
        told = got[1] + (job.told() or '') + ''.join(bytes_of(job.work, file).decode() for file in LEFT
                                                     if os.path.isfile(os.path.join(job.work, file)))
        holds(name + ', a hostile change: nothing of it runs', not os.path.exists(os.path.join(job.folder, 'ran')) and got[0] == 1, got)
        holds(name + ', a hostile change: no link is written through', bytes_of(job.folder, 'stolen') == b'safe', bytes_of(job.folder, 'stolen'))
        holds(name + ', a hostile change: all files are read', 'ClusterRoleBinding/hidden' in told and 'ClusterRoleBinding/within' in told, told)
        holds(name + ', a hostile change: nothing hides', '\u202e' not in told, told)


# kubectl as the jobs call it, where there is none.
KUBECTL = '''#!/bin/sh
case $1 in
    rbacaudit) shift; exec kubectl-rbacaudit "$@" ;;
    patch) shift 7; exec '%s' '%s' "$@" ;;
esac
''' % (sys.executable, LOCAL_KUBECTL)


def has_kubectl(room):
    """Whether jobs have kubectl, or a stand-in that can read YAML; the tools of jobs are then in a folder."""
    found = shutil.which('kubectl')
    if not found:
        skipped('kubectl', 'the jobs, but by a stand-in')
        if yaml is None:
            skipped('PyYAML', 'the jobs')
            return False
    if not os.path.exists(room.at('job-tools')):
        tools = room.linked('job-tools', *JOB_TOOLS)
        write(CURL % (ARCHIVE, room.made(ARCHIVE)), tools, 'curl')
        write('#!/bin/sh\nexec "%s" "$@"\n' % found if found else KUBECTL, tools, 'kubectl')
        for name in ('curl', 'kubectl'):
            os.chmod(os.path.join(tools, name), 0o755)
    return True


MORE = '+\tu:system:serviceaccount:shop:ci\tshop\tget\t-\tsecrets\t*\tRoleBinding/shop/ci-deploys\n'
LESS = ''.join('-\tg:shop-support\tshop\tget\t-\t%s\t*\tRoleBinding/shop/support\n' % type_ for type_ in ('pods', 'pods/log'))
# What a change of the example cluster gives to whom, and where: three accounts of CI read secrets.
OF_CI = [('u:system:serviceaccount:ci:deploy-' + team, space, 'RoleBinding/%s/ci-deploys' % space, 2, 0, 'secrets', '')
         for team, space in (('checkout', 'checkout'), ('payments', 'payments'), ('payments', 'payments-staging'), ('search', 'search'))]
INDEXER = 'u:system:serviceaccount:search:indexer', 'search', 'RoleBinding/search/indexer', 2, 0, '', ''
NAMELESS = ['L5\taccount-without-namespace\tClusterRoleBinding/indexer-%s\t1\tindexer' % name for name in ('metrics', 'nodes')]
CI = 'u:system:serviceaccount:shop:ci', 'shop', 'RoleBinding/shop/ci-deploys', 1, 0, 'secrets', ''
SUPPORT = 'g:shop-support', 'shop', 'RoleBinding/shop/support', 0, 2, '', ''
UNUSED = 'L2\tunused-role\tRole/shop/support\t-\t-'
LOST = 'lost-permission', 'rbac/support.yaml', 15
# Of each branch: the status, the lines of diff, the lines of the summary, the new findings, and where the results of lint and of diff are.
BRANCHES = {'same': (0, '', [], [], [], []), 'less': (0, LESS, [SUPPORT], [], [], [LOST]),
            'unused': (1, LESS, [SUPPORT], [UNUSED], [('L2', 'rbac/support.yaml', 5)], [LOST]),
            'more': (1, MORE, [CI], [], [], [('gained-permission', 'rbac/deployer.yaml', 5)])}
OF_VIEW = """apiVersion: rbac.authorization.k8s.io/v1
kind: ClusterRole
metadata:
  name: more
  labels: {rbac.authorization.k8s.io/aggregate-to-view: "true"}
rules:
- {apiGroups: [''], resources: [nodes], verbs: [delete]}
"""


def places_in(path):
    """The rule, file and line of each result in a file of SARIF, if there is one."""
    if not os.path.exists(path) or not os.path.getsize(path):
        return None
    found = [(it['ruleId'], it['locations'][0]['physicalLocation']) for it in json.loads(bytes_of(path))['runs'][0]['results']]
    return [(rule, where['artifactLocation']['uri'], where['region']['startLine']) for rule, where in found]


def report(rows, findings):
    """What a job adds to a pull request: who gains and loses how much, as a table, and the new findings."""
    rows = [(*row[:3], *map(str, row[3:5]), *map('[%s]'.__mod__, row[5:])) for row in [
        *rows, ('total', '-', '-', *(sum(row[at] for row in rows) for at in (3, 4)), *(max([row[at] for row in rows], default='') for at in (5, 6)))]]
    table = ['WHO NAMESPACE BINDING GAINED LOST POWERS_GAINED POWERS_LOST'.split(), *rows]
    widths = [max(map(len, column)) for column in zip(*table)]
    lines = ['  '.join(map(str.ljust, row, widths)).rstrip() for row in table]
    below = ''.join('    %s\n' % line for line in lines), len(findings), ''.join('    %s\n' % line for line in findings)
    return '### Who gains and loses what\n\n%s\n### New findings: %d\n\n%s' % below


def has_results(room):
    """Whether this machine has what shows results beside a change; the tools of jobs have it then."""
    if not shutil.which('jq') or yaml is None:
        skipped('jq and PyYAML', 'the results that jobs show beside a change')
        return False
    if not os.path.exists(room.at('job-tools', 'jq')):
        os.symlink(shutil.which('jq'), room.at('job-tools', 'jq'))
    return True


def jobs(room):
    """Both jobs, over manifests: more is allowed, less is, a role is unused, the same is, a file is bad, the archive has another sum."""
    if not has_kubectl(room):
        return
    folder = room.at('manifests')
    shutil.copytree(os.path.join(TOP, 'examples/manifests/main'), folder + '/rbac')
    run(['bash', '-c', jobs_text()[1]], folder)
    address = with_branches(folder, {
        'more': {'rbac/deployer.yaml': text_of('examples/manifests/change/deployer.yaml')}, 'less': {'rbac/support.yaml': None},
        'same': {'README': 'roles'},
        'unused': {'rbac/support.yaml': text_of('examples/manifests/main/support.yaml').partition('---\n')[0]},
        'view': {'rbac/view.yaml': OF_VIEW}, 'bad': {'rbac/deployer.yaml': 'kind: ClusterRole\n\tname: x\n'}})
    are_shown = has_results(room)
    shells = dict(zip(('GitHub', 'GitLab'), shell_parts(are_shown)))
    for name, shell in shells.items():
        for branch, (status, changes, *more) in BRANCHES.items():
            job, told, places, _ = ended(room, address, branch, name, shell)
            holds('%s: %s' % (name, branch), (job[0], told) == (status, report(*more[:2])) and changes in job[1], (job, told))
            holds('%s: %s: results' % (name, branch), not are_shown or places == shown_by(name, *more[2:]), places)
        _, _, places, _ = ended(room, address, 'view', name, shell)
        wanted = shown_by(name, [('L2', 'rbac/view.yaml', 4)], [('gained-permission', 'rbac/view.yaml', 4)])
        holds(name + ": what Kubernetes' view gathers: results", not are_shown or places == wanted, places)
        job, told, _, _ = ended(room, address, 'bad', name, shell)
        holds(name + ': bad', job[0] == 1 and 'rbac/deployer.yaml' in job[1] and not told, job)
        job, told, _, again = ended(room, address, 'same', name, shell, SHA256='0' * 64)
        holds(name + ': another sum', job[0] != 0 and 'read from' not in job[1] and not told, job)
        again.run(shell)
        holds(name + ': once more in the same folder', again.run(shell)[0] == 0)
    hostile(room, address, shells.values())


def ended(room, address, branch, name, shell, **more):
    """What a job over a branch ends with, what it adds to the pull request, where its results are, and the job itself."""
    job = Job(room, address, branch)
    got = job.run(shell, **more, **({'GITHUB_STEP_SUMMARY': ''} if name == 'GitLab' else {}))
    path = os.path.join(job.work, 'summary.md')
    told = job.told() if name == 'GitHub' else bytes_of(path).decode() if os.path.exists(path) else None
    if name == 'GitHub':
        return got, told, [places_in(os.path.join(job.folder, 'results', of + '.sarif')) for of in ('lint', 'diff')], job
    path = os.path.join(job.work, 'quality.json')
    listed = json.loads(bytes_of(path)) if os.path.exists(path) else []
    return got, told, [(it['check_name'], it['location']['path'], it['location']['lines']['begin']) for it in listed], job


def shown_by(name, of_lint, of_diff):
    """Where a job has results: GitLab's shows those of diff alone."""
    return [of_lint, of_diff] if name == 'GitHub' else of_diff


def exported(room):
    """Both jobs with an export of the example cluster beside the manifests, of which the change replaces one and adds others."""
    if not has_kubectl(room):
        return
    folder = room.at('exported')
    os.makedirs(folder + '/prod')
    os.makedirs(folder + '/rbac')
    for path in glob.glob(os.path.join(TOP, 'examples/cluster/*.json')):
        shutil.copy(path, folder + '/prod')
    [role] = [it for it in json.loads(text_of('examples/cluster/cluster.json'))['items']
              if (it['kind'], it['metadata']['name']) == ('ClusterRole', 'deployer')]
    write(json.dumps(role), folder, 'rbac/roles.json')
    run(['bash', '-c', jobs_text()[1]], folder)
    address = with_branches(folder, {'same': {'README': 'roles'}, 'more': {
        'rbac/roles.json': text_of('examples/cluster/change/roles.json'), 'review.sh': 'exit 0', 'prod/cluster.json': '{}'}})
    for name, shell in zip(('GitHub', 'GitLab'), shell_parts(has_results(room), ' --export "$room/main/prod"')):
        for branch, status, wanted in (('more', 1, report([*OF_CI, INDEXER], NAMELESS)), ('same', 0, report([], []))):
            job, told, _, _ = ended(room, address, branch, name, shell)
            holds('%s, with an export: %s' % (name, branch), (job[0], told) == (status, wanted), (job, told))


def all_of_it():
    for tool in ('git', 'readelf', 'strip'):
        if not shutil.which(tool):
            skipped(tool, 'everything')
            return
    with tempfile.TemporaryDirectory() as path:
        room = Room(path)
        packed(room)
        parts = entries, proved, refusals, instant, installed, as_told, containerfile, krew, jobs, exported
        for part in parts if all(results) else ():
            part(room)


if __name__ == '__main__':
    sys.exit(tested(all_of_it))
