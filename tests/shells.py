"""The completions for bash, zsh and fish and the man page, against what the built program's help says, and at work.

Each of the four files is as `make words` writes it, and has every command, every option under its command and every default
that help has, and no others. Options that help gets are in all four, and the shells complete them.
Each shell that the machine has completes lines. The man page renders without a warning, and its examples are run in
examples/. `make install` puts the files where they are looked for. What is skipped, since the machine lacks a shell or a
renderer, stands in the last line but one. The last line is `N passed, M failed`.
"""

import fcntl
import os
import pty
import re
import select
import shutil
import signal
import struct
import subprocess
import sys
import tempfile
import termios

from common import PROGRAM, TOP, checked, skipped, tested

sys.dont_write_bytecode = True
sys.path.append(os.path.join(TOP, 'tools'))
from words import PLUGIN_MAN, described, written  # noqa: E402

COMPLETIONS = os.path.join(TOP, 'completions')
MAN = os.path.join(TOP, 'man', 'rbacaudit.1')
VERBS = 'get list watch create update patch delete deletecollection use bind escalate impersonate'.split()
DEFAULT = re.compile(r' \(default: (.*?)\)')
# What a shell waits for is there at once; this long means never.
PATIENCE = 120


def contents(path):
    with open(path, encoding='utf-8') as file:
        return file.read()


def path_with_program():
    return os.path.dirname(PROGRAM) + os.pathsep + os.environ['PATH']


# ---- help

def help_of(*command):
    return subprocess.run([PROGRAM, *command, '--help'], stdout=subprocess.PIPE, timeout=60).stdout.decode()


def entries(text, title, pattern):
    """The lines of a part of a help text, each taken apart."""
    part = re.search(r'^%s:\n((?: .*\n)+)' % title, text, re.M)
    return [re.fullmatch(pattern, line).groups('') for line in part[1].splitlines()] if part else []


def commands():
    """The commands and what each does."""
    return dict(entries(help_of(), 'Commands', r'  (\S+) +(.*)'))


def arguments(command):
    """The words of a command that aren't options, and what each is."""
    return dict(entries(help_of(command), 'Arguments', r'  [<\[](\w+)\S+ +(.*)'))


def options(*command):
    """The options of a command, or of the program: what value each has and what it means, under its spellings."""
    found = entries(help_of(*command), 'Options', r' {2,6}(?:(-\w), )?(--[\w-]+)(?: <(\S+)>(?:\.\.\.)?)? +(.*)')
    return {spellings(short, long): (value, text) for short, long, value, text in found}


def spellings(short, long):
    return (short, long) if short else (long,)


def steps():
    """The steps that help of powers describes."""
    return re.findall(r'^  ([a-z]+) {2,}[a-z].*$', help_of('powers'), re.M)


def default_of(text):
    return ''.join(DEFAULT.findall(text))


def is_short_for(short, text):
    """Whether a description is help's own, perhaps without its details, and with its default."""
    words = DEFAULT.sub('', short)
    return text.startswith(words) and re.match(r'$|[,:;]| \(', text[len(words):]) and default_of(short) == default_of(text)


# ---- what the files say

def generated():
    """Each file has what `make words` writes into it."""
    for name, text, wanted in written():
        checked('%s is as make words writes it' % name, text == wanted, 'run make words')



def agrees(name, said, wanted, same=None):
    """One check: these are the keys that are wanted, and what stands under each is the same."""
    wrong = sorted(set(said) ^ set(wanted)) or [key for key in wanted if same and not same(said[key], wanted[key])]
    checked(name, not wrong, 'of %r: %r, wanted %r' % (wrong, said, wanted))


def is_described(said, wanted):
    return said[0] == wanted[0] and is_short_for(said[1], wanted[1])


def bash_file():
    """In its table an option with a value has = and the kind of it, and one that may be repeated has +."""
    text = contents(os.path.join(COMPLETIONS, 'rbacaudit.bash'))
    tables = dict(re.findall(r"^ +([\w-]+|'')\)\n +options='([^']*)'\n", text, re.M))
    agrees('bash: the commands', re.search(r"\[command\]='(.*)'", text)[1].split(), commands())
    agrees('bash: the commands that have options', tables, ["''", *commands()])
    for command in ('', *commands()):
        said = {tuple(re.split(r'[+=]', group)[0].split(',')): ('=' in group, '+' in group) for group in tables[command or "''"].split()}
        agrees('bash: the options of %s' % (command or 'the program'), said, options(*command.split()),
               lambda said, wanted: said == (bool(wanted[0]), may_be_repeated(wanted[1])))


def fish_file():
    text = contents(os.path.join(COMPLETIONS, 'rbacaudit.fish'))
    said = dict(re.findall(r"""^complete .* -a (\S+) -d '(.*)'$""", text, re.M))
    agrees('fish: the commands', said, commands(), is_short_for)
    text = re.sub(r"-k -a '[^']*' ", '', text.replace(' \\\n    ', ' '))
    found = re.findall(r"^complete -c rbacaudit -n '__rbacaudit_(?:lacks (\S+)|words -ge 0) (.*)' (?:-s (\w) )?-l (\S+) (-x |-r -F )?-d '(.*)'$", text, re.M)
    checked('fish: all options are told apart', len(found) == len(re.findall(r'^complete .*-l ', text, re.M)), repr(found))
    for command in ('', *commands()):
        wanted = options(*command.split())
        # (one that may be repeated is offered whether the line has it or not)
        said = {spellings(short and '-' + short, '--' + long): (value, text, not asked) for asked, where, short, long, value, text in found
                if (command or '""') in where.split() and asked in ('', long)}
        agrees('fish: the options of %s' % (command or 'the program'), said, wanted, lambda said, wanted: bool(said[0]) == bool(wanted[0]) and
               is_short_for(said[1], wanted[1]) and said[2] == may_be_repeated(wanted[1]))


def zsh_file():
    text = contents(os.path.join(COMPLETIONS, '_rbacaudit'))
    arrays = dict(re.findall(r'^(\w+)=\(\n?(.*?)\)$', text, re.S | re.M))
    agrees('zsh: the commands', dict(re.findall(r"'([\w-]+):(.*)'", arrays['commands'])), commands(), is_short_for)
    calls = re.findall(r'^ *(?:([\w-]+)\) )?_arguments (.*) && ret=0', text, re.M)
    agrees('zsh: the commands at work', [command for command, _ in calls], ['', *commands()])
    for command, call in calls:
        specs = re.sub(r'\$(\w+)', lambda name: arrays[name[1]], call)
        found = re.findall(r"(?:'(\([^)]*\)|\*)'\{(.*?)\}'|'(\*?)(--[\w-]+=?))\[(.*?)\](?::([^\s:]+):[^']*)?'", specs)
        said = {tuple(re.findall(r'--?[\w-]+', names + name)): (value, text, '*' in (first, star)) for first, names, star, name, text, value in found}
        agrees('zsh: the options of %s' % (command or 'the program'), said, options(*command.split()),
               lambda said, wanted: is_described(said, wanted) and said[2] == may_be_repeated(wanted[1]))


# ---- the man page

def plain(text):
    """Text of the man page as it is read."""
    text = re.sub(r'^\.[BI]R? ', '', re.sub(r'\\f.|\\%', '', text), flags=re.M)
    return text.replace('\\-', '-').replace('\\~', ' ').replace('\\e', '\\').replace('\\(dq', '"')


def part_of_man(title, kind='SH'):
    """What stands in a section of the man page, or in a part of one (SS)."""
    ends = r'^\.S[HS] ' if kind == 'SS' else r'^\.SH '
    return re.search(r'^\.%s %s\n(.*?)(?=%s|\Z)' % (kind, re.escape(title.replace('-', '\\-')), ends), contents(MAN), re.S | re.M)[1]


def tagged(part):
    """The paragraphs that have a tag, as they are read."""
    return {plain(tag): plain(text).replace('\n', ' ') for tag, text in re.findall(r'^\.TP\n(.*)\n((?:(?!\.TP|\.PP).*\n)+)', part, re.M)}


def options_in(part):
    """The options that a part of the man page describes: their values and descriptions, under their spellings."""
    found = {}
    for tag, text in tagged(part).items():
        option = re.fullmatch(r'(?:(-\w)( \S+)?, )?(--[\w-]+)( \S+)?', tag)
        # (a value follows each spelling)
        if option and (not option[1] or option[2] == option[4]):
            found[spellings(option[1], option[3])] = ((option[4] or '').strip(), text)
    return found


def has_default(said, wanted):
    """Whether a description names the value, and the default as help does."""
    return said[0] == wanted[0] and ''.join(re.findall(r'Default: (.*?)\.', said[1])) == default_of(wanted[1])


def man_file():
    """The options of the program itself are described once, for all commands."""
    general = options()
    agrees('man: the commands', re.findall(r'^\.SS (.*)$', contents(MAN).replace('\\-', '-'), re.M), [*commands()])
    agrees('man: the options of the program', options_in(part_of_man('OPTIONS')), general, has_default)
    words = {}
    for command in commands():
        wanted = {names: it for names, it in options(command).items() if names not in general}
        agrees('man: the options of %s' % command, options_in(part_of_man(command, 'SS')), wanted, has_default)
        words.update(arguments(command))
    agrees('man: the arguments', tagged(part_of_man('ARGUMENTS')), words, lambda said, text: has_default(('', said), ('', text)))
    known = {name for command in ('', *commands()) for names in options(*command.split()) for name in names} | {'--raw'}
    strange = set(re.findall(r'(?<![\w-])--[a-z][a-z-]*', plain(contents(MAN)))) - known
    checked('man: no option that help has not', not strange, repr(strange))


def man_facts():
    """The version, the synopsis, the findings of lint and the limits are the program's and those of the documents."""
    version = subprocess.run([PROGRAM, '--version'], stdout=subprocess.PIPE, timeout=60).stdout.decode().strip()
    checked('man: the version', re.match(r'.*\n.*\n\.TH RBACAUDIT 1 \S+ "%s"' % re.escape(version), contents(MAN)), version)
    synopsis = [plain(re.sub(r'\.SY "(.*)"', r'\1', lines)).split() for lines in re.findall(r'(\.SY .*?)\n\.YS', contents(MAN), re.S)]
    lines = re.findall(r'^`(rbacaudit .*?)\.*`$', contents(os.path.join(TOP, 'docs', 'BEHAVIOUR.md')), re.M)
    agrees('man: the synopsis', [' '.join(words).rstrip('.').replace('...', '..') for words in synopsis], lines)
    findings = [' '.join(it) for it in re.findall(r'^  (L\d)  (\S+)', help_of('lint'), re.M)]
    said = [tag for tag in tagged(part_of_man('lint', 'SS')) if not tag.startswith('--')]
    agrees('man: the findings of lint', said, findings)
    limits = contents(os.path.join(TOP, 'docs', 'FORMATS.md')).partition('## Limits\n')[2]
    for limit in sorted(set(re.findall(r'\d[\d,]*\d', limits))):
        checked('man: the limit %s' % limit, re.search(r'\b%s\b' % limit, part_of_man('LIMITS')))


def rendered():
    """The page is rendered well."""
    renders(MAN, {name for command in ('', *commands()) for names in options(*command.split()) for name in names})


def renders(page, names):
    """Each renderer that there is writes a page without a warning, and loses none of the options."""
    renderers = {'man': ['man', '--warnings', '-l', page], 'groff': ['groff', '-man', '-ww', '-Tascii', '-P-c', page],
                 'mandoc': ['mandoc', '-Tascii', page]}
    for renderer, words in renderers.items():
        if not shutil.which(renderer):
            skipped(renderer, os.path.basename(page))
            continue
        ended = subprocess.run(words, stdin=subprocess.DEVNULL, stdout=subprocess.PIPE, stderr=subprocess.PIPE, timeout=60,
                               env=dict(os.environ, LC_ALL='C', MANWIDTH='80', MANPAGER='cat'))
        text = re.sub(r'.\x08', '', ended.stdout.decode())
        lost = [name for name in names if not re.search(r'(?<![\w-])%s(?![\w-])' % name, text)]
        checked('%s renders %s' % (renderer, os.path.basename(page)), ended.returncode == 0 and not ended.stderr and not lost, '%r %r' % (lost, ended.stderr))
    if shutil.which('mandoc'):
        ended = subprocess.run(['mandoc', '-Tlint', page], stdout=subprocess.PIPE, stderr=subprocess.STDOUT, timeout=60)
        checked('mandoc -Tlint finds nothing', ended.returncode == 0 and not ended.stdout, ended.stdout.decode())


def examples():
    """Each example of the man page is run, and prints what the page shows."""
    blocks = re.findall(r'^\.EX\n(.*?)^\.EE', part_of_man('EXAMPLES'), re.S | re.M)
    for command, wanted in re.findall(r'^\$ ((?:.*\\\n)*.*\n)((?:(?!\$ ).*\n)*)', plain(''.join(blocks)), re.M):
        ended = subprocess.run(['bash', '-c', command], cwd=os.path.join(TOP, 'examples'), env=dict(os.environ, PATH=path_with_program()),
                               stdout=subprocess.PIPE, stderr=subprocess.STDOUT, timeout=60)
        checked('man: %s' % command.strip(), ended.stdout.decode() == wanted, 'got %r' % ended.stdout.decode())
    for command in commands():
        checked('man: an example of %s' % command, '$ rbacaudit %s ' % command in plain(''.join(blocks)))


# ---- the shells at work

# The rc files of bash and zsh: rbacaudit prints its words, and ^Xa writes all that is offered into the line. The prompt and
# the marks around the words are bytes that no shell writes otherwise.
BASH = r"""
PS1=$'\x1c'
bind 'set enable-bracketed-paste off'
bind '"\C-xa": insert-completions'
source "$COMPLETIONS/rbacaudit.bash"
rbacaudit() { printf '\x1e%s' "$@"; printf '\x1d'; }
"""
ZSH = r"""
PS1=$'\x1c'
unset zle_bracketed_paste
fpath=("$COMPLETIONS" $fpath)
autoload -U compinit
compinit -D -u
zle -C all-matches complete-word _generic
bindkey '^Xa' all-matches
zstyle ':completion:all-matches::::' completer _all_matches _complete
zstyle ':completion:all-matches:*' insert true
rbacaudit() { printf '\x1e%s' "$@"; printf '\x1d'; }
"""
FISH = r"""
set fish_complete_path $COMPLETIONS
for line in $argv
    complete -C $line
    printf '\x1d'
end
"""


class Terminal:
    """A shell with a terminal of its own."""

    def __init__(self, words, home, folder, completions):
        self.process, self.terminal = pty.fork()
        if not self.process:
            os.chdir(folder)
            os.execvpe(words[0], words, {**clean(home, completions), 'TERM': 'dumb'})
        # (wide enough for every line)
        fcntl.ioctl(self.terminal, termios.TIOCSWINSZ, struct.pack('HHHH', 50, 2000, 0, 0))
        self.read(rb'\x1c')

    def read(self, pattern):
        """What the shell writes until it has written this."""
        got = b''
        while not re.search(pattern, got):
            if not select.select([self.terminal], [], [], PATIENCE)[0]:
                raise TimeoutError('the shell wrote %r' % got)
            got += os.read(self.terminal, 65536)
        return got

    def offered(self, line):
        """What is offered for the last word of the line: the words that ^Xa puts in its place."""
        os.write(self.terminal, line.encode() + b'\x18a\r')
        got = self.read(rb'\x1d[^\x1c]*\x1c').partition(b'\x1d')[0].decode()
        *before, last = line.split(' ')[1:]
        found = got.split('\x1e')[1 + len(before):]
        return [] if found == [last] else found

    def end(self):
        os.kill(self.process, signal.SIGKILL)
        os.waitpid(self.process, 0)
        os.close(self.terminal)


def clean(home, completions):
    """An environment without anybody's settings, but with rbacaudit on the PATH: fish completes no command that isn't there."""
    return {'PATH': path_with_program(), 'LC_ALL': 'C.UTF-8', 'HOME': home, 'ZDOTDIR': home, 'XDG_CONFIG_HOME': home,
            'XDG_DATA_HOME': home, 'COMPLETIONS': completions, 'INPUTRC': '/dev/null', 'HISTFILE': ''}


def in_terminal(words, lines, home, folder, completions):
    terminal = Terminal(words, home, folder, completions)
    try:
        return [terminal.offered(line) for line in lines]
    finally:
        terminal.end()


def in_bash(lines, home, folder, completions):
    return in_terminal(['bash', '--rcfile', home + '/.bashrc', '-i'], lines, home, folder, completions)


def in_zsh(lines, home, folder, completions):
    return in_terminal(['zsh', '-d', '-i'], lines, home, folder, completions)


def in_fish(lines, home, folder, completions):
    ended = subprocess.run(['fish', '-c', FISH, *lines], cwd=folder, env=clean(home, completions), stdin=subprocess.DEVNULL,
                           stdout=subprocess.PIPE, stderr=subprocess.STDOUT, timeout=PATIENCE)
    return [[found.partition('\t')[0] for found in lines.splitlines()] for lines in ended.stdout.decode().split('\x1d')[:-1]]


SHELLS = {'bash': in_bash, 'zsh': in_zsh, 'fish': in_fish}


def may_be_repeated(text):
    return 'may be repeated' in text


def of_options():
    """Lines that end in an option, each with all that is to be offered: none twice that is given once, and of values steps alone."""
    for command in ('', *commands()):
        here = options(*command.split())
        line = ' '.join(['rbacaudit', *command.split(), ''])
        yield line + '-', [name for names in here for name in names]
        for names, (value, text) in here.items():
            left = [others for others in here if others != names or may_be_repeated(text)]
            for name in names if text not in ('Print help', 'Print version') else ():
                yield line + name + (' x' if value else '') + ' -', [other for others in left for other in others]
                if value and value not in ('FILE', 'LOG'):
                    yield line + name + ' ', steps() if value == 'STEPS' else []
            if value:
                if value not in ('FILE', 'LOG', 'STEPS'):
                    yield line + names[-1] + '=', []
                yield line + names[-1] + '=x --', [other for others in left for other in others if len(other) > 2]


def of_words():
    """Lines that end in another word, each with all that is to be offered."""
    yield 'rbacaudit ', [*commands()]
    yield 'rbacaudit m', ['matrix']
    yield 'rbacaudit r', ['rules']
    yield 'rbacaudit nothing ', []
    for command in ('can-i', 'who-can'):
        yield 'rbacaudit %s ' % command, VERBS
        yield 'rbacaudit %s delete' % command, ['delete', 'deletecollection']
        yield 'rbacaudit %s get ' % command, []
        yield 'rbacaudit %s -n shop --subresource=log -A ' % command, VERBS
        yield 'rbacaudit %s -nshop get ' % command, []
        yield 'rbacaudit %s -An shop get ' % command, []
    yield 'rbacaudit can-i --as system:serviceaccount:shop:ci ', VERBS
    yield 'rbacaudit can-i --as=system:serviceaccount:shop:ci -q get ', []
    yield 'rbacaudit can-i -Aqn shop --', ['--as', '--groups', '--group', '--in-namespace', '--subresource', '--why', '--why-not', '--help']
    yield 'rbacaudit who-can -- -', []
    yield 'rbacaudit who-can --in', ['--in-namespace', '--indirect']
    yield 'rbacaudit who-can --indirect --steps e', ['exec', 'escalate']
    yield 'rbacaudit who-can --indirect --steps run,exec ', VERBS
    yield 'rbacaudit who-can --steps=run get pods --indirect --s', ['--subresource']
    yield 'rbacaudit rules ', []
    yield 'rbacaudit rules -n shop --groups a,b ', []
    yield 'rbacaudit rules u:system:serviceaccount:shop:ci -An shop --', ['--groups', '--group', '--help']
    yield 'rbacaudit p', ['powers', 'paths']
    yield 'rbacaudit paths --steps e', ['exec', 'escalate']
    yield 'rbacaudit paths --steps run,exec ', []
    yield 'rbacaudit paths u:system:serviceaccount:shop:ci --steps=run --', ['--groups', '--group', '--to', '--namespace', '--help']
    yield 'rbacaudit paths --to u:kim -n shop --t', []
    yield 'rbacaudit paths --to u:kim ', []
    yield 'rbacaudit u', ['universe', 'unused']
    yield 'rbacaudit unused --', ['--log', '--skip-system', '--help']
    yield 'rbacaudit unused --skip-system --log=a.log --', ['--log', '--help']
    yield 'rbacaudit l', ['lint', 'least']
    yield 'rbacaudit least ', []
    yield 'rbacaudit least --names --log=a.log u:kim --', ['--log', '--name', '--help']
    yield 'rbacaudit least --name ci --log a.log ', []
    yield 'rbacaudit least --name', ['--name', '--names']
    yield 'rbacaudit matrix --once --', ['--every', '--after', '--limit', '--help']
    yield 'rbacaudit d', ['diff']
    yield 'rbacaudit diff --before a.json b.json --', ['--after', '--without', '--with', '--help']
    yield 'rbacaudit diff --before a.json --without b.json --w', ['--with']
    yield 'rbacaudit diff --before a.json --with=b.json --with', ['--without']


# Lines that end in a FILE, where the folder has these. Only JSON files need be offered, and the folders that may have some.
FILES = ['a.json', 'b.json', 'notes.txt', 'sub/c.json']
OF_FILES = {
    'rbacaudit can-i get pods ': {'a.json', 'b.json', 'sub'},
    'rbacaudit who-can --subresource log get pods a.json ': {'a.json', 'b.json', 'sub'},
    'rbacaudit who-can get pods a': {'a.json'},
    'rbacaudit who-can --indirect --steps run get pods ': {'a.json', 'b.json', 'sub'},
    'rbacaudit who-can --steps=run,exec delete nodes --indirect a': {'a.json'},
    'rbacaudit rules g:dev ': {'a.json', 'b.json', 'sub'},
    'rbacaudit rules --groups dev u:system:serviceaccount:shop:ci a': {'a.json'},
    'rbacaudit paths --steps run u:kim ': {'a.json', 'b.json', 'sub'},
    'rbacaudit paths g:dev --steps=run,exec a': {'a.json'},
    'rbacaudit matrix ': {'a.json', 'b.json', 'sub'},
    'rbacaudit matrix --limit 3 a.json b': {'b.json'},
    'rbacaudit matrix --once a': {'a.json'},
    'rbacaudit universe ': {'a.json', 'b.json', 'sub'},
    'rbacaudit universe a.json sub/': {'sub/c.json'},
    'rbacaudit lint ': {'a.json', 'b.json', 'sub'},
    'rbacaudit lint sub/': {'sub/c.json'},
    'rbacaudit lint -- a': {'a.json'},
    'rbacaudit lint --skip-system --only L1,L6 a': {'a.json'},
    'rbacaudit unused --log ': {'a.json', 'b.json', 'sub'},
    'rbacaudit unused --log a.log --log sub/': {'sub/c.json'},
    'rbacaudit unused --log=notes.txt --skip-system a': {'a.json'},
    'rbacaudit least --log ': {'a.json', 'b.json', 'sub'},
    'rbacaudit least --log a.log u:kim ': {'a.json', 'b.json', 'sub'},
    'rbacaudit least u:kim --names --log=notes.txt --name ci a': {'a.json'},
    'rbacaudit diff --before ': {'a.json', 'b.json', 'sub'},
    'rbacaudit diff --before a.json b': {'b.json'},
    'rbacaudit diff --before a.json b.json --after a.json ': {'a.json', 'b.json', 'sub'},
    'rbacaudit diff --after a.json --before sub/': {'sub/c.json'},
    'rbacaudit diff --before a.json --with ': {'a.json', 'b.json', 'sub'},
    'rbacaudit diff --before a.json --with b.json --without a': {'a.json'},
}


def write(folder, files):
    for name, text in files.items():
        path = os.path.join(folder, name)
        os.makedirs(os.path.dirname(path), exist_ok=True)
        with open(path, 'w', encoding='utf-8') as file:
            file.write(text)


def at_work(shell, wanted, of_files, completions=COMPLETIONS):
    """What the shell offers for lines that end in words, and for lines that end in a FILE."""
    if not shutil.which(shell):
        skipped(shell, 'completed lines')
        return
    with tempfile.TemporaryDirectory() as home, tempfile.TemporaryDirectory() as folder:
        write(home, {'.bashrc': BASH, '.zshrc': ZSH})
        write(folder, dict.fromkeys(FILES, '{}'))
        lines = [*wanted, *of_files]
        try:
            got = dict(zip(lines, SHELLS[shell](lines, home, folder, completions)))
        except OSError as fault:
            checked('%s completes lines' % shell, False, repr(fault))
            return
    for line, words in wanted.items():
        checked('%s: %s' % (shell, line), sorted(got[line]) == sorted(words), 'got %r' % got[line])
    for line, names in of_files.items():
        checked('%s: %s' % (shell, line), names <= {name.rstrip('/') for name in got[line]} <= names | {'notes.txt'}, 'got %r' % got[line])


def shells():
    for shell in SHELLS:
        at_work(shell, {**dict(of_options()), **dict(of_words())}, OF_FILES)


# ---- help that has more

# Options that help could have, by their command, with signs that a shell or troff takes for its own.
MORE = {
    'can-i': '''  -f, --file <FILE>  It's [a] file: C:\\x, -n or 'get' of USER (default: "none")\n''',
    'lint': '''  -x, --of-verb <VERB>  Verb to look at; may be repeated (default: any)
      --plain  Plain words up to where a line of the source is as wide as it may be, then 'more' of them
''',
}
OF_MORE = {
    'rbacaudit can-i --file a.json ': VERBS,
    'rbacaudit can-i -qf a.json get pods --w': ['--why', '--why-not'],
    'rbacaudit can-i --f': ['--file'],
    'rbacaudit can-i -qf a.json --f': [],
    'rbacaudit lint --of-verb ': VERBS,
    'rbacaudit lint -x delete': ['delete', 'deletecollection'],
    'rbacaudit lint --of-verb get --': ['--only', '--skip-system', '--of-verb', '--plain', '--help'],
    'rbacaudit lint --plain -x get --': ['--only', '--skip-system', '--of-verb', '--help'],
    'rbacaudit who-can -n shop --of': [],
}
FILES_OF_MORE = {
    'rbacaudit can-i -qf ': {'a.json', 'b.json', 'sub'},
    'rbacaudit can-i --file a.json get pods a': {'a.json'},
    'rbacaudit lint --plain --of-verb get ': {'a.json', 'b.json', 'sub'},
}
MAN_OF_MORE = r"""
.\" generated by tools/words.py: --file
.TP
\fB\-f\fR \fIFILE\fR, \fB\-\-file\fR \fIFILE\fR
It's [a] file: C:\ex, \fB\-n\fR or 'get' of \fIUSER\fR.
Default: "none".
.\" end
.SS who\-can
""", r"""
.\" generated by tools/words.py: --of-verb
.TP
\fB\-x\fR \fIVERB\fR, \fB\-\-of\-verb\fR \fIVERB\fR
Verb to look at; may be repeated.
Default: any.
.\" end
.\" generated by tools/words.py: --plain
.TP
\fB\-\-plain\fR
Plain words up to where a line of the source is as wide as it may be, then
\&'more' of them.
.\" end
.TP
.B L1 dangling\-role
""", r"""
.\" generated by tools/words.py: L8
.TP
.B L8 odd\-role
A role is odd, such as \fB\-\-only\fR.
.\" end
.SS powers
"""


def help_printed(folder, change):
    """A program that prints help as it would be after a change of each text: of the program's, and of each command's."""
    for command in ('', *commands()):
        write(folder, {'of ' + command: change(command, help_of(*command.split()))})
    path = os.path.join(folder, 'rbacaudit')
    write(folder, {'rbacaudit': '#!/bin/sh\n[ $# -eq 2 ] || set -- "" "$@"\ncat "${0%/*}/of $1"\n'})
    os.chmod(path, 0o755)
    return path


def words_made(folder, change):
    """How `make words` ends in a copy of what it writes, with help as it would be after a change of each text, and what it says."""
    for part in ('tools', 'plugin/rbacaudit_kubectl'):
        shutil.copytree(os.path.join(TOP, part), os.path.join(folder, part), dirs_exist_ok=True, ignore=shutil.ignore_patterns('__pycache__'))
    ended = subprocess.run([sys.executable, os.path.join(folder, 'tools', 'words.py'), help_printed(folder, change)],
                           stdout=subprocess.PIPE, stderr=subprocess.STDOUT, timeout=60)
    return ended.returncode, ended.stdout.decode()


def copied(folder):
    """The files that `make words` writes, as they are, in a folder."""
    write(folder, {name: text for name, text, _ in written()})


def more_options():
    """`make words` writes an option that help has, and no file knew, so that each shell completes it and the man page has it."""
    def change(command, text):
        text = text.replace('  -h, --help', MORE.get(command, '') + '  -h, --help')
        return re.sub(r'(?m)^(  L7 .*)$', r'\1\n  L8  odd-role    a role is odd, e.g. --only', text)

    names = [name for name, _, _ in written()]
    with tempfile.TemporaryDirectory() as folder:
        copied(folder)
        # (the plugin's options aren't of help)
        said = ''.join(name + ('' if name != PLUGIN_MAN else ': as it was') + '\n' for name in names)
        checked('make words: options more', words_made(folder, change) == (0, said))
        checked('make words: and once more', words_made(folder, change) == (0, ''.join(name + ': as it was\n' for name in names)))
        for shell in SHELLS:
            at_work(shell, OF_MORE, FILES_OF_MORE, os.path.join(folder, 'completions'))
        man = os.path.join(folder, 'man', 'rbacaudit.1')
        for part in MAN_OF_MORE:
            checked('man: more of %s' % part.split()[5], part in contents(man), contents(man))
        renders(man, {'--file', '-f', '--of-verb', '--plain', 'odd-role'})


def other_help():
    """What `make words` can't do it says, and writes nothing."""
    changes = {
        "man/rbacaudit.1 describes --only below '.SS lint', and help doesn't: take it out":
            lambda _, text: re.sub(r'(?m)^ +--only .*\n', '', text),
        "man/rbacaudit.1 has no line '.SS seen': write one, and what is to be said below it":
            lambda command, text: text if command else text.replace('  diff  ', '  seen  '),
        "not understood in the Options of help: '      --only CODES  Some of them'":
            lambda _, text: re.sub(r'(?m)^ +--only .*$', '      --only CODES  Some of them', text),
    }
    for wanted, change in changes.items():
        with tempfile.TemporaryDirectory() as folder:
            copied(folder)
            write(folder, {'of seen': help_of('matrix')})
            said = words_made(folder, change)
            same = all(contents(os.path.join(folder, name)) == text for name, text, _ in written())
        checked('make words: %s' % wanted, said == (1, 'make words: %s\n' % wanted) and same, 'got %r, and what was written is %s' % (said, same))


def paragraphs_by_hand():
    """A paragraph by hand stays, but for its tag and its default, which are help's; one from help has the place of its option."""
    wanted = {'--one': ('\\fB\\-\\-one\\fR \\fIN\\fR', 'From help.\nDefault: 2.\n'), '--two': ('\\fB\\-\\-two\\fR', 'From help.\n')}
    text, other = '.SH A\nText.\n', '.TP\n.B L1\nMore.\n.PP\nLast.\n.SH B\n'
    one, two = ('.\\" generated by tools/words.py: %s\n.TP\n%s\n%s.\\" end\n' % (about, *it) for about, it in wanted.items())
    by_hand = '.TP\n%s\nBy hand.\nDefault: %d.\nAnd more.\n'
    for given, made in (
            (text + other, text + one + two + other),
            (text + by_hand % (wanted['--two'][0], 1) + other, text + one + by_hand % (wanted['--two'][0], 1) + other),
            (text + by_hand % ('\\fB\\-\\-one\\fR', 1) + two.replace('From help', 'Before') + other,
             text + by_hand % (wanted['--one'][0], 2) + two + other),
            (text + two + one + '.SH B\n', text + one + two + '.SH B\n')):
        got = described(given, '.SH A', wanted)
        checked('man: paragraphs by hand and from help: %r' % given, got == made, 'got %r' % got)


def installed():
    """`make install` puts each file where it is looked for, and the program beside them."""
    places = {'completions/rbacaudit.bash': 'bash-completion/completions/rbacaudit',
              'completions/_rbacaudit': 'zsh/site-functions/_rbacaudit',
              'completions/rbacaudit.fish': 'fish/vendor_completions.d/rbacaudit.fish', 'man/rbacaudit.1': 'man/man1/rbacaudit.1'}
    with tempfile.TemporaryDirectory() as folder:
        # (the program is built, and isn't to be proved once more)
        subprocess.run(['make', '-s', '-o', 'build', 'install', 'DESTDIR=' + folder, 'PREFIX=/usr'], cwd=TOP, timeout=60)
        checked('make install: bin/rbacaudit', os.access(os.path.join(folder, 'usr/bin/rbacaudit'), os.X_OK))
        for name, place in places.items():
            path = os.path.join(folder, 'usr/share', place)
            checked('make install: share/%s' % place, os.path.isfile(path) and contents(path) == contents(os.path.join(TOP, name)))


if __name__ == '__main__':
    sys.exit(tested(generated, bash_file, fish_file, zsh_file, man_file, man_facts, rendered, examples, shells, more_options, other_help,
                    paragraphs_by_hand, installed))
