"""Options: one table, from which words are read, and help, completions and the man page are made."""

from __future__ import annotations

import os
from collections.abc import Iterable, Iterator, Sequence
from dataclasses import dataclass
from typing import NoReturn

from .terminal import Ended, Refused, print_text


@dataclass(frozen=True)
class Option:
    """An option: its spellings, what its value is called, the field of Options that it sets, what it does, and whether it may come again."""
    names: str
    value: str = ''
    field: str = ''
    text: str = ''
    repeats: bool = False

    @property
    def spellings(self) -> tuple[str, ...]:
        return tuple(self.names.split(','))

    @property
    def long(self) -> str:
        return self.spellings[-1]


AS_KUBECTL = 'as in kubectl'
TARGETS = (Option('--context', 'NAME', 'context', AS_KUBECTL), Option('--kubeconfig', 'FILE', 'kubeconfig', AS_KUBECTL),
           Option('--request-timeout', 'TIME', 'timeout', AS_KUBECTL))
OWN = (Option('--export', 'DIR', 'exports', 'answer from the export in DIR, without a cluster', True),
       Option('--partial', '', 'partial', 'answer although a part of the export is missing, or the roles of some bindings of manifests'), *TARGETS)
SHOWN = (Option('-o,--output', 'FORMAT', 'format', 'table (on a terminal), wide, json, name, tsv: lines (elsewhere); lint, diff: sarif; paths: dot'),
         Option('--no-headers', '', 'headless', 'a table without its head'),
         Option('--color', 'WHEN', 'color', 'with colors: auto, always or never (rbacaudit-show --help)'))
BARE = Option('--no-defaults', '', 'bare', "with manifests alone, leave out the roles and bindings that Kubernetes itself makes")
OF_DIFF = (
    Option('--with', 'PATH', 'with_', 'manifests whose objects are added to the export, or replace its objects'),
    Option('--without', 'PATH', 'without', 'manifests whose objects are first removed from the export, by kind, namespace and name'),
    Option('--from', 'PATH', 'before', 'the manifests before the change; with --export, the same as --without'),
    Option('--to', 'PATH', 'after', 'the manifests after the change; with --export, the same as --with'),
    Option('-n,--namespace', 'NS', 'namespace', 'the namespace for roles and bindings of manifests that have none (default: default)'),
    Option('--summary', '', 'summary', 'counts instead of lines: the permissions gained and lost for each who, where and binding, the powers '
           'among them, which are ways to take over somebody else, and a total'),
    Option('--fail-on', 'WHAT', 'fail_on', 'end with status 1 for changes (default), only for gains, or only for powers that are gained'),
    Option('--kustomize', '', 'kustomize', 'with --fail-on: a folder with a kustomization is meant to be rendered'), BARE)
OF_LOGS = (Option('--log', 'LOG', 'logs', 'an audit log of the API server: a file, which may be one of gzip, or - for standard input; it may '
                  'be given more than once', True),)
OF_READ = (Option('-n,--namespace', 'NS', 'namespace', 'put the roles and bindings that have no namespace into NS'),)
OF_PAGE = (
    Option('-n,--namespace', 'NS', 'namespace', 'the page of one namespace: its rows, and those of the whole cluster'),
    Option('--output', 'FILE', 'output', 'write the page into this file, whole or not at all; without it the page goes to standard output'),
    Option('--title', 'TEXT', 'title', 'the title of the page'),
    Option('--diff', 'FILE', 'diff', 'changes to show with the rows: lines of rbacaudit diff'),
    Option('--every', '', 'every', 'a row for every binding that grants a request, not only for the first'))
OF_REPORT = (Option('-o,--output', 'FORMAT', 'format', 'md: Markdown (default), json, or html: the page, with who takes over the whole cluster'),)
OF_EXPORT = (
    Option('--force', '', 'force', 'replace all files of an export that DIR holds; other files in DIR stay'),
    Option('-n,--namespace', 'NS', 'namespace', 'read only the namespace NS: use this if you may read no other'), *TARGETS,
    Option('--as', 'USER', 'as_user', AS_KUBECTL), Option('--as-group', 'GROUP', 'as_groups', AS_KUBECTL, True))
# rbacaudit's own, which the plugin passes on: their values have to be known for what they are. Their fields are those of Question.
PASSED = {option.long: option for option in (
    Option('--as', 'USER', 'asker'), Option('--groups', 'A,B'), Option('--group', 'G', repeats=True), Option('-n,--namespace', 'NS', 'namespace'),
    Option('-A,--all-namespaces', '', 'everywhere'), Option('--in-namespace', '', 'in_namespace'), Option('--subresource', 'S', 'subresource'),
    Option('-q,--quiet', '', 'quiet'), Option('--why', '', 'why'), Option('--why-not', '', 'why_not'), Option('--anywhere', '', 'anywhere'),
    Option('--any-name'), Option('--every'), Option('--members', '', 'members'), Option('--indirect', '', 'indirect'), Option('--steps', 'STEPS'), Option('--to', 'TO'),
    Option('--once', '', 'once'), Option('--after', 'TOKEN'), Option('--limit', 'N'), Option('--only', 'CODES', 'codes'),
    Option('--skip-system', '', 'skips_system'), Option('--names'), Option('--name', 'NAME'))}
SCOPE = '--namespace --all-namespaces --in-namespace --subresource '


@dataclass(frozen=True)
class Command:
    """A command: how it is written, what it does, its places, of which FILE stands for any number, and its options."""
    usage: str
    text: str
    places: str = ''
    passed: str = ''
    own: tuple[Option, ...] = OWN + SHOWN

    @property
    def options(self) -> tuple[Option, ...]:
        return (*(PASSED[name] for name in self.passed.split()), *self.own, Option('-h,--help', '', 'help'))


COMMANDS: dict[str, Command] = {
    'can-i': Command('--as USER [-n NS] VERB TARGET', 'may USER do that: yes (exit status 0) or no (1)', 'VERB TARGET FILE',
                     SCOPE + '--as --groups --group --quiet --why --why-not'),
    'who-can': Command('[-n NS] VERB TARGET', 'who may do that; with --indirect, by taking over others too', 'VERB TARGET FILE',
                       SCOPE + '--anywhere --any-name --every --members --why --indirect --steps'),
    'rules': Command('[-n NS] WHO', 'which rules the user u:NAME or the group g:NAME has', 'WHO FILE', '--groups --group --namespace --all-namespaces'),
    'access': Command('[-n NS] WHO', 'what u:NAME or g:NAME may do: a table of types by verbs', 'WHO FILE',
                      '--groups --group --namespace --all-namespaces'),
    'matrix': Command('[FILE]..', 'everything that anyone may do', 'FILE', '--every --once --after --limit'),
    'powers': Command('[FILE]..', 'who can act as others or gain permissions', 'FILE'),
    'paths': Command('[--to TO] WHO', 'whom and what u:NAME or g:NAME can take over, step by step', 'WHO FILE',
                     '--groups --group --steps --to --namespace'),
    'lint': Command('[PATH]..', 'what looks wrong with roles and bindings: status 1 if any', 'FILE', '--only --skip-system',
                    OWN + SHOWN + (BARE,)),
    'unused': Command('--log LOG [FILE]..', 'which bindings and permissions nobody used, by an audit log', 'FILE', '--skip-system',
                      OF_LOGS + OWN + SHOWN),
    'least': Command('--log LOG WHO', 'the roles that let u:NAME do what it did, by an audit log', 'WHO FILE', '--names --name', OF_LOGS + OWN),
    'diff': Command('--export OLD --export NEW', 'permissions gained and lost: status 1 if any (diff --help)', own=OF_DIFF + OWN + SHOWN),
    'read': Command('PATH..', 'manifests as JSON, for rbacaudit (read --help)', 'FILE', own=OF_READ),
    'universe': Command('', 'a Universe document to start from, for matrix', own=OWN),
    'report': Command('[-o FORMAT]', 'who takes over the cluster, powers, findings (report --help)', own=OF_REPORT + OWN),
    'page': Command('--output access.html', 'all of it as a page for a browser (page --help)', 'FILE', own=OF_PAGE + OWN),
    'export': Command('DIR', 'keep the files, for many questions (export --help)', 'DIR', own=OF_EXPORT)}
FORMATS = ('table', 'wide', 'json', 'name', 'tsv')
# (the first is for a terminal; elsewhere it is tsv, if the command has that)
FORMATS_OF = {'lint': (*FORMATS, 'sarif'), 'diff': (*FORMATS, 'sarif'), 'paths': (*FORMATS, 'dot'), 'access': FORMATS[:3], 'report': ('md', 'json', 'html')}
VALUES = {'--color': ('auto', 'always', 'never'), '--fail-on': ('changes', 'gains', 'powers')}
PATHS = ('--with', '--without', '--from', '--to')


class Options:
    """What the plugin's own options say, by the fields of the table; `paths` are the other words."""

    def __init__(self, command: str = '') -> None:
        self.command, self.paths = command, list[str]()
        self.exports, self.as_groups, self.logs = list[str](), list[str](), list[str]()
        self.context = self.kubeconfig = self.timeout = self.namespace = self.as_user = self.title = self.diff = self.output = ''
        self.format = self.color = self.fail_on = self.with_ = self.without = self.before = self.after = ''
        self.partial = self.force = self.every = self.headless = self.summary = self.bare = self.kustomize = self.help = False
        self.awaits = ''    # the last word, if it is an option that needs a value

    @property
    def export(self) -> str:
        return self.exports[0] if self.exports else ''

    def check_end(self) -> None:
        if self.awaits:
            raise Refused('%s needs a value' % self.awaits)

    def take(self, token: Token, option: Option) -> None:
        """Takes an option with its value. One that is empty, from an unset variable, would ask another cluster than was meant; and a word that
        begins with a dash is an option: the value was forgotten."""
        told = '-o' if option.names == '-o,--output' else token.name
        value, given = token.value, getattr(self, option.field)
        takes_two = told == '--export' and self.command == 'diff'
        if value is None or not option.value:
            self.awaits = told if option.value else ''
            setattr(self, option.field, given if option.value else True)
            return
        if len(token.words) > 1 and value.startswith('-') and not (value == '-' and told in (*PATHS, '--log')):
            raise Refused('%s needs a value; if %s is the value, write %s=%s' % (told, value, told, value))
        if not value:
            raise Refused('%s needs a value' % told)
        if takes_two and len(given) == 2:
            raise Refused('diff takes two exports, and --export is given three times')
        if given and not takes_two and told not in ('--color', '--as-group', '--log'):
            raise Refused('%s is given twice' % told)
        if told == '--color' and value not in VALUES[told]:
            raise Refused('there is no color %s: --color takes auto, always or never' % value)
        if told == '--fail-on' and value not in VALUES[told]:
            raise Refused("diff can't fail on %s: --fail-on takes changes, gains or powers" % value)
        if told in (*PATHS, '--export'):
            value = safe_path(value) if told == '--export' else manifest_path(value)
        setattr(self, option.field, [*given, value] if option.repeats else value)


@dataclass(frozen=True)
class Token:
    """An option with its value, or another word of a line; a word that looks like an option and is none has a name."""
    words: list[str]
    option: Option | None = None
    name: str = ''
    value: str | None = None    # nothing if the line ends before it


def tokens_of(options: Iterable[Option], words: Sequence[str]) -> Iterator[Token]:
    """Takes a line apart, as rbacaudit does."""
    known = {name: option for option in options for name in option.spellings}
    left, literal = [*words], False
    while left:
        word = left.pop(0)
        if literal or not word.startswith('-') or word == '-':
            yield Token([word])
            continue
        literal = word == '--'
        # (letters such as those of -qAn)
        while not word.startswith('--') and word[2:] and word[:2] in known and not known[word[:2]].value:
            yield Token([word[:2]], known[word[:2]], word[:2], '')
            word = '-' + word[2:]
        name, equals, value = word.partition('=')
        if not word.startswith('--') and word[2:] and word[2] != '=':
            name, equals, value = word[:2], '=', word[2:]   # -nshop
        option = known.get(name)
        if option is None or (equals and not option.value):
            yield Token([word], None, word)
        elif equals or not option.value:
            yield Token([name + (equals and '=' + value)], option, name, value)
        else:
            apart = left[:1]
            del left[:1]
            yield Token([name, *apart], option, name, *apart)


def safe_path(path: str) -> str:
    """The path, written so that no program takes it for an option or an assignment."""
    return './' + path if path.startswith('-') or ('=' in path and not path.startswith('/')) else path


def manifest_path(path: str) -> str:
    """The same for manifests: - is standard input."""
    return path if path == '-' else safe_path(path)


def read_options(command: str, words: list[str]) -> Options:
    """Reads the words of a command whose options are all the plugin's own; help ends the run."""
    options = Options(command)
    for token in tokens_of(COMMANDS[command].options, words):
        if token.option:
            options.take(token, token.option)
        elif not COMMANDS[command].places or (token.name and not (command == 'page' and token.name == '--')):
            raise Refused('%s has no %s; kubectl rbacaudit%s --help lists its options' % (
                command, token.name or token.words[0], '' if command == 'universe' else ' ' + command))
        elif not token.name:
            options.paths.append(manifest_path(token.words[0]) if command == 'read' else token.words[0])
    if options.help:
        end_with_help(command)
    return options


def end_with_help(command: str) -> NoReturn:
    """Prints the help of a command, which ends the run."""
    from .help import help_of
    print_text(help_of(command))
    raise Ended(0)


def formats_of(command: str) -> tuple[str, ...]:
    return FORMATS_OF.get(command, FORMATS)


def choose_format(options: Options, said_of: str) -> None:
    """Checks the format, before anything is read. Without -o it is a table on a terminal."""
    known = formats_of(said_of)
    options.format = options.format or (known[0] if os.isatty(1) or 'tsv' not in known else 'tsv')
    if options.format not in known:
        raise Refused('%s has no format %s: -o takes %s or %s' % (said_of, options.format, ', '.join(known[:-1]), known[-1]))
