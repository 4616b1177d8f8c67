"""Questions: the words of can-i, who-can, rules, matrix, powers, paths, lint, unused and least, as rbacaudit reads them."""

from __future__ import annotations

import os

from .kubectl import GROUPS, look_at_context
from .options import COMMANDS, PASSED, Option, Options, Token, choose_format, tokens_of
from .processes import NOTHING, Session
from .terminal import Ended, Refused, print_text

ROLES = ['cluster.json', 'namespaced.json']
PARTS = {'rules': ROLES, 'powers': ROLES, 'lint': ROLES, 'diff': ROLES, 'unused': ROLES, 'least': ROLES,
         'paths': [*ROLES, 'accounts.json'], 'report': [*ROLES, 'accounts.json', GROUPS],
         'matrix': [*ROLES, 'namespaces.json', 'accounts.json', 'api']}
ACCOUNT = 'system:serviceaccount:'


class Question:
    """A question to rbacaudit, and what the plugin has to know of it."""

    def __init__(self, command: str, files: list[str] | None = None, asked_in: str = '') -> None:
        self.command, self.files = command, files or []
        self.words, self.places, self.groups = list[str](), list[str](), list[str]()    # without files; VERB and TARGET, or WHO
        self.verb = self.type = self.object = self.subresource = self.codes = self.asker = self.namespace = ''
        self.everywhere = self.anywhere = self.in_namespace = self.indirect = self.once = self.has_namespace = self.members = False
        self.shows_paths = False    # (of a page)
        self.quiet = self.why = self.why_not = self.skips_system = False
        self.dashed = ''            # the last value that begins with a dash and its option, as they have to be written
        self.asked_in = asked_in    # the namespace that it is about, or nothing for the whole cluster:
        self.implied = self.own = ''    # if the context says it; if it is about that namespace's own object
        self.place_of = ''          # what it is the namespace of, if a server asks about a cluster-scoped type in one

    def parts(self) -> tuple[list[str], list[str]]:
        """The parts of an export that it reads, and those that only remarks need."""
        needed = PARTS.get(self.command, [*ROLES, 'api']) + ['accounts.json'] * self.indirect + [GROUPS] * self.is_of_members
        is_account = self.asker.startswith(ACCOUNT) and self.command != 'least'
        wanted = ['namespaces.json'] * bool(self.asked_in) + ['accounts.json'] * is_account
        return needed, [part for part in wanted if part not in needed]

    @property
    def is_of_members(self) -> bool:
        """Whether it matters who is in which group: to a user who has what these have, to paths, and where their members are asked for."""
        leads_on = self.command == 'paths' or self.indirect or self.shows_paths
        return leads_on or self.members or bool(self.asker) and self.command in ('can-i', 'rules')

    @property
    def names_namespace(self) -> bool:
        """Whether the target is the object of a namespace."""
        return bool(self.object) and self.type.removesuffix('.') in ('namespaces', 'namespace', 'ns')

    @property
    def line(self) -> list[str]:
        """The words for rbacaudit, with what the plugin adds, but without files."""
        place = ['--namespace=' + self.asked_in] if not self.has_namespace and (self.implied or self.own) else []
        return [self.command, *place, *['--in-namespace'] * bool(self.own or self.place_of), *self.words]

    def take(self, token: Token, option: Option) -> None:
        """Takes an option that rbacaudit has."""
        value = token.value or ''
        if option.long in ('--group', '--groups'):
            self.take_groups(value, option.long == '--groups')
        elif option.field:
            setattr(self, option.field, value if option.value else True)
        self.has_namespace |= option.field == 'namespace' and token.value is not None
        if len(token.words) > 1 and value.startswith('-'):
            self.dashed = '%s=%s' % (token.name, value)

    def take_groups(self, text: str, splits: bool) -> None:
        """Takes the groups in a value; a name with a line break is none that a key could have."""
        if '\n' not in text:
            self.groups += [group for group in (text.split(',') if splits else [text]) if group]

    def find_target(self) -> None:
        """What it is about: a type and an object, but for a URL; for rules, paths and least, the user or the group whose key WHO is."""
        first, second = [*self.places, '', ''][:2]
        if self.command in ('can-i', 'who-can'):
            self.verb = first
            if not second.startswith('/'):
                self.type, _, self.object = second.partition('/')
        elif first.startswith('u:'):
            self.asker = first[2:]
        elif first.startswith('g:'):
            self.take_groups(first[2:], splits=False)


def read_question(command: str, words: list[str]) -> tuple[Options, Question]:
    """The plugin's own options, and the question in the other words."""
    options, question = Options(command), Question(command)
    most = len(COMMANDS[command].places.split()) - 1
    for token in tokens_of(COMMANDS[command].options, words):
        word = token.words[0]
        if token.option and token.option.long not in PASSED:
            options.take(token, token.option)
            continue
        if token.option:
            question.take(token, token.option)
        elif not token.name and len(question.places) == most:
            question.files.append(word)
            continue
        elif not token.name:
            question.places.append(word)
        question.words += token.words
    question.find_target()
    return options, question


def choose_namespace(session: Session, options: Options, question: Question, namespace: str) -> None:
    """The namespace that a question is about, as far as the words say it. Without -n it is that of the context, as for kubectl; but rules
    are then those of all bindings, and TO of paths is in the whole cluster. A namespace's own object is asked about in it, as a server does,
    unless the words say where."""
    if question.command in ('rules', 'paths'):
        question.asked_in = '' if question.everywhere else question.namespace
    elif question.type and not question.everywhere and not question.anywhere:
        question.asked_in = question.namespace or 'default'
        is_own = question.names_namespace and (not question.has_namespace or question.namespace == question.object)
        if is_own and not question.in_namespace:
            question.own = question.asked_in = question.object
        elif not question.has_namespace:
            if not options.export:
                namespace = look_at_context(session, options)[2]
            question.implied = question.asked_in = namespace or 'default'


def check_cluster(session: Session, options: Options, alone: bool = False, reads: bool | None = None) -> None:
    """What the options need, once all are taken: `alone` if manifests alone are asked about, `reads` if a cluster is read."""
    options.check_end()
    targets = options.context or options.kubeconfig or options.timeout
    if alone and targets:
        raise Refused('manifests are read without a cluster: give no option of kubectl')
    if not alone and (not options.export if reads is None else reads):
        session.need_kubectl()
    elif targets:
        raise Refused('an export answers without a cluster: with --export, give no option of kubectl')


def accept_words(session: Session, question: Question) -> None:
    """Lets rbacaudit read the words over an export that grants nothing: what it refuses ends here, before any call to a cluster."""
    tried = session.capture(['rbacaudit', question.command, *question.words], '{"apiVersion": "v1", "kind": "List"}\n', stdout=NOTHING)
    if tried.status <= 1:
        return
    session.say(tried.err)
    if question.dashed:
        name, _, value = question.dashed.partition('=')
        session.report('if %s is the value of %s, write %s' % (value, name, question.dashed))
    from .advice import advise_on_words
    advise_on_words(session, question, tried.err)
    raise Ended(tried.status)


def question_command(session: Session, command: str, words: list[str]) -> int:
    """Takes the words of a question, without the plugin's own options, to rbacaudit."""
    options, question = read_question(command, words)
    session.need_rbacaudit()
    if options.help:
        status = session.run(['rbacaudit', command, '--help'])
        print_text('' if status else '\nWith kubectl rbacaudit %s, the files of the export follow by themselves.\nkubectl rbacaudit --help '
                   'lists its options, such as --export DIR, --partial and -o FORMAT.\n' % command)
        return status
    choose_format(options, command)
    # (whoever reads a no asks next why)
    if command == 'can-i' and options.format in ('table', 'wide') and os.isatty(1) and not (question.quiet or question.why_not):
        question.words.insert(0, '--why-not')
    # (lint of manifests reads neither a cluster nor an export)
    alone = command == 'lint' and not options.export and bool(question.files)
    check_cluster(session, options, alone)
    if options.bare and not alone:
        raise Refused('--no-defaults is for manifests alone: an export has the roles that Kubernetes makes')
    accept_words(session, question)
    from .answer import Asking, answer, open_question
    if alone:
        from .alone import lint_manifests
        return lint_manifests(Asking(session, options, question))
    return answer(open_question(session, options, question))
