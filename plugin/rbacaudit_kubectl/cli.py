"""kubectl rbacaudit: exports what rbacaudit reads from a cluster, and asks rbacaudit about it.

kubectl is called with `get`, `config view` and `patch --local`, which reads manifests without a cluster. No answer depends on a document
that is taken apart here, but for the namespace that -n adds to manifests, the labels that kubectl apply leaves (changes.py), how many
objects a report counts (report.py), and what is made up beside manifests alone (alone.py): where types matter, rbacaudit itself lists them
and says which a word means, so no name can mislead.
"""

from __future__ import annotations

from importlib import import_module

from . import VERSION
from .options import COMMANDS, end_with_help
from .processes import Session, Signalled, hold_files
from .terminal import Ended, Refused, print_text

# The module of each command, which nothing else waits for; the others are questions.
MODULES = {'export': 'export', 'diff': 'changes', 'read': 'manifests', 'universe': 'listed', 'page': 'page_command', 'access': 'access',
           'report': 'report', 'unused': 'unused', 'least': 'least'}


def run_words(session: Session, words: list[str]) -> int:
    """Runs a command, or what stands in its place; the status."""
    first = words[0] if words else ''
    if first == 'help' and len(words) < 3:
        return run_words(session, [*words[1:], '--help'])
    if first in MODULES:
        return int(getattr(import_module('.' + MODULES[first], __package__), first + '_command')(session, words[1:]))
    if first in COMMANDS:
        from .question import question_command
        return question_command(session, first, words[1:])
    if first in ('-h', '--help'):
        end_with_help('')
    if first in ('-V', '--version'):
        print_text('kubectl-rbacaudit %s\n' % VERSION)
        session.need_rbacaudit()
        return session.run(['rbacaudit', '--version'])
    raise Refused(('there is no command %s' % first if first else 'a command is missing') + '; kubectl rbacaudit --help lists them')


def main(words: list[str], beside: str) -> int:
    """Runs the plugin, which stands in the folder `beside`; its status."""
    hold_files()
    try:
        with Session(beside) as session:
            try:
                return run_words(session, words)
            except Refused as refused:
                session.report(str(refused))
            except Ended as ended:
                return ended.status
            except BrokenPipeError:
                return 141
            except OSError as fault:
                session.report(str(fault) if fault.filename else "can't write to standard output: %s" % fault.strerror)
            return 2
    except Signalled as signalled:
        return signalled.status
