"""What kubectl 1.26 and later offers after `kubectl rbacaudit`: lines with what may stand next, and at last what else it offers."""

from __future__ import annotations

import os
import subprocess
from collections.abc import Iterator

from .fields import STEP_NAMES
from .options import COMMANDS, VALUES, Option, formats_of, tokens_of

FILES, NOTHING, FOLDERS = ':0', ':4', ':16'
VERBS = ('get', 'list', 'watch', 'create', 'update', 'patch', 'delete', 'deletecollection', 'use', 'bind', 'escalate', 'impersonate')
PLACES = {'VERB': (*VERBS, NOTHING), 'FILE': (FILES,), 'DIR': (FOLDERS,)}
OF_FILES = ('--kubeconfig', '--diff', '--with', '--without', '--from', '--to', '--log')


def offers(command: str, before: list[str], typed: str) -> Iterator[str]:
    """What may stand after the words before, and what else."""
    known = COMMANDS[command].options
    tokens = [*tokens_of(known, before)]
    literal = any(token.name == '--' for token in tokens)
    places = [token for token in tokens if not token.name]
    option = next((option for option in known if typed.partition('=')[0] in option.spellings), None)
    if tokens and tokens[-1].option and tokens[-1].value is None:
        yield from values(command, tokens[-1].option)
    elif not literal and typed.startswith('--') and '=' in typed:
        yield from values(command, option) if option and option.value else (NOTHING,)
    elif not literal and typed.startswith('-'):
        for option in known:
            # (an option is given once, but for the --export of diff, and groups)
            if all(token.option != option for token in tokens) or (option.repeats and (option.long != '--export' or command == 'diff')):
                yield from option.spellings
        yield NOTHING
    else:
        wanted = COMMANDS[command].places.split()
        wanted = wanted[len(places):] or [name for name in wanted if name == 'FILE']
        yield from PLACES.get(''.join(wanted[:1]), (NOTHING,))


def values(command: str, option: Option) -> Iterator[str]:
    """What may be the value of an option. (page writes --output FILE)"""
    if (option.long in OF_FILES and option.value != 'TO') or (option.long, option.value) == ('--output', 'FILE'):
        yield FILES
    elif option.long == '--export':
        yield FOLDERS
    else:
        yield from contexts() if option.long == '--context' else ()
        yield from {**VALUES, '--output': formats_of(command), '--steps': STEP_NAMES}.get(option.long, ())
        yield NOTHING


def contexts() -> list[str]:
    """The contexts that kubectl knows."""
    try:
        said = subprocess.run(['kubectl', 'config', 'get-contexts', '-o', 'name'], stdout=subprocess.PIPE, stderr=subprocess.DEVNULL, check=False)
    except OSError:
        return []
    return said.stdout.decode('utf-8', 'surrogateescape').splitlines()


def main(words: list[str]) -> int:
    """Prints the words that begin with what is typed. After a tab comes what a word means."""
    *before, typed = words or ['']
    found = ['-h', '--help', '-V', '--version'] if typed.startswith('-') else ['%s\t%s' % (name, it.text) for name, it in COMMANDS.items()]
    if before and before != ['help']:
        found = [*offers(before[0], before[1:], typed)] if before[0] in COMMANDS else []
        typed = typed.partition('=')[2] if typed.startswith('--') and '=' in typed and '--' not in before else typed
    last = found.pop() if found and found[-1].startswith(':') else NOTHING
    os.write(1, ''.join(one + '\n' for one in found if one.startswith(typed)).encode('utf-8', 'surrogateescape') + last.encode() + b'\n')
    return 0
