"""unused: what of the bindings no request of an audit log used."""

from __future__ import annotations

import os
from collections import Counter

from .answer import show_text
from .documents import objects_in, text_in
from .fields import PARTS, rows_of
from .logs import ask_by_logs, open_logs
from .manifests import BINDINGS, is_of_rbac, key_of_item
from .processes import Session
from .terminal import print_text


def count_bindings(files: list[str], skips_system: bool) -> int | None:
    """How many bindings some files have, with those named system:.. or without; unless one is a pipe, which can't be read twice."""
    if not all(map(os.path.isfile, files)):
        return None
    return len({key_of_item(item) for item in objects_in(*files) if is_of_rbac(item) and item['kind'] in BINDINGS
                and not (skips_system and text_in(item, 'metadata', 'name').startswith('system:'))})


def head_of(rows: list[list[str]], bindings: int | None, skips_system: bool) -> str:
    """How much isn't used."""
    counts = Counter(row[0] for row in rows)
    subject, rule, permission = ('%d %s%s' % (counts[part], part, 's'[counts[part] == 1:]) for part in PARTS if part != 'binding')
    of_all = '' if bindings is None else ' of %d' % bindings
    left_out = ' Bindings named system:.. are left out.' * skips_system
    return 'Not used: %d%s binding%s; of the others, %s, %s and %s.%s\n' % (
        counts['binding'], of_all, 's'[(counts['binding'] if bindings is None else bindings) == 1:], subject, rule, permission, left_out)


def unused_command(session: Session, words: list[str]) -> int:
    """The command unused, with a head above a table: status 1 if something isn't used."""
    asking, logs = open_logs(session, 'unused', words)
    done, files = ask_by_logs(asking, logs, 'these lines have')
    if done.status > 1:
        return done.status
    skips_system = asking.question.skips_system
    if asking.options.format in ('table', 'wide') and not asking.options.headless:
        print_text(head_of(rows_of(done.out), count_bindings(files, skips_system), skips_system) + '\n' * bool(done.out))
    return show_text(asking, done.out) or done.status
