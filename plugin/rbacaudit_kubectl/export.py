"""Exports: a folder with what rbacaudit reads of a cluster; how one is written, and what one lacks."""

from __future__ import annotations

import json
import os
import time
from collections.abc import Iterator
from contextlib import suppress
from dataclasses import dataclass, field

from .escapes import bytes_of, printable
from .kubectl import GROUPS, Read, Reader, is_cut, look_at_context, put
from .options import Options, read_options, safe_path
from .processes import Session, remove_folder
from .question import Question
from .terminal import Refused, print_text

FIXED = ('cluster.json', 'namespaced.json', 'namespaces.json', 'accounts.json')
LOCK, OWN_FOLDER = '.rbacaudit-lock', '.rbacaudit'
ALIVE = 'alive'     # a file in the folder of an export that goes on, locked as long as it does
INTERRUPTED = 'export: it was interrupted while its files were put in place\n'


def lists_in(folder: str) -> list[str]:
    """The names of the API resource lists in a folder."""
    return sorted(name for name in os.listdir(folder) if name.startswith('api-') and name.endswith('.json'))


@dataclass
class Export:
    """An export that answers, and what it lacks of what the command reads."""
    folder: str
    only: str = ''          # the namespace that it has alone
    namespace: str = ''     # that of the context that it was made with
    is_fresh: bool = False
    gaps: list[str] = field(default_factory=list)
    read: Read = field(default_factory=Read)

    @property
    def named(self) -> str:
        return 'the fresh export' if self.is_fresh else self.folder

    def path(self, name: str) -> str:
        return os.path.join(self.folder, name)

    def has(self, name: str) -> bool:
        return os.path.isfile(self.path(name))

    def files(self, *parts: str) -> list[str]:
        """The files for these parts that are there; `api` is all API resource lists."""
        names = (name for part in parts for name in (lists_in(self.folder) if part == 'api' else [part]))
        return [self.path(name) for name in names if self.has(name)]

    def notes(self, name: str, begin: str = '') -> list[str]:
        """The lines of a file that begin so, without that; none if it isn't there."""
        try:
            if not os.path.exists(self.path(name)):
                return []
            if not self.has(name):
                raise OSError
            with open(self.path(name), encoding='utf-8', errors='surrogateescape') as file:
                return [line.rstrip('\n')[len(begin):] for line in file if line.startswith(begin)]
        except OSError as fault:
            raise Refused("can't read %s" % self.path(name)) from fault


def has_note(export: Export, name: str) -> bool:
    """Whether an export says that it has read a file."""
    return export.has('about.txt') and any(line.startswith(name + ': ') for line in export.notes('about.txt', 'file: '))


# ---- an export that answers

def look_at_about(folder: str) -> Export:
    """The export in a folder, by what it says of itself."""
    if not os.path.isdir(folder):
        raise Refused('there is no folder %s: kubectl rbacaudit export makes one' % folder)
    export = Export(folder)
    export.only, export.namespace = (''.join(export.notes('about.txt', name + ': ')[:1]) for name in ('only', 'namespace'))
    return export


def open_export(session: Session, options: Options, question: Question, folder: str, only_in: str = '') -> Export:
    """The export in a folder, or a fresh one, perhaps of one namespace. If a part is missing, only --partial goes on."""
    needed, wanted = question.parts()
    if folder:
        export = look_at_about(folder)
    else:
        export = Export(session.path('export'), only_in, is_fresh=True)
        os.mkdir(export.folder)
        export.read = Reader(session, options, export.folder, only_in).read_parts(needed, wanted)
        if export.read.missing:
            put(session.write('missing', export.read.incomplete), export.path('incomplete.txt'))
    for gap in gaps_of(session, export, question, needed):
        export.gaps.append(gap.replace(' in ' + export.folder, '', 1))
        if not export.is_fresh:     # what a fresh one lacks has been said
            session.report(gap)
    if not export.has('cluster.json') and not export.has('namespaced.json'):
        raise Refused('neither cluster.json nor namespaced.json is there, so nothing can be answered')
    if export.gaps and not options.partial:
        raise Refused('a part of the export is missing, so nothing is answered; --partial answers from what is there')
    if export.gaps:
        session.report('a part of the export is missing: this answer knows only what is there')
    return export


def gaps_of(session: Session, export: Export, question: Question, needed: list[str]) -> Iterator[str]:
    """What the export lacks of the needed parts, by what is there and by what it says of itself."""
    def is_gap(line: str) -> bool:
        """(a file that was fetched by hand since then is no gap)"""
        return 'api' in needed and not export.has(line.partition(': ')[0]) and not is_idle(session, export, question, line)

    for part in needed:
        where = '%s in %s' % (part if part != 'api' else 'api-*.json', export.folder)
        if part == GROUPS and not (export.has(GROUPS) or has_note(export, GROUPS) or export.notes('incomplete.txt', GROUPS + ': ')):
            continue    # (most clusters have no groups)
        if not export.files(part):
            yield 'there is no %s%s' % (where, ''.join(': ' + line for line in export.notes('incomplete.txt', part + ': ')))
        elif part != 'api' and is_cut(export.path(part)):
            yield "%s isn't whole: its metadata.continue says that the list goes on" % where
        elif part == 'api':
            for line in export.notes('about.txt', 'file: '):
                if line.startswith('api-') and is_gap(line):
                    yield 'there is no %s in %s, and about.txt lists it' % (line.partition(': ')[0], export.folder)
    if export.only:
        yield from other_namespaces(session, export.only, question)
    yield from (line for line in export.notes('incomplete.txt') if line.startswith('export:') or (line.startswith('api-') and is_gap(line)))


def other_namespaces(session: Session, only: str, question: Question) -> Iterator[str]:
    """An export of one namespace can't answer about another, and is a part for all others."""
    alone, asked_in, is_about_one = 'the export has the namespace %s alone' % only, question.asked_in, False
    if question.command in ('can-i', 'who-can'):
        is_about_one = question.everywhere or not question.anywhere
    elif question.command in ('rules', 'matrix'):
        is_about_one = question.everywhere or bool(asked_in)
    if is_about_one and asked_in not in ('', only):
        yield alone
    elif not is_about_one or question.indirect:
        session.report(alone + ', and this answer knows no other')


def is_idle(session: Session, export: Export, question: Question, line: str) -> bool:
    """Whether a missing API resource list can't change the answer: the target is a URL or of another API group, or the core group has the
    type, which then stands for no other."""
    if question.command not in ('can-i', 'who-can') or not question.type:
        return question.command in ('can-i', 'who-can')
    group = line.partition(' --raw /apis/')[2].partition('/')[0]
    if '.' in question.type:
        return group != question.type.partition('.')[2]
    from .listed import core_has
    return bool(group) and core_has(session, export, question)


# ---- an export that is written

def export_command(session: Session, words: list[str]) -> int:
    """The command export: 0 if it is whole, 1 if a part is missing."""
    options = read_options('export', words)
    if '' in options.paths:
        raise Refused('the name of the folder is empty')
    if len(options.paths) > 1:
        raise Refused('export writes one folder; put its name in quotes if it has spaces')
    options.check_end()
    if not options.paths:
        raise Refused('export needs a folder: kubectl rbacaudit export DIR')
    session.need_kubectl()
    folder = safe_path(options.paths[0])
    make_room(session, folder, options.force)
    os.umask(0o077)     # files are for their owner alone
    keep_others_out(session, folder, session.make_scratch(folder, OWN_FOLDER))
    stage = session.path('stage')
    os.mkdir(stage)
    read = Reader(session, options, stage, options.namespace).read_parts([*FIXED, GROUPS, 'api'], ['version'])
    write_about(session, options, stage, read, options.namespace)
    publish(session, stage, folder, read, options.force)
    if read.missing:
        session.report('a part of the export is missing; %s repeats it' % os.path.join(folder, 'incomplete.txt'))
        return 1
    of_one = ' for the namespace ' + options.namespace if options.namespace else ''
    print_text('The export in %s is whole%s: %d files.\n' % (folder, of_one, len(read.kept)))
    return 0


def make_room(session: Session, folder: str, force: bool) -> None:
    """Makes the folder if it isn't there. A folder with an export is refused."""
    if not os.path.isdir(folder):
        try:
            os.makedirs(folder, 0o700)
        except OSError as fault:
            raise Refused("can't make the folder %s" % folder) from fault
        session.at_end.callback(os.rmdir, folder)
    old_files(folder, force)


def old_files(folder: str, force: bool) -> list[str]:
    """The files of an export that the folder has: they are refused without --force. Groups that no export has read are somebody's own."""
    names = [*FIXED, *lists_in(folder), 'about.txt', 'incomplete.txt', *[GROUPS] * has_note(Export(folder), GROUPS)]
    found = [name for name in names if os.path.exists(os.path.join(folder, name))]
    if found and not force:
        raise Refused('%s already holds an export (%s); --force puts a new one in its place' % (folder, found[0]))
    return found


def keep_others_out(session: Session, folder: str, scratch: str) -> None:
    """Two exports into one folder would put their files among each other's. An export that was killed leaves its lock, and only the user
    knows that it doesn't go on: maybe on another machine. What else it left is removed once nobody holds it."""
    import fcntl
    alive = open(os.path.join(scratch, ALIVE), 'wb')    # open, and so locked, until the end
    session.at_end.callback(alive.close)
    with suppress(OSError):
        fcntl.flock(alive, fcntl.LOCK_EX)
    lock = os.path.join(folder, LOCK)
    try:
        os.mkdir(lock)
    except OSError as fault:
        raise Refused('another export into %s goes on; if none does, one was killed: remove %s, and try again' % (folder, lock)) from fault
    session.at_end.callback(os.rmdir, lock)
    for name in os.listdir(folder):
        left = os.path.join(folder, name)
        if name.startswith(OWN_FOLDER + '.') and left != scratch and os.path.isdir(left) and not os.path.islink(left):
            with suppress(OSError):
                if os.path.exists(os.path.join(left, ALIVE)):
                    with open(os.path.join(left, ALIVE), 'rb') as other:
                        fcntl.flock(other, fcntl.LOCK_EX | fcntl.LOCK_NB)
                remove_folder(left)


def write_about(session: Session, options: Options, folder: str, read: Read, only: str = '') -> None:
    """What was read, for whoever finds the export later. A question without -n asks in the namespace; `only` says that no other was read;
    a file that is missing later is known by its line."""
    context, server, namespace = look_at_context(session, options)
    try:
        with open(os.path.join(folder, 'version'), 'rb') as file:
            version = str(json.load(file).get('gitVersion', ''))
    except (OSError, ValueError, AttributeError):
        version = ''
    lines = ['context: ' + context, 'server: ' + server, 'version: ' + version, 'namespace: ' + (only or namespace or 'default'),
             *(['only: ' + only] if only else []), time.strftime('time: %Y-%m-%dT%H:%M:%SZ', time.gmtime()),
             *('file: ' + line for line in read.kept), *('shortened: ' + line for line in read.shortened)]
    with open(os.path.join(folder, 'about.txt'), 'wb') as out:
        out.write(bytes_of(printable(''.join(line.replace('\n', '\\n') + '\n' for line in lines))))


def find_about(session: Session, options: Options, export: Export) -> str:
    """The path of about.txt, which a fresh export gets now; or '' if there is none."""
    if export.is_fresh:
        write_about(session, options, export.folder, export.read)
    return export.path('about.txt') if export.has('about.txt') else ''


def publish(session: Session, stage: str, folder: str, read: Read, force: bool) -> None:
    """Puts the files of `stage` in the place of the old ones. From the first change to the last, incomplete.txt says that this goes on: so
    whatever interrupts it, no question takes the files for a whole export."""
    old = old_files(folder, force)
    marker = os.path.join(folder, 'incomplete.txt')
    put(session.write('marker', INTERRUPTED), marker)
    for name in old:
        remove(os.path.join(folder, name), marker)
    for name in [*(name for name in [*FIXED, GROUPS] if os.path.exists(os.path.join(stage, name))), *lists_in(stage), 'about.txt']:
        put(os.path.join(stage, name), os.path.join(folder, name))
    if read.missing:
        put(session.write('missing', read.incomplete), marker)
    else:
        remove(marker)


def remove(path: str, but: str = '') -> None:
    try:
        if path != but:
            os.remove(path)
    except OSError as fault:
        raise Refused("can't remove %s" % path) from fault
