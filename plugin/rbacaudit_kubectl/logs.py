"""Audit logs: rbacaudit gets them through a pipe, one behind the other: so they may be packed, and the plugin knows how far it is; and what unused
and least, the commands that read them, have in common."""

from __future__ import annotations

import gzip
import os
import re
import stat
import time
import zlib
from collections.abc import Callable, Iterator
from contextlib import ExitStack, suppress
from dataclasses import dataclass, field
from io import FileIO

from .answer import Asking, open_question, report_fault, run_beside
from .escapes import text_of
from .manifests import name_path
from .options import COMMANDS, SHOWN, choose_format, end_with_help
from .processes import PIPE, Child, Done, Session
from .question import accept_words, check_cluster, read_question
from .terminal import Progress, Refused

PIECE = 1 << 20         # how many bytes are read at once
EACH = 0.1              # seconds between two texts of a line of progress
PACKED = b'\x1f\x8b'    # how a file of gzip begins
FAULT = re.compile(r'^rbacaudit: log 1:? line (\d+)\b', re.M)


# ---- logs

def size_of(path: str) -> int | None:
    """How many bytes a log has, unless it is a pipe. What can't be read is refused, before anything is asked."""
    if path != '-' and not os.path.exists(path):
        raise Refused('there is no %s' % path)
    if os.path.isdir(path):
        raise Refused('%s is a folder: name the logs in it, each after --log' % path)
    if path != '-' and not os.access(path, os.R_OK):
        raise Refused("can't read %s" % path)
    found = os.fstat(0) if path == '-' else os.stat(path)
    return found.st_size if stat.S_ISREG(found.st_mode) else None


def reader_of(path: str, raw: FileIO, opened: ExitStack) -> Callable[[int], bytes | None]:
    """What reads an open log, which may be one of gzip: a file is known by how it begins, a pipe by its name."""
    is_packed = path.endswith('.gz')
    if path != '-' and os.path.isfile(path):
        is_packed = raw.read(len(PACKED)) == PACKED
        raw.seek(0)
    return opened.enter_context(gzip.GzipFile(fileobj=raw)).read if is_packed else raw.read


@dataclass
class Logs:
    """Logs that are read one behind the other; how many bytes they have, and how many of them are read; and how many lines each has had."""
    paths: list[str]
    progress: Progress
    total: int | None = None
    read: int = 0
    lines: list[int] = field(default_factory=list)
    drawn: float = 0

    def __post_init__(self) -> None:
        sizes = [*map(size_of, self.paths)]
        self.total = None if None in sizes else sum(size or 0 for size in sizes)

    def pieces(self) -> Iterator[bytes]:
        """All that the logs have, the lines of each by themselves."""
        for path in self.paths:
            self.lines.append(0)
            last = b'\n'
            for piece in self.pieces_of(path):
                self.lines[-1] += piece.count(b'\n')
                last = piece[-1:]
                yield piece
            if last != b'\n':
                self.lines[-1] += 1
                yield b'\n'

    def pieces_of(self, path: str) -> Iterator[bytes]:
        """What a log has. One that can't be read to its end is refused."""
        before, is_file = self.read, size_of(path) is not None
        with ExitStack() as opened:
            try:
                raw = opened.enter_context(open(0, 'rb', buffering=0, closefd=False) if path == '-' else open(path, 'rb', buffering=0))
                read = reader_of(path, raw, opened)
                while piece := read(PIECE):
                    self.read = before + raw.tell() if is_file else self.read + len(piece)
                    self.draw()
                    yield piece
            except (OSError, EOFError, zlib.error) as fault:
                said = fault.strerror if isinstance(fault, OSError) and fault.strerror else str(fault)
                raise Refused("can't read all of %s, so nothing is answered: %s" % (name_path(path), said)) from None

    def draw(self) -> None:
        """Says how far it is, but not too often."""
        now = time.monotonic()
        if now - self.drawn >= EACH:
            self.drawn = now
            of_all = '' if self.total is None else ' of {:,.1f}'.format(self.total / 1e6)
            self.progress.draw('{:,.1f}{} MB of logs read'.format(self.read / 1e6, of_all))

    def place_of(self, number: int) -> str:
        """Which line of which log one of all lines is. (one that is too long may be refused before it ends)"""
        at = 0
        while at < len(self.lines) - 1 and number > self.lines[at]:
            number -= self.lines[at]
            at += 1
        return 'line %d of %s' % (number, name_path(self.paths[at]))


def feed(child: Child, logs: Logs) -> str:
    """Writes logs to the standard input of a child, as far as it takes them: one that has ended takes no more. What the child then prints."""
    assert child.stdin is not None and child.stdout is not None
    with suppress(BrokenPipeError):
        for piece in logs.pieces():
            rest = memoryview(piece)
            while rest:
                rest = rest[os.write(child.stdin.fileno(), rest):]
    child.stdin.close()
    logs.progress.erase()
    return text_of(child.stdout.read())


# ---- commands

def ask(asking: Asking, line: list[str], files: list[str], logs: Logs) -> Done:
    """Asks, and reports a fault: one of a log by its file and line. (whatever ends the run before all is read ends the child before it answers)"""
    session = asking.session
    status, out, text = run_beside(session, line, lambda child: feed(child, logs), stdin=PIPE, stdout=PIPE)
    report_fault(asking, text, files)
    found = FAULT.search(text)
    if found:
        session.report('line %s of all logs is %s' % (found[1], logs.place_of(int(found[1]))))
    elif status <= 1 and not logs.read:
        session.report('the logs are empty, so nothing counts as used')
    return Done(status, out, text)


def open_logs(session: Session, command: str, words: list[str]) -> tuple[Asking, Logs]:
    """What the words of a command ask, and the logs that it is asked of."""
    options, question = read_question(command, words)
    if options.help:
        end_with_help(command)
    session.need_rbacaudit()
    if SHOWN[0] in COMMANDS[command].own:
        choose_format(options, command)
    options.check_end()
    if not options.logs:
        raise Refused('{0} needs --log LOG, an audit log of the API server; kubectl rbacaudit {0} --help says more'.format(command))
    if options.logs.count('-') > 1:
        raise Refused('standard input can be read once: give - as one LOG alone')
    logs = Logs(options.logs, session.progress)
    check_cluster(session, options)
    question.words.insert(0, '--log=/dev/null')
    accept_words(session, question)
    question.words[0] = '--log=-'
    return open_question(session, options, question), logs


def ask_by_logs(asking: Asking, logs: Logs, having: str) -> tuple[Done, list[str]]:
    """Asks, and then names stale aggregates: `having` says whose words are what these gather. Also the files that were asked."""
    from .remarks import STALE, find_stale
    files, stale = asking.all_files, ', '.join(find_stale(asking))
    done = ask(asking, [*asking.question.line, *files], files, logs)
    if done.status <= 1 and stale:
        asking.session.report(STALE % (stale, having))
    return done, files
