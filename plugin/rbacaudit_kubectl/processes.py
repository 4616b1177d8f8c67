"""What a run holds until it ends: processes, a temporary folder, a line of progress; and how signals end it."""

from __future__ import annotations

import os
import signal
import subprocess
import sys
from collections.abc import Sequence
from contextlib import ExitStack, suppress
from dataclasses import dataclass
from types import FrameType
from typing import Any

from .escapes import bytes_of, text_of
from .terminal import Progress, Refused, report, say

ENDING = (signal.SIGHUP, signal.SIGINT, signal.SIGQUIT, signal.SIGTERM)
PIPE, NOTHING = subprocess.PIPE, subprocess.DEVNULL
Child = subprocess.Popen[bytes]


class Signalled(BaseException):
    """A signal ends the run."""

    def __init__(self, number: int) -> None:
        super().__init__(number)
        self.status = 128 + number


@dataclass(frozen=True)
class Done:
    """How a child ended, and what it said."""
    status: int
    out: str = ''
    err: str = ''


def hold_files() -> None:
    """Takes the places of standard files that are closed, or the next file that is opened would have one."""
    for number, flags in ((0, os.O_RDONLY), (1, os.O_RDONLY), (2, os.O_WRONLY)):
        try:
            os.fstat(number)
        except OSError:
            os.dup2(os.open(os.devnull, flags), number)     # as standard output it can't be written to
            os.set_inheritable(number, True)
    if sys.stdout is None:
        sys.stdout = open(1, 'w', encoding='utf-8', closefd=False)


def program(name: str, path: str) -> str:
    """Where the program of this name is on the PATH, or ''."""
    found = (os.path.join(folder, name) for folder in path.split(os.pathsep))
    return next((one for one in found if os.access(one, os.X_OK) and not os.path.isdir(one)), '')


def remove_folder(folder: str) -> None:
    """Removes a folder of ours with what is in it."""
    for path, folders, files in os.walk(folder, topdown=False):
        for name in files + folders:
            inner = os.path.join(path, name)
            os.rmdir(inner) if name in folders and not os.path.islink(inner) else os.remove(inner)
    os.rmdir(folder)


class Session:
    """What a run holds until it ends."""

    def __init__(self, beside: str = '') -> None:
        self.progress, self.environment = Progress(), dict(os.environ)
        self._beside = beside       # the folder in which the plugin stands
        self._scratch = ''
        self._children: list[Child] = []
        self.at_end = ExitStack()   # what is done then, whatever ends the run; what came last is done first
        self._is_starting, self._heard = False, 0

    def __enter__(self) -> Session:
        for number in ENDING:
            if signal.getsignal(number) is not signal.SIG_IGN:
                signal.signal(number, self._hear)
        return self

    def __exit__(self, *_: object) -> None:
        for number in ENDING:
            signal.signal(number, signal.SIG_IGN)
        self.progress.erase()
        for child in self._children:
            child.terminate()
        for child in self._children:
            child.wait()
        with suppress(OSError):     # what can't be removed stays
            self.at_end.close()

    def _hear(self, number: int, _frame: FrameType | None) -> None:
        """Ends the run: but a child that is just beginning has to be known first."""
        self._heard = number
        if not self._is_starting:
            raise Signalled(number)

    def report(self, message: str) -> None:
        """Says a message, in the place of the line of progress."""
        self.progress.erase()
        report(message)

    def say(self, text: str) -> None:
        """Passes on lines of others, as they are."""
        if text:
            self.progress.erase()
            say(text)

    # ---- files

    def make_scratch(self, parent: str, name: str) -> str:
        """Makes the temporary folder."""
        self._scratch = os.path.join(parent, '%s.%s' % (name, os.urandom(8).hex()))
        try:
            os.mkdir(self._scratch, 0o700)
        except OSError as fault:
            raise Refused("can't make a temporary folder in %s" % parent) from fault
        self.at_end.callback(remove_folder, self._scratch)
        return self._scratch

    @property
    def scratch(self) -> str:
        """The temporary folder, which is made when it is first needed."""
        return self._scratch or self.make_scratch(self.environment.get('TMPDIR') or '/tmp', 'kubectl-rbacaudit')

    def path(self, *names: str) -> str:
        return os.path.join(self.scratch, *names)

    def write(self, name: str, text: str) -> str:
        """Writes a file in the temporary folder; its path."""
        try:
            with open(self.path(name), 'wb') as file:
                file.write(bytes_of(text))
        except OSError as fault:
            raise Refused("can't write into %s: %s" % (self.scratch, fault.strerror)) from fault
        return self.path(name)

    # ---- children

    def need(self, name: str, advice: str) -> None:
        """Refuses unless there is such a program."""
        if not program(name, self.environment.get('PATH', os.defpath)):
            raise Refused('there is no %s on the PATH: %s' % (name, advice))

    def need_rbacaudit(self) -> None:
        """Where there is none on the PATH, the one beside the plugin does: krew links to the plugin alone."""
        path = self.environment.get('PATH', os.defpath)
        if not program('rbacaudit', path):
            self.environment['PATH'] = path + os.pathsep + self._beside
        self.need('rbacaudit', 'make install in its repository puts it beside this plugin; or add its folder to the PATH')

    def need_kubectl(self) -> None:
        self.need('kubectl', 'install it (https://kubernetes.io/docs/tasks/tools), or answer from an export with --export DIR')

    def start(self, words: Sequence[str], **how: Any) -> Child:
        """Begins a child, which is ended at the latest with the run. It has the plugin's own standard files unless told otherwise."""
        self._is_starting = True
        try:
            how.setdefault('env', self.environment)
            child: Child = subprocess.Popen(words, **how)
            self._children.append(child)
        except OSError as fault:
            raise Refused("can't run %s: %s" % (words[0], fault.strerror)) from fault
        finally:
            self._is_starting = False
            if self._heard:
                raise Signalled(self._heard)
        return child

    def end(self, child: Child) -> int:
        """Waits for a child, which can write no more than was taken; its status, as a shell gives it."""
        for pipe in (child.stdout, child.stderr):
            if pipe:
                pipe.close()
        status = child.wait()
        self._children.remove(child)
        return status if status >= 0 else 128 - status

    def run(self, words: Sequence[str], **how: Any) -> int:
        return self.end(self.start(words, **how))

    def capture(self, words: Sequence[str], text: str | None = None, **how: Any) -> Done:
        """Runs a child, whose standard input may be a text, and keeps what it says."""
        stdin = {} if text is None else {'stdin': PIPE}
        child = self.start(words, **{'stdout': PIPE, 'stderr': PIPE, **stdin, **how})
        out, err = child.communicate(None if text is None else bytes_of(text))
        return Done(self.end(child), text_of(out or b''), text_of(err or b''))
