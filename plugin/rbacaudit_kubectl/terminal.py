"""What reaches a terminal: messages that nobody can take for another's, lines of progress, and answers; and how a run ends before its end."""

from __future__ import annotations

import os
import sys
from collections.abc import Mapping
from contextlib import suppress
from dataclasses import dataclass

from .escapes import bytes_of, escaped, on_one_line

PLUGIN = 'kubectl-rbacaudit'


class Refused(Exception):
    """What is asked can't be done: its text is reported, and the status is 2."""


class Ended(Exception):
    """The run ends with this status, and all has been said."""

    def __init__(self, status: int) -> None:
        super().__init__(status)
        self.status = status


def say(text: str) -> None:
    """Writes a text to standard error as it is."""
    data = bytes_of(text)
    with suppress(OSError):  # nobody can be told that nobody can be told
        while data:
            data = data[os.write(2, data):]


def report(message: str, prefix: str = PLUGIN) -> None:
    """Tells a message on one line. Names and words of others in it neither act on a terminal nor hide there."""
    say('%s: %s\n' % (prefix, on_one_line(message)))


def print_text(text: str, as_json: bool = False) -> None:
    """Writes a text to standard output, escaped if that is a terminal. Faults are the caller's."""
    sys.stdout.buffer.write(bytes_of(escaped(text, as_json) if os.isatty(1) else text))
    sys.stdout.buffer.flush()


def has_colors(when: str, environment: Mapping[str, str]) -> bool:
    """Whether standard output has colors, by the word after --color."""
    if when != 'auto':
        return when == 'always'
    return (os.isatty(1) and not environment.get('NO_COLOR')
            and environment.get('TERM', '') not in ('', 'dumb'))


@dataclass
class Progress:
    """A line on a terminal that says how far something is, and goes away; `room` is how wide it has been at most."""
    prefix: str = PLUGIN
    room: int = 60
    is_drawn: bool = False

    def draw(self, text: str) -> None:
        """Puts a text into the line."""
        if os.isatty(2):
            self.is_drawn = True
            line = '%s: %s' % (self.prefix, on_one_line(text))
            self.room = max(self.room, len(line))
            say('\r' + line)

    def erase(self) -> None:
        """Takes the line away."""
        if self.is_drawn:
            self.is_drawn = False
            say('\r%s\r' % (' ' * self.room))
