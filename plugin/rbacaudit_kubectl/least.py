"""least: the roles that let a user do what it did, by an audit log, as one List that kubectl applies."""

from __future__ import annotations

from .logs import ask_by_logs, open_logs
from .processes import Session
from .terminal import print_text

EMPTY = '"items": []\n}\n'


def least_command(session: Session, words: list[str]) -> int:
    """The command least."""
    asking, logs = open_logs(session, 'least', words)
    done, _ = ask_by_logs(asking, logs, 'these rules are for requests that are allowed by')
    if done.status:
        return done.status
    if done.out.endswith(EMPTY) and logs.read:
        session.report('the logs have no request of %s that these roles allow, so the List is empty' % asking.question.asker)
    print_text(done.out, as_json=True)
    return 0
