"""page: everything about an export as one HTML file."""

from __future__ import annotations

import json
import os
import re
from collections.abc import Iterator

from . import page
from .answer import Asking, ask_as_it_comes, ask_well, lines_of, open_asking
from .escapes import printable
from .export import find_about
from .fields import has_name, in_field, place_of
from .listed import Type, list_types, make_universe
from .options import read_options
from .page_paths import Paths, words_for
from .processes import Session
from .question import Question, check_cluster
from .remarks import STALE, look_for_universes, on_namespace, stale_in
from .terminal import Refused

# A rule with resourceNames, perhaps with a letter of it as an escape.
NAMES = re.compile(rb'"resourceNames"|\\u00([46][0-9A-Fa-f]|[57][0-9Aa])')


def page_command(session: Session, words: list[str]) -> int:
    """The command page."""
    options = read_options('page', words)
    if not options.output and os.isatty(1):
        raise Refused('the page goes into a file: kubectl rbacaudit page --output access.html')
    session.need_rbacaudit()
    check_cluster(session, options)
    if options.diff and not os.access(options.diff, os.R_OK):
        raise Refused("can't read %s" % options.diff)
    look_for_universes(session, options.paths, once=not options.namespace)
    question = Question('matrix', options.paths, options.namespace)
    question.shows_paths = True
    asking = open_asking(session, options, question)
    for text in on_namespace(asking):
        session.report(text)
    return write_page(asking)


def write_page(asking: Asking) -> int:
    """Writes the page of the export that is open, and of the FILEs: each text goes to the page as a file."""
    session, options, export = asking.session, asking.options, asking.export
    assert export is not None
    text, types = make_universe(asking)
    given = [session.write('universe.json', text), *asking.question.files]
    linted = [*given, *asking.files('cluster.json', 'namespaced.json')]
    texts = {'--lint': ask_well(asking, ['lint', '--', *linted], linted).out, '--named': ''.join(named_holders(asking, types))}
    stale = ', '.join(stale_in(texts['--lint']))
    if stale:
        session.report(STALE % (stale, 'this page has'))
    texts['--notices'] = printable(''.join(line + '\n' for line in notices(asking, stale)))
    texts['--namespaced'] = ''.join('%s\t%s\n' % (in_field(it.group), in_field(it.name)) for it in list_types(asking, [*given, *asking.files()])
                                    if it.is_namespaced)
    about = find_about(session, options, export)
    words = [word for name, value in texts.items() for word in (name, session.write('page' + name, value))]
    paths = Paths(asking)
    paths.ask()
    words += [*words_for(paths)]
    words += ['%s=%s' % pair for pair in (('--diff', options.diff), ('--about', about), ('--title', options.title), ('--output', options.output))
              if pair[1]]
    place = {'namespaces': ['', options.namespace]} if options.namespace else {}
    document = json.dumps({'apiVersion': 'rbacaudit/v1', 'kind': 'Universe', **place})
    files = [*given, session.write('place.json', document), *asking.files()]
    line = ['matrix', '--once', *['--every'] * options.every, '--', *files]
    return ask_as_it_comes(asking, line, files, lambda child: page.main(words, lines_of(child)))[1]


def notices(asking: Asking, stale: str) -> Iterator[str]:
    """What the page has to say at its top."""
    if asking.export and asking.export.gaps:
        yield 'A part of the export is missing, so rows may be missing too: %s.' % '; '.join(asking.export.gaps)
    if asking.options.namespace:
        yield 'This page has the namespace %s and the whole cluster alone.' % asking.options.namespace
    if stale:
        yield 'Stale aggregates (L6 of lint): %s. The cluster grants what is written in them, and this page has what they gather.' % stale


# ---- who may do something only to objects of certain names

def named_holders(asking: Asking, types: list[Type]) -> list[str]:
    """Who may do what is on the watch list only to objects of certain names: holders by rules whatever their resourceNames, but for those who
    have something of the same step outright, in that namespace or in the whole cluster."""
    if not any(has_names(path) for path in [*asking.question.files, *asking.files('cluster.json', 'namespaced.json')]):
        return []
    known = {(it.group, it.name) for it in types}
    steps: dict[tuple[str, str, str], set[str]] = {}
    for step, verb, group, resource in page.watched():
        of_core = group == '-'
        # (a server asks about some requests without a name, so a rule with names never allows them)
        if ('' if of_core else group, resource) in known and has_name(verb, resource if of_core else resource + '.' + group):
            steps.setdefault((verb, group, resource), set()).add(step)
    by_name, outright = list[tuple[set[str], str, str, str]](), set[tuple[str, str, str]]()
    for number, pair in enumerate(steps, 1):
        asking.session.progress.draw('asking about object names, %d of %d' % (number, len(steps)))
        found = holders(asking, *pair, '--any-name')
        by_name += ((steps[pair], '\t'.join(pair), *holder) for holder in found)
        outright |= {(step, who, place_of(binding)) for who, binding in (holders(asking, *pair) if found else ()) for step in steps[pair]}
    asking.session.progress.erase()
    return ['%s\t%s\t%s\n' % (pair, who, binding) for of_pair, pair, who, binding in by_name
            if any(not {(step, who, ''), (step, who, place_of(binding))} & outright for step in of_pair)]


def has_names(path: str) -> bool:
    """Whether a file may have a rule with resourceNames."""
    with open(path, 'rb') as file:
        return NAMES.search(file.read()) is not None


def holders(asking: Asking, verb: str, group: str, resource: str, *more: str) -> list[tuple[str, str]]:
    """Who has a pair anywhere, and each binding. (a type with a dot and no group is of the core group)"""
    name, _, below = resource.partition('/')
    files = [*asking.question.files, *asking.files('cluster.json', 'namespaced.json', 'api')]
    question = ['--anywhere', '--every', *more, '--subresource=' + below, '--', verb, '%s.%s' % (name, '' if group == '-' else group)]
    lines = ask_well(asking, ['who-can', *question, *files], files).out.splitlines()
    return [(who, binding) for who, _, binding in (line.partition('\t') for line in lines)]

