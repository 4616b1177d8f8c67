"""What to do after some messages of rbacaudit: a line behind them."""

from __future__ import annotations

import json
import os
import re
from collections.abc import Iterator
from typing import Any

from .answer import Asking
from .documents import first_of, item_of, list_in, objects_in, read_document, read_text, text_in, told
from .kubectl import OF_USERS
from .manifests import BINDINGS, RBAC, ROLES
from .processes import Session
from .question import Question

# The first line that says something: a comment and a directive don't, and an error that kubectl printed isn't YAML.
SILENT = re.compile(r'[ \t]*(#.*)?\r?$|%')
YAML = re.compile(r'(?!\s*(error|warning))((---|[ \t]*-)(\s|$)|[ \t]*[a-z][a-z0-9_./-]*:(\s|$))', re.I)
VERSIONS = {'List': 'v1', 'Namespace': 'v1', 'ServiceAccount': 'v1', 'NamespaceList': 'v1', 'ServiceAccountList': 'v1',
            'Universe': 'rbacaudit/v1', 'Group': OF_USERS, 'GroupList': OF_USERS, **dict.fromkeys((kind + more for kind in ROLES + BINDINGS for more in ('', 'List')),
                                                        '%sv1 or %sv1beta1' % (RBAC, RBAC))}
AT_MOST = 'a file may have at most 67,108,864 bytes (64 MiB): '
APART = '%s and ask rbacaudit about all %s, without this plugin'
GRANTS = 'rbacaudit takes at most 1,000,000 grants%s: pairs of a binding and a rule of its role%s'
MOST_TARGETS = 1_000_000
TARGETS = ('a universe has at most 1,000,000 targets: resources times names, and URLs; a FILE that is a Universe document with "resources" or "names" '
           'makes it smaller')
WHO = 'WHO is u:NAME for a user, or g:NAME for a group: '
WHO_USER = 'WHO is u:NAME for a user: '


def find_culprit(path: str, item: int) -> str:
    """The object that a fault is about, an item of a file or the document itself (0), or '' if it has no name."""
    return named(*item_of(read_document(path), item))


def named(found: Any, kind: str) -> str:
    """An object as messages have it, or '' if it has no name."""
    namespace, name = (text_in(found, 'metadata', of) for of in ('namespace', 'name'))
    return '%s %s%s' % (told(kind), told(namespace) + '/' if namespace else '', told(name)) if name else ''


# ---- files that are refused

def advise(asking: Asking, path: str, fault: str, item: int | None) -> None:
    """Says what to do about a file that rbacaudit has refused. A file of the plugin's own was taken for nothing else."""
    is_made = path.startswith(os.path.join(asking.session.scratch, ''))
    advice = ''
    if fault == 'M3 bad version':
        advice = of_version(path, item or 0)
    elif fault == 'I2 too long':
        advice = AT_MOST + of_length(asking, path)
    elif fault == 'M1 not JSON' and not is_made:
        advice = of_text(path)
    elif fault == 'I1 read fault' and not is_made:
        advice = of_path(path)
    if advice:
        asking.session.report(advice)


def of_version(path: str, item: int) -> str:
    """The apiVersion of a document or an item, and which versions rbacaudit reads there."""
    found, kind = item_of(read_document(path), item)
    what = 'item %d' % item if item else 'the document'
    wanted = ': a %s has %s' % (kind, VERSIONS[kind]) if kind in VERSIONS else ''
    version = found.get('apiVersion', '') if isinstance(found, dict) else ''
    if not isinstance(version, str):
        return "the apiVersion of %s isn't a text%s" % (what, wanted)
    if not version and wanted:
        return '%s has no apiVersion%s' % (what, wanted)
    is_read = version in (RBAC + 'v1', RBAC + 'v1beta1') or not version.startswith(RBAC)
    fault = 'the apiVersion of %s is %s: of this API group, rbacaudit reads v1 and v1beta1'
    return '' if is_read else fault % (what, told(version))


def of_length(asking: Asking, path: str) -> str:
    """How a file is divided. One of an export can't be in its folder, where files are known by their names."""
    if path in asking.manifests:
        return APART % ('write parts of the manifests into files with kubectl rbacaudit read,', 'of them')
    if asking.question.command == 'diff' or asking.export and path in asking.files(*asking.question.parts()[0]):
        return APART % ('write kinds or namespaces into files of their own with kubectl get,', 'files')
    return 'put kinds or namespaces into files of their own; several files are one export'


def of_text(path: str) -> str:
    """What a file is that isn't JSON."""
    text = read_text(path).removeprefix('\ufeff')
    lines = (line[0] for line in re.finditer('[^\n]+', text))
    if YAML.match(next((line for line in lines if not SILENT.match(line)), '')):
        return '%s looks like YAML, and rbacaudit reads JSON: kubectl rbacaudit read %s makes JSON of it' % (path, path)
    if has_several(text.lstrip()):
        return ('%s has several JSON documents, one behind the other: put their objects into one List, or each document into a '
                'file of its own, as jq -c . FILE | split -l 1 - part- does' % path)
    return ''


def has_several(text: str) -> bool:
    """Whether a second JSON object begins where the first has ended."""
    decode = json.JSONDecoder().raw_decode
    try:
        first, end = decode(text)
        return isinstance(first, dict) and isinstance(decode(text[end:].lstrip(' \t\r\n,'))[0], dict)
    except (ValueError, RecursionError):
        return False


def of_path(path: str) -> str:
    """What a path is that can't be read."""
    if not os.path.exists(path):
        return 'there is no %s' % path
    folder = path.removesuffix('/')
    if any(os.path.isfile(os.path.join(folder, name)) for name in ('cluster.json', 'namespaced.json')):
        return '%s is a folder that holds an export: write --export %s, or %s/*.json for its files' % (path, folder, folder)
    return '%s is a folder: write %s/*.json for its files' % (path, folder) if os.path.isdir(path) else ''


def advise_on_grants(asking: Asking) -> None:
    """Says what grants are; and if an export of one namespace has all that a question is about, and so maybe fewer of them,
    that there is such an export."""
    question, smaller = asking.question, ''
    is_of_one = question.command in ('can-i', 'who-can', 'rules') and not question.indirect and not question.anywhere
    if is_of_one and question.asked_in and not (asking.export and asking.export.only):
        smaller = '; for this question, export the namespace {0} alone: kubectl rbacaudit export -n {0} DIR'.format(question.asked_in)
    each = ' on each side' if question.command == 'diff' else ''
    asking.session.report(GRANTS % (each, smaller))


def advise_on_universe(asking: Asking, files: list[str]) -> None:
    """Says which rules alone name too many resources for a universe, if there are such, and how it is made smaller."""
    found = [text for path in files for text in wide_rules(path)]
    if found:
        asking.session.report('too many resources are named by %s' % first_of(found))
    asking.session.report(TARGETS)


def wide_rules(path: str) -> Iterator[str]:
    """The rules of a file that name more resources than a universe may have targets."""
    for found in objects_in(path):
        kind = text_in(found, 'kind')
        for place, rule in enumerate(list_in(found, 'rules') if kind in ROLES else (), 1):
            groups, words = ({text for text in list_in(rule, name) if isinstance(text, str) and '*' not in text} for name in ('apiGroups', 'resources'))
            count = len(groups) * len({text for text in words if text and not text.startswith('/')})
            if count > MOST_TARGETS:
                yield 'rule %d of %s: %s' % (place, named(found, kind) or kind, format(count, ','))


# ---- words that are refused

def advise_on_words(session: Session, question: Question, said: str) -> None:
    """Says what to do about words that rbacaudit has refused, by what it said."""
    first, second = (*question.places, '', '')[:2]
    advice = {'U2': of_empty(question, first, second), 'U5': (of_user if question.command == 'least' else of_who)(first), 'U6': of_codes(question.codes),
              'U4': "--after takes the TOKEN of a matrix's last line, next TOKEN: copy all of it"}.get(said[11:13])
    if advice:
        session.report(advice)


def of_empty(question: Question, verb: str, target: str) -> str:
    """Which words are empty."""
    said = (("USER is empty: write a user's name after --as", question.command == 'can-i' and not question.asker),
            ('VERB is empty: write a verb, such as get', not verb),
            ('TARGET is empty: write a type or a URL, such as pods or /metrics', not target),
            ('TARGET begins with a dot: write a resource in front of it, as in deployments.apps', target.startswith('.')))
    return '; '.join(text for text, is_so in said if is_so)


def of_codes(codes: str) -> str:
    """The first part of the text after --only that is no code."""
    for part in codes.split(','):
        if not re.fullmatch('L[1-7]', part):
            fault = 'there is no code "%s" with a blank' % part if re.search(r'\s', part) else 'there is no code ' + part
            return (fault if part else 'a code is missing') + ': --only takes L1 to L7, separated by commas, as in --only L1,L3'
    return ''


def of_who(who: str) -> str:
    """How WHO is written."""
    if who in ('', 'u:', 'g:'):
        return WHO + 'a name is missing'
    if who.startswith('g:'):
        return 'a group has no groups: ask about %s without --groups and --group, or about a user, u:NAME' % who
    return '%swrite u:%s, or g:%s' % (WHO, who, who)


def of_user(who: str) -> str:
    """The same where WHO is a user."""
    if who in ('', 'u:'):
        return WHO_USER + 'a name is missing'
    return WHO_USER + ('a log has the requests of users, whatever their groups are' if who.startswith('g:') else 'write u:' + who)
