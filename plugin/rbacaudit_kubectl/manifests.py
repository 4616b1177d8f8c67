"""Manifests: what kubectl reads from files, folders, kustomizations and standard input, as one List.

kubectl takes every document with `items` for a list, whatever its kind, and several documents in one file. So JSON goes this way
too, or a binding could hide where rbacaudit doesn't look for one.
"""

from __future__ import annotations

import json
import os
import re
from collections.abc import Iterator
from dataclasses import dataclass, field
from itertools import groupby
from typing import Any, Dict

from .documents import first_of, read_text, text_in, told
from .escapes import bytes_of, on_one_line
from .fields import in_key
from .options import read_options
from .processes import Session
from .terminal import Refused, print_text

Item = Dict[str, Any]
KUSTOMIZATIONS = ('kustomization.yaml', 'kustomization.yml', 'Kustomization')
RBAC = 'rbac.authorization.k8s.io/'
ROLES, BINDINGS = ('Role', 'ClusterRole'), ('RoleBinding', 'ClusterRoleBinding')
NAMESPACED = ('Role', 'RoleBinding', 'ServiceAccount')
PATCH = ('kubectl', 'patch', '--local', '--type=merge', '-p', '{}', '-o', 'json')
MOST_FILES, SIDE_BY_SIDE = 1000, 4   # in a call, and calls that go on at once
# Older versions of kubectl drop the document that begins with such a line.
ODD_SEPARATOR = re.compile(r'^---[ \t]+[^ \t\r\n].*$', re.M)
# What an object of YAML surely has, and what a list may have: items, a key that hides; UTF-16 and JSON hide both.
HAS_KIND, MAY_BE_LIST = re.compile(r'^kind:', re.M), re.compile(r'items|[\\!\0]|\A\s*\{')


@dataclass
class Manifests:
    """What was read from some paths: the items of its List with the text and the file of each, and the file of the List."""
    paths: list[str]
    items: list[Item] = field(default_factory=list)
    origins: list[str] = field(default_factory=list)
    texts: list[str] = field(default_factory=list)
    file: str = ''
    rendered: list[str] = field(default_factory=list)   # what is said of kustomizations,
    foreign: list[str] = field(default_factory=list)    # and of objects that look like roles and bindings of another API group

    @property
    def named(self) -> str:
        """What the paths are called in messages."""
        return ', '.join(map(name_path, self.paths))


def name_path(path: str) -> str:
    return 'standard input' if path == '-' else path


# ---- objects

def is_of_rbac(item: Item) -> bool:
    """Whether it is a role or a binding."""
    return text_in(item, 'apiVersion').startswith(RBAC) and text_in(item, 'kind') in ROLES + BINDINGS


def is_held(item: Item) -> bool:
    """Whether rbacaudit holds such an object."""
    return is_of_rbac(item) or text_in(item, 'apiVersion') == 'v1' and text_in(item, 'kind') in ('Namespace', 'ServiceAccount')


def key_of(kind: str, namespace: str, name: str) -> str:
    """An object as findings have it."""
    return '%s/%s' % (kind, in_key((namespace or 'default') + '/' + name if kind in NAMESPACED else name))


def key_of_item(item: Item) -> str:
    return key_of(text_in(item, 'kind'), text_in(item, 'metadata', 'namespace'), text_in(item, 'metadata', 'name'))


def role_of(binding: Item) -> str:
    """The role that a binding refers to, in the same way."""
    of_role = text_in(binding, 'roleRef', 'kind'), text_in(binding, 'metadata', 'namespace'), text_in(binding, 'roleRef', 'name')
    return key_of(*of_role)


def labels_of(item: Any) -> dict[str, Any]:
    metadata = item.get('metadata') if isinstance(item, dict) else None
    found = metadata.get('labels') if isinstance(metadata, dict) else None
    return found if isinstance(found, dict) else {}


# ---- what kubectl reads

@dataclass
class Call:
    """A call of kubectl for a path, or '' for several files. A mark stands behind the objects of each file that may have more than one, or none."""
    path: str
    files: list[str]
    words: list[str]
    marked: set[str] = field(default_factory=set)


def as_value(path: str) -> str:
    """A path as a value of -f, which separates paths by commas."""
    return '"%s"' % path.replace('"', '""') if ',' in path or '"' in path else path


def calls_of(paths: list[str], mark: str) -> Iterator[Call]:
    """The calls that read some paths. Files in a row share a call, which takes kubectl longer to begin than to read a file: but a file that may
    have no object has its own, since kubectl refuses it."""
    for may_share, some in groupby(paths, key=has_some):
        calls = [call for path in some for call in calls_for(path, mark)]
        yield from calls_over('', [call.path for call in calls], mark) if may_share and len(calls) > 1 else calls


def calls_for(path: str, mark: str) -> Iterator[Call]:
    """The calls that read a path."""
    if '\n' in path:
        raise Refused('%s has a line break in its name: give it another' % path)
    if path == '-':
        yield Call(path, [name_path(path)], ['-f', '-'])
    elif not os.path.exists(path):
        raise Refused('there is no %s' % path)
    elif not os.access(path, os.R_OK):
        raise Refused("can't read %s" % path)
    elif os.path.basename(path) in KUSTOMIZATIONS:
        raise Refused('%s says how kustomize renders its folder: give the folder' % path)
    elif not os.path.isdir(path):
        yield Call(path, [path], ['-f', as_value(path)])
    elif is_kustomized(path):
        yield Call(path, [path], ['-k', path])
    else:
        yield from calls_over(path, files_in(path), mark)


def calls_over(path: str, files: list[str], mark: str) -> Iterator[Call]:
    """The calls that read many files."""
    for some in (files[at:at + MOST_FILES] for at in range(0, len(files), MOST_FILES)):
        marked = {file for file in some if not has_one(file)}
        words = [word for file in some for word in ('-f', as_value(file), *(['-f', as_value(mark)] if file in marked else []))]
        yield Call(path, some, words, marked)


def has_some(path: str) -> bool:
    """Whether a file of YAML surely has an object, if kubectl can read it."""
    text = read_text(path)
    return bool(HAS_KIND.search(text)) and not MAY_BE_LIST.search(text)


def has_one(path: str) -> bool:
    """Whether it surely has one alone: so it needs no mark, which costs kubectl as much as a file."""
    return has_some(path) and '---' not in read_text(path)


def files_in(folder: str) -> list[str]:
    """The manifests of a folder and of those within, in kubectl's order: what a folder has stands where its name does."""
    def refuse(_: OSError) -> None:
        raise Refused("can't read all of %s" % folder)

    found: list[str] = []
    for path, folders, files in os.walk(folder, onerror=refuse):
        if '\n' in ''.join(folders + files):
            raise Refused('a file or folder in %s has a line break in its name: give it another' % folder)
        # (for kubectl, a link to a folder is a file)
        files += [name for name in folders if os.path.islink(os.path.join(path, name))]
        found += [os.path.join(path, name) for name in files if name.endswith(('.json', '.yaml', '.yml')) or name in KUSTOMIZATIONS]
    if not found:
        raise Refused('there is no manifest in %s: no file within has a name that ends in .json, .yaml or .yml' % folder)
    found.sort(key=lambda path: bytes_of(path).replace(b'/', b'\1'))
    for within, name in (os.path.split(path) for path in found):
        if name == 'Chart.yaml':
            raise Refused('{0} is a Helm chart: render it first, as in helm template {0} | kubectl rbacaudit read -'.format(within))
        if name in KUSTOMIZATIONS:
            raise Refused("{0} has a kustomization, so what its files have isn't what is applied: give {0} itself, or another "
                          'folder that has a kustomization'.format(within))
    return without_links(folder, found)


def without_links(folder: str, files: list[str]) -> list[str]:
    """The files, without links to others of them. A link out of the folder is refused: whoever wrote it may not read there."""
    links = {path: os.path.realpath(path) for path in files if os.path.islink(path)}
    for path, target in links.items():
        if not target.startswith(os.path.join(os.path.realpath(folder), '')):
            raise Refused('%s is a link that leads out of %s, so nothing is read' % (path, folder))
    read = {os.path.realpath(path) for path in files if path not in links} if links else set()
    # (of several links to one file, the first counts)
    kept = {target: path for path, target in reversed(links.items()) if target not in read}.values()
    return [path for path in files if path not in links or path in kept]


def run_calls(session: Session, calls: list[Call], name: str = 'call') -> Iterator[tuple[Call, int, str]]:
    """Makes calls, some at a time: the status of each and what it printed. What it said is told on one line. If several files fail, each is
    read by itself, to know which can't be read."""
    # (kubectl reads neither a cluster nor a kubeconfig here, and a third of its time goes into garbage that needn't be collected)
    environment = {'GOGC': '400', **session.environment, 'KUBECONFIG': os.devnull, 'KUBERC': 'off'}
    for some in (calls[at:at + SIDE_BY_SIDE] for at in range(0, len(calls), SIDE_BY_SIDE)):
        going = []
        for number, call in enumerate(some):
            paths = [session.path('%s-%d.%s' % (name, number, what)) for what in ('printed', 'said')]
            with open(paths[0], 'wb') as printed, open(paths[1], 'wb') as said:
                going.append((call, session.start([*PATCH, *call.words], stdout=printed, stderr=said, env=environment), paths))
        for call, child, paths in going:
            status, texts = session.end(child), [*map(read_text, paths)]
            if status and not call.path:
                yield from run_calls(session, [one for file in call.files for one in calls_for(file, '')], 'again')
                continue
            session.say(on_one_line(texts[1].rstrip('\n')) + '\n' if texts[1] else '')
            yield call, status, texts[0]


def read_objects(session: Session, paths: list[str]) -> Iterator[tuple[str, str, Item]]:
    """The objects at some paths: the file of each, its text and what it says. What kubectl can't read is refused."""
    session.need('kubectl', 'it reads the manifests; install it (https://kubernetes.io/docs/tasks/tools)')
    # (no manifest has its name, which is made up anew each time)
    mark = {'apiVersion': 'rbacaudit/v1', 'kind': 'EndOfFile', 'metadata': {'name': os.urandom(16).hex()}}
    file_of_mark = session.write('mark.json', json.dumps(mark))
    unread = ''
    for call, status, printed in run_calls(session, [*calls_of(paths, file_of_mark)]):
        unread = unread or (call.path if status else '')
        files = iter(call.files)
        file = next(files)
        for text, item in objects_in(printed) if not unread else ():
            if item == mark:
                file = next(files, '')
            else:
                yield file, text, item
                file = file if len(call.files) == 1 or file in call.marked else next(files, '')
    if unread:
        raise Refused("kubectl can't read %s, so nothing is answered" % name_path(unread))


def objects_in(printed: str) -> Iterator[tuple[str, Item]]:
    """The objects that kubectl printed, one behind the other, each with its text."""
    decode, at, printed = json.JSONDecoder().raw_decode, 0, printed.rstrip()
    try:
        while at < len(printed):
            item, end = decode(printed, at)
            yield printed[at:end], item
            at = end + 1    # (a newline)
    except (ValueError, RecursionError):
        raise Refused("what kubectl printed can't be read, so nothing is answered") from None


# ---- what manifests have

def take_manifests(session: Session, name: str, paths: list[str], namespace: str = '', offers: bool = True) -> Manifests:
    """Reads manifests into a list of this name, says what it has, and puts what has no namespace into this one."""
    found, bare = Manifests(paths), []
    for origin, text, item in read_objects(session, paths):
        check_item(item, origin)
        if text_in(item, 'kind') in NAMESPACED and is_held(item) and not text_in(item, 'metadata', 'namespace'):
            bare += ['%s/%s' % (item['kind'], told(text_in(item, 'metadata', 'name')) or '""')] * is_of_rbac(item)
            if namespace:
                item['metadata'] = {**(item.get('metadata') or {}), 'namespace': namespace}
                text = json.dumps(item, indent=4, ensure_ascii=False)
        found.texts.append(text)
        found.items.append(item)
        found.origins.append(origin)
    kinds = [item['kind'] for item in found.items if is_of_rbac(item)]
    roles = sum(kind in ROLES for kind in kinds)
    counts = (roles, 'role'), (len(kinds) - roles, 'binding'), (len(found.texts) - len(kinds), 'other object')
    session.report('read from %s: %s' % (found.named, ', '.join('%d %s%s' % (many, of, 's'[many == 1:]) for many, of in counts)))
    look_for_doubts(session, found)
    if bare:
        offer = '; -n NS counts them in NS' if offers and not namespace else ''
        session.report('these have no namespace, and count in %s: %s%s' % (namespace or 'default', first_of(bare), offer))
    elif namespace:
        session.report('no object of %s lacks a namespace, so -n %s changes nothing' % (found.named, namespace))
    found.file = session.write('manifests-%s.json' % name, list_text(found.texts))
    return found


def list_text(texts: list[str]) -> str:
    """A List of items."""
    return '{"apiVersion":"v1","kind":"List","items":[\n%s\n]}\n' % '\n,\n'.join(texts)


def look_for_doubts(session: Session, found: Manifests) -> None:
    """Reports what is read in one way here, and may be applied in another."""
    for path in filter(is_kustomized, found.paths):
        left = ', '.join(left_out(path))
        found.rendered.append('%s has a kustomization, so what kubectl renders of it counts%s' % (
            path, left and '; it leaves out these files: ' + left))
    for file in dict.fromkeys(found.origins):
        text = read_text(file)
        lines = [text.count('\n', 0, one.start()) + 1 for one in ODD_SEPARATOR.finditer(text)] if not text.lstrip().startswith('{') else []
        if lines:
            session.report('%s has more than --- on a line with which a document begins (line %s): older versions of kubectl drop such a document' % (
                file, ', '.join(map(str, lines))))
    for item, origin in zip(found.items, found.origins):
        if text_in(item, 'kind') in ROLES + BINDINGS and not is_of_rbac(item):
            found.foreign.append('%s has the %s %s of %s, which is left out: it is not of rbac.authorization.k8s.io' % (
                origin, item['kind'], told(text_in(item, 'metadata', 'name')), told(text_in(item, 'apiVersion'))))
    for doubt in found.rendered + found.foreign:
        session.report(doubt)


def is_kustomized(path: str) -> bool:
    """Whether a path is a folder that kubectl renders."""
    return os.path.isdir(path) and any(os.path.exists(os.path.join(path, name)) for name in KUSTOMIZATIONS)


def left_out(folder: str) -> list[str]:
    """The manifests of a folder that its kustomization doesn't name, but maybe in a comment; folders with one of their own are judged by
    themselves."""
    said = re.sub(r'(?m)(^|\s)#.*$', '', ''.join(read_text(os.path.join(folder, name)) for name in KUSTOMIZATIONS))
    found = []
    for path, folders, files in os.walk(folder):
        folders[:] = [name for name in folders if not is_kustomized(os.path.join(path, name))]
        for name in files:
            within = os.path.relpath(os.path.join(path, name), folder)
            is_named = re.search(r'(?<![\w/.-])(?:\./)?%s(?![\w/.-])' % re.escape(within), said)
            if name.endswith(('.json', '.yaml', '.yml')) and name not in KUSTOMIZATIONS and not is_named:
                found.append(os.path.join(folder, within))
    return sorted(found)


def check_item(item: Item, origin: str) -> None:
    """Refuses an object that looks like a role or a binding, and is none."""
    kind, version = text_in(item, 'kind'), text_in(item, 'apiVersion')
    if version.startswith(RBAC) and not is_of_rbac(item):
        raise Refused("%s has the kind %s, which rbac.authorization.k8s.io doesn't have: check the spelling" % (origin, told(kind)))
    if not version and kind in ROLES + BINDINGS:
        raise Refused('%s has a %s without an apiVersion, so no cluster takes it' % (origin, kind))
    if is_of_rbac(item) and not text_in(item, 'metadata', 'name') and text_in(item, 'metadata', 'generateName'):
        raise Refused('%s has a %s without a name, because the server makes one of its generateName: give it a name' % (origin, kind))


def need_held(undone: str, *sides: Manifests) -> None:
    """Refuses manifests that hold nothing to answer about, and says what isn't done with them."""
    if not any(is_of_rbac(item) for side in sides for item in side.items):
        names = [side.named for side in sides]
        has_none = 'neither %s nor %s has a role or a binding' if names[1:] else '%s has neither a role nor a binding'
        raise Refused('%s, so nothing is %s: check each kind and apiVersion in %s' % (
            has_none % tuple(names), undone, 'them' if names[1:] else 'it'))


# ---- words about manifests, and the command read

def check_inputs(paths: list[str]) -> None:
    if paths.count('-') > 1:
        raise Refused('standard input can be read once: give - as one PATH alone')


def check_namespace(name: str) -> None:
    if name.strip('abcdefghijklmnopqrstuvwxyz0123456789.-'):
        raise Refused('there is no namespace %s: its name would have lower-case letters, digits and dashes alone' % name)


def read_command(session: Session, words: list[str]) -> int:
    """kubectl rbacaudit read: the manifests at some paths as one List."""
    options = read_options('read', words)
    options.check_end()
    if not options.paths:
        raise Refused('read needs a path: a file, a folder, or - for standard input')
    check_inputs(options.paths)
    check_namespace(options.namespace)
    found = take_manifests(session, 'read', options.paths, options.namespace)
    print_text(read_text(found.file), as_json=True)
    return 0
