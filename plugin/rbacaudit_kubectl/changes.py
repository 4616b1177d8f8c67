"""diff: what a change lets users do, and what it takes from them."""

from __future__ import annotations

import json
from collections import Counter

from .answer import Asking, ask, ask_shown, show_text
from .documents import first_three, list_in, objects_in, read_json, text_in
from .escapes import bytes_of
from .export import open_export
from .fields import STEP_NAMES, is_gathered, powers_of, rows_of
from .manifests import (Item, Manifests, check_inputs, check_namespace, is_of_rbac, key_of_item, labels_of, list_text, name_path, need_held,
                        role_of, take_manifests)
from .options import Options, choose_format, read_options
from .processes import Session
from .question import Question, check_cluster
from .remarks import find_stale, look_for_universe
from .terminal import Refused

# Where kubectl apply keeps what it has applied.
APPLIED = 'kubectl.kubernetes.io/last-applied-configuration'


def diff_command(session: Session, words: list[str]) -> int:
    """kubectl rbacaudit diff."""
    options = read_options('diff', words)
    choose_format(options, 'diff --summary' if options.summary else 'diff')
    session.need_rbacaudit()
    check_sides(options)
    is_alone = bool(options.before) and not options.exports
    if not is_alone:
        options.without, options.with_ = options.without or options.before, options.with_ or options.after
    is_change = bool(options.without or options.with_)
    check_cluster(session, options, is_alone, reads=len(options.exports) < (1 if is_change else 2))
    asking = Asking(session, options, Question('diff'))
    if is_alone:
        from .alone import compare_states
        return compare_states(asking)
    return compare_change(asking) if is_change else compare_exports(asking)


def check_sides(options: Options) -> None:
    """Refuses words that name no two sides: two exports, an export and the cluster as it is now, one of these and a change of it, or
    two states of manifests, which are a change of an export where one is given."""
    options.check_end()
    paths = [path for path in (options.with_, options.without, options.before, options.after) if path]
    for fault, is_so in (
            ('diff needs --export DIR or --with PATH, or --from PATH and --to PATH; kubectl rbacaudit diff --help says more',
             not options.exports and not paths),
            ('--from and --to go together: the manifests before the change, and those after it', bool(options.before) != bool(options.after)),
            ('--from and --to are the whole change: give neither --with nor --without beside them', options.before and len(paths) > 2),
            ('diff compares two exports, or one with a change: --with goes with one --export', len(options.exports) > 1 and paths),
            ('--no-defaults is for manifests alone: an export has the roles that Kubernetes makes',
             options.bare and (options.exports or not options.before)),
            ("-n is the namespace of a change's objects that have none, so it needs --with PATH, --without PATH, or --from PATH and "
             '--to PATH', options.namespace and not paths)):
        if is_so:
            raise Refused(fault)
    check_inputs(paths)
    check_namespace(options.namespace)


def take_side(asking: Asking, name: str, path: str) -> Manifests:
    """Reads the manifests of a side."""
    found = take_manifests(asking.session, name, [path], asking.options.namespace)
    look_for_universe(asking.session, found.file, found.named, idle=True)
    asking.manifests[found.file] = found
    if asking.options.fail_on and found.rendered and not asking.options.kustomize:
        raise Refused('a kustomization says what is applied of %s, so --fail-on decides nothing; if that is meant, give --kustomize too'
                      % found.named)
    if asking.options.fail_on and found.foreign:
        raise Refused('a cluster may grant by objects of %s that are left out, so --fail-on decides nothing' % found.named)
    return found


# ---- exports

def open_side(asking: Asking, folder: str, only_in: str = '') -> tuple[list[str], str, list[str]]:
    """Opens an export, or a fresh one: its files, the namespace that it has alone, and its stale aggregates."""
    export = asking.export = open_export(asking.session, asking.options, asking.question, folder, only_in)
    stale = find_stale(asking)
    if stale:
        asking.session.report('stale aggregates (L6 of lint) in %s: %s; the cluster grants what is written in them, and these lines have '
                              'what they gather' % (export.named, ', '.join(stale)))
    return export.files('cluster.json', 'namespaced.json'), export.only, stale


def compare_exports(asking: Asking) -> int:
    """Compares two exports; a fresh one is of the namespace that the other is of."""
    old, new = [*asking.options.exports, ''][:2]
    before, only, _ = open_side(asking, old)
    after, only_after, _ = open_side(asking, new, only)
    if only_after != only:
        asking.session.report('only one of the exports is of the namespace %s alone, so what it lacks counts as gained or lost'
                              % (only_after or only))
        if not asking.options.partial:
            raise Refused('nothing is answered; --partial answers from what is there')
    return compare(asking, ['--before', *before, '--after', *after])


def compare_change(asking: Asking) -> int:
    """Compares an export, or the cluster as it is now, with a change of it."""
    options, session = asking.options, asking.session
    gone = take_side(asking, 'without', options.without) if options.without else None
    put = take_side(asking, 'with', options.with_) if options.with_ else None
    need_held('compared', *(side for side in (gone, put) if side))
    files, _, stale = open_side(asking, options.export)
    words = ['--before', *files]
    over = name_path(options.with_) + ' is put over'
    if gone:
        session.report('what %s has is taken from the export%s' % (gone.named, ', and %s it' % over if put else ''))
        # (what both have is replaced for lint)
        both = session.capture(['rbacaudit', 'lint', '--only=L7', *files, gone.file])
        absent = {key_of_item(item) for item in gone.items if is_of_rbac(item)} - {row[2] for row in rows_of(both.out)}
        if absent and both.status <= 1:
            session.report("the export doesn't have these, so nothing is taken away with them: %s" % first_three(absent))
        words += ['--without', gone.file]
    else:
        session.report(over + ' the export: objects that the change deletes still count')
    if put:
        keep_labels(asking, put, files)
        made = [role for role in find_stale(asking, put.file) if role not in stale]
        if made:
            session.report('this change makes stale aggregates (L6 of lint): %s; a cluster grants what is written in them, for ever if '
                           'they select each other, and these lines have what they gather' % ', '.join(made))
        words += ['--with', put.file]
    return compare(asking, words, gone, put)


# ---- labels that a cluster has and manifests haven't: kubectl apply leaves those that it didn't set, and aggregated roles gather by them

def keep_labels(asking: Asking, put: Manifests, files: list[str]) -> None:
    """Gives the cluster roles of a change the labels that kubectl apply leaves, by the files of an export."""
    roles = {key_of_item(item): at for at, item in enumerate(put.items) if is_of_rbac(item) and item['kind'] == 'ClusterRole'}
    kept = []
    for exported in objects_in(*files) if roles else ():
        key = key_of_item(exported)
        if key not in roles:
            continue
        role = put.items[roles[key]]
        ours = {**labels_of(read_json(text_in(exported, 'metadata', 'annotations', APPLIED))), **labels_of(role)}
        theirs = {name: value for name, value in labels_of(exported).items() if name not in ours}
        if theirs:
            role['metadata'] = {**role['metadata'], 'labels': {**labels_of(role), **theirs}}
            put.texts[roles[key]] = json.dumps(role, indent=4, ensure_ascii=False)
            kept.append('%s (%s)' % (key, ', '.join(theirs)))
    if kept:
        put.file = asking.session.write('manifests-with.json', list_text(put.texts))
        asking.session.report('kubectl apply leaves labels that only the cluster has: %s' % first_three(kept))


# ---- the answer

def compare(asking: Asking, words: list[str], old: Manifests | None = None, new: Manifests | None = None) -> int:
    """Asks about both sides, of which some objects may stand in manifests, and shows the answer; the status."""
    options = asking.options
    line, files = ['diff', *words], [word for word in words if not word.startswith('--')]
    if not options.summary and not options.fail_on and options.format != 'sarif':
        return ask_shown(asking, line, files, awaited=lambda: 'comparing; at most {:,} lines are to come'.format(most_lines(files)))
    done = ask(asking, line, files)
    return show_rows(asking, rows_of(done.out), old, new) if done.status < 2 else done.status


def show_rows(asking: Asking, rows: list[list[str]], old: Manifests | None, new: Manifests | None, own: list[Item] | None = None) -> int:
    """Shows the lines of an answer; the status. Kubernetes' own objects count beside manifests alone."""
    options = asking.options
    if options.format == 'sarif':
        from .sarif import of_diff
        text = of_diff(asking, old, new, rows, own or [])
    else:
        text = summarize(rows) if options.summary else ''.join('\t'.join(row) + '\n' for row in rows)
    return show_text(asking, text) or int(fails(rows, options.fail_on))


def most_lines(files: list[str]) -> int:
    """How many lines of diff there can be: one for each permission that a binding of these files gives to one of its subjects."""
    sizes, bindings = Counter[str](), list[Item]()
    for item in objects_in(*files):
        if text_in(item, 'kind').endswith('Binding'):
            bindings.append(item)
        else:
            sizes[key_of_item(item)] += sum(map(size_of, list_in(item, 'rules')))
    return sum(sizes[role_of(binding)] * len(list_in(binding, 'subjects')) for binding in bindings)


def size_of(rule: Item) -> int:
    """How many permissions a rule gives: one for each verb with each URL, or with each API group, resource and object name."""
    verbs, groups, resources, names, urls = (
        len(list_in(rule, name)) for name in ('verbs', 'apiGroups', 'resources', 'resourceNames', 'nonResourceURLs'))
    return verbs * (urls + groups * resources * max(names, 1))


# ---- how much who gains and loses where, and what --fail-on makes of it

def line_of(about: tuple[str, ...], rows: list[list[str]]) -> str:
    """The line of a summary: how many permissions are gained and lost, and the powers among them."""
    sides = [[row for row in rows if row[0] == sign] for sign in '+-']
    powers = ({power for row in side for power in powers_of('diff', row)} for side in sides)
    listed = ('[%s]' % ','.join(name for name in STEP_NAMES if name in some) for some in powers)
    return '\t'.join((*about, *(str(len(side)) for side in sides), *listed)) + '\n'


def summarize(rows: list[list[str]]) -> str:
    """A line for each who, where and binding of lines of diff, and one for all."""
    groups: dict[tuple[str, ...], list[list[str]]] = {}
    for row in rows:
        groups.setdefault((row[1], row[2], row[7]), []).append(row)
    lines = sorted((line_of(about, some) for about, some in groups.items()), key=bytes_of)
    return ''.join(lines) + line_of(('total', '-', '-'), rows)


def fails(rows: list[list[str]], fail_on: str) -> bool:
    """Whether there is what --fail-on names. What a role gathers elsewhere may be a power."""
    gained = [row for row in rows if row[0] == '+']
    if fail_on == 'powers':
        return any(powers_of('diff', row) or is_gathered(row) for row in gained)
    return bool(gained if fail_on == 'gains' else rows)
