"""access: what a user or a group may do, as a table of types by verbs. All of it is in the lines of rules: words stay as roles have them."""

from __future__ import annotations

from collections.abc import Iterable, Iterator, Sequence
from dataclasses import dataclass, field

from .answer import Asking, ask_well, open_question
from .documents import first_three
from .escapes import bytes_of
from .fields import POWER_GROUPS, POWER_RESOURCES, in_field, in_key, place_of, powers_of, rows_of, text_of, words_of
from .options import choose_format, end_with_help
from .processes import Session
from .question import accept_words, check_cluster, read_question
from .show import json_of, table_of
from .table import Table, painted
from .terminal import Refused, print_text

USUAL = ('get', 'list', 'watch', 'create', 'update', 'patch', 'delete', 'deletecollection')
# What a cell says of a verb: for every object, only for those with the names of the last column, or not at all.
ALL, SOME, NONE = 'yes', 'names', '-'
EVERYWHERE = '*'
MOST_TYPES = 500_000
TOO_MANY = 'the rules name more than 500,000 types, too many for a table: rules prints these rules, and with -n those that count in one namespace'
SCOPED = ('RoleBindings name cluster-scoped types: %s; of such types, a RoleBinding grants only use, bind of cluster roles, and the object of its own '
          'namespace')


@dataclass
class Access:
    """What rules give of a type, or of a URL, in a place. All texts are fields."""
    where: str      # a namespace, or *
    group: str
    resource: str   # or the URL
    verbs: set[str] = field(default_factory=set)
    named: dict[str, set[str]] = field(default_factory=dict)    # the object names that a verb is limited to
    has_power: bool = False

    def take(self, verbs: Sequence[str], names: Sequence[str]) -> None:
        """Takes the verbs of a rule, and its names: without any it is for all objects."""
        if not names:
            self.verbs.update(verbs)
        for verb in verbs if names else ():
            self.named.setdefault(verb, set()).update(names)

    def limited(self) -> dict[str, list[str]]:
        """The verbs that it has for some names alone, with these."""
        return {verb: in_order(names) for verb, names in self.named.items() if verb not in self.verbs}

    def cells(self, columns: Sequence[str]) -> list[str]:
        """What it says of each verb."""
        return [ALL if verb in self.verbs else SOME if verb in self.named else NONE for verb in columns]

    @property
    def codes(self) -> str:
        """The codes of its color: yellow for what is limited to names, bold for powers."""
        return ';'.join(code for code, is_so in (('1', self.has_power), ('33', self.limited())) if is_so)


def in_order(words: Iterable[str]) -> list[str]:
    return sorted(words, key=lambda word: bytes_of(text_of(word)))


def where_of(home: str) -> str:
    """The field of a place: * is the whole cluster, and no namespace."""
    return {'': EVERYWHERE, '*': '\\x2a', '-': '\\x2d'}.get(home, home)


def accesses_of(rows: Iterable[Sequence[str]], asked_in: str) -> tuple[list[Access], list[Access]]:
    """What lines of rules give of types and of URLs, in order. With -n all of it counts in that namespace, but for the URLs of RoleBindings, which
    count nowhere."""
    types, urls = dict[tuple[str, ...], Access](), dict[tuple[str, ...], Access]()
    for row in rows:
        verbs, groups, resources, names, paths = map(words_of, row[5:])
        where = where_of(in_key(asked_in) or place_of(row[0]))
        for group, resource in ((group, resource) for group in groups for resource in resources):
            it = types.setdefault((where, group, resource), Access(where, group, resource))
            it.take(verbs, names)
            it.has_power |= has_power(row, group, resource)
        for path in paths if not place_of(row[0]) else ():
            urls.setdefault((path,), Access(EVERYWHERE, NONE, path)).take(verbs, ())

    def place(it: Access) -> tuple[object, ...]:
        return it.where != EVERYWHERE, *(bytes_of(text_of(part)) for part in (it.where, it.group, it.resource))
    return sorted(types.values(), key=place), sorted(urls.values(), key=place)


def has_power(row: Sequence[str], group: str, resource: str) -> bool:
    """Whether a line of rules gives a power by this group and resource. (a rule may have thousands of either, and few words can)"""
    return (group in POWER_GROUPS and resource in POWER_RESOURCES
            and bool(powers_of('rules', [*row[:6], '[%s]' % group, '[%s]' % resource, *row[8:]])))


def check_size(rows: Iterable[Sequence[str]]) -> None:
    """Refuses more types than a table may have: a small rule can name millions."""
    if sum(len(words_of(row[6])) * len(words_of(row[7])) for row in rows) > MOST_TYPES:
        raise Refused(TOO_MANY)


# ---- how it is shown

def columns_of(found: Sequence[Access], usual: Sequence[str]) -> list[str]:
    """The verbs, as they are written: * first, and behind the usual ones those that occur beside them."""
    there = {verb for it in found for verb in (*it.verbs, *it.named)}
    return [*['*'] * ('*' in there), *usual, *in_order(there - {'*', *usual})]


def head_and_rows(found: Sequence[Access], is_of_urls: bool, has_where: bool) -> list[list[str]]:
    """The table of types, or of URLs, with its head."""
    columns = columns_of(found, [verb for verb in USUAL if not is_of_urls or any(verb in it.verbs for it in found)])
    first = ['URL'] if is_of_urls else [*['WHERE'] * has_where, 'RESOURCE', 'GROUP']
    has_names = any(it.limited() for it in found)
    rows = [[*first, *columns, *['NAMES'] * has_names]]
    for it in found:
        names = in_order({name for some in it.limited().values() for name in some})
        of_type = [it.resource] if is_of_urls else [*[it.where] * has_where, it.resource, it.group]
        rows.append([*of_type, *it.cells(columns), *[','.join(names) or NONE] * has_names])
    return rows


def lines_of(table: Table, cells: list[list[str]], found: Sequence[Access]) -> Iterator[str]:
    """The lines of a table, painted."""
    rows = [[table.seen(cell) for cell in row] for row in cells]
    widths = table.widths_of(rows if table.has_head else rows[1:])
    for row, codes in zip(rows, ['', *(it.codes for it in found)]):
        line = table.line_of(row, widths)
        if table.has_head or row is not rows[0]:
            yield painted(line, codes if table.is_painted else '') + '\n'


def texts_of(asking: Asking, types: list[Access], urls: list[Access]) -> Iterator[str]:
    """The answer by -o."""
    options, question = asking.options, asking.question
    if options.format == 'json':
        yield from (json_of(object_of(it)) + '\n' for it in types)
        yield from (json_of({'url': text_of(it.resource), 'verbs': verbs_of(it)}) + '\n' for it in urls)
        return
    table = table_of(options.format, not options.headless, options.color or 'auto')
    for found in filter(None, (types, urls)):
        yield '\n' * (found is urls and bool(types))
        yield from lines_of(table, head_and_rows(found, found is urls, not question.asked_in and not question.everywhere), found)


def verbs_of(it: Access) -> list[str]:
    return [text_of(verb) for verb in columns_of([it], USUAL) if verb in it.verbs]


def object_of(it: Access) -> dict[str, object]:
    """A type as JSON has it."""
    limited = it.limited()
    return {'where': None if it.where == EVERYWHERE else text_of(it.where), 'group': text_of(it.group), 'resource': text_of(it.resource),
            'verbs': verbs_of(it), 'by_name': {text_of(verb): [*map(text_of, limited[verb])] for verb in columns_of([it], USUAL) if verb in limited}}


# ---- the command

def access_command(session: Session, words: list[str]) -> int:
    """The command access, which asks as rules does."""
    options, question = read_question('access', words)
    if options.help:
        end_with_help('access')
    choose_format(options, 'access')
    if not question.places:
        raise Refused('access needs <WHO>, which is u:NAME or g:NAME; kubectl rbacaudit access --help says more')
    session.need_rbacaudit()
    question.command = 'rules'
    check_cluster(session, options)
    accept_words(session, question)
    asking = open_question(session, options, question)
    from .remarks import find_stale, remark_on_stale
    files, stale = asking.all_files, ', '.join(find_stale(asking))
    line = [*question.line, *files]
    done = ask_well(asking, line, files)
    rows = rows_of(done.out)
    check_size(rows)
    for text in on_scope(asking, rows):
        session.report(text)
    print_text(''.join(texts_of(asking, *accesses_of(rows, question.asked_in))))
    if stale:
        remark_on_stale(asking, stale, line, done)
    return 0


def on_scope(asking: Asking, rows: Iterable[Sequence[str]]) -> Iterator[str]:
    """Cluster-scoped types that rules of RoleBindings name, where the export tells which these are. (lists that rbacaudit refuses tell nothing: the
    answer needs none)"""
    from .remarks import list_there
    named = {(group, resource) for row in rows if place_of(row[0]) for group in words_of(row[6]) for resource in words_of(row[7])}
    listed = list_there(asking, 'api', 'resources') or () if named else ()
    scopes = {(in_field(it['group']), in_field(it['resource'])): it['namespaced'] for it in listed}
    known = {type_ for type_, is_namespaced in scopes.items() if not is_namespaced}
    if named & known:
        yield SCOPED % first_three('.'.join(filter(None, (text_of(name), text_of(group)))) for group, name in named & known)
