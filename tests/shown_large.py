"""Large pages in a browser: packed data, tables higher than a browser allows, rows that are written in pieces, and the page of a company."""

import json
import os
import subprocess
import sys
import tempfile
from collections import Counter

from common import PROGRAM, TOP, checked
from opened import COUNTS, Shown
from written import Parts, made, rows_in, rows_of, same

# 600,000 rows: 600 users who have the same 1,000 things.
MANY = 600, 1000
# What Firefox before version 113 lacks, for which --plain is.
OLD = ('delete window.DecompressionStream; delete Object.groupBy; delete Map.groupBy; for (const name of ["toSorted", "toReversed", "toSpliced", "with", '
       '"findLast", "findLastIndex"]) { delete Array.prototype[name]; delete Uint32Array.prototype.__proto__[name]; }')
LAST = ('{const rows = document.querySelectorAll(".sheet tbody tr:not(.spacer)"); const box = [...rows].at(-1).getBoundingClientRect(), '
        'sheet = document.querySelector(".sheet").getBoundingClientRect(); box.bottom <= sheet.bottom + 1 && box.top >= sheet.top}')


def many_rows():
    users, kinds = MANY
    return ['u:user-%03d\t-\tget\t-\tkind%03d\t-\tClusterRoleBinding/b%03d' % (user, kind, user) for user in range(users) for kind in range(kinds)]


def packed(it, room):
    """What is large is packed, but not with --plain, and a browser that can't unpack it says so."""
    rows = ['u:user-%05d\t-\tget\t-\tpods\t-\tClusterRoleBinding/b%05d' % (at, at) for at in range(8000)]
    texts = {name: made(rows, *words)[1] for name, words in (('packed', []), ('plain', ['--plain']))}
    same('packed: which page is', ['packed' in json.loads(Parts(text).texts['script', 'application/json']) for text in texts.values()], [True, False])
    for name, text in texts.items():
        same('%s: the rows' % name, rows_in(Parts(text).data()['rows']), rows)
        page = Shown(it, room, name, text)
        same('%s: the rows in the browser' % name, it.do('[ROWS.length, ROWS.line(0), ROWS.line(7999)]'), [8000, rows[0], rows[-1]])
        page.is_quiet()
    script = it.ask('Page.addScriptToEvaluateOnNewDocument', source=OLD)['identifier']
    page = Shown(it, room, 'old', texts['packed'])
    same('an old browser: a packed page', page.texts('main p'), ['This browser can’t unpack the page. Open it in a newer one, or make it with '
                                                                 'rbacaudit-page --plain.'])
    page = Shown(it, room, 'old plain', texts['plain'])
    same('an old browser: a plain page', page.text('#facts').partition(' ')[0], '8,000')
    for view in ('who', 'what', 'watch', 'rows', 'find?q=a'):
        page.go('#' + view)
        checked('an old browser: %s' % view, page.text('#main h2') and not it.messages, repr(it.messages))
    it.ask('Page.removeScriptToEvaluateOnNewDocument', identifier=script)


def many(it, room):
    """600,000 rows: a table higher than a browser allows, in which each row can be reached; and rows that are written in pieces."""
    rows = many_rows()
    page = Shown(it, room, 'many', made(rows)[1])
    page.go('#rows')
    same('many: how many', page.text('.tools .muted'), '600,000 rows')

    def first():
        return it.do('Number(document.querySelector(".sheet tbody tr:not(.spacer)").getAttribute("aria-rowindex")) - 2')

    def scrolled(by):
        it.do('document.querySelector(".sheet").scrollTop += %d' % by)
        it.frame()
        it.frame()
        return first()

    same('many: row by row', [scrolled(28) for _ in range(60)], [*range(1, 61)])
    same('many: and back', [scrolled(-28) for _ in range(50)], [*range(59, 9, -1)])
    same('many: by more', scrolled(280), 20)
    it.do('document.querySelector(".sheet").scrollTop = 1e9')
    it.frame()
    it.frame()
    same('many: the last row', page.cells()[-1][0::4], ['user user-599', 'kind999'])
    checked('many: it is in view', it.do(LAST))
    at = first()
    same('many: row by row from there', [scrolled(-28) for _ in range(5)], [at - 1 - step for step in range(5)])
    it.do('document.querySelector(".sheet").scrollTop = 0')
    it.frame()
    it.frame()
    same('many: the first row', first(), 0)
    written_in_pieces(it, page, rows)
    page.is_quiet()


def written_in_pieces(it, page, rows):
    """Copying and saving many rows says how far it is, writes all of them, and can be stopped."""
    button = '[...document.querySelectorAll(".tools button")].find(it => it.textContent === "%s")'
    tools = it.do('{%s.click(); setTimeout(() => %s.click()); document.querySelector(".tools").textContent}'
                  % (button % 'Copy as lines', button % 'Stop'))
    checked('pieces: copying says how far it is', '20,000 of 600,000 rows' in tools, tools)
    it.until('document.querySelector("#said").textContent === "Stopped: no row is copied"')
    checked('pieces: no button to stop is left', it.do('%s.hidden' % (button % 'Stop')))
    it.do('%s.click(); setTimeout(() => %s.click())' % (button % 'Save as CSV', button % 'Stop'))
    it.until('document.querySelector("#said").textContent === "Stopped: no row is saved"')
    same('pieces: all rows are saved', page.saved(), rows)
    it.ask('Browser.grantPermissions', permissions=['clipboardReadWrite', 'clipboardSanitizedWrite'])
    page.go('#rows?who=user-59')
    page.click(button % 'Copy as lines')
    it.until('document.querySelector("#said").textContent === "10,000 rows copied"')
    same('pieces: some rows are copied', it.do('navigator.clipboard.readText()').splitlines(), rows[590000:])
    page.go('#rows?who=user-5')
    page.click(button % 'Copy as lines')
    it.until('document.querySelector("#said").textContent === "100,000 rows copied"')
    same('pieces: more rows are copied', it.do('navigator.clipboard.readText()').splitlines(), rows[500000:])


# ---- the page of a company

NAMESPACES = 421


def company_rows(room):
    """The rows of matrix --once of 2,000 roles and 8,000 bindings in 421 namespaces, and which types have namespaces."""
    export, universe = os.path.join(room, 'company.json'), os.path.join(room, 'universe.json')
    subprocess.run([sys.executable, os.path.join(TOP, 'bench', 'generate_export.py'), '2000', '8000', str(NAMESPACES), '7', export],
                   stdout=subprocess.DEVNULL, check=True, timeout=120)
    with open(universe, 'w', encoding='utf-8') as file:
        json.dump({'apiVersion': 'rbacaudit/v1', 'kind': 'Universe', 'names': ['']}, file)
    matrix = subprocess.run([PROGRAM, 'matrix', '--once', export, universe], stdout=subprocess.PIPE, check=True, timeout=120).stdout.decode()
    with open(export, encoding='utf-8') as file:
        lists = [item for item in json.load(file)['items'] if item['kind'] == 'APIResourceList']
    types = {(item['groupVersion'].rpartition('/')[0] or '-', it['name']) for item in lists for it in item['resources'] if it['namespaced']}
    return matrix.splitlines()[:-1], types


def company(it, room):
    """The page of 421 namespaces: at most 2 MB, and the same numbers as its rows. How long it takes and how much memory is measured by
    bench/page.py, in a browser of its own."""
    with tempfile.TemporaryDirectory() as scratch:
        rows, types = company_rows(scratch)
        given = os.path.join(scratch, 'types')
        with open(given, 'w', encoding='utf-8') as file:
            file.write(''.join('%s\t%s\n' % pair for pair in sorted(types)))
        text = made(rows, '--namespaced', given)[1]
    checked('company: the rows of a company', len(rows) == 1_706_964, str(len(rows)))
    page = Shown(it, room, 'company', text)
    checked('company: the size', len(text) <= 2_000_000, str(len(text)))
    fields = [row.split('\t') for row in rows]
    company_counts(it, page, fields)
    place = max(Counter(row[1] for row in fields if row[1] != '-').items(), key=lambda pair: pair[1])[0]
    company_place(it, page, fields, types, place)
    most = max(Counter(row[0] for row in fields).items(), key=lambda pair: pair[1])[0]
    for view in ('who', 'what', 'watch', 'rows?watch=everything', 'watch?ns=' + place, 'who?who=' + most, 'find?q=team'):
        page.go('#' + view)
    page.is_quiet()


def company_counts(it, page, fields):
    """Who has how much, in all rows, and how many rows pass filters."""
    permissions, cluster = Counter(row[0] for row in fields), Counter(row[0] for row in fields if row[1] == '-')
    bindings = {who: len(found) for who, found in grouped((row[0], row[6]) for row in fields).items()}
    same('company: the permissions of each', it.do('PRINCIPALS.map(it => [it.word, it.permissions, it.cluster, it.bindings])'),
         [[who, count, cluster[who], bindings[who]] for who, count in permissions.items()])
    readers = {row[0] for row in fields if row[3:5] == ['-', 'secrets'] and row[2] in (
        'get', 'list', 'watch', 'update', 'patch', 'delete', 'deletecollection')}
    page.go('#watch')
    same('company: who reads secrets', it.do(COUNTS)[4][0], format(len(readers), ','))
    runners = {row[0] for row in fields if row[2] == 'create' and (row[3], row[4]) in (('-', 'pods'), ('batch', 'jobs'), ('batch', 'cronjobs'))}
    checked('company: who starts pods is among those who do', int(it.do(COUNTS)[2][0].replace(',', '')) >= len(runners) > 100)
    for address, passes in (('q=secret', lambda row: any('secret' in field for field in row)),
                            ('verb=%3Dget&resource=%3Dsecrets', lambda row: (row[2], row[4]) == ('get', 'secrets')),
                            ('who=builder&binding=00', lambda row: 'builder' in row[0] and '00' in row[6])):
        page.go('#rows?' + address)
        wanted = ['\t'.join(row) for row in fields if passes(row)]
        same('company: rows with %s' % address, page.text('.tools .muted'), '%s of %s rows' % (format(len(wanted), ','), format(len(fields), ',')))
        same('company: the first and the last of them', it.do('[0, %d].map(at => ROWS.line(built.rows.shown.at(at)))' % (len(wanted) - 1)),
             [wanted[0], wanted[-1]])


def grouped(pairs):
    found = {}
    for key, value in pairs:
        found.setdefault(key, set()).add(value)
    return found


def company_place(it, page, fields, types, place):
    """Who has how much in a namespace: its rows, and those of the whole cluster whose type has namespaces."""
    types = {(row[3], row[4]) for row in fields if row[1] != '-'} | types
    there = [row for row in fields if row[1] == place or row[1] == '-' and (row[3], row[4]) in types]
    requests = grouped((row[0], (*row[2:6],)) for row in there)
    page.go('#who?ns=' + place)
    same('company: who has what in %s' % place, it.do('scopeOf(%s).principals.map(it => [it.word, it.permissions])' % json.dumps(place)),
         [[who, len(found)] for who, found in requests.items()])
    page.go('#what?ns=' + place)
    same('company: principals and types there', page.text('.tools .muted'), '%s principals, %d types' % (
        format(len(requests), ','), len({(row[3], row[4]) for row in there})))
    page.go('#rows?namespace==' + place)
    own = sum(row[1] == place for row in there)
    same('company: rows there', page.text('.tools .muted'), '%s of %s rows and %s of the whole cluster that hold there too' % (
        format(own, ','), format(len(fields), ','), format(len(there) - own, ',')))


LARGE = packed, many, company
