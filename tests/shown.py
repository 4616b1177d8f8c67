"""Pages of rbacaudit-page in a real headless Chromium, driven by its DevTools protocol: clicked,
typed into, printed, and compared with the rows that they were made of.
"""

import json
import os
import subprocess
import tempfile

import browser
from common import PROGRAM, TOP, checked, skipped
from opened import COUNTS, LABELS, Shown
from shown_large import LARGE
from shown_names import common_verbs, many_namespaces, names, notices, spreadsheet, strange_places, zoomed
from shown_paths import PATHS
from shown_scopes import joined, odd_groups, part_of_a_name, wide
from written import (CHANGES, FINDINGS, NAMED, NAMES, SMALL, file_of, made, named_strangers,
                     rows_of, same, steps, strangers)

CLUSTER = os.path.join(TOP, 'examples', 'cluster')


def seen_who(page):
    """Who has how much."""
    same('who: the counts', page.cells(), [
        ['group devs', '5', '1', '2', '3', 'run secrets '],
        ['user ann', '5', '2', 'all', '2', 'exec secrets '],
        ['account dev:ci', '2', '–', '1', '1', 'run ']])
    same('who: the facts', page.text('#facts'), '12 rows · 3 principals · 2 namespaces with rows '
         'of their own · 6 bindings in these rows')
    page.click('document.querySelectorAll(".who thead button")[1]')
    same('who: sorted by permissions', [row[0] for row in page.cells()],
         ['group devs', 'user ann', 'account dev:ci'])
    page.click('document.querySelectorAll(".who thead button")[2]')
    same('who: sorted by those in the whole cluster', [row[0] for row in page.cells()],
         ['user ann', 'group devs', 'account dev:ci'])
    page.click('document.querySelectorAll(".who thead button")[2]')
    same('who: sorted the other way', ([row[0] for row in page.cells()], page.it.do(
        '[...document.querySelectorAll(".who thead th")].map(it => it.ariaSort)')[:3]),
         (['account dev:ci', 'group devs', 'user ann'], ['none', 'none', 'ascending']))
    page.go('#who')
    page.type_into('.view .tools input', 'DEV')
    same('who: filtered', [row[0] for row in page.cells()], ['group devs', 'account dev:ci'])
    page.go('#who')
    page.click('document.querySelectorAll(".who tbody th a")[1]')
    same('who: one click leads to what they have', (page.hash(), page.text('main h2')),
         ('#who?who=u:ann', 'user ann'))
    lines = [['whole cluster', 'pods/exec', '–', 'create ', 'ClusterRoleBinding/ops '],
             ['whole cluster', 'secrets', '–', 'get ', 'ClusterRoleBinding/ops '],
             ['dev', 'configmaps', 'app', 'update ', 'RoleBinding/dev/ann ']]
    same('who: what they have beyond the whole cluster', page.cells(), lines)
    same('who: how much that is', page.text('main p.muted'), '5 permissions: 2 in the whole cluster, '
         'and so in each namespace, 3 in 1 namespace, from 2 bindings.')
    page.click_on('.tools input[type=checkbox]')
    same('who: and all of it', page.cells(),
         [*lines, ['dev', 'pods/exec', '–', 'create ', 'ClusterRoleBinding/ops '],
                                              ['dev', 'secrets', '–', 'get ',
                                               'ClusterRoleBinding/ops ']])
    page.go('#who?who=u:nobody')
    same('who: somebody without rows', page.text('main .muted'), 'This page has no row for them.')
    page.go('#who?who=nobody')
    same('who: a key of nobody', (page.text('main h2'), page.text('main .muted')),
         ('nobody', 'This page has no row for them. A principal is written u:NAME or g:NAME.'))
    page.go('#who?who=')
    same('who: an empty one is all', len(page.cells()), 3)


def seen_what(page):
    """The grid, and a cell of it."""
    page.go('#what')
    same('what: the whole cluster comes first', page.texts('select option:checked')[:1],
         ['whole cluster'])
    same('what: URLs come last', page.texts('.grid thead th'),
         ['Principal', 'pods/exec', 'secrets', '/metrics'])
    page.go('#what?ns=dev')
    same('what: types', page.texts('.grid thead th'),
         ['Principal', 'configmaps', 'pods', 'pods/exec', 'secrets', 'deployments.apps'])
    same('what: letters', page.cells(),
         [['group devs', '', 'g  c    ', '', 'g       ', ''],
          ['user ann', '    u   ', '', '   c    ', 'g       ', ''],
                                         ['account dev:ci', '', '', '', '', '     p ·']])
    same('what: a verb for some names is marked', page.texts('.grid .named'), ['u'])
    same('what: a cell is heard',
         page.it.do('[...document.querySelectorAll(".grid td a")].map(it => it.ariaLabel)'), [
        'create, get', 'get', 'update, some objects only', 'create, everywhere',
        'get, everywhere', 'deletecollection, patch'])
    page.click('document.querySelectorAll(".grid td a")[0]')
    wanted = [['create', '–', 'RoleBinding/dev/devs'], ['get', '–', 'RoleBinding/dev/devs']]
    same('what: a cell tells its rows and bindings',
         (page.text('#cell h2'), page.cells('#cell[open]')), ('pods', wanted))
    address = page.it.do('location.hash')
    page.it.press('Escape', 27)
    same('what: Escape closes it', (page.it.do('document.querySelector("#cell").open'),
                                    page.hash()), (False, '#what?ns=dev'))
    page.go(address)
    same('what: its address opens it', page.cells('#cell[open]'), wanted)
    page.click('[...document.querySelectorAll("#cell a")][0]')
    same('what: it leads to its rows',
         (page.it.do('document.querySelector("#cell").open'), page.saved()), (False, SMALL[1:3]))
    page.go('#what?ns=dev&type=apps&who=ci')
    same('what: filtered', (page.texts('.grid thead th'), page.cells()),
         (['Principal', 'deployments.apps'], [['account dev:ci', '     p ·']]))


def seen_watch(page):
    """The watch list: counted, the whole cluster first."""
    page.go('#watch')
    same('watch: the counts', page.it.do(COUNTS), [
        ['0', 'Impersonates', 'nobody'], ['0', 'Creates tokens', 'nobody'],
        ['2', 'Starts pods', 'in namespaces alone'],
        ['1', 'Execs into pods or changes them', '1 in the whole cluster'],
        ['2', 'Reads secrets', '1 in the whole cluster'],
        ['0', 'Sends requests to kubelets', 'nobody'], ['0', 'Binds roles', 'nobody'],
        ['0', 'Escalates roles', 'nobody'], ['0', 'Approves certificates', 'nobody'],
        ['0', 'Changes webhooks', 'nobody'], ['0', 'Changes API services', 'nobody'],
        ['0', 'Writes bootstrap tokens', 'nobody'], ['0', 'Creates volumes', 'nobody'],
        ['0', 'Changes namespaces', 'nobody'], ['0', 'Has everything (*)', 'nobody']])
    same('watch: who reads secrets', page.cells('#watch-secrets'),
         [['user ann', 'whole cluster', 'get secrets', 'ClusterRoleBinding/ops '],
                                                                    ['group devs', 'dev ',
                                                                     'get secrets',
                                                                     'RoleBinding/dev/devs ']])
    page.go('#rows?watch=secrets')
    same('watch: the rows of a category', page.saved(), [SMALL[3], SMALL[6], SMALL[8]])
    page.go('#rows?watch=nothing')
    same('watch: a category that isn’t there', (page.cells(), page.text('.tools .muted')),
         ([], '0 of 12 rows: the watch list has no nothing'))


def seen_beside(page):
    """Findings and changes."""
    page.go('#findings')
    same('findings: by code', page.texts('main h3'),
         ['L2 unused-role 1', 'L3 redundant-rule 2', 'L99 new-code 1'])
    same('findings: lines', page.cells('section'),
         [['Role/dev/old', '–', '–'], ['Role/dev/ops', '2', '1'], ['Role/dev/web', '4', '3'],
          ['Role/dev/web', '1', '-']])
    why = page.texts('section .why')
    checked('findings: explained', why[0].startswith('No binding refers to the role')
            and why[1].startswith('Another rule') and why[2] == '', repr(why))
    page.go('#changes')
    same('changes: lines', page.cells(),
         [['+ gained', 'user ann', 'dev', 'get', 'core', 'pods', '–', 'RoleBinding/dev/ann'],
                                          ['− lost', 'user bob', '*', '*', 'apps', '*', '*',
                                           'ClusterRoleBinding/bobs']])
    page.go('#changes?change=lost')
    same('changes: the lost ones', page.saved('changes.csv'), ['lost' + CHANGES[1][1:]])


def seen_keys(page):
    """The search box, by keys; headings, and names of what can be used."""
    page.go('#watch')
    page.it.press('/', 191, '/')
    page.it.type('DEV')
    same('search: what is found', page.texts('main h3'), ['Who 2', 'Namespace 1', 'Binding 3'])
    same('search: its links',
         page.it.do('[...document.querySelectorAll("main td a")].map(it => '
                    'decodeURIComponent(it.hash))'), [
        '#who?who=g:devs', '#who?who=u:system:serviceaccount:dev:ci', '#what?ns=dev',
             '#rows?binding==RoleBinding/dev/devs',
        '#rows?binding==RoleBinding/dev/ann', '#rows?binding==RoleBinding/dev/ci'])
    page.it.press('Tab', 9)
    page.it.do('document.querySelector("main a").focus()')
    page.it.press('Enter', 13, '\r')
    same('search: Enter follows a link',
         (page.hash(), page.it.do('document.querySelector("#wanted").value')),
         ('#who?who=g:devs', ''))
    for view in ('who', 'what?ns=dev', 'watch', 'rows', 'findings', 'changes', 'who?who=u:ann',
                 'find?q=dev'):
        page.go('#' + view)
        heads = page.it.do('[document.querySelectorAll("h1").length, '
                           'document.querySelectorAll("main h2").length, '
                           '[...document.querySelectorAll("main thead th")].every(it => it.scope '
                           '=== "col"), '
                           '[...document.querySelectorAll("main table")].every(it => '
                           'it.ariaLabel), '
                           '[...document.querySelectorAll("input, select")].every(it => '
                           'it.ariaLabel || it.labels.length), '
                           'document.querySelectorAll("nav [aria-current=page]").length]')
        same('%s: headings, header cells and names' % view, heads,
             [1, 1, True, True, True, 0 if view.startswith('find?') else 1])


def small_page(it, room):
    """Each view of rows that are written here."""
    with file_of(FINDINGS) as lint, file_of(CHANGES) as diff:
        page = Shown(it, room, 'small', made(SMALL, '--lint', lint, '--diff', diff, '--title',
                                             'prod & co')[1])
    for address, title in (('', 'Who · prod & co'), ('#watch', 'Watch list · prod & co'),
                           ('#who?who=u:ann', 'ann · Who · prod & co'),
                           ('#what?ns=dev', 'dev · What · prod & co'),
                           ('#find?q=x', 'Found · prod & co'), ('#who', 'Who · prod & co')):
        page.go(address)
        same('the title of %s' % address, it.do('document.title'), title)
    for part in (seen_who, seen_what, seen_watch, seen_beside, seen_keys):
        part(page)
    page.is_quiet()


def watched(it, room):
    """A row counts for a step by each pair of the table of docs/BEHAVIOUR.md: in the whole cluster,
    and in a namespace if any binding gives the step."""
    requests = [(step, verb, type_.partition('.')[2] or '-', type_.partition('.')[0], in_cluster)
                for step, verbs, types, in_cluster, _ in steps() for verb in verbs for type_ in types]
    rows = rows_of('\n'.join('u:%s-%d %s %s %s %s - ClusterRoleBinding/a' % (
        who, at, place, verb, group, resource) for who, place in (('all', '-'), ('dev', 'dev'))
        for at, (_, verb, group, resource, _) in enumerate(requests)))
    page = Shown(it, room, 'places', made(rows)[1])
    page.go('#watch')
    for step in dict.fromkeys(step for step, *_ in requests):
        # (some requests are of two steps)
        given = {request[1:4]: request[-1] for request in requests if request[0] == step}
        places = [(at, given[request[1:4]]) for at, request in enumerate(requests) if request[1:4] in given]
        same('watched: who has the step %s' % step,
             [row[0] for row in page.cells('#watch-' + step)],
             ['user all-%d' % at for at, _ in places]
             + ['user dev-%d' % at for at, in_cluster in places if not in_cluster])
        said = ' '.join(page.texts('#watch-%s .why' % step))
        checked('watched: %s says whether powers counts names' % step,
                ('rbacaudit powers also counts' in said) == any(
                    by_any for it, *_, by_any in steps() if it == step), said)


def by_name(it, room):
    """Holders by name: counted apart, unless they have the like outright in that namespace or in
    the whole cluster, and told who, where and by which binding."""
    with file_of(NAMED) as named:
        page = Shown(it, room, 'names', made(SMALL, '--named', named)[1])
    same('by name: who', [row[:2] + row[-1:] for row in page.cells()], [
        ['group devs', '5',
         'run secrets run by name exec by name secrets by name '],
        ['user ann', '5', 'exec secrets '],
        ['account dev:ci', '2', 'run impersonate by name '],
        ['user zoe', '–', 'token by name secrets by name ']])
    checked('by name: such a badge looks different', it.do(
        '[...document.querySelectorAll(".badge")].every(it => '
        'it.classList.contains("part") === it.textContent.endsWith("by name"))'))
    page.click('[...document.querySelectorAll(".badge")].at(-2)')
    same('by name: it leads to the watch list', page.hash(), '#watch?at=token')
    same('by name: the counts', it.do(COUNTS), [
        ['0 · 1 by name', 'Impersonates', 'only by name'],
        ['0 · 1 by name', 'Creates tokens', 'only by name'],
        ['2 · 1 by name', 'Starts pods', 'in namespaces alone'],
        ['1 · 1 by name', 'Execs into pods or changes them', '1 in the whole cluster'],
        ['2 · 2 by name', 'Reads secrets', '1 in the whole cluster'],
        ['0', 'Sends requests to kubelets', 'nobody'], ['0', 'Binds roles', 'nobody'],
        ['0', 'Escalates roles', 'nobody'], ['0', 'Approves certificates', 'nobody'],
        ['0', 'Changes webhooks', 'nobody'], ['0', 'Changes API services', 'nobody'],
        ['0', 'Writes bootstrap tokens', 'nobody'], ['0', 'Creates volumes', 'nobody'],
        ['0', 'Changes namespaces', 'nobody'], ['0', 'Has everything (*)', 'nobody']])
    ann, devs = page.cells('#watch-secrets')[:2]
    same('by name: whoever reads all secrets comes first', (ann[0], devs[:2]),
         ('user ann', ['group devs', 'dev ']))
    same('by name: who, where and by which binding', page.cells('#watch-secrets')[2:], [
        ['user zoe', 'whole cluster dev ', 'get, list secrets, some objects only',
         'RoleBinding/dev/oneRoleBinding/dev/twoClusterRoleBinding/all'],
        ['group devs', 'prod ', 'get secrets, some objects only', 'RoleBinding/prod/one']])
    same('by name: pods in the whole cluster', page.cells('#watch-run')[2:], [
        ['group devs', 'whole cluster ', 'create pods, some objects only',
         'ClusterRoleBinding/pods']])
    same('by name: users in the whole cluster', page.cells('#watch-impersonate'), [
        ['account dev:ci', 'whole cluster ', 'impersonate users, some objects only',
         'ClusterRoleBinding/one-user']])
    same('by name: a namespace that the binding doesn’t tell', page.cells('#watch-token'), [
        ['user zoe', 'as the binding says', 'create serviceaccounts/token, some objects only',
         'RoleBinding/a/b/c']])
    page.go('#who?who=u:zoe')
    same('by name: somebody without rows', page.text('main .muted'),
         'This page has no row for them; the watch list has what they may do only by name.')
    page.go('#find?q=zoe')
    same('by name: is found', page.texts('main h3'), ['Who 1'])
    page.is_quiet()
    row, other = rows_of('u:ann dev get - secrets a RoleBinding/dev/a\n'
                         'u:bob dev get - secrets - RoleBinding/dev/b')
    with file_of([NAMED[0].replace('g:devs', who) for who in ('u:ann', 'u:bob', 'u:cy')]) as named:
        page = Shown(it, room, 'names', made([row, other], '--named', named)[1])
    page.go('#watch')
    same('by name: a row with a name counts as before', it.do(COUNTS)[4],
         ['2 · 1 by name', 'Reads secrets', 'in namespaces alone'])


def watch_heads(it, room):
    """The watch list says whether holders by name count."""
    plain = [row for row in SMALL if row.split('\t')[5] == '-']
    head = ('The steps of rbacaudit powers, and who has everything. A step counts whoever has a row of '
            'this page for one of its requests. ')
    uncounted = head + 'Whoever may do it only to objects of certain names isn’t counted.'
    apart = head + 'Whoever may do it only to objects of certain names is counted apart: by name.'
    too = head + 'Rows for objects of certain names count too.'
    with file_of([]) as none:
        for name, rows, words, wanted in (
                ('rows without names', plain, [], [uncounted]), ('no rows', [], [], [uncounted]),
                ('rows with names', SMALL, [], [too]),
                ('no holder by name', plain, ['--named', none], [apart])):
            page = Shown(it, room, 'heads', made(rows, *words)[1])
            page.go('#watch')
            same('%s: the head' % name, page.texts('main .tools + p'), wanted)


def stars(it, room):
    """Who has everything: every verb on every type of a scope, or a star; and what is told of a
    part of a matrix."""
    rows = rows_of('\n'.join('u:%s %s %s - %s - ClusterRoleBinding/%s' % (who, namespace, verb,
                                                                          resource, who)
                             for who, namespace, verbs in (('all', '-', 'get list'),
                                                           ('all', 'dev', 'get list'),
                                                           ('dev', 'dev', 'get list'),
                                                           ('reader', '-', 'get'))
                             for verb in verbs.split()
                             for resource in ('nodes', 'pods')[namespace == 'dev':] + ('secrets',)))
    rows += rows_of('u:star - get * * - ClusterRoleBinding/star')
    rows = [row for row in rows if row.split('\t')[4] != '*' or row.startswith('u:star')]
    page = Shown(it, room, 'stars', made(rows, last='next\tMQ')[1])
    checked('a part of a matrix is told', page.it.do('!document.querySelector("#notice").hidden')
            and '--limit' in page.text('#notice'))
    page.go('#watch')
    same('a star is everything', [row[:2] for row in page.cells('#watch-everything')],
         [['user star', 'whole cluster'], ['user all', 'dev '], ['user dev', 'dev ']])
    page = Shown(it, room, 'everything', made(rows[:-1])[1])
    checked('a whole matrix has no such notice',
            page.it.do('document.querySelector("#notice").hidden'))
    page.go('#watch')
    same('so is every verb on every type', [row[:3] for row in page.cells('#watch-everything')], [
        ['user all', 'whole cluster', 'all common verbs on 3 types'],
        ['user dev', 'dev ', 'all common verbs on 2 types']])
    named = rows_of('u:ann dev get - secrets a RoleBinding/dev/a\n'
                    'u:bob dev get - secrets - RoleBinding/dev/b\n'
                    'u:bob dev list - secrets a RoleBinding/dev/b')
    page = Shown(it, room, 'named', made(named)[1])
    page.go('#watch')
    same('what is limited to object names is told', page.cells('#watch-secrets'), [
        ['user ann', 'dev ', 'get secrets, some objects only', 'RoleBinding/dev/a '],
        ['user bob', 'dev ', 'get, list secrets', 'RoleBinding/dev/b ']])
    every = rows_of('u:ann - get - pods - ClusterRoleBinding/a\nu:ann - get - pods - '
                    'ClusterRoleBinding/b')
    page = Shown(it, room, 'every', made(every)[1])
    same('rows of one request are one permission', page.cells(),
         [['user ann', '1', '1', 'all', '2', '']])
    page.is_quiet()


def empty(it, room):
    """A matrix without rows has a page too."""
    with file_of([]) as none:
        page = Shown(it, room, 'empty', made([], '--lint', none, '--diff', none)[1])
    for view in ('who', 'what', 'watch', 'rows', 'findings', 'changes', 'find?q=a',
                 'who?who=u:ann'):
        page.go('#' + view)
        same('no rows: %s' % view, page.cells('main'), [])
    page.is_quiet()


def widths(it, room):
    """Columns of one, two and four bytes for each row are read as they were written."""
    for count in (1, 256, 257, 65536, 65537):
        rows = ['u:ann\t-\tget\t-\tpods\t-\tClusterRoleBinding/%d' % at for at in range(count)]
        page = Shown(it, room, 'words%d' % count, made(rows)[1])
        same('%d words' % count, it.do('[0, ROWS.length - 1].map(row => ROWS.line(row))'),
             [rows[0], rows[-1]])
        page.is_quiet()


def hostile_page(it, room):
    """Names of strangers are texts in every view, and what can't be seen of them is shown."""
    with file_of(named_strangers()) as named:
        page = Shown(it, room, 'hostile', made(strangers(), '--named', named)[1])
    page.go('#rows?who=g:')
    got = page.cells()
    wanted = [['group ' + shown, *[shown] * 5, 'RoleBinding/' + shown] for shown in NAMES.values()]
    same('rows: every name is seen as a text', [row[:-1] for row in got],
         [row[:-1] for row in wanted])
    for view in ('constructor', '__proto__', 'who', 'what', 'watch', 'rows', 'find?q=a',
                 'find?q=m', 'who?who=u:ann',
                 *('what?' + page.it.do(
            'new URLSearchParams({ns: %s}).toString()' % json.dumps(name)) for name in NAMES)):
        page.go('#' + view)
        strange = it.do('[document.querySelectorAll("img, iframe, object, embed, base, link, '
                        'form:not(#search)").length, document.scripts.length, '
                        '[...document.links].filter(it => '
                        '!it.getAttribute("href").startsWith("#")).length, '
                        '[...document.querySelectorAll("*")].filter(it => '
                        '[...it.attributes].some(part => part.name.startsWith("on"))).length]')
        same('%.60s: no element of a stranger' % view, strange, [0, 2, 0, 0])
    hidden = (r'[\u0000-\u0008\u007f-\u00a0\u00ad\u200b-\u200f\u2028-\u202e\u2060-\u2069\u3000'
              r'\ufeff]|[\u{e0000}-\u{e0fff}]')
    for view in ('#rows', '#watch'):
        page.go(view)
        same('%s: no such character is left in a text or title' % view, it.do(
            '[...document.querySelectorAll("#main, #main [title]")].filter(it => '
            '/%s/u.test(it.textContent + it.title)).length' % hidden), 0)
    page.go('#rows?resource=%3D/%3C/script%3E%3Cscript%3Ealert(1)%3C/script%3E')
    same('a saved row is the line that was given', page.saved(), [list(strangers())[1]])
    page.is_quiet()


def cluster_rows():
    """The built program's rows of examples/cluster, without object names."""
    files = [os.path.join(CLUSTER, name) for name in sorted(os.listdir(CLUSTER))
             if name.endswith('.json')]
    return subprocess.run([PROGRAM, 'matrix', *files], stdout=subprocess.PIPE, timeout=120,
                          check=True).stdout.decode().splitlines()


def passes(row, typed):
    """Whether a row's fields pass the filters that were typed, by their places."""
    return all(row[at] == text[1:] if text[0] == '=' else text.lower() in row[at].lower()
               for at, text in typed.items())


def cluster_filters(page, fields):
    """What is filtered by typing is what a filter of the rows leaves."""
    for typed in ({1: 'payments'}, {4: 'secrets', 2: 'get'}, {0: '=g:platform', 1: '=-'},
                  {6: 'RoleBinding/search/'}, {3: '=-', 4: '=pods/exec', 1: 'CI'}):
        page.go('#rows')
        for at, text in typed.items():
            page.type_into('[aria-label="Filter %s"]' % LABELS[at], text)
        wanted = ['\t'.join(row) for row in fields if passes(row, typed)]
        checked('cluster: %s has rows' % typed, 0 < len(wanted) < len(fields))
        same('cluster: rows with %s' % typed, page.saved(), wanted)
        same('cluster: their number for %s' % typed, page.text('.tools .muted'),
             '%s of %s rows' % (format(len(wanted), ','), format(len(fields), ',')))


def cluster_page(it, room):
    """The page of examples/cluster, against its rows."""
    *rows, last = cluster_rows()
    page = Shown(it, room, 'cluster', made(rows, last=last)[1])
    fields = [row.split('\t') for row in rows]
    words = [len({row[at] for row in fields} - {'-'}) for at in (0, 1, 6)]
    same('cluster: the facts', page.text('#facts'),
         '%s rows · %d principals · %d namespaces with rows of their own · %d bindings in these '
         'rows' % (format(len(rows), ','), *words))
    counts = {who: [0, 0] for who, *_ in fields}
    for who, namespace, *_ in fields:
        counts[who][0] += 1
        counts[who][1] += namespace == '-'
    same('cluster: the permissions of each',
         it.do('PRINCIPALS.map(it => [it.word, [it.permissions, it.cluster]])'),
         [[who, counted] for who, counted in counts.items()])
    cluster_filters(page, fields)
    page.go('#rows?who=%3Dg:oncall')
    oncall = [row for row in rows if row.startswith('g:oncall\t')]
    it.ask('Browser.grantPermissions',
           permissions=['clipboardReadWrite', 'clipboardSanitizedWrite'])
    page.click('[...document.querySelectorAll(".tools button")]'
               '.find(it => it.textContent === "Copy as lines")')
    it.until('document.querySelector("#said").textContent === "%d rows copied"' % len(oncall))
    same('cluster: copied rows', it.do('navigator.clipboard.readText()').splitlines(), oncall)
    readers = {row[0] for row in fields
               if row[2] in ('get', 'list', 'watch') and row[3:5] == ['-', 'secrets']}
    page.go('#watch')
    same('cluster: who reads secrets', page.texts('.tiles b')[4], str(len(readers)))
    page.is_quiet()


def themes(it, room):
    """Light and dark; and a print, which has the rows, not only those in view, and says what it
    leaves out."""
    rows = rows_of('\n'.join('u:ann - get - pods%04d - ClusterRoleBinding/b' % at
                             for at in range(3000)))
    page = Shown(it, room, 'printed', made(rows)[1])
    page.go('#rows')
    backs = []
    for theme in ('light', 'dark'):
        it.ask('Emulation.setEmulatedMedia',
               features=[{'name': 'prefers-color-scheme', 'value': theme}])
        backs.append(it.do('getComputedStyle(document.body).backgroundColor'))
    same('light and dark', backs, ['rgb(247, 248, 248)', 'rgb(20, 23, 26)'])
    it.do('window.addEventListener("beforeprint", () => { window.printed = '
          '[document.querySelectorAll(".sheet tbody tr:not(.spacer)").length, '
          'document.querySelector(".only-printed").textContent, '
          'getComputedStyle(document.body).color] })')
    it.ask('Page.printToPDF', preferCSSPageSize=True)
    printed = it.do('window.printed') or [0, '']
    same('a print has 2,000 rows and says what it lacks', printed[:2],
         [2000,
          '1,000 more rows of 3,000 aren’t printed: filter them, or look into the page itself. '])
    it.ask('Emulation.setEmulatedMedia', media='print')
    same('it is dark on light in a dark browser too',
         it.do('[getComputedStyle(document.body).color, '
               'getComputedStyle(document.body).backgroundColor]'),
         ['rgb(0, 0, 0)', 'rgb(255, 255, 255)'])
    it.ask('Emulation.setEmulatedMedia', media='', features=[])
    it.frame()
    checked('afterwards only what is seen is drawn', len(page.cells()) < 100,
            str(len(page.cells())))
    page.is_quiet()


def generated(count):
    """Rows of many principals, each in the whole cluster and in four of two hundred namespaces."""
    made_, user = [], 0
    while len(made_) < count:
        for place in ['-', *('team-%03d' % ((user * 7 + at) % 200) for at in range(4))]:
            binding = ('ClusterRoleBinding/c%d' % (user % 1000) if place == '-'
                       else 'RoleBinding/%s/b%d' % (place, user % 500))
            made_ += ['\t'.join(('u:user-%05d' % user, place, verb, group, resource, '-', binding))
                      for verb in ('create', 'delete', 'get', 'list', 'update')
                      for group, resource in (('-', 'configmaps'), ('-', 'pods'), ('-', 'secrets'),
                                              ('apps', 'deployments'), ('batch', 'jobs'))]
        user += 1
    return made_[:count]


def large(it, room):
    """300,000 rows open in less than ten times the time of 30,000, draw only what is seen, and can
    be scrolled to the last."""
    fewer = Shown(it, room, 'fewer', made(generated(30000))[1])
    rows = generated(300000)
    page = Shown(it, room, 'large', made(rows)[1])
    # (in turn, so that what else the machine does befalls both)
    times = [(it.open(fewer.path), it.open(page.path)) for _ in range(4)]
    few, many = map(min, zip(*times))
    print('300,000 rows open in %.2f s, 30,000 in %.2f s' % (many, few))
    checked('300,000 rows open in less than ten times the time of 30,000', many < 10 * few,
            repr(times))
    page.go('#rows')
    checked('few are drawn', 10 < len(page.cells()) < 100, str(len(page.cells())))
    it.do('document.querySelector(".sheet").scrollTop = 1e9')
    it.frame()
    who, place, verb, group, resource, _, binding = rows[-1].split('\t')
    same('the last one can be scrolled to', page.cells()[-1],
         ['user ' + who[2:], place, verb, group, resource, '–', binding])
    same('and is in view',
         it.do('{const rows = document.querySelectorAll(".sheet tbody tr:not(.spacer)");'
               'const box = [...rows].at(-1).getBoundingClientRect(),'
               ' sheet = document.querySelector(".sheet").getBoundingClientRect();'
               ' box.bottom <= sheet.bottom + 1 && box.top >= sheet.top}'), True)
    page.is_quiet()


def in_browser():
    """The pages in a browser, if this machine has one."""
    if not browser.found():
        skipped('chromium', 'views, clicks, filters, names on screen, print, and the time of large '
                'pages')
        return
    faults = (OSError, EOFError, RuntimeError, LookupError, TypeError)
    try:
        with browser.browser() as it, tempfile.TemporaryDirectory() as room:
            it.ask('Browser.setDownloadBehavior', behavior='allow', downloadPath=room)
            for part in (small_page, watched, by_name, watch_heads, stars, joined, odd_groups, part_of_a_name, notices, names,
                         common_verbs, spreadsheet, strange_places, many_namespaces, zoomed, empty, widths,
                         hostile_page, cluster_page, themes, large, wide, *PATHS, *LARGE):
                try:
                    part(it, room)
                except faults as fault:
                    checked('%s comes to its end' % part.__name__, False, repr(fault))
    except faults as fault:
        checked('%s starts and ends' % browser.found(), False, repr(fault))
