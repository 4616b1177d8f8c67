"""Pages in a browser: what holds everywhere, joined to the rows of each namespace."""

import time

from common import checked
from opened import COUNTS, Shown
from written import file_of, made, rows_of, same

# Rows of matrix --once: what the admins have in the whole cluster stands once. Of their types, secrets
# and pods have namespaces. A plain matrix also has MORE.
ONCE = rows_of("""
g:admins - get - /metrics - ClusterRoleBinding/admins
g:admins - get - nodes - ClusterRoleBinding/admins
g:admins - get - secrets - ClusterRoleBinding/admins
g:admins - list - secrets - ClusterRoleBinding/admins
u:ann dev create - pods - RoleBinding/dev/ann
u:ann dev get - secrets - RoleBinding/dev/ann
u:bob prod create - pods - RoleBinding/prod/bob
""")
MORE = rows_of('\n'.join('g:admins %s %s - secrets - ClusterRoleBinding/admins' % (place, verb)
                         for place in ('dev', 'prod') for verb in ('get', 'list')))
ADMINS = ['group admins', 'secrets', 'get, list', 'ClusterRoleBinding/admins']


def joined_views(page, name):
    """In a namespace, each view has its own rows, and what holds everywhere, told apart."""
    for place, wanted in (
            ('dev', [['group admins', '2', '2', 'all', '1', 'secrets '],
                     ['user ann', '2', '–', '1', '1', 'run secrets ']]),
            ('prod', [['group admins', '2', '2', 'all', '1', 'secrets '],
                      ['user bob', '1', '–', '1', '1', 'run ']])):
        page.go('#who?ns=' + place)
        same('%s: who in %s' % (name, place), page.cells(), wanted)
    page.go('#who?who=g:admins&ns=dev')
    same('%s: what somebody has there' % name, (page.text('main h2'), page.cells()),
         ('group admins in dev',
          [['everywhere', 'secrets', '–', 'get list ', 'ClusterRoleBinding/admins ']]))
    same('%s: counted' % name, page.text('main .muted:not(h2 *)'),
         '2 permissions: 2 that hold everywhere, 0 of this namespace alone, from 1 binding.')
    page.go('#what?ns=dev')
    same('%s: what in dev' % name,
         (page.texts('.grid thead th'), page.cells(), page.texts('.grid .everywhere')),
         (['Principal', 'pods', 'secrets'], [['group admins', '', 'gl      '],
                                             ['user ann', '   c    ', 'g       ']], ['g', 'l']))
    page.click('document.querySelectorAll(".grid td a")[0]')
    same('%s: a cell tells what holds everywhere' % name, page.cells('#cell[open]'),
         [['get', '–', 'ClusterRoleBinding/admins everywhere'],
          ['list', '–', 'ClusterRoleBinding/admins everywhere']])
    page.it.press('Escape', 27)
    page.click_on('label:not([hidden]) input[type=checkbox]')
    same('%s: the switch hides it' % name, (page.hash(), page.cells()),
         ('#what?ns=dev&own=1', [['user ann', '   c    ', 'g       ']]))
    for place, held in (('dev', '2'), ('prod', '1')):
        page.go('#watch?ns=' + place)
        same('%s: who reads secrets in %s' % (name, place), page.it.do(COUNTS)[4],
             [held, 'Reads secrets', '1 everywhere'])
    same('%s: and where' % name, page.cells('#watch-secrets'),
         [['group admins', 'everywhere', 'get, list secrets', 'ClusterRoleBinding/admins ']])


def joined(it, room):
    """What holds everywhere is joined to the rows of each namespace, once: of rows of --once and of
    a plain matrix."""
    plain = [*ONCE[:4], *MORE, *ONCE[4:]]
    with file_of(['-\tpods', '-\tsecrets']) as types:
        pages = {'once': made(ONCE, '--namespaced', types)[1], 'plain': made(plain)[1]}
    for name, text in pages.items():
        page = Shown(it, room, name, text)
        joined_views(page, name)
        page.go('#rows?namespace==dev')
        whole = [] if name == 'plain' else ONCE[2:4]
        same('%s: rows' % name, page.saved(), [*whole, *(MORE[:2] if name == 'plain' else []),
                                               *ONCE[4:6]])
        same('%s: how many' % name, page.text('.tools .muted'),
             '4 of 11 rows' if name == 'plain'
             else '2 of 7 rows and 2 of the whole cluster that hold there too')
        page.click_on('label:not([hidden]) input[type=checkbox]')
        same('%s: rows of the namespace alone' % name, page.saved(), ONCE[4:6])
        same('%s: how many of these' % name, page.text('.tools .muted'),
             '2 of %s' % ('11 rows' if name == 'plain' else '7 rows'))
        page.go('#rows?namespace==-')
        same('%s: rows of the whole cluster' % name, page.saved(), ONCE[:4])
        page.is_quiet()
    page = Shown(it, room, 'once', pages['once'])
    page.go('#rows?namespace==dev')
    same('once: such rows say so', [row[1] for row in page.cells()],
         ['everywhere', 'everywhere', 'dev', 'dev'])
    page.go('#what')
    same('once: any other namespace can be looked at', page.texts('select option'),
         ['whole cluster', 'dev', 'prod', 'any other namespace'])
    page.it.do('{const place = document.querySelector("main select"); place.value = "\\\\other"; '
               'place.dispatchEvent(new Event("change"))}')
    same('once: there only that holds which holds everywhere', page.cells(),
         [['group admins', 'gl      ']])
    page = Shown(it, room, 'untold', made([row.replace('secrets', 'nodes/proxy') if 'list' in row
                                           else row for row in ONCE])[1])
    page.go('#what?ns=dev')
    same('without --namespaced: types of Kubernetes that have no namespaces aren’t there',
         page.texts('.grid thead th'), ['Principal', 'pods', 'secrets'])
    everywhere_twice(it, room)


def everywhere_twice(it, room):
    """With --every a binding of a namespace isn't hidden behind that of the whole cluster, and one
    request is one permission."""
    rows = rows_of("""
u:ann - get - secrets - ClusterRoleBinding/a
u:ann - get - secrets - ClusterRoleBinding/b
u:ann dev get - secrets - RoleBinding/dev/ann
u:ann dev list - secrets - RoleBinding/dev/ann
""")
    page = Shown(it, room, 'twice', made(rows)[1])
    page.go('#who?ns=dev')
    same('--every: one permission', page.cells(), [['user ann', '2', '–', 'all', '3', 'secrets ']])
    page.go('#watch')
    same('--every: the watch list has all bindings', page.cells('#watch-secrets'),
         [['user ann', 'whole cluster, also by a binding in dev ', 'get secrets',
           'ClusterRoleBinding/a ClusterRoleBinding/b RoleBinding/dev/ann ']])
    page.go('#who?who=u:ann')
    same('--every: so has what somebody has', [row[-1] for row in page.cells()],
         ['ClusterRoleBinding/a ClusterRoleBinding/b ', 'RoleBinding/dev/ann '])


def odd_groups(it, room):
    """API groups with the names of what every object of JavaScript has: the page opens, and their types hold everywhere."""
    groups = ['__proto__', 'constructor', 'toString']
    page = Shown(it, room, 'groups', made(rows_of('\n'.join('u:ann - get %s pods - ClusterRoleBinding/b' % group for group in groups)))[1])
    page.go('#what?ns=\\other')
    same('odd groups: everywhere', page.texts('.grid thead th')[1:], ['pods.' + group for group in groups])
    page.is_quiet()


def part_of_a_name(it, room):
    """A filter that is part of some namespaces' names isn't taken for another namespace, whose name is all of it but its first letter."""
    rows = rows_of("""
g:admins - get - pods - ClusterRoleBinding/admins
g:admins - get - secrets - ClusterRoleBinding/admins
g:admins - list - pods - ClusterRoleBinding/admins
g:admins - list - secrets - ClusterRoleBinding/admins
u:ann ashop-1 get - pods - RoleBinding/ashop-1/ann
u:bob shop get - extras - RoleBinding/shop/bob
""")
    page = Shown(it, room, 'part', made(rows)[1])
    page.go('#rows?namespace=ashop&watch=everything')
    same('part of a name: who has everything there', page.saved(), rows[:4])
    page.go('#rows?namespace==shop&watch=everything')
    same('a whole name: in that namespace nobody has everything', page.saved(), [])
    page.is_quiet()


VERBS = ['get', 'list', 'watch', 'create', 'update', 'patch', 'delete', 'deletecollection', 'bind',
         'escalate', 'impersonate']


def admins(namespaces):
    """Rows of --once of six who may do all in the whole cluster, and of an account and a group in
    each namespace."""
    types = [('-', name) for name in ('pods', 'secrets', 'services')]
    types += [('op%02d.io' % (at // 4), 'kind%02d' % at) for at in range(107)]
    rows = ['u:admin%d@example.com - %s %s %s - ClusterRoleBinding/admin%d' % (who, verb, *of, who)
            for who in range(6) for verb in sorted(VERBS) for of in types]
    for number in range(namespaces):
        place = 'team-%04d' % number
        rows += ['g:%s %s get - pods - RoleBinding/%s/view' % (place, place, place)]
        rows += ['u:system:serviceaccount:%s:ci %s %s %s %s - RoleBinding/%s/edit' % (
            place, place, verb, *of, place) for verb in sorted(VERBS[:7]) for of in types[:30]]
    return rows_of('\n'.join(rows))


def wide(it, room):
    """A page of 421 namespaces and six admins: at most 10 MB, made within 10 seconds and opened
    within 3, in each namespace too."""
    rows = admins(421)
    began = time.monotonic()
    text = made(rows)[1]
    seconds = time.monotonic() - began
    page = Shown(it, room, 'wide', text)
    print('421 namespaces: %d rows, %.1f MB, made in %.1f s, opened in %.2f s' % (
        len(rows), len(text) / 1e6, seconds, page.seconds))
    checked('421 namespaces: the size', len(text) <= 10_000_000, str(len(text)))
    checked('421 namespaces: made in time', seconds <= 10, str(seconds))
    checked('421 namespaces: opened in time', page.seconds <= 3, str(page.seconds))
    for view in ('who', 'what', 'watch', 'rows'):
        began = time.monotonic()
        page.go('#%s?%s' % (view, 'namespace==team-0420' if view == 'rows' else 'ns=team-0420'))
        seconds = time.monotonic() - began
        checked('421 namespaces: %s of one in time' % view, seconds <= 3, str(seconds))
    same('421 namespaces: rows of one', page.text('.tools .muted'),
         '211 of %s rows and 7,260 of the whole cluster that hold there too'
         % format(len(rows), ','))
    page.is_quiet()
