"""Pages in a browser: whom principals can take over, and who can do what a request is about, step by step."""

import json
import os
import time

from common import TOP, checked
from escalation import indirect, Request, paths, powers
from opened import COUNTS, Shown
from paths import read_files
from written import (DEVS, KIM, NAMES, OPS, READERS, SMALL, file_of, made, path_strangers, rows_of, same,
                     strangers)

CI, CI_ROLE = 'account dev:ci', ['RoleBinding/dev/debug', 'Role/dev/debug', 'Role/dev/debug', '1', '2']
ALL = 'everything in the whole cluster'
# Who can take over everything in the whole cluster of examples/cluster, and in how many steps, as
# docs/RECIPES.md has them.
RICH = {'g:platform': 1, 'g:system:masters': 1, 'u:dana@example.com': 1,
        'u:system:serviceaccount:ci:onboarding': 4,
        'u:system:serviceaccount:flux-system:helm-controller': 1,
        'u:system:serviceaccount:flux-system:kustomize-controller': 1, 'g:oncall': 2, 'g:support': 2,
        'u:system:serviceaccount:cert-manager:cert-manager': 2,
        'u:system:serviceaccount:cnpg-system:cnpg-manager': 2,
        'u:system:serviceaccount:flux-system:source-controller': 2,
        'u:system:serviceaccount:kube-system:backup': 2,
        'u:system:serviceaccount:monitoring:prometheus-operator': 2}


def with_paths(it, room, name, *files, rows=SMALL):
    """A page of files of paths, which stand in one folder under these names."""
    words = []
    for file, lines in files:
        words += ['--paths', os.path.join(room, file)]
        with open(words[-1], 'w', encoding='utf-8') as opened:
            opened.write(''.join(line + '\n' for line in lines))
    return Shown(it, room, name, made(rows, *words)[1])


def seen_list(page):
    """What each principal can take over: who can take over everything first, and then who the most."""
    page.go('#paths')
    same('paths: what they can take over', page.cells(), [
        ['user kim', 'whole cluster in 2 steps', '1', '–', '1', '–', '3', '2'],
        ['group devs', 'dev', '–', '–', '2', '–', '3', '2'],
        ['group ops', '–', '–', '–', '1', '1', '2', '2']])
    same('paths: the heading', page.text('main h2'), 'What principals can take over')
    same('paths: how many', page.text('main .tools .muted'), '3 principals')
    same('paths: the tab counts the lines', page.texts('nav a')[4:], ['Paths 8'])
    page.type_into('main .tools input', 'OPS')
    same('paths: filtered', [row[0] for row in page.cells()], ['group ops'])
    page.go('#paths')
    page.click('document.querySelector(".reach tbody td a")')
    same('paths: everything leads to its path', page.hash(), '#paths?who=u:kim&node=*\t*')
    page.go('#paths')
    page.click('document.querySelectorAll(".reach tbody th a")[1]')
    same('paths: a name leads to all paths', (page.hash(), page.text('main h2')),
         ('#paths?who=g:devs', 'group devs'))


def seen_answer(page):
    """The lines of a principal, and where each leads."""
    page.go('#paths?who=u:kim')
    same('paths: the heads of one', page.texts('.answer thead th'), ['Steps', 'Can take over', 'Last step', 'From', 'Binding', 'Role'])
    same('paths: the lines of one', page.cells(), [
        ['1', CI, 'exec', 'user kim', 'RoleBinding/dev/debug', 'Role/dev/debug'],
        ['2', ALL, 'bind', CI, 'ClusterRoleBinding/ci', 'ClusterRole/all'],
        ['2', 'user lee', 'impersonate', CI, 'ClusterRoleBinding/ci', 'ClusterRole/ci']])
    same('paths: how far', page.text('main p.muted'), 'They can take over everything in the whole cluster, '
         '1 user, 1 service account, in at most 2 steps.')
    same('paths: somebody without rows has no other link', page.texts('main .tools a'), [])
    same('paths: the title of the page', page.it.do('document.title'), 'kim · Paths · Who can do what')
    page.type_into('main .tools input', 'lee')
    same('paths: lines filtered', [row[1] for row in page.cells()], ['user lee'])
    page.go('#paths?who=g:devs')
    same('paths: everything in a namespace', page.text('main p.muted'),
         'They can take over everything in 1 namespace, 2 service accounts, in at most 2 steps.')
    page.click('document.querySelectorAll(".answer tbody a")[2]')
    same('paths: a line leads to its path', page.hash(),
         '#paths?who=g:devs&node=u:system:serviceaccount:dev:web\t-')


def seen_path(page):
    """A path, step by step, each with its word and why."""
    page.go('#paths?who=u:kim&node=*%09*')
    same('path: whose and where', page.texts('main h2, main h2 + p'),
         ['user kim can take over ' + ALL, '2 steps.'])
    same('path: its heads', page.texts('.steps th'), ['', 'Who or what', 'Step', 'Takes over', 'Binding',
                                                      'Role', 'Source', 'Rule', 'Subject'])
    same('path: its steps', page.cells('.steps'), [
        ['1', 'user kim', 'exec', CI, *CI_ROLE],
        ['2', CI, 'bind', ALL, 'ClusterRoleBinding/ci', 'ClusterRole/all', 'ClusterRole/part', '3',
         '1']])
    checked('path: no other line is shown', page.it.do('document.querySelector(".sheet").hidden'))
    page.click('document.querySelector("main .tools a")')
    same('path: back to all of them', (page.hash(), len(page.cells())), ('#paths?who=u:kim', 3))
    for who, node, last in (
            ('g:devs', 'u:system:serviceaccount:dev:web%09-',
             ['2', 'everything in dev', 'impersonate', 'account dev:web', *'–––––']),
            ('g:ops', 'u:system:serviceaccount:prod:db%09-',
             ['2', 'ClusterRole/runner in prod', 'run', 'account prod:db', '–', 'ClusterRole/runner',
              'ClusterRole/runner', '2', '–'])):
        page.go('#paths?who=%s&node=%s' % (who, node))
        same('path: the last step of %s' % who, page.cells('.steps')[1:], [last])
    for address, said in (
            ('who=u:kim&node=u:nobody%09-', 'No path of this page leads there.'),
            ('who=u:lee', 'This page has no path of them: they can take over nobody and nothing, or weren’t '
             'asked about.'),
            ('who=lee', 'This page has no path of them: they can take over nobody and nothing, or weren’t '
             'asked about. A principal is written u:NAME or g:NAME.')):
        page.go('#paths?' + address)
        same('path: %s' % address, (page.text('main h2 + p'), page.cells(), page.cells('.steps')),
             (said, [], []))


def seen_watch(page):
    """The watch list counts who can take over everything in the whole cluster, in a namespace too."""
    for place in ('', '?ns=dev'):
        page.go('#watch' + place)
        same('watch%s: who can take over everything' % place, page.it.do(COUNTS)[15:],
             [['1', 'Can take over everything (*)', 'of 3 principals with paths']])
        same('watch%s: how' % place, page.cells('#watch-comes'), [
            ['user kim', '2', 'exec → account dev:ci, bind → everything in the whole cluster; why',
             'RoleBinding/dev/debug, ClusterRoleBinding/ci']])
    page.it.do('document.querySelectorAll("#watch-comes td a")[1].click()')
    page.it.frame()
    same('watch: why leads to the path', page.hash(), '#paths?who=u:kim&node=*\t*')


def seen_elsewhere(page):
    """What somebody has leads to their paths, and the search finds whom they are about."""
    page.go('#who?who=g:devs')
    page.click('[...document.querySelectorAll("main .tools a")].at(-1)')
    same('who: leads to paths', (page.hash(), page.text('main .tools a')),
         ('#paths?who=g:devs', 'What they have'))
    page.go('#who?who=u:kim')
    same('who: somebody without rows has paths', page.texts('main .tools a'),
         ['Can take over everything in the whole cluster, 1 user, 1 service account'])
    page.go('#who?who=u:ann')
    same('who: somebody without paths', page.texts('main .tools a'), ['All rows'])
    page.go('#find?q=kim')
    same('search: who has paths', (page.texts('main h3'), page.it.do(
        '[...document.querySelectorAll("main td a")].map(it => decodeURIComponent(it.hash))')),
         (['Who, in paths 1'], ['#paths?who=u:kim']))


def headed(page, *views):
    """Headings, header cells and names for whoever hears the page."""
    for view in views:
        page.go('#' + view)
        same('%s: headings, header cells and names' % view, page.it.do(
            '[document.querySelectorAll("h1").length, document.querySelectorAll("main h2").length, '
            '[...document.querySelectorAll("main thead th")].every(it => it.scope === "col"), '
            '[...document.querySelectorAll("main table")].every(it => it.ariaLabel), '
            '[...document.querySelectorAll("input, select")].every(it => it.ariaLabel || '
            'it.labels.length), document.querySelectorAll("nav [aria-current=page]").length]'),
             [1, 1, True, True, True, 1])


def shown_paths(it, room):
    """Paths of three principals, in two files."""
    page = with_paths(it, room, 'paths', ('kim', KIM), ('others', [*DEVS, *OPS]))
    for part in (seen_list, seen_answer, seen_path, seen_watch, seen_elsewhere):
        part(page)
    headed(page, 'paths', 'paths?who=u:kim', 'paths?who=u:kim&node=*%09*')
    page.is_quiet()


def ranked(it, room):
    """A page with paths begins with who can take over how much, most first. Of answers that it has in part the numbers are told; and whom it
    lacks."""
    everything = '1 * * u:all - bind ClusterRoleBinding/all ClusterRole/all ClusterRole/all 1 1'.replace(' ', '\t')
    roles = [line.replace('g:ops', 'g:few') for line in OPS]
    with file_of([*OPS, *roles, *DEVS[:1], *KIM, everything], 'paths') as paths, file_of(
            ['g:devs\t-\t12\t3\t1\t40\t5\t61\t4', 'g:few\t-\t0\t0\t0\t2000\t0\t2000\t3'], 'reach') as reach, file_of(
            ['u:x', 'g:y\\x09'], 'unasked') as unasked:
        text = made(SMALL, '--paths', paths, '--reach', reach, '--unasked', unasked)[1]
        same('ranked: everybody was asked', Shown(it, room, 'all', made(SMALL, '--paths', paths, '--unasked', os.devnull)[1]).text('main .why'),
             RANKED + 'Everybody with a power was asked about.')
    page = Shown(it, room, 'ranked', text)
    same('ranked: the first view', (page.text('main h2'), page.it.do('document.title'), page.texts('nav [aria-current=page]')),
         ('What principals can take over', 'Paths · Who can do what', ['Paths 9']))
    same('ranked: most first', page.cells(), [
        ['user all', 'whole cluster in 1 step', '–', '–', '–', '–', '1', '1'],
        ['user kim', 'whole cluster in 2 steps', '1', '–', '1', '–', '3', '2'],
        ['group devs', 'dev and 11 more', '3', '1', '40', '5', '61', '4'],
        ['group few', '–', '–', '–', '2,000', '–', '2,000', '3'],
        ['group ops', '–', '–', '–', '1', '1', '2', '2']])
    same('ranked: whom it lacks', page.text('main .why'),
         RANKED + '2 principals with a power weren’t asked about: u:x, g:yU+0009.')
    page.click('document.querySelectorAll(".reach tbody td a")[2]')
    same('ranked: a namespace leads to its path', (page.hash(), len(page.cells('.steps'))), ('#paths?who=g:devs&node=*\tdev', 1))
    page.go('#paths?who=g:devs')
    same('ranked: an answer in part', page.text('main p.muted'), 'They can take over everything in 12 namespaces, 3 users, 1 group, 40 service '
         'accounts, 5 roles, in at most 4 steps. The page has 1 of 61 lines, which lead to everything or are the first; rbacaudit paths prints all.')
    page.go('#who?who=g:devs')
    same('ranked: of what somebody has', page.texts('main .tools a')[-1],
         'Can take over everything in 12 namespaces, 3 users, 1 group, 40 service accounts, 5 roles')
    page.is_quiet()


RANKED = ('By rbacaudit paths: whom and what each principal can take over, step by step. Whoever can take over the most is listed first: everything '
          'in the whole cluster, everything in a namespace, service accounts. Whoever isn’t listed can take over nobody and nothing, except as '
          'a member of a group that is. ')


def shown_role(it, room):
    """In the watch list a path over a role has no binding for that step."""
    role, why = 'ClusterRole/hooks', 'ClusterRole/max ClusterRole/max 1 1'
    lines = ['1 %s * u:max - bind ClusterRoleBinding/max %s' % (role, why),
             '2 * * %s * webhooks - %s %s 1 -' % (role, role, role)]
    page = with_paths(it, room, 'role', ('max', rows_of('\n'.join(lines))))
    page.go('#watch')
    same('role: in the watch list', page.cells('#watch-comes'), [
        ['user max', '2', 'bind → ClusterRole/hooks in the whole cluster, webhooks → everything in the '
         'whole cluster; why', 'ClusterRoleBinding/max']])
    page.go('#paths')
    same('role: counted', page.cells(), [['user max', 'whole cluster in 2 steps', '–', '–', '–', '1', '2',
                                          '2']])
    page.is_quiet()


def shown_requests(it, room):
    """Who can do what a request is about, by the lines of who-can --indirect; one of several files is chosen."""
    page = with_paths(it, room, 'requests', ('read secrets', READERS), ('run pods', READERS[:1]))
    same('requests: the tabs', page.texts('nav a')[4:], ['Who can indirectly 6'])
    page.go('#requests')
    db = 'account prod:db'
    same('requests: the lines', page.cells(), [
        ['0', 'ClusterRole/runner in prod', '–', 'may do it', '–', 'ClusterRole/runner'],
        ['0', db, '–', 'may do it', 'RoleBinding/prod/db', 'Role/prod/db'],
        ['1', 'group ops', 'bind', 'ClusterRole/runner in prod', 'RoleBinding/prod/ops', 'Role/prod/ops'],
        ['1', 'user lee', 'token', db, 'RoleBinding/prod/lee', 'Role/prod/lee'],
        ['2', 'user kim', 'impersonate', 'user lee', 'ClusterRoleBinding/kim', 'ClusterRole/kim']])
    same('requests: the file, and how far', page.texts('main h2, main h2 + p'), [
        'read secrets', 'May do what this file is about, or can take over somebody or something that may, in at '
        'most 2 steps: 2 users, 1 group, 1 service account, 1 role.'])
    page.click('[...document.querySelectorAll(".answer tbody a")].at(-1)')
    same('requests: a path', (page.hash(), page.texts('main h2, main h2 + p')),
         ('#requests?node=u:kim\t-', ['Path of user kim to read secrets', '2 steps.']))
    same('requests: its steps', page.cells('.steps'), [
        ['1', 'user kim', 'impersonate', 'user lee', 'ClusterRoleBinding/kim', 'ClusterRole/kim',
         'ClusterRole/kim', '1', '1'],
        ['2', 'user lee', 'token', db, 'RoleBinding/prod/lee', 'Role/prod/lee', 'Role/prod/lee', '1', '1'],
        ['3', db, '–', 'may do it', 'RoleBinding/prod/db', 'Role/prod/db', 'Role/prod/db', '1', '1']])
    page.go('#requests?node=ClusterRole/runner%09prod')
    same('requests: a role that may do it', (page.text('main h2 + p'), page.cells('.steps')), ('0 steps.', [
        ['1', 'ClusterRole/runner in prod', '–', 'may do it', '–', 'ClusterRole/runner',
         'ClusterRole/runner', '1', '–']]))
    page.it.do('{const file = document.querySelector("main select"); file.value = "2"; '
               'file.dispatchEvent(new Event("change"))}')
    same('requests: another file', (page.hash(), page.text('main h2'), len(page.cells())),
         ('#requests?file=2', 'run pods', 1))
    page.go('#requests?file=3')
    same('requests: no such file', page.texts('main h2, main h2 + p'),
         ['no such file', 'This page has no such file.'])
    page.go('#watch')
    same('requests: nobody was asked who can take over everything', len(page.it.do(COUNTS)), 15)
    headed(page, 'requests', 'requests?node=u:kim%09-')
    page.is_quiet()


def empty_paths(it, room):
    """A file without lines says that nobody can take over anybody, and many are cut."""
    one = ' is empty: by this answer nobody can take over anybody or anything.'
    many = ' are empty: by these answers nobody can take over anybody or anything.'
    for name, files, view, wanted in (
            ('one', [('none', [])], 'paths', ['none' + one]),
            ('two', [('none', []), ('no <b>one', []), ('kim', KIM)], 'paths', ['none, no <b>one' + many]),
            ('some', [('none', []), ('readers', READERS)], 'requests', ['none' + one]),
            ('many', [('none%02d' % at, []) for at in range(25)], 'paths',
             [', '.join('none%02d' % at for at in range(20)) + ' and 5 more' + many]),
            ('no', [('kim', KIM)], 'paths', [])):
        page = with_paths(it, room, name, *files)
        page.go('#' + view)
        same('%s without lines' % name, page.texts('main .empty'), wanted)
    page = with_paths(it, room, 'one', ('none', []))
    page.go('#paths')
    same('no lines at all: nobody is listed', page.cells(), [])
    page.go('#watch')
    same('no lines at all: nobody can take over everything', (page.it.do(COUNTS)[15:], page.texts(
        '#watch-comes p')[1:]), ([['0', 'Can take over everything (*)', 'of 0 principals with paths']],
                                 ['Nobody, by the paths of this page.']))
    page.is_quiet()
    page = Shown(it, room, 'without', made(SMALL)[1])
    page.go('#watch')
    same('without --paths', (page.texts('nav a'), len(page.it.do(COUNTS))),
         (['Who 3', 'What', 'Watch list', 'Rows 12'], 15))


def hostile_paths(it, room):
    """Names of strangers are texts in every view of paths, and what can't be seen of them is shown."""
    strange = '<img src=x onerror=alert(7)>\u202e'
    page = with_paths(it, room, 'hostile', ('strangers', path_strangers()), (strange, READERS),
                      (strange + '2', []), rows=strangers())
    page.go('#paths')
    same('hostile: whom the paths are about', sorted(row[0] for row in page.cells()),
         sorted('group ' + shown for shown in NAMES.values()))
    same('hostile: a file without lines', page.text('main .empty').partition(' is ')[0],
         '<img src=x onerror=alert(7)>U+202E2')
    for name, shown in [*NAMES.items()][:-1]:
        at = page.it.do('new URLSearchParams({who: %s, node: "*\\t*"}).toString()' % json.dumps('g:' + name))
        page.go('#paths?' + at)
        # (a blank beside the slash of a role is at no end)
        inner = name if name != name.strip(' ') else shown
        rows = [[cell.replace('U+0020', ' ') if inner is name else cell for cell in row]
                for row in page.cells('.steps')]
        role = 'Role/%s/%s' % (inner, inner)
        same('hostile: whose path of %.40s' % name, page.text('main h2'),
             'group %s can take over %s' % (shown, ALL))
        same('hostile: a path of %.40s' % name, [row[1:4] for row in rows], [
            ['group ' + inner, 'bind', '%s in %s' % (role, inner)],
            ['%s in %s' % (role, inner), 'run', 'user ' + inner], ['user ' + inner, 'bind', ALL]])
        same('hostile: why, of %.40s' % name, rows[2][4:7], ['RoleBinding/%s/%s' % (inner, inner), role,
                                                            role])
        is_safe(page, 'a path of %.40s' % name)
    for view in ('paths', 'requests', 'requests?node=u:kim%09-', 'watch', 'find?q=a', 'find?q=m',
                 'paths?who=__proto__', 'paths?who=u:ann&node=__proto__', 'requests?file=__proto__'):
        page.go('#' + view)
        is_safe(page, view)
    page.is_quiet()


def is_safe(page, name):
    """No element, link or script is a stranger's, and no character hides."""
    same('%s: no element of a stranger' % name, page.it.do(
        '[document.querySelectorAll("img, iframe, object, embed, base, link, form:not(#search)").length, '
        'document.scripts.length, [...document.links].filter(it => '
        '!it.getAttribute("href").startsWith("#")).length, [...document.querySelectorAll("*")].filter(it '
        '=> [...it.attributes].some(part => part.name.startsWith("on"))).length]'), [0, 2, 0, 0])
    same('%s: no such character is left in a text or title' % name, page.it.do(
        '[...document.querySelectorAll("#main, #main [title], #main option")].filter(it => '
        r'/[\u0000-\u0008\u007f-\u00a0\u00ad\u200b-\u200f\u2028-\u202e\u2060-\u2069\u3000\ufeff]|'
        r'[\u{e0000}-\u{e0fff}]/u.test(it.textContent + it.title)).length'), 0)


def example_paths(it, room):
    """The paths of examples/cluster, by the definition: who can take over everything, and each path."""
    given = read_files([os.path.join(TOP, 'examples', 'cluster', name + '.json')
                        for name in ('cluster', 'namespaced', 'accounts')])
    answers = {who: [*paths(given, who)] for who in sorted({line.split('\t')[1] for line in powers(given)})}
    secrets = [*indirect(given, Request('payments', 'get', ('resource', '', 'secrets', '')))]
    page = with_paths(it, room, 'example', ('all', [line for lines in answers.values() for line in lines]),
                      ('secrets', secrets))
    page.go('#watch')
    same('example: who can take over everything', page.it.do(COUNTS)[15],
         ['13', 'Can take over everything (*)', 'of 22 principals with paths'])
    same('example: and in how many steps', page.it.do(
        'Object.fromEntries(PATHS.filter(it => it.reach.everything !== undefined).map(it => '
        '[it.who, it.reach.everything]))'), RICH)
    page.go('#paths')
    same('example: those are listed first, fewest steps first', page.it.do(
        '[...document.querySelectorAll(".reach tbody th a")].slice(0, 13).map(it => new URLSearchParams('
        'it.hash.split("?")[1]).get("who"))'), sorted(sorted(RICH), key=RICH.get))
    same('example: each path', page.it.do(
        'PATHS.map(it => [it.who, [...it.lines.keys()].map(node => it.path(node).map(row => '
        'LINES.line(row)))])'), [[who, [*followed(lines)]] for who, lines in answers.items()])
    same('example: each path to a request', page.it.do(
        'REQUESTS.map(it => [...it.lines.keys()].map(node => it.path(node).map(row => LINES.line(row))))'),
         [[path[::-1] for path in followed(secrets)]])
    page.is_quiet()


def followed(lines):
    """The path of each line: it and the lines that it leads to, the last one first."""
    by_node = {tuple(line.split('\t')[1:3]): line for line in lines}
    for line in lines:
        path = [line]
        while (other := tuple(path[0].split('\t')[3:5])) in by_node:
            path.insert(0, by_node[other])
        yield path


def chain(length):
    """A path of many steps, from kim to everything, each two of one binding."""
    nodes = ['u:kim', *('u:system:serviceaccount:dev:a%05d' % at for at in range(1, length))]
    why = 'RoleBinding/dev/b%d Role/dev/r Role/dev/r 1 1'
    lines = ['%d %s - %s - token %s' % (at, nodes[at], nodes[at - 1], why % (at // 2)) for at in range(1, length)]
    return rows_of('\n'.join([*lines, '%d * * %s - escalate ClusterRoleBinding/b ClusterRole/r ClusterRole/r 1 '
                              '1' % (length, nodes[-1])]))


def long_path(it, room):
    """A path of 5,000 steps: the first hundred are shown, and a button has the next; the watch list has
    four of them."""
    page = with_paths(it, room, 'long', ('kim', chain(5000)))
    page.go('#paths?who=u:kim&node=*%09*')
    same('long: how long', page.text('main h2 + p'), '5,000 steps.')
    same('long: its first steps', [row[:2] for row in page.cells('.steps')],
         [['1', 'user kim'], *([str(at + 1), 'account dev:a%05d' % at] for at in range(1, 100))])
    same('long: what is left', page.texts('.steps button'), ['Show 100 more of 5,000'])
    page.it.do('document.querySelector(".steps button").click()')
    same('long: the next', len(page.cells('.steps')), 200)
    page.go('#watch')
    same('long: in the watch list', page.cells('#watch-comes'), [
        ['user kim', '5,000', 'token → account dev:a00001, token → account dev:a00002, token → account '
         'dev:a00003, token → account dev:a00004 and 4,996 more; why',
         'RoleBinding/dev/b0, RoleBinding/dev/b1, RoleBinding/dev/b2 and 2,498 more']])
    page.is_quiet()


def many_paths(it, room):
    """100,000 lines of paths of a hundred principals, and as many of one: made within 10 seconds,
    opened within 3, and each view within 3."""
    why = 'ClusterRoleBinding/b%d ClusterRole/r%d ClusterRole/r%d 1 1'
    many = ['1 u:system:serviceaccount:ns%03d:a%05d - u:user%02d - run %s' % (
        at % 100, at, who, why % (who, who, who)) for who in range(100) for at in range(999)]
    many += ['2 * * u:system:serviceaccount:ns000:a00000 - bind ' + why % (0, 0, 0)]
    one = ['1 u:system:serviceaccount:ns%03d:account%06d - g:one - run %s' % (at % 421, at, why % (at, at, at))
           for at in range(99999)] + ['2 * * u:system:serviceaccount:ns000:account000000 - bind ' + why % (0, 0, 0)]
    for name, lines, who in (('many', rows_of('\n'.join(many)), 'u:user99'),
                             ('one', rows_of('\n'.join(one)), 'g:one')):
        with file_of(lines) as path:
            began = time.monotonic()
            text = made(SMALL, '--paths', path)[1]
            seconds = time.monotonic() - began
        page = Shown(it, room, name, text)
        print('%s: %d lines of paths, %.1f MB, made in %.1f s, opened in %.2f s' % (
            name, len(lines), len(text) / 1e6, seconds, page.seconds))
        checked('%s: made in time' % name, seconds <= 10, str(seconds))
        checked('%s: opened in time' % name, page.seconds <= 3, str(page.seconds))
        for view in ('paths', 'paths?who=' + who, 'paths?who=%s&q=00420' % who,
                     'paths?who=%s&node=*%%09*' % who, 'watch'):
            began = time.monotonic()
            page.go('#' + view)
            seconds = time.monotonic() - began
            checked('%s: %s in time' % (name, view), seconds <= 3, str(seconds))
            checked('%s: %s has few elements' % (name, view),
                    it.do('document.querySelectorAll("*").length') < 3000)
        same('%s: two steps lead to everything' % name, page.it.do(COUNTS)[15][0], '1')
        page.go('#paths?who=%s&node=*%%09*' % who)
        same('%s: and are shown' % name, len(page.cells('.steps')), 2)
        page.is_quiet()


def zoomed_paths(it, room):
    """At 200 % each view of paths can be reached by scrolling down alone, and has room for lines."""
    page = with_paths(it, room, 'zoomed', ('kim', KIM), ('readers', READERS))
    it.ask('Emulation.setDeviceMetricsOverride', width=640, height=400, deviceScaleFactor=2, mobile=False)
    for view in ('paths', 'paths?who=u:kim', 'paths?who=u:kim&node=*%09*', 'requests'):
        page.go('#' + view)
        same('200 %%: %s' % view, it.do(
            '{const part = [...document.querySelectorAll(".sheet, .steps")].find(it => !it.hidden); '
            '[document.documentElement.scrollWidth <= 640, part.offsetHeight >= 120, '
            'part.getBoundingClientRect().bottom <= document.documentElement.scrollHeight]}'),
             [True, True, True])
    it.ask('Emulation.clearDeviceMetricsOverride')


PATHS = (shown_paths, ranked, shown_role, shown_requests, empty_paths, hostile_paths, example_paths, long_path,
         many_paths, zoomed_paths)
