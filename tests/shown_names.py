"""Pages in a browser: names that look alike, many verbs and namespaces, what is saved, and what stands
at the top."""

from common import checked
from opened import Shown
from written import FINDINGS, SMALL, file_of, made, rows_of, same

FULL = ['get', 'list', 'watch', 'create', 'update', 'patch', 'delete']


def names(it, room):
    """Names that look alike are told apart: by blanks, by their ends, by what stands for no name;
    somebody with many verbs has each in sight."""
    ends = ['team-%s-of-a-very-long-name-%s' % ('x' * 60, end) for end in 'ab']
    rows = rows_of('\n'.join('u:%s - get %s pods %s ClusterRoleBinding/b' % (who, group, name)
                             for who, group, name in (('dana', '-', '-'), ('dana', 'core', '–'))))
    rows += [row.replace('dana', name) for name in ['dana ', *ends] for row in rows[:1]]
    page = Shown(it, room, 'alike', made(rows)[1])
    same('a blank at the end is seen', [row[0] for row in page.cells()][:2],
         ['user dana', 'user danaU+0020'])
    page.go('#rows')
    same('no group, no namespace and no name have a shape of their own', page.texts('.none')[:6],
         ['whole cluster', 'core', '–', 'whole cluster', 'whole cluster', 'core'])
    heads = it.do('[...document.querySelectorAll("tbody .cut")].map(it => { '
                  'const [head, tail] = it.children, box = it.getBoundingClientRect(), '
                  'end = tail.getBoundingClientRect(); return [head.scrollWidth > head.clientWidth, '
                  'end.right <= it.closest("td").getBoundingClientRect().right, '
                  'it.title, tail.textContent] })')
    same('long names lose their middle, and have it in their title', heads,
         [[True, True, end, end[-12:]] for end in ends])
    page.is_quiet()
    verbs = sorted([*FULL, 'deletecollection', 'bind', 'escalate', 'impersonate', 'approve', 'use'])
    page = Shown(it, room, 'verbs', made(rows_of('\n'.join(
        'u:ann - %s - pods - ClusterRoleBinding/b' % verb for verb in verbs)))[1])
    page.go('#who?who=u:ann')
    same('all verbs are there', ' '.join(row[3].strip() for row in page.cells()), ' '.join(verbs))
    same('and in sight', it.do('[...document.querySelectorAll("tbody td:nth-child(4)")].every(it => '
                               'it.scrollWidth <= it.clientWidth)'), True)
    page.is_quiet()


def common_verbs(it, room):
    """A verb that only an unbound role has, or somebody else, takes nobody out of those with
    everything; a common one does."""
    rows = rows_of('\n'.join('u:all - %s - %s - ClusterRoleBinding/all' % (verb, type_)
                             for verb in sorted(FULL) for type_ in ('pods', 'secrets')))
    odd = rows_of('u:odd - frobnicate - pods - ClusterRoleBinding/odd')
    for name, given, wanted in (('a made-up verb', [*rows, *odd], ['user all']),
                                ('a common verb', [*rows[1:], *odd], [])):
        page = Shown(it, room, 'common', made(given)[1])
        page.go('#watch')
        same('%s: who has everything' % name,
             [row[0] for row in page.cells('#watch-everything')], wanted)


def spreadsheet(it, room):
    """What is saved has quotes, and no cell that is a formula."""
    row = '\t'.join(['u:a"b,c', '=1+1', '+x', '@y', '-z', '-', 'ClusterRoleBinding/b'])
    page = Shown(it, room, 'formulas', made([row])[1])
    page.go('#rows')
    same('CSV', page.save('rows.csv'), '\ufeff"Who","Namespace","Verb","API group",'
         '"Resource or URL","Name","Binding"\r\n"u:a""b,c","\'=1+1","\'+x","\'@y","\'-z","",'
         '"ClusterRoleBinding/b"\r\n')
    # (a full-width sign begins a formula too, and some take a semicolon for the end of a cell, in spite of quotes)
    row = '\t'.join(['u:a', '＝1', '＋x', '＠y', '－z', 'b;=1', 'ClusterRoleBinding/;=1'])
    page = Shown(it, room, 'more formulas', made([row])[1])
    page.go('#rows')
    same('CSV: full-width signs, and semicolons', page.save('rows.csv').splitlines()[1],
         '"u:a","\'＝1","\'＋x","\'＠y","\'－z","b\\x3b=1","ClusterRoleBinding/\\x3b=1"')


def strange_places(it, room):
    """A namespace that the page doesn't have: each view says so, and the chooser shows what is shown."""
    page = Shown(it, room, 'places', made(SMALL)[1])
    said = 'This page has no namespace nope: only what holds everywhere is shown. '
    for view in ('what', 'who', 'watch'):
        page.go('#%s?ns=nope' % view)
        same('a strange namespace: %s says so' % view, page.texts('.strange-place'), [said])
        same('a strange namespace: %s shows it' % view, page.texts('select option:checked')[:1], ['nope (not on this page)'])
        page.go('#%s?ns=dev' % view)
        same('a strange namespace: %s forgets it' % view, (page.texts('.strange-place'), page.texts('.strange'),
                                                            page.texts('select option:checked')[:1]), ([''], [], ['dev']))
    page.go('#who?who=u:ann&ns=nope')
    checked('a strange namespace: of somebody', page.text('main p.muted').startswith(said), page.text('main p.muted'))
    page.go('#rows?namespace==nope')
    checked('a strange namespace: of rows', page.text('.tools .muted').endswith(': this page has no namespace nope'), page.text('.tools .muted'))
    page.is_quiet()


def many_namespaces(it, room):
    """500,000 namespaces: the page opens, and one of them is typed."""
    page = Shown(it, room, 'namespaces', made(
        'u:ann\tns%06d\tget\t-\tpods\t-\tRoleBinding/ns%06d/b' % (at, at)
        for at in range(500000))[1])
    page.go('#what')
    page.it.do('document.querySelector("main [list]").select()')
    page.it.type('ns499999')
    page.it.press('Enter', 13, '\r')
    same('500,000 namespaces: one is looked at', (page.hash(), page.cells()),
         ('#what?ns=ns499999', [['user ann', 'g       ']]))
    checked('500,000 namespaces: few elements',
            it.do('document.querySelectorAll("*").length') < 1000)
    page.is_quiet()


def zoomed(it, room):
    """At 200 % each view can be reached by scrolling down alone, and has room for rows."""
    with file_of(FINDINGS) as lint:
        page = Shown(it, room, 'zoomed', made(SMALL, '--lint', lint)[1])
    it.ask('Emulation.setDeviceMetricsOverride', width=640, height=400, deviceScaleFactor=2,
           mobile=False)
    for view in ('who', 'what?ns=dev', 'watch', 'rows', 'findings', 'who?who=u:ann'):
        page.go('#' + view)
        same('200 %%: %s' % view, it.do(
            '{const part = document.querySelector(".sheet") || document.querySelector("main"); '
            '[document.documentElement.scrollWidth <= 640, part.offsetHeight >= 120, '
            'part.getBoundingClientRect().bottom <= document.documentElement.scrollHeight]}'),
             [True, True, True])
    it.ask('Emulation.clearDeviceMetricsOverride')


def notices(it, room):
    """What the rows lack stands at the top, as do cluster, server and time; names there are texts."""
    lines = ['context: pr\u202eod', 'server: https://<b>', 'version: ', 'namespace: dev',
             'only: d<i>ev', 'time: 2026-11-27T10:00:00Z', 'file: cluster.json: kubectl get']
    with file_of(['A part is missing: x.', 'L6 <b>']) as said, file_of(lines) as about:
        page = Shown(it, room, 'notices', made(SMALL, '--notices', said, '--about', about)[1])
    same('notices', page.texts('#notice p'),
         ['The export has the namespace d<i>ev alone: what roles of other namespaces allow isn’t '
          'on this page.', 'A part is missing: x.', 'L6 <b>'])
    same('about', page.text('#about'), 'cluster prU+202Eod · server https://<b> · read '
         '2026-11-27T10:00:00Z')
    page.is_quiet()
