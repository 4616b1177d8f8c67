"""rbacaudit-page: what it writes and refuses, and its pages in a browser (shown.py).

What the pages show is compared with rows that are written by hand (written.py), or with the built
program's rows of examples/cluster. What is skipped, since this machine lacks a browser, a shell or
a renderer, stands in the last line but one. The last line is `N passed, M failed`.
"""

import base64
import contextlib
import hashlib
import io
import itertools
import json
import os
import pty
import re
import shutil
import signal
import subprocess
import sys
import tempfile
import time

from common import TOP, checked, skipped, tested
from plugin_page import (plugin_files, plugin_names, plugin_notices, plugin_pages, plugin_parts, plugin_places, plugin_progress, plugin_reach,
                         plugin_refusals, plugin_stale, plugin_strange_reach, plugin_types)
from shown import in_browser
sys.path.append(os.path.join(TOP, 'plugin'))
from rbacaudit_kubectl.page_rows import MOST_PARTS, MOST_TEXT, Rows  # noqa: E402
from rbacaudit_kubectl.terminal import Progress, Refused  # noqa: E402
from written import (CHANGES, DEVS, FILTER, FINDINGS, KIM, NAMED, OPS, READERS, SMALL, Parts, contents,
                     file_of, lines_in, made, named_strangers, path_strangers, rows_in, rows_of, same, steps,
                     strangers, worked_paths)


# (a file's name, so without a slash)
STRANGE_FILE = '<img src=x onerror=alert(7)>\u202e'


def written():
    """Pages hold exactly the rows, findings, changes and holders by name that were given, and the
    same ones give the same page."""
    many = rows_of('\n'.join('u:%d - get - pods - ClusterRoleBinding/b%d' % (at, at % 256)
                             for at in range(70000)))
    for name, rows in (('a few rows', SMALL), ('no rows', []),
                       ('words for columns of one, two and four bytes', many)):
        status, text, err = made(rows)
        same('%s: status' % name, (status, err), (0, ''))
        data = Parts(text).data()
        checked('%s: the page has them all' % name, rows_in(data['rows']) == rows
                and data['rows']['count'] == len(rows))
        same('%s: nothing else' % name, [data[part] for part in ('whole', 'findings', 'changes',
                                                                 'named')],
             [True, None, None, None])
    checked('the same rows give the same page', made(SMALL)[1] == made(SMALL)[1])
    same('a part of a matrix is said to be one',
         Parts(made(SMALL, last='next\tMQ')[1]).data()['whole'], False)
    with file_of(FINDINGS) as lint, file_of(CHANGES) as diff, file_of([]) as none:
        data = Parts(made(SMALL, '--lint', lint, '--diff', diff)[1]).data()
        same('findings', ['\t'.join(finding) for finding in data['findings']], FINDINGS)
        same('changes', lines_in(data['changes']), CHANGES)
        data = Parts(made(SMALL, '--lint', none, '--diff', none)[1]).data()
        same('no findings and no changes', (data['findings'], data['changes']['count']), ([], 0))
        data = Parts(made(SMALL, '--named', none)[1]).data()
        same('no holders by name', data['named']['count'], 0)
    holders = [CHANGES[0].replace('u:ann', who).replace('RoleBinding/dev/ann', '-') for who in ('r:Role/dev/ops', 'r:ClusterRole/a b')]
    with file_of(holders) as diff:
        same('changes for whoever has a role', lines_in(Parts(made(SMALL, '--diff', diff)[1]).data()['changes']), holders)
    for bad in (holders[0].replace('\t-\t', '\t\t', 1), holders[0][:-1] + 'RoleBinding/dev/ann', holders[0].replace('Role/dev/ops', 'ops'),
                CHANGES[0].replace('RoleBinding/dev/ann', '-')):
        with file_of([bad]) as diff:
            same('refused: changes for whoever has a role: %s' % bad, made(SMALL, '--diff', diff),
                 (2, '', 'rbacaudit-page: %s line 1: no line of changes\n' % diff))
    with file_of(NAMED) as named:
        same('holders by name', lines_in(Parts(made(SMALL, '--named', named)[1]).data()['named']),
             NAMED)


def paths_data(*files):
    """What a page has of files of paths, which stand in one folder under these names."""
    with tempfile.TemporaryDirectory() as room:
        words = []
        for name, lines in files:
            words += ['--paths', os.path.join(room, name)]
            with open(words[-1], 'w', encoding='utf-8') as file:
                file.write(''.join(line + '\n' for line in lines))
        status, text, err = made(SMALL, *words)
        same('paths in %.80r: status' % [name for name, _ in files], (status, err), (0, ''))
        return Parts(text).data()['paths']


def written_paths():
    """Pages hold exactly the lines of paths and of who-can --indirect, and which are one answer."""
    same('no --paths', Parts(made(SMALL)[1]).data()['paths'], None)
    data = paths_data(('a', KIM), ('who reads', READERS), ('b', [*DEVS, *OPS]), ('none', []))
    same('paths: the lines', lines_in(data['lines']), [*KIM, *READERS, *DEVS, *OPS])
    same('paths: the answers', data['answers'],
         [[None, 'u:kim', 0, 3], ['who reads', None, 3, 8], [None, 'g:devs', 8, 11],
          [None, 'g:ops', 11, 13]])
    same('paths: the files without lines', data['empty'], ['none'])
    same('paths: answers of one step each', paths_data(('a', [DEVS[0], OPS[0]]))['answers'],
         [[None, 'g:devs', 0, 1], [None, 'g:ops', 1, 2]])
    data = paths_data(('none', []), ('no one', []))
    same('paths: no lines at all', (data['answers'], data['empty'], data['lines']['count']),
         ([], ['none', 'no one'], 0))
    pages = []
    for words, lines in worked_paths():
        who = None if 'who-can' in words else words.split()[-1].replace('\\', '\\\\')
        name = who or words.replace('/', ' ')
        # (a page has the paths of a principal once)
        page = next((page for page in pages if name not in page), None)
        if page is None:
            pages.append(page := {})
        page[name] = lines, who
    for page in pages:
        data = paths_data(*((name, lines) for name, (lines, _) in page.items()))
        ends = [*itertools.accumulate(len(lines) for lines, _ in page.values())]
        same('paths: worked answers: which they are', data['answers'],
             [[None if who else name, who, end - len(lines), end]
              for (name, (lines, who)), end in zip(page.items(), ends) if lines])
        same('paths: worked answers: their lines', lines_in(data['lines']),
             [line for lines, _ in page.values() for line in lines])


def no_markup():
    """No name becomes markup: a page has the elements and attributes of one without names, and is
    ASCII beside the template."""
    with file_of(named_strangers()) as named, file_of(
            path_strangers()) as paths, file_of(READERS, STRANGE_FILE) as readers:
        plain, hostile = made(SMALL)[1], made(strangers(), '--named', named, '--paths', paths, '--paths',
                                              readers, '--title',
                                              '</title><script>alert(5)</script>\u202e')[1]
    same('the elements are the same', Parts(hostile).elements, Parts(plain).elements)
    parts = Parts(hostile)
    same('all names are there', sorted(rows_in(parts.data()['rows'])), sorted(strangers()))
    same('those of holders by name too', lines_in(parts.data()['named']), [*named_strangers()])
    same('those of paths too', lines_in(parts.data()['paths']['lines']),
         [*path_strangers(), *READERS])
    same('and the name of a file', parts.data()['paths']['answers'][-1][0], STRANGE_FILE)
    data = parts.texts['script', 'application/json']
    checked('the data are ASCII without markup', data.isascii() and not re.search('[<>&]', data),
            data[:1000])
    checked('the script and the style are the same',
            all(parts.texts[part] == Parts(plain).texts[part]
                for part in (('script', None), ('style', None))))
    same('the title is a text', (parts.texts['title', None], parts.texts['h1', None]),
         ('</title><script>alert(5)</script>[U+202E]',) * 2)


def policy():
    """The page may run and style what stands in it alone, and refers to nothing else."""
    parts = Parts(made(SMALL)[1])
    sums = {name: hashlib.sha256(parts.texts[name, None].encode()).digest()
            for name in ('style', 'script')}
    hashes = {name: "'sha256-%s'" % base64.b64encode(it).decode() for name, it in sums.items()}
    policies = [attributes['content'].split() for tag, attributes in parts.elements
                if attributes.get('http-equiv') == 'Content-Security-Policy']
    same('the policy', policies, [[
        'default-src', "'none';", 'style-src', hashes['style'] + ';', 'script-src',
        hashes['script'] + ';', 'base-uri', "'none';", 'form-action', "'none'"]])
    strange = [(tag, key) for tag, attributes in parts.elements for key in attributes
               if key in ('src', 'href', 'style') or key.startswith('on')]
    same('no element refers to anything', strange, [])
    for name in sorted(os.listdir(os.path.join(TOP, 'page'))):
        text = contents('page', name)
        same('page/%s names no address' % name,
             re.findall(r'https?:|//\w|@import|url\(|innerHTML|document\.write|eval\(', text), [])


def refusals():
    """What isn't a whole matrix gets no page."""
    lost = 'standard input has no last line, end or next, so rows may be missing'
    for name, rows, last, said in (
            ('nothing', [], None, lost), ('no last line', SMALL, None, lost),
        ('a second matrix', [*SMALL, 'end', *SMALL], 'end', 'line 14: follows'),
            ('a page before the last', [*SMALL, 'next\tMQ'], 'end', 'line 14: follows'),
        ('six fields', [SMALL[0].rpartition('\t')[0]], 'end', 'line 1: no row'),
            ('eight fields', [SMALL[0], SMALL[1] + '\t-'], 'end', 'line 2: no row'),
        ('an empty field', [SMALL[0].replace('get', '')], 'end', 'line 1: no row'),
            ('a holder', ['u:ann\tClusterRoleBinding/b'], 'end', 'line 1: no row'),
        ('a bad escape', [SMALL[0].replace('get', '\\q')], 'end', 'line 1: no row'),
            ('a control byte', [SMALL[0].replace('get', 'g\x1bt')], 'end', 'line 1: no row'),
        ('no principal', ['x:ann' + SMALL[5][5:]], 'end', 'line 1: no row'),
            ('lines of Windows', [SMALL[0] + '\r'], 'end', 'line 1: no row')):
        status, out, err = got = made(rows, last=last)
        checked('refused: %s' % name, (status, out) == (2, '')
                and err.startswith('rbacaudit-page: standard input') and said in err
                and err.count('\n') == 1, repr(got)[:1000])
    ended = subprocess.run([sys.executable, FILTER], input=b'u:\xff\n', stdout=subprocess.PIPE,
                           stderr=subprocess.PIPE, timeout=60)
    same('refused: not UTF-8', (ended.returncode, ended.stderr),
         (2, b'rbacaudit-page: standard input line 1: not UTF-8\n'))
    with file_of(SMALL) as rows:
        for option, said in (('--lint', 'no line of rbacaudit lint'),
                             ('--diff', 'no line of changes'),
                             ('--reach', 'no line of how far principals reach'), ('--unasked', 'no line of principals'),
                             ('--named', 'no line of holders by name'),
                             ('--namespaced', 'no line of API group and resource'),
                             ('--notices', None), ('--about', None)):
            if said:
                same('refused: rows after %s' % option, made(SMALL, option, rows),
                     (2, '', 'rbacaudit-page: %s line 1: %s\n' % (rows, said)))
            same('refused: no file after %s' % option, made(SMALL, option, rows + 'x')[::2],
                 (2, 'rbacaudit-page: %sx: No such file or directory\n' % rows))
    named_refusals()
    for words in (['--lnt', 'x'], ['x'], ['--title'], ['--lin', 'x']):
        status, out, err = got = made(SMALL, *words)
        checked('refused: %s' % ' '.join(words), (status, out) == (2, '')
                and 'usage: rbacaudit-page' in err, repr(got))


def named_refusals():
    """Lines of --named that rbacaudit doesn't print, or that the watch list isn't about."""
    unlike = 'no line of holders by name'
    unwatched = ('the watch list lacks this verb and resource: rbacaudit-page --watched prints all '
                 'that it has')
    for name, line, said in (
            ('a holder alone', 'u:ann RoleBinding/dev/b', unlike),
            ('a field more', 'get - secrets u:ann RoleBinding/dev/b -', unlike),
            ('an empty field', 'get  secrets u:ann RoleBinding/dev/b', unlike),
            ('a bad escape', 'get - secrets u:a\\q RoleBinding/dev/b', unlike),
            ('no principal', 'get - secrets ann RoleBinding/dev/b', unlike),
            ('a binding without its namespace', 'get - secrets u:ann RoleBinding/b', unlike),
            ('no binding', 'get - secrets u:ann Role/dev/b', unlike),
            ('a verb that is watched for another type', 'bind - secrets u:ann RoleBinding/dev/b',
             unwatched),
            ('a type of another group', 'get apps secrets u:ann RoleBinding/dev/b', unwatched),
            ('another subresource', 'create - pods/log u:ann RoleBinding/dev/b', unwatched),
            ('a type that no step has', 'impersonate authentication.k8s.io uids u:ann '
             'ClusterRoleBinding/b', unwatched)):
        with file_of([NAMED[0], line.replace(' ', '\t')]) as path:
            same('refused: %s' % name, made(SMALL, '--named', path),
                 (2, '', 'rbacaudit-page: %s line 2: %s\n' % (path, said)))


def paths_refused(name, lines, said, line=1):
    with file_of(lines) as path:
        same('--paths: refused: %s' % name, made(SMALL, '--paths', path),
             (2, '', 'rbacaudit-page: %s line %d: %s\n' % (path, line, said)))


def changed(line, *fields):
    """A line with other fields: each by its place, from 1 on."""
    texts = line.split('\t')
    for place, text in fields:
        texts[place - 1] = text
    return '\t'.join(texts)


def path_refusals():
    """What isn't the lines of an answer, as printed: other lines, and answers that lack some."""
    to_account, to_all, _ = KIM
    of_everything, from_role, of_role = DEVS[1], OPS[1], OPS[0]
    for name, line in (
            ('a row', SMALL[0]), ('a change', CHANGES[0]), ('an empty line', ''),
            ('ten fields', to_account.rpartition('\t')[0]), ('twelve fields', to_account + '\t1'),
            ('a line of Windows', to_account + '\r'),
            ('an empty field', changed(to_account, (7, ''))),
            ('a bad escape', changed(to_account, (2, 'u:\\q'))),
            ('a control byte', changed(to_account, (2, 'u:\x1b'))),
            ('a number with a zero', changed(to_account, (1, '01'))),
            ('no number', changed(to_account, (1, '-'))),
            ('digits that are not ASCII', changed(to_account, (1, '١'))),
            ('an unknown step', changed(to_account, (6, 'fly'))),
            ('no step', changed(to_account, (6, '-'))),
            ('no principal', changed(to_account, (2, 'x:kim'))),
            ('a principal in a namespace', changed(to_account, (3, 'dev'))),
            ('a principal before in a namespace', changed(to_account, (5, 'dev'))),
            ('a role nowhere', changed(of_role, (3, '-'))),
            ('a role without a namespace', changed(of_role, (2, 'Role/runner'))),
            ('a namespace without a role', changed(of_role, (2, 'Role/prod/'))),
            ('everything nowhere', changed(DEVS[0], (3, '-'))),
            ('a principal without a binding', changed(to_account, (7, '-'))),
            ('a binding without its namespace', changed(to_account, (7, 'RoleBinding/debug'))),
            ('no role', changed(to_account, (8, '-'))),
            ('no rule', changed(to_account, (10, '-'))),
            ('rule zero', changed(to_account, (10, '0'))),
            ('a principal without a subject', changed(to_account, (11, '-')))):
        paths_refused(name, [line], 'no line of rbacaudit paths or who-can --indirect')
    unlike = 'no line of rbacaudit paths'
    for name, lines in (('everything with a role', [DEVS[0], changed(of_everything, (8, 'Role/a/b'))]),
                        ('a role with a binding', [of_role, changed(from_role, (7, to_all.split('\t')[6]))]),
                        ('a role with a subject', [of_role, changed(from_role, (11, '1'))]),
                        ('no steps', [to_account, READERS[1]])):
        paths_refused(name, lines, unlike, 2)
    for name, line in (('of who-can: everything with a role', changed(READERS[0], (2, '*'))),
                       ('of who-can: somebody without a binding', changed(READERS[1], (7, '-'))),
                       ('of who-can: a node after it', changed(READERS[1], (4, 'u:lee'))),
                       ('of who-can: a step', changed(READERS[1], (6, 'run')))):
        paths_refused(name, [line], 'no line of rbacaudit paths or who-can --indirect')
    paths_refused('of who-can: no node after it', [*READERS[:2], changed(READERS[2], (4, '-'), (5, '-'))],
                  'no line of rbacaudit who-can --indirect', 3)


def broken_answers():
    """An answer has each line to which another leads, each once, and in order; a principal has one
    answer."""
    lost = 'no line above is one step nearer: give all lines that were printed, in their order'
    twice = 'the same as a line above'
    for name, lines, said, line in (
            ('the first line is gone', KIM[1:], lost, 1),
            ('a line between is gone', [KIM[0], changed(KIM[1], (1, '3'))], lost, 2),
            ('another is before', [KIM[0], changed(KIM[1], (4, 'u:max'))], lost, 2),
            ('it is one of as many steps', [*KIM, changed(KIM[2], (2, 'u:max'), (4, 'u:lee'))], lost, 4),
            ('fewer steps after more', [*READERS, changed(READERS[3], (2, 'u:max'))], lost, 6),
            ('a line twice', [KIM[0], KIM[0]], twice, 2),
            ('a node in two lines', [*KIM, changed(KIM[2], (6, 'token'))], twice, 4),
            ('the one asked about', [KIM[0], changed(KIM[2], (2, 'u:kim'))], twice, 2),
            ('of who-can: the first line is gone', [READERS[1], *READERS[2:]], lost, 2),
            ('of who-can: a line twice', [READERS[0], READERS[0]], twice, 2),
            ('two answers of who-can', [*READERS, *READERS], lost, 6),
            ('paths after who-can', [*READERS, *KIM], lost, 6),
            ('who-can after paths', [*KIM, *READERS], 'no line of rbacaudit paths', 4),
            ('a role is asked about', [changed(OPS[1], (1, '1'))], 'no principal comes before this line',
             1)):
        paths_refused(name, lines, said, line)
    with file_of(DEVS, 'one') as one, file_of([*KIM, *DEVS], 'two') as two:
        same('--paths: refused: two answers about one', made(SMALL, '--paths', one, '--paths', two),
             (2, '', 'rbacaudit-page: %s line 4: the paths of this principal are there already, from %s '
              'line 1 on\n' % (two, one)))
    with file_of([*KIM, *KIM]) as path:
        same('--paths: refused: the same answer again', made(SMALL, '--paths', path),
             (2, '', 'rbacaudit-page: %s line 4: the paths of this principal are there already, from %s '
              'line 1 on\n' % (path, path)))
    same('--paths: refused: standard input', made(SMALL, '--paths', '-'),
         (2, '', 'rbacaudit-page: --paths -: standard input has the rows: write the lines into a '
          'file\n'))
    with tempfile.NamedTemporaryFile() as file:
        file.write(KIM[0].encode() + b'\n\xff\n')
        file.flush()
        same('--paths: refused: not UTF-8', made(SMALL, '--paths', file.name),
             (2, '', 'rbacaudit-page: %s line 2: not UTF-8\n' % file.name))


def path_limit():
    """500,000 lines of paths, and one more; and a long name that is no field keeps nobody waiting."""
    lines = ['1\tu:%d\t-\tu:kim\t-\timpersonate\tClusterRoleBinding/b\tClusterRole/r\tClusterRole/r\t1'
             '\t1' % at for at in range(500000)]
    with file_of(lines, 'most') as most, file_of(DEVS, 'more') as more:
        same('500,000 lines of paths', made([], '--paths', most)[::2], (0, ''))
        same('one more is refused', made([], '--paths', most, '--paths', more),
             (2, '', 'rbacaudit-page: %s line 1: --paths has more than 500000 lines, too many for a page: '
              'give the paths of fewer principals, or some steps of them, by paths --steps\n' % more))
    long = changed(KIM[0], (7, 'RoleBinding/' + 'a/' * 500000 + '\x7f'))
    began = time.monotonic()
    paths_refused('a long name', [long], 'no line of rbacaudit paths or who-can --indirect')
    checked('--paths: a long name is refused in time', time.monotonic() - began < 10)


def place_of(where):
    """Where a pair counts, as the table of steps says it."""
    return {'whole cluster': True, 'kube-system': 'kube-system'}[where[0]] if where else False


def watch_list():
    """The watch list has the steps of docs/BEHAVIOUR.md, and then everything; --watched prints its
    pairs, and needs no rows."""
    *watched, everything = json.loads(contents('page', 'watched.json'))
    table = steps()
    same('the watch list: the steps', [
        (it['id'], verbs, types, place_of(where)) for it in watched for verbs, types, *where in it['pairs']],
         [row[:-1] for row in table])
    same('the watch list: the steps that count names', {it['id'] for it in watched if it.get('names') == 'any'},
         {step for step, *_, named in table if named})
    same('the watch list: each step has one category', [it['id'] for it in watched],
         [*dict.fromkeys(step for step, *_ in table)])
    same('the watch list: everything', (everything['id'], everything['pairs']), ('everything', []))
    wanted = [[step, verb, it.partition('.')[2] or '-', it.partition('.')[0]]
              for step, verbs, types, *_ in table for it in types for verb in verbs]
    ended = subprocess.run([sys.executable, FILTER, '--watched'], stdin=subprocess.DEVNULL,
                           stdout=subprocess.PIPE, stderr=subprocess.PIPE, timeout=60)
    lines = [line.split('\t') for line in ended.stdout.decode().splitlines()]
    same('--watched: status', (ended.returncode, ended.stderr), (0, b''))
    same('--watched: the pairs', lines, wanted)
    with open('/dev/full', 'wb') as full:
        ended = subprocess.run([sys.executable, FILTER, '--watched'], stdout=full,
                               stderr=subprocess.PIPE, timeout=60)
    same('--watched: a full disk', (ended.returncode, ended.stderr), (
        2, b"rbacaudit-page: the watch list can't be written: No space left on device\n"))


ROW = 'u:ann\t-\tget\t-\tpods\t-\tClusterRoleBinding/b'


def read(rows, *most, last='end'):
    """What is said of rows that are read with these limits: nothing, or why they are refused."""
    with contextlib.redirect_stderr(io.StringIO()):
        try:
            Rows(*most).read([line.encode() + b'\n' for line in [*rows, last]], Progress())
        except Refused as fault:
            return str(fault)
    return ''


def parts_limit():
    """The most parts, counted by hand: an entry of a set and a grant are one each, a run and a word two."""
    # (two runs of one grant, with the same set of two entries; two principals, a namespace, two requests and a binding)
    rows = ['u:%s\t-\tget\t-\t%s\t-\tClusterRoleBinding/b' % pair for pair in itertools.product('ab', ('nodes', 'pods'))]
    parts = 2 + 2 * 1 + 2 * (2 + 2 + 1 + 2 + 1)
    same('the most parts', read(rows, parts), '')
    same('one part more', read(rows, parts - 1), 'the first 4 rows make more than %d parts, too many for a page in a browser: '
         'make the page of one namespace, as kubectl rbacaudit page -n NS does, or a Universe document with fewer principals, '
         'namespaces or resources' % (parts - 1))
    size = len('u:au:b-' + 'get\t-\tnodes\t-' + 'get\t-\tpods\t-' + 'ClusterRoleBinding/b\n')
    same('the most bytes of names', read(rows, 1000, size), '')
    checked('one byte more', read(rows, 1000, size - 1).startswith(
        'the first 4 rows make more than %d bytes of names, too many for a page in a browser: ' % (size - 1)))
    repeated, named = ROW.replace('-', 'dev', 1), ROW[::-1].replace('-', 'a', 1)[::-1]
    for name, row, said in (
            ('what holds in the whole cluster', repeated, 'matrix --once lists once what holds in the whole cluster'),
            ('object names', named, 'leave out the names of objects, by "names": [""] in a Universe document'),
            ('nothing of these', ROW, 'kubectl rbacaudit page -n NS')):
        checked('one more is refused, with what to do about %s' % name, said in read([row, ROW], 1), read([row, ROW], 1))


def memory():
    """Reading takes at most 400 bytes for each entry of a set and each principal with a namespace, and keeps no row."""
    for name, rows, parts in (
            ('principals of a row each', ('u:user-%06d@example.com\tns%d\tget\t-\tpods\t-\tRoleBinding/ns%d/b%06d' % (at, at % 9, at % 9, at)
                                          for at in range(30000)), 30000),
            ('names of one', ('u:ann\tns\tget\t-\tpods\tpod-%06d\tRoleBinding/ns/b' % at for at in range(30000)), 30001),
            ('sets of their own', ('u:user-%03d\tns\tget\t-\tkind%03d\t-\tRoleBinding/ns/b' % (at // 100, at // 100 + at % 100)
                                   for at in range(30000)), 30300),
            ('the same set', ('u:user-%03d\tns\tget\t-\tkind%03d\t-\tRoleBinding/ns/b' % (at // 100, at % 100) for at in range(200000)),
             2100)):
        script = ('import sys, tracemalloc; sys.path[:0] = sys.argv[1:]; from rbacaudit_kubectl.page import pieces_of; '
                  'from rbacaudit_kubectl.page_rows import Rows; from rbacaudit_kubectl.terminal import Progress; tracemalloc.start(); '
                  'rows = Rows(); rows.read(sys.stdin.buffer, Progress()); sum(map(len, pieces_of(rows.coded()))); '
                  'print(tracemalloc.get_traced_memory()[1])')
        most = int(subprocess.run([sys.executable, '-c', script, os.path.dirname(FILTER)], input='\n'.join([*rows, 'end']).encode(),
                                  stdout=subprocess.PIPE, check=True, timeout=60).stdout)
        # (beside what a block of lines takes, however few things they say)
        checked('memory for %s' % name, most <= 400 * parts + 5_000_000, '%d bytes' % most)
        print('%s: %d bytes for each of %d' % (name, most // parts, parts))


def limits():
    """Many rows of one request; a full disk; a filter without its files."""
    same('500,000 rows', made([ROW] * 500000)[::2], (0, ''))
    endless = subprocess.Popen(['yes', ROW], stdout=subprocess.PIPE)
    ended = subprocess.run([sys.executable, FILTER], stdin=endless.stdout, stdout=subprocess.PIPE,
                           stderr=subprocess.PIPE, timeout=60)
    endless.stdout.close()
    same('a pipe is read no further than that', (ended.returncode, ended.stdout), (2, b''))
    same('and whoever writes into it ends', -endless.wait(60), signal.SIGPIPE)
    with open('/dev/full', 'wb') as full:
        ended = subprocess.run([sys.executable, FILTER], input=b'end\n', stdout=full,
                               stderr=subprocess.PIPE, timeout=60)
    same('a full disk', (ended.returncode, ended.stderr),
         (2, b"rbacaudit-page: the page can't be written: No space left on device\n"))
    with tempfile.TemporaryDirectory() as room:
        path = shutil.copy(FILTER, room)
        same('a filter without the package', made(SMALL, path=path), (2, '', "rbacaudit-page: the parts of the plugin aren't "
                                                                      'there: make install puts them into lib/rbacaudit\n'))
        shutil.copytree(os.path.join(os.path.dirname(FILTER), 'rbacaudit_kubectl'), os.path.join(room, 'rbacaudit_kubectl'))
        status, out, err = got = made(SMALL, path=path)
        checked('a filter without its files', (status, out) == (2, '')
                and err.startswith('rbacaudit-page: there is no page.css in ')
                and 'make install' in err, repr(got))


def output():
    """--output writes its file whole or not at all; nothing else in the folder changes."""
    page = made(SMALL)[1]
    with tempfile.TemporaryDirectory() as room:
        path = os.path.join(room, 'access.html')

        def left():
            return {name: contents(room, name) for name in sorted(os.listdir(room))}

        same('--output: a refusal', made(SMALL, '--output', path, last=None)[:2], (2, ''))
        same('--output: no file is made for it', left(), {})
        same('--output', made(SMALL, '--output', path), (0, '', ''))
        same('--output: the file has the page', left(), {'access.html': page})
        os.chmod(path, 0o640)
        same('--output: again', made([], '--output', path), (0, '', ''))
        same('--output: another page', (left(), os.stat(path).st_mode & 0o777),
             ({'access.html': made([])[1]}, 0o640))
        same('--output: a refusal again', made(SMALL, '--output', path, last=None)[:2], (2, ''))
        same('--output: the file stays', left(), {'access.html': made([])[1]})
        os.symlink('access.html', os.path.join(room, 'link'))
        same('--output: a link', made(SMALL, '--output', os.path.join(room, 'link')), (0, '', ''))
        same('--output: is followed', (os.readlink(os.path.join(room, 'link')), left()),
             ('access.html', {'access.html': page, 'link': page}))
        for given, said in ((room, 'is a folder: name a file in it'),
                            (path + '/x', 'there is no folder ' + path)):
            status, out, err = got = made(SMALL, '--output', given)
            checked('--output: refused: %s' % said, (status, out) == (2, '') and said in err,
                    repr(got))
    same('--output: a full disk', made(SMALL, '--output', '/dev/full'), (
        2, '', "rbacaudit-page: the page can't be written: No space left on device\n"))


def drawn():
    """On a terminal a line says how many rows were read, and goes away."""
    with tempfile.TemporaryDirectory() as room:
        ours, terminal = pty.openpty()
        rows = ''.join([ROW + '\n'] * 50000 + ['end\n']).encode()
        subprocess.run([sys.executable, FILTER, '--output', os.path.join(room, 'page')],
                       input=rows, stderr=terminal, check=True, timeout=60)
        os.close(terminal)
        same('a line of progress', os.read(ours, 1000).decode().split('\r'),
             ['', 'rbacaudit-page: 20,000 rows read', 'rbacaudit-page: 40,000 rows read', ' ' * 40,
              ''])
        os.close(ours)


def terminals():
    """Nobody types rows, and nobody reads a page on a terminal."""
    for at in (0, 1):
        streams = {0: subprocess.DEVNULL, 1: subprocess.PIPE}
        ours, streams[at] = pty.openpty()
        ended = subprocess.run([sys.executable, FILTER], stdin=streams[0], stdout=streams[1],
                               stderr=subprocess.PIPE, timeout=60)
        os.close(ours)
        os.close(streams[at])
        checked('a terminal as %d is refused' % at, ended.returncode == 2 and ended.stderr.endswith(
            b'rbacaudit matrix --once *.json | rbacaudit-page --output access.html\n'), repr(ended))


def told(*words, **how):
    """What a command writes, its faults too."""
    return subprocess.run(words, stdout=subprocess.PIPE, stderr=subprocess.STDOUT, timeout=60,
                          **how).stdout.decode()


def helped():
    """Help, the man page and the completions have the same options, in the same words."""
    told_ = told(sys.executable, FILTER, '--help', env=dict(os.environ, COLUMNS='100'))
    options = dict(re.findall(r'^  (?:-h, )?--(\w+)(?: [A-Z]+)?  +(.*)$', told_, re.M))
    same('help: the options', [*options],
         ['help', 'lint', 'diff', 'paths', 'reach', 'unasked', 'named', 'namespaced', 'notices', 'about', 'title',
          'output', 'plain', 'watched'])
    man = contents('man', 'rbacaudit-page.1')
    same('man: the options', re.findall(r'^\.TP\n.*\\-\\-(\w+)\\fR', man, re.M), [*options])
    synopsis = man.partition('.SH SYNOPSIS\n')[2].partition('.SH ')[0]
    same('man: the options of the synopsis', sorted(re.findall(r'\[\\fB\\-\\-(\w+)|^\.B \\-\\-(\w+)$', synopsis, re.M)),
         sorted((name, '') if name != 'watched' else ('', name) for name in options if name != 'help'))
    checked('man: the default of --title', 'Default: Who can do what.' in man)
    same('man: the most parts, bytes of names, and lines of paths',
         [int(text.replace(',', '')) for text in re.findall(r'[Mm]ore than ([\d,]+) parts|have ([\d,]+) bytes|More than ([\d,]+) lines', man)
          for text in text if text], [MOST_PARTS, MOST_TEXT, 500000])
    fish = contents('completions', 'rbacaudit-page.fish')
    same('fish: the options', dict(re.findall(r"-l (\w+) .*?-d '(.*)'$", fish, re.M)), options)
    zsh = contents('completions', '_rbacaudit-page')
    same('zsh: the options', dict(re.findall(r"--(\w+)=?\}?'?\[(.*?)\]", zsh)), options)
    path = os.path.join(TOP, 'completions', 'rbacaudit-page.bash')
    for line, wanted in (('rbacaudit-page --', '--lint --diff --paths --reach --unasked --named --namespaced --notices '
                                    '--about --title --output --plain --watched --help'),
                         ('rbacaudit-page --lint x --t', '--title'),
                         ('rbacaudit-page --named -', ''), ('rbacaudit-page --paths -', ''),
                         ('rbacaudit-page --title -', '')):
        script = ('compopt() { :; }; . "$0"; COMP_WORDS=(%s); COMP_CWORD=%d; _rbacaudit_page; '
                  'echo ${COMPREPLY[*]}' % (line, line.count(' ')))
        same('bash: %s' % line, told('bash', '-c', script, path).strip(), wanted)
    for words in (['mandoc', '-Tlint'], ['groff', '-man', '-ww', '-Tascii', '-z']):
        if shutil.which(words[0]):
            same('%s finds no fault' % words[0],
                 told(*words, os.path.join(TOP, 'man', 'rbacaudit-page.1')), '')
        else:
            skipped(words[0], 'rbacaudit-page.1')
    for shell in ('zsh', 'fish'):
        if shutil.which(shell):
            name = {'zsh': '_rbacaudit-page', 'fish': 'rbacaudit-page.fish'}[shell]
            same('%s reads its file' % shell,
                 told(shell, '-n', os.path.join(TOP, 'completions', name)), '')
        else:
            skipped(shell, 'completions of rbacaudit-page')


def installed():
    """`make install` puts the filter, its files, its man page and its completions where they are
    looked for."""
    with tempfile.TemporaryDirectory() as room:
        # (the program is built, and isn't to be proved once more)
        subprocess.run(['make', '-s', '-o', 'build', 'install', 'PREFIX=' + room], cwd=TOP,
                       check=True, timeout=60)
        same('make install: the page is the same',
             made(SMALL, path=os.path.join(room, 'bin', 'rbacaudit-page')), made(SMALL))
        for name, place in (('man/rbacaudit-page.1', 'man/man1/rbacaudit-page.1'),
                            ('completions/rbacaudit-page.bash',
                             'bash-completion/completions/rbacaudit-page'),
                            ('completions/_rbacaudit-page', 'zsh/site-functions/_rbacaudit-page'),
                            ('completions/rbacaudit-page.fish',
                             'fish/vendor_completions.d/rbacaudit-page.fish')):
            path = os.path.join(room, 'share', place)
            checked('make install: share/%s' % place,
                    os.path.isfile(path) and contents(path) == contents(name))


def contrast(one, other):
    """How much two colours differ, as WCAG 2 defines it."""
    def light(colour):
        parts = [int(colour[at:at + 2], 16) / 255 for at in (1, 3, 5)]
        linear = [part / 12.92 if part <= 0.04045 else ((part + 0.055) / 1.055) ** 2.4
                  for part in parts]
        return 0.2126 * linear[0] + 0.7152 * linear[1] + 0.0722 * linear[2]

    dark, bright = sorted((light(one), light(other)))
    return (bright + 0.05) / (dark + 0.05)


def colours():
    """Each colour of a text can be read on what it stands on, in light and dark: at least 4.5 to
    1."""
    themes = re.findall(r':root \{(.*?)\}', contents('page', 'page.css'), re.S)
    for theme, text in zip(('light', 'dark'), themes):
        found = dict(re.findall(r'--([\w-]+): (#[0-9a-f]{6});', text))
        pairs = [(ink, back) for ink in ('ink', 'muted', 'accent', 'read', 'write', 'other',
                                         'gained', 'lost') for back in ('panel', 'back', 'odd',
                                                                        'soft')]
        for ink, back in [*pairs, ('warn-ink', 'warn'), ('unseen', 'unseen-back')]:
            checked('%s: %s on %s' % (theme, ink, back), contrast(found[ink], found[back]) >= 4.5,
                    '%.2f' % contrast(found[ink], found[back]))


if __name__ == '__main__':
    sys.exit(tested(written, written_paths, no_markup, policy, refusals, path_refusals, broken_answers,
                    path_limit, watch_list, parts_limit, memory, limits, output, drawn,
                    terminals, helped, installed, plugin_pages, plugin_names, plugin_types, plugin_notices,
                    plugin_places,
                    plugin_files, plugin_progress, plugin_reach, plugin_strange_reach, plugin_parts, plugin_refusals, plugin_stale, colours, in_browser))
