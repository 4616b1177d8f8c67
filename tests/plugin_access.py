"""access and paths -o dot of the kubectl plugin: one person's access as a table of types by verbs, and whom somebody takes over as a graph.

What access has to tell of everybody in the larger example is worked out by tests/meaning.py. Tables are written by hand from the roles of
examples/make_cluster.py. A graph is parsed as Graphviz' language, and drawn by dot where the machine has it.
"""

import json
import os
import re
import shutil
import subprocess
import xml.etree.ElementTree

from common import TOP, skipped
from escalation import Export, is_role, paths
from meaning import groups_of, is_named, key_of, ordered_bindings
from plugin_questions import stale_with
from plugin_room import CAUTION, CI_KEY, NO_GROUPS, NO_SPACE, NO_USER, PLUGIN, REFUSAL, in_each_shell, of_kinds
from plugin_show import bound, exported, role, rule
from plugin_terminal import SEEN_TYPE, TYPE, USER, hostile, on_terminal
from show import NAMES, colored, objects_in

CLUSTER = os.path.join(TOP, 'examples', 'cluster')
SCOPED = ('kubectl-rbacaudit: RoleBindings name cluster-scoped types: %s; of such types, a RoleBinding grants only use, bind of cluster roles, and the '
          'object of its own namespace\n')


# ---- the larger example

def company(it, name='prod'):
    """The export of the larger example, in a folder of the room."""
    folder = os.path.join(it.work, name)
    os.mkdir(folder)
    for file in os.listdir(CLUSTER):
        if file.endswith('.json') and file != 'universe.json':
            shutil.copy(os.path.join(CLUSTER, file), folder)


def company_items(*names):
    """The objects of some files of the larger example, as tests/meaning.py takes them."""
    for name in names or ('cluster', 'namespaced'):
        with open(os.path.join(CLUSTER, name + '.json'), encoding='utf-8') as file:
            for item in json.load(file)['items']:
                item['metadata'].setdefault('labels', {})
                yield {**item, 'rules': item.get('rules') or []} if item['kind'] in ('ClusterRole', 'Role') else item


def given(items, who, place=None):
    """What bindings give somebody: where, verb, group, resource and the only name or None for any; and verbs of URLs. In a place, all of it
    counts there."""
    types, urls = set(), set()
    for (_, home, _), subjects, rules in ordered_bindings(items):
        if place in (None, home) or not home:
            for one in rules if any(is_named(subject, home, who) for subject in subjects) else ():
                types |= {(home if place is None else place, verb, group, resource, name) for verb in one['verbs'] for group in one.get('apiGroups', ())
                          for resource in one.get('resources', ()) for name in one.get('resourceNames') or [None]}
                urls |= {(verb, url) for verb in one['verbs'] for url in one.get('nonResourceURLs', ()) if not home}
    return {it for it in types if it[4] is None or (*it[:4], None) not in types}, urls


def told(out):
    """The same, as lines of access -o json tell it."""
    types, urls = set(), set()
    for line in objects_in(out.encode()):
        if 'url' in line:
            urls |= {(verb, line['url']) for verb in line['verbs']}
            continue
        row = (line['group'], line['resource'])
        types |= {(line['where'] or '', verb, *row, None) for verb in line['verbs']}
        types |= {(line['where'] or '', verb, *row, name) for verb, names in line['by_name'].items() for name in names}
    return types, urls


@in_each_shell
def everybody(it):
    """What everybody has whom a binding of the larger example names, and an account that none names."""
    company(it)
    items = [*company_items()]
    keys = {key_of(subject, item['metadata'].get('namespace', '')) for item in items if 'roleRef' in item for subject in item['subjects']} - {None}
    it.checked('there are many', len(keys) > 30, keys)
    for key in sorted(keys | {'u:system:serviceaccount:search:default'}):
        who = key[0], key[2:], groups_of(key[2:], ()) if key[0] == 'u' else {key[2:]}
        status, out, err = got = it.run('access', '--export', 'prod', key, '-o', 'json')
        it.checked('all that %s has' % key, status == 0 and told(out) == given(items, who), got)
    who = 'u', 'kim@example.com', groups_of('kim@example.com', ['team-payments', 'oncall'])
    for words, place in ((['-n', 'payments'], 'payments'), (['--namespace=payments-staging'], 'payments-staging'), (['-nsearch'], 'search'),
                         (['-A'], ''), (['-A', '-n', 'payments'], ''), (['-n', ''], None)):
        status, out, err = got = it.run('access', 'u:kim@example.com', '--groups', 'team-payments,oncall', '--export', 'prod', *words, '-o', 'json')
        it.checked('all that counts %s' % words, status == 0 and told(out) == given(items, who, place), got)


# ---- tables

LEADS = '''\
RESOURCE      GROUP                      get  list  watch  create  update  patch  delete  deletecollection  bind
clusterroles  rbac.authorization.k8s.io  yes  yes   -      -       -       -      -       -                 yes
rolebindings  rbac.authorization.k8s.io  yes  yes   yes    yes     yes     -      yes     -                 -
roles         rbac.authorization.k8s.io  yes  yes   yes    yes     yes     -      yes     -                 -
'''
DEPLOYER = '''\
WHERE             RESOURCE      GROUP  get  list  watch  create  update  patch  delete  deletecollection
payments          configmaps    -      yes  yes   yes    yes     yes     yes    -       -
payments          services      -      yes  yes   yes    yes     yes     yes    -       -
payments          deployments   apps   yes  yes   yes    yes     yes     yes    -       -
payments          statefulsets  apps   yes  yes   yes    yes     yes     yes    -       -
payments          cronjobs      batch  yes  yes   yes    yes     -       -      yes     -
payments          jobs          batch  yes  yes   yes    yes     -       -      yes     -
'''
# (of the account of CI in the smaller example, which has an object name)
CI = '''\
RESOURCE           GROUP  get    list  watch  create  update  patch  delete  deletecollection  NAMES
configmaps         -      names  -     -      -       names   -      -       -                 storefront
deployments        apps   yes    yes   yes    -       yes     yes    -       -                 -
deployments/scale  apps   yes    -     -      -       yes     -      -       -                 -
'''
DANA = '''\
WHERE  RESOURCE  GROUP  *    get  list  watch  create  update  patch  delete  deletecollection
*      *         *      yes  -    -     -      -       -       -      -       -

URL  *
*    yes
'''

@in_each_shell
def tables(it):
    """Tables by hand: columns of verbs, wildcards, limits, places and URLs; of an export and of a cluster."""
    it.run('export', 'shop')
    for place in ([], ['--export', 'shop']):
        for words, out in (([CI_KEY, '-n', 'shop'], CI), (['u:dana@example.com'], DANA), (['u:dana@example.com', '-A', '--no-headers'], '*  *  yes  -  -  -  -  -  -  -  -\n\n*  yes\n'),
                           ([CI_KEY, '-A'], ''), ([CI_KEY, '-n', 'shop', '--output=wide'], CI)):
            it.expect('access %s %s' % (words, place), ['access', *place, *words], 0, out)
        it.expect('access of nobody %s' % place, ['access', *place, 'u:kim'], 0, '', NO_USER % ('kim', NO_GROUPS))
    it.lines('calls')
    it.run('access', 'u:dana@example.com')
    calls = it.lines('calls')
    it.run('rules', 'u:dana@example.com')
    it.checked('it reads what rules reads', sorted(calls) == sorted(it.lines('calls')) and len(calls) == 3, calls)
    company(it)
    it.expect('verbs beside the usual ones', ['access', '--export', 'prod', '-n', 'payments', 'g:payments-leads'], 0, LEADS,
              SCOPED % 'clusterroles.rbac.authorization.k8s.io')
    whole = it.run('access', '--export', 'prod', 'g:system:authenticated', '-A')[1]
    it.checked('what holds in the whole cluster', re.match('RESOURCE +GROUP ', whole) and '\nselfsubjectaccessreviews ' in whole and '\n\nURL ' in whole, whole)
    it.expect('holds in a namespace', ['access', '--export', 'prod', 'g:system:authenticated', '-n', 'search', '-o', 'table'], 0, whole)
    status, out, err = got = it.run('access', '--export', 'prod', 'u:system:serviceaccount:ci:deploy-payments')
    rows = [re.sub(' +$', '', line) for line in out.split('\n')]
    head = re.split(' {2,}', rows[0])
    wanted = [re.split(' {2,}', row) for row in DEPLOYER.splitlines()]
    it.checked('a deployer', (status, err) == (0, '') and head == wanted[0] and [cells for cells in (re.split(' {2,}', row) for row in rows)
                                                                              if cells[0] == 'payments'] == wanted[1:], got)
    it.checked('in both namespaces, with the whole cluster first', list(dict.fromkeys(row.split(' ')[0] for row in rows[1:rows.index('')])) ==
               ['*', 'ci', 'payments', 'payments-staging'], got)


@in_each_shell
def mixed(it):
    """A verb that some rules limit to names and another doesn't; words that are no types, verbs in capitals, and URLs of RoleBindings."""
    both = {'verbs': ['get', 'post'], 'apiGroups': [], 'resources': [], 'nonResourceURLs': ['/b*', '/a']}
    exported(it, 'prod', role('mixed', rule('get', 'pods'), rule('get delete', 'pods', names=['b', 'a']), rule('delete GET', 'pods', names=['', 'a,b']),
                              rule('*', '*/scale pods/*', group='*'), both), bound('mixed', 'mixed', 'kim'),
             role('urls', {**both, 'nonResourceURLs': ['/c']}, rule('use', '-', group='-')), bound('urls', 'urls', 'kim', namespace='*'))
    it.expect('as JSON', ['access', '--export', 'prod', 'u:kim', '-o', 'json'], 0, ''.join(line + '\n' for line in (
        '{"where":null,"group":"","resource":"pods","verbs":["get"],"by_name":{"delete":["","a","a,b","b"],"GET":["","a,b"]}}',
        '{"where":null,"group":"*","resource":"*/scale","verbs":["*"],"by_name":{}}', '{"where":null,"group":"*","resource":"pods/*","verbs":["*"],"by_name":{}}',
        '{"where":"*","group":"-","resource":"-","verbs":["use"],"by_name":{}}', '{"url":"/a","verbs":["get","post"]}', '{"url":"/b*","verbs":["get","post"]}')))
    it.expect('as a table', ['access', '--export', 'prod', 'u:kim'], 0, '''\
WHERE  RESOURCE  GROUP  *    get  list  watch  create  update  patch  delete  deletecollection  GET    use  NAMES
*      pods      -      -    yes  -     -      -       -       -      names   -                 names  -    -,a,a\\x2cb,b
*      */scale   *      yes  -    -     -      -       -       -      -       -                 -      -    -
*      pods/*    *      yes  -    -     -      -       -       -      -       -                 -      -    -
\\x2a   \\x2d      \\x2d   -    -    -     -      -       -       -      -       -                 -      yes  -

URL  get  post
/a   yes  yes
/b*  yes  yes
''')


@in_each_shell
def colors(it):
    """Bold for powers and yellow for what is limited to names, on a terminal alone or if one asks for it."""
    it.run('export', 'shop')
    company(it)
    of_ci, of_leads = ['access', '--export', 'shop', CI_KEY, '-n', 'shop'], ['access', '--export', 'prod', '-n', 'payments', 'g:payments-leads']
    for words, table, codes in ((of_ci, CI, ['33', '1', '']), (of_leads, LEADS, ['1', '', ''])):
        it.checked('--color always', it.run(*words, '--color', 'always')[:2] == (0, colored(table, codes)), it.run(*words, '--color', 'always'))
        got = on_terminal(it, *words, columns=200, more={'TERM': 'xterm'}.items())
        it.checked('a terminal', got[:2] == (0, colored(table, codes)), got)
        for more, options in (({'TERM': 'dumb'}, ()), ({'TERM': 'xterm', 'NO_COLOR': '1'}, ()), ({'TERM': 'xterm'}, ['--color=never'])):
            got = on_terminal(it, *words, *options, columns=200, more=more.items())
            it.checked('none: %s %s' % (more, options), got[:2] == (0, table), got)
    got = on_terminal(it, *of_ci, columns=60)
    it.checked('as wide as the screen', got[0] == 0 and max(map(len, got[1].splitlines())) == 60 and '…' in got[1], got)
    it.checked('and not with wide', on_terminal(it, *of_ci, '-o', 'wide', columns=60)[1] == CI, got)


@in_each_shell
def strangers(it):
    """Names of others: each comes back from JSON as it was, and none hides on a terminal or looks like two cells."""
    words = [name for name in NAMES if name and name != '*' and not name.startswith('/')]
    exported(it, 'words', role('all', {'verbs': words, 'apiGroups': NAMES, 'resources': ['x'], 'resourceNames': NAMES}), bound('b', 'all', 'kim'))
    lines = objects_in(it.run('access', 'u:kim', '--export', 'words', '-o', 'json')[1].encode())
    it.checked('odd words', [(line['group'], {verb: set(names) for verb, names in line['by_name'].items()}) for line in lines] == [
        (name, dict.fromkeys(words, set(NAMES))) for name in sorted(NAMES, key=str.encode)], lines)
    table = it.run('access', 'u:kim', '--export', 'words', '--no-headers')[1].split('\n')[:-1]
    it.checked('no name looks like two cells', {len(re.split(' {2,}', line)) for line in table} == {3 + 8 + len(words) + 1} and len(table) == len(NAMES), table)
    exported(it, 'prod', *hostile()['items'])
    for options in ([], ['-o', 'json'], ['-o', 'wide']):
        got = on_terminal(it, 'access', '--export', 'prod', 'u:' + USER, *options, columns=200)
        it.checked('on a terminal %s' % options, got[0] == 0 and not re.search('[\u009b\u200b\u202e\u2028\U000e0041]', got[1])
                   and ('json' in options or SEEN_TYPE in got[1]), got)
    [_, line] = objects_in(it.run('access', '--export', 'prod', 'u:' + USER, '-o', 'json')[1].encode())[::-1]
    it.checked('the type of others', line['resource'] == TYPE, line)


TOO_MANY = ('kubectl-rbacaudit: the rules name more than 500,000 types, too many for a table: rules prints these rules, and with -n those that count in '
            'one namespace\n')
REFUSED = 'kubectl-rbacaudit: access has no format %s: -o takes table, wide or json\n'


@in_each_shell
def statuses(it):
    """What is refused, what is said beside it, and exports that lack a part."""
    it.run('export', 'prod')
    it.lines('calls')
    for words, said in ((['u:x', '-o', 'tsv'], REFUSED % 'tsv'), (['u:x', '-o', 'name'], REFUSED % 'name'), (['u:x', '-o'], 'kubectl-rbacaudit: -o needs a value\n'),
                        ([], 'kubectl-rbacaudit: access needs <WHO>, which is u:NAME or g:NAME; kubectl rbacaudit access --help says more\n')):
        it.expect('refused: access %s' % words, ['access', *words], 2, '', said)
    for words, said in ((['kim'], 'U5'), (['g:dev', '--groups', 'x'], 'U5'), (['--why', 'u:x'], '--why')):
        status, out, err = got = it.run('access', *words)
        it.checked('refused: access %s' % words, (status, out) == (2, '') and said in err, got)
    it.checked('asks no cluster', not it.lines('calls'), 'calls')
    it.write('[]', 'bad.json')
    it.expect('a bad FILE', ['access', CI_KEY, 'bad.json', '--export', 'prod'], 2, '',
              'rbacaudit: file 1: M2 not an object\nkubectl-rbacaudit: file 1 is bad.json\n')
    it.write(json.dumps(bound('more', 'shop-view-logs', 'eve')), 'more.json')
    it.checked('a FILE', [line['resource'] for line in objects_in(it.run('access', 'u:eve', 'more.json', '--export', 'prod', '-o', 'json')[1].encode())] == ['pods/log'],
               it.run('access', 'u:eve', 'more.json', '--export', 'prod', '-o', 'json'))
    it.expect('a namespace that is not there', ['access', '--export', 'prod', CI_KEY, '-n', 'shpo'], 0, '', NO_SPACE % 'shpo')
    it.run('export', 'spoilt')
    it.write('{', 'spoilt', 'api-apps-v1.json')
    it.expect('a bad API resource list, which no rule needs', ['access', '--export', 'spoilt', CI_KEY, '-n', 'shop'], 0, CI)
    os.remove(os.path.join(it.work, 'prod', 'namespaced.json'))
    missing = 'kubectl-rbacaudit: there is no namespaced.json in prod\n'
    it.expect('a part is missing', ['access', '--export', 'prod', 'u:dana@example.com'], 2, '', missing + REFUSAL)
    it.expect('a part is missing, --partial', ['access', '--export', 'prod', '--partial', 'u:dana@example.com'], 0, DANA, missing + CAUTION)
    many = {'verbs': ['get'], 'apiGroups': ['g%d' % at for at in range(501)], 'resources': ['r%d' % at for at in range(1000)]}
    it.write(json.dumps({'apiVersion': 'v1', 'kind': 'List', 'items': [role('many', many), bound('many', 'many', 'eve')]}), 'many.json')
    it.expect('a rule of too many types', ['access', 'u:eve', 'many.json', '--export', 'prod', '--partial'], 2, '', missing + CAUTION + TOO_MANY)
    it.run('export', '-n', 'shop', 'part')
    it.expect('an export of one namespace', ['access', '--export', 'part', CI_KEY, '-n', 'shop'], 0, CI)
    it.expect('about another', ['access', '--export', 'part', CI_KEY, '-n', 'shop-staging'], 2, '',
              'kubectl-rbacaudit: the export has the namespace shop alone\n' + REFUSAL)
    with open('/dev/full', 'wb') as full:
        ended = subprocess.run([it.shell, PLUGIN, 'access', '--export', 'part', CI_KEY], cwd=it.work, env=it.environment(), stdin=subprocess.DEVNULL,
                               stdout=full, stderr=subprocess.PIPE, timeout=60)
    it.checked('a full disk', ended.returncode == 2 and b"can't write to standard output" in ended.stderr, ended)
    it.serve({'cluster': stale_with('get', 'use'), 'namespaced': of_kinds([])})
    status, out, err = got = it.run('access', 'u:kim')
    it.checked('a stale aggregate', status == 0 and 'the cluster has other rules now, because of stale aggregates (L6 of lint): ClusterRole/a' in err, got)


# ---- graphs

BY_LEADS = r'''digraph paths {
  rankdir=LR;
  n0 [label="g:payments-leads", shape=folder];
  n1 [label="everything\nin payments", shape=doubleoctagon];
  n2 [label="u:system:serviceaccount:payments:default", shape=box];
  n3 [label="u:system:serviceaccount:payments:gateway", shape=box];
  n0 -> n1 [label="bind", tooltip="RoleBinding/payments/leads, rule 2 of ClusterRole/namespace-owner"];
  n1 -> n2 [label="impersonate", tooltip=""];
  n1 -> n3 [label="impersonate", tooltip=""];
}
'''
STRING = r'"((?:[^"\\]|\\.)*)"'
A_NODE = re.compile(r'  n(\d+) \[label=%s, shape=(box|folder|note|doubleoctagon)\];' % STRING)
AN_EDGE = re.compile(r'  n(\d+) -> n(\d+) \[label=%s, tooltip=%s\];' % (STRING, STRING))
REFERENCES = re.compile(r'&(?!amp;)')


def unquoted(text):
    """What Graphviz shows of a string: one line, or two."""
    shown = re.sub(r'\\(.)', lambda found: '\n' if found[1] == 'n' else found[1], text)
    return shown.replace('&amp;', '&')


def graph_in(text):
    """The labels of a graph's nodes by number, and its edges; nothing if it isn't one."""
    first, rank, *lines, last, end = text.split('\n')
    nodes = [found for found in map(A_NODE.fullmatch, lines) if found]
    edges = [found for found in map(AN_EDGE.fullmatch, lines) if found]
    if (first, rank, last, end) != ('digraph paths {', '  rankdir=LR;', '}', '') or len(nodes) + len(edges) != len(lines) or REFERENCES.search(text):
        return {}, []
    return {found[1]: unquoted(found[2]) for found in nodes}, [(found[1], found[2], unquoted(found[3]), unquoted(found[4])) for found in edges]


def seen(text):
    """A text in which what isn't to be seen is its bytes."""
    return re.sub('[\x7f-\xa0\xad\u034f\u200b-\u200f\u2028-\u202e\u2060-\u206f\u2800\ufeff\U000e0000-\U000e0fff]',
                  lambda found: ''.join('\\x%02x' % byte for byte in found[0].encode()), text)


def labels_of(cells):
    """The labels of the two ends of a line of paths, from the second one on."""
    for who, where in ((cells[3], cells[4]), (cells[1], cells[2])):
        place = '' if where == '-' else '\nin the whole cluster' if where == '*' else '\nin ' + where
        yield seen(('everything' if who == '*' else who) + place)


def is_graph_of(text, lines, who):
    """Whether a graph has an edge for each line, in order, from WHO on, and each node once."""
    nodes, edges = graph_in(text)
    rows = [line.split('\t') for line in lines]
    whys = [', '.join(part for part in (cells[6], 'rule %s of %s' % (cells[9], cells[8])) if part != '-' and cells[8] != '-') for cells in rows]
    labels = {seen(who), *(label for cells in rows for label in labels_of(cells))}
    return (nodes.get('0') == seen(who) and len(nodes) == len(labels) and set(nodes.values()) == labels
            and [(nodes[before], nodes[after], step) for before, after, step, _ in edges] == [(*labels_of(cells), cells[5]) for cells in rows]
            and [why for *_, why in edges] == [seen(why) for why in whys])


def drawn(text):
    """The texts of each node and edge that dot draws, or nothing if it draws none."""
    ended = subprocess.run(['dot', '-Tsvg'], input=text.encode(), stdout=subprocess.PIPE, stderr=subprocess.PIPE, timeout=60)
    if ended.returncode:
        return []
    groups = [one for one in xml.etree.ElementTree.fromstring(ended.stdout).iter('{http://www.w3.org/2000/svg}g') if one.get('class') in ('node', 'edge')]
    return sorted((one.get('class'), '\n'.join(text.text or '' for text in one.iter('{http://www.w3.org/2000/svg}text')).replace('\xa0', ' ')) for one in groups)


def is_drawn(text):
    """Whether dot draws each node and edge of a graph with its label."""
    nodes, edges = graph_in(text)
    wanted = [('node', label) for label in nodes.values()] + [('edge', label) for _, _, label, _ in edges]
    return bool(nodes) and drawn(text) == sorted(wanted)


def company_export():
    """The larger example for tests/escalation.py. None of its rules binds a role by name, so no role is a node."""
    items = [*company_items('cluster', 'namespaced', 'accounts')]
    made = Export(items)
    binds = [one for item in items for one in item.get('rules', ()) if {'bind', '*'} & {*one['verbs']} and one.get('resourceNames')]
    made.nodes = [node for node in made.nodes if not is_role(node)]
    return made if not binds else None


@in_each_shell
def graphs(it):
    """A graph of the larger example by hand, and those of the paths that tests/escalation.py finds; also of whoever takes over nobody."""
    company(it)
    found = company_export()
    it.expect('a graph', ['paths', '--export', 'prod', 'g:payments-leads', '-o', 'dot'], 0, BY_LEADS)
    for who in ('g:payments-leads', 'g:oncall', 'u:system:serviceaccount:ci:onboarding', 'u:system:serviceaccount:kube-system:backup', 'g:auditors'):
        lines = [*paths(found, who)]
        for got in (it.run('paths', '--export', 'prod', who, '-o', 'dot'), on_terminal(it, 'paths', '--export', 'prod', who, '--output=dot')):
            it.checked('the graph of %s' % who, got[0] == 0 and is_graph_of(got[1], lines, who), got)
        if shutil.which('dot'):
            it.checked('dot draws the graph of %s' % who, is_drawn(got[1]), drawn(got[1]))
        else:
            skipped('dot', 'graphs as they are drawn')
    it.checked('somebody takes over many, and somebody nobody', len([*paths(found, 'g:oncall')]) > 10 and not lines, lines)


ODD = ['a"b', 'a\\nb', 'a\\', '\\', 'a\\"b', '&lt;b&gt;', '&#97;', 'a&b;', '<b>', '\\N', 'a\nb\r', '\\l\\G', '{a|b}', 'kim\u202emoc', 'b\u009b2K', 'é中', "'", 'a];\n  n0 -> n1 [x="']


@in_each_shell
def odd_graphs(it):
    """Names that a graph could take for more than names."""
    items = [role('act', rule('impersonate', 'users', names=ODD)), bound('b"\\l&amp;', 'act', 'kim\\n"&lt;')]
    exported(it, 'prod', *items, role('none', rule('get', 'x')), bound('all', 'none', *ODD))
    who = 'u:kim\\n"&lt;'
    lines = it.run('paths', '--export', 'prod', who)[1].split('\n')[:-1]
    it.checked('there is one for each name', len(lines) == len(ODD), lines)
    got = it.run('paths', '--export', 'prod', who, '-o', 'dot')
    it.checked('odd names in a graph', got[0] == 0 and is_graph_of(got[1], lines, who.replace('\\', '\\\\')), got)
    if shutil.which('dot'):
        it.checked('dot draws odd names', is_drawn(got[1]), drawn(got[1]))
    it.checked('nothing hides in it', not re.search('[\u009b\u202e]', got[1]), got)


@in_each_shell
def no_graphs(it):
    """After an error there is no graph, and other commands have none."""
    it.run('export', 'prod')
    it.write('[]', 'bad.json')
    it.expect('a bad FILE', ['paths', CI_KEY, 'bad.json', '--export', 'prod', '-o', 'dot'], 2, '',
              'rbacaudit: file 1: M2 not an object\nkubectl-rbacaudit: file 1 is bad.json\n')
    it.expect('no graph of rules', ['rules', CI_KEY, '-o', 'dot'], 2, '', 'kubectl-rbacaudit: rules has no format dot: -o takes table, wide, json, name or tsv\n')
    it.expect('another format of paths', ['paths', CI_KEY, '-o', 'svg'], 2, '', 'kubectl-rbacaudit: paths has no format svg: -o takes table, wide, json, name, tsv or dot\n')
    it.expect('of a cluster', ['paths', CI_KEY, '-o', 'dot'], 0, 'digraph paths {\n  rankdir=LR;\n  n0 [label="%s", shape=box];\n}\n' % CI_KEY)


CHECKS = [everybody, tables, mixed, colors, strangers, statuses, graphs, odd_graphs, no_graphs]
