"""report of the kubectl plugin: one document for an auditor.

What it has to say of the larger example is worked out by tests/escalation.py and, of findings, stale aggregates and groups, by hand from
examples/make_cluster.py. Documents are taken apart as Markdown, JSON and a page.
"""

import json
import os
import re

from common import V1
from escalation import Request, indirect, paths, powers
from plugin_access import company, company_export, company_items
from plugin_questions import stale_with
from plugin_room import CAUTION, REFUSAL, in_each_shell, of_kinds
from plugin_show import bound, exported, role, rule
from plugin_terminal import on_terminal
from show import NAMES
from written import FILTER, Parts, lines_in

ABOUT = 'context: blue\nserver: https://10.0.0.1\nversion: v1.30.0\nnamespace: shop\ntime: 2026-01-02T03:04:05Z\nfile: cluster.json: kubectl get\n'
LEVELS = {**dict.fromkeys(('L4', 'L5'), 'error'), **dict.fromkeys(('L1', 'L6', 'L7'), 'warning'), **dict.fromkeys(('L2', 'L3'), 'note')}
# By hand: all findings of the larger example but those of cluster-admin, the worst first.
FINDINGS = [line.split(' ') for line in (
    'L4 escalation ClusterRole/namespace-owner 2 bind', 'L4 escalation ClusterRole/onboarding 2 bind', 'L4 escalation ClusterRole/onboarding 2 escalate',
    'L1 dangling-role ClusterRoleBinding/log-shipper - ClusterRole/log-shipper', 'L1 dangling-role RoleBinding/search/indexer - Role/search/indexer-v1',
    'L6 stale-aggregate ClusterRole/oncall-tools - -', 'L6 stale-aggregate ClusterRole/support-tools - -',
    'L2 unused-role ClusterRole/legacy-dashboard - -', 'L2 unused-role Role/checkout/migration-2023 - -',
    'L3 redundant-rule ClusterRole/deployer 4 1', 'L3 redundant-rule Role/payments/gateway 2 1')]
STALE = ['ClusterRole/oncall-tools', 'ClusterRole/support-tools']
GROUPS = ['g:auditors', 'g:oncall', 'g:payments-leads', 'g:platform', 'g:search-leads', 'g:support', 'g:team-checkout', 'g:team-payments', 'g:team-search']
TITLES = ['What was read', 'Who takes over the whole cluster', 'Powers of users and groups', 'Findings', 'Stale aggregates', "Groups whose members aren't known",
          'What this report misses']


def powers_of_each(lines):
    """Who has which powers where, from lines of powers: by who, and the whole cluster first."""
    found = {}
    for step, who, where, *_ in (line.split('\t') for line in lines):
        found.setdefault((who, where), []).append(step)
    return [(*key, found[key]) for key in sorted(found, key=lambda key: (key[0].encode(), key[1] != '*', key[1].encode()))]


# ---- Markdown

def parts_in(text):
    """The parts of a document by their titles: paragraphs, the rows of a table, and commands."""
    first, *parts = text.split('\n## ')
    found = {}
    for part in parts:
        title, _, rest = part.partition('\n')
        lines = rest.split('\n')
        table = [[cell[1:-1] for cell in line[1:-1].split('|')] for line in lines if line.startswith('|')]
        found[title] = ([line for line in lines if line and line[0] not in '| '], table[2:], [line.strip() for line in lines if line.startswith('    ')])
    return found if first == '# Access report\n' else {}


def uncoded(cell):
    """The field in a cell."""
    return cell.strip('`') if cell else '-'


def rows_in(part):
    return [[uncoded(cell) for cell in row] for row in part[1]]


@in_each_shell
def company_report(it):
    """The report of the larger example as Markdown: each part, against what is worked out."""
    company(it)
    it.write(ABOUT, 'prod', 'about.txt')
    status, out, err = got = it.run('report', '--export', 'prod')
    it.checked('a report', (status, err) == (0, ''), got)
    it.checked('the same on a terminal, and with -o', on_terminal(it, 'report', '--export', 'prod', '-omd')[:2] == (0, out) == it.run(
        'report', '--export=prod', '--output', 'md')[:2], out)
    parts, found = parts_in(out), company_export()
    it.checked('its parts', [*parts] == TITLES, [*parts])
    kinds = [item['kind'] for item in company_items('cluster', 'namespaced', 'namespaces', 'accounts')]
    counts = [[kind, str(kinds.count(kind))] for kind in ('ClusterRole', 'ClusterRoleBinding', 'Role', 'RoleBinding', 'Namespace', 'ServiceAccount')]
    lists = len([name for name in os.listdir(os.path.join(it.work, 'prod')) if name.startswith('api-')])
    it.checked('what was read', rows_in(parts[TITLES[0]]) == [['context', 'blue'], ['server', 'https://10.0.0.1'], ['version', 'v1.30.0'],
                                                              ['time', '2026-01-02T03:04:05Z'], *counts, ['APIResourceList', str(lists)]], parts[TITLES[0]])
    lines = [line.split('\t') for line in indirect(found, Request('', '*', ('resource', '*', '*', '')))]
    people = [[*cells[:2], *cells[3:7]] for cells in lines if cells[1] != '*']
    said, _, commands = parts[TITLES[1]]
    it.checked('who takes over the whole cluster', rows_in(parts[TITLES[1]]) == people and len(people) == 13, parts[TITLES[1]])
    it.checked('how many', said[0].startswith('5 users and groups have everything in the whole cluster (0 steps), and 8 take it over'), said)
    it.checked('its commands', commands == ["kubectl rbacaudit who-can --indirect --export prod -A '*' '*.*'", 'kubectl rbacaudit paths --export prod WHO'], commands)
    wanted = [[who, where, ', '.join(steps)] for who, where, steps in powers_of_each(powers(found))]
    it.checked('powers of users and groups', rows_in(parts[TITLES[2]]) == wanted and len(wanted) > 13, parts[TITLES[2]])
    it.checked('findings', rows_in(parts[TITLES[3]]) == [[LEVELS[row[0]], *row] for row in FINDINGS], parts[TITLES[3]])
    it.checked('stale aggregates', rows_in(parts[TITLES[4]]) == [[key] for key in STALE], parts[TITLES[4]])
    it.checked('groups', rows_in(parts[TITLES[5]]) == [[key] for key in GROUPS], parts[TITLES[5]])
    misses = parts[TITLES[6]][0]
    it.checked('what it misses', all(line.startswith('- ') for line in misses) and "- Findings about Kubernetes' own objects are left out: `2`." in misses
               and any('Only Group documents tell who is in a group' in line for line in misses) and any('Aggregated roles are stale' in line for line in misses), misses)
    for title, (_, _, commands) in parts.items():
        for command in commands:
            it.checked('%s: its command is one' % title, is_command(it, command), it.run(*command.split(' ')[2:]))


def is_command(it, command):
    """Whether a command of the report answers, with a group of the export in the place of WHO and GROUP."""
    words = [word.strip("'").replace('WHO', 'g:oncall').replace('g:GROUP', 'g:oncall') for word in command.split(' ')]
    return words[:2] == ['kubectl', 'rbacaudit'] and it.run(*words[2:])[0] == (1 if words[2] == 'lint' else 0)


@in_each_shell
def as_json(it):
    """The same as JSON, with the objects of -o json of each command."""
    company(it)
    it.write(ABOUT, 'prod', 'about.txt')
    status, out, err = got = it.run('report', '--export', 'prod', '-o', 'json')
    report, found = json.loads(out), company_export()
    it.checked('one line', (status, err, out.count('\n')) == (0, '', 1), got)
    it.checked('its keys', [*report] == ['about', 'counts', 'takeovers', 'powers', 'findings', 'stale_aggregates', 'groups', 'misses'], [*report])
    it.checked('about', report['about'] == {'context': 'blue', 'server': 'https://10.0.0.1', 'version': 'v1.30.0', 'time': '2026-01-02T03:04:05Z'}, report['about'])
    it.checked('counts', (report['counts']['ClusterRole'], report['counts']['RoleBinding']) == (31, 20), report['counts'])
    keys = 'steps who where to to_where step binding role source rule subject'.split()
    lines = [dict(zip(keys, cells)) for cells in (line.split('\t') for line in indirect(found, Request('', '*', ('resource', '*', '*', ''))))]
    for line in lines:
        line.update({key: int(line[key]) if line[key] != '-' else None for key in ('steps', 'rule', 'subject')})
        line.update({key: None if line[key] == '*' else line[key] for key in ('where', 'to_where')})
        line.update({key: '' for key in keys if line[key] == '-'})
    it.checked('takeovers', report['takeovers'] == lines, (report['takeovers'], lines))
    it.checked('powers', report['powers'] == [{'who': who, 'where': None if where == '*' else where, 'powers': steps}
                                              for who, where, steps in powers_of_each(powers(found))], report['powers'])
    it.checked('findings', [(it_['level'], it_['code'], it_['object']) for it_ in report['findings']] == [(LEVELS[row[0]], row[0], row[2]) for row in FINDINGS]
               and report['findings'][-1] == {'level': 'note', 'code': 'L3', 'name': 'redundant-rule', 'object': 'Role/payments/gateway', 'place': 2, 'detail': 1},
               report['findings'])
    it.checked('stale aggregates and groups', (report['stale_aggregates'], report['groups']) == (STALE, GROUPS), report)
    it.checked('what it misses', "Findings about Kubernetes' own objects are left out: 2." in report['misses'], report['misses'])


@in_each_shell
def as_page(it):
    """The page, with who takes over the whole cluster; and that a terminal doesn't get it."""
    os.symlink(FILTER, os.path.join(it.bin, 'rbacaudit-page'))
    company(it)
    status, out, err = got = it.run('report', '--export', 'prod', '-o', 'html')
    page, data = (Parts(text).data() for text in (it.run('page', '--export', 'prod')[1], out))
    it.checked('the page', status == 0 and data == page and len(data['findings']) > 2, repr(got)[:2000])
    found, lines = company_export(), lines_in(data['paths']['lines'])
    wanted = {who: [*paths(found, who)] for who in {line.split('\t')[1] for line in powers(found)}}
    it.checked('with whom everybody takes over', {who: lines[first:end] for _, who, first, end in data['paths']['answers']}
               == {who: its for who, its in wanted.items() if its} and any(line.split('\t')[1] == '*' for line in lines), repr(data['paths'])[:2000])
    got = on_terminal(it, 'report', '--export', 'prod', '-o', 'html')
    it.checked('not for a terminal', got == (2, '', 'kubectl-rbacaudit: the page goes into a file: kubectl rbacaudit report -o html > access.html\n'), got)
    got = it.run('report', '-o', 'html', trouble=['forbid accounts'])
    it.checked('not of a part', got[:2] == (2, '') and got[2].endswith(REFUSAL), got)


@in_each_shell
def fresh(it):
    """A report of the cluster as it is, and one of an export that lacks a part, or has one namespace alone."""
    status, out, err = got = it.run('report')
    parts = parts_in(out)
    it.checked('of a cluster', (status, err) == (0, '') and rows_in(parts[TITLES[0]])[:2] == [['context', 'far away'], ['server', 'https://10.0.0.1:6443']], got)
    it.checked('what it reads, and what it doesn\'t', rows_in(parts[TITLES[0]])[-7:] == [
        ['ClusterRole', '6'], ['ClusterRoleBinding', '2'], ['Role', '2'], ['RoleBinding', '3'], ['Namespace', 'not read'], ['ServiceAccount', '2'],
        ['APIResourceList', 'not read']], parts[TITLES[0]])
    it.checked('its commands have no export', "kubectl rbacaudit who-can --indirect -A '*' '*.*'" in parts[TITLES[1]][2], parts)
    it.checked('dana alone', [row[:2] for row in rows_in(parts[TITLES[1]])] == [['0', 'u:dana@example.com']], parts)
    it.checked('nothing is stale', parts[TITLES[4]] == (['None.'], [], ['kubectl rbacaudit lint --only L6']), parts[TITLES[4]])
    status, out, err = got = it.run('report', trouble=['forbid accounts'])
    it.checked('a part is missing', (status, out) == (2, '') and err.endswith(REFUSAL), got)
    it.run('export', 'prod')
    os.remove(os.path.join(it.work, 'prod', 'accounts.json'))
    it.write('accounts.json: forbidden <b>`x`|\n', 'prod', 'incomplete.txt')
    said = 'there is no accounts.json%s: forbidden <b>`x`|'
    it.expect('a part of an export is missing', ['report', '--export', 'prod'], 2, '', 'kubectl-rbacaudit: %s\n' % (said % ' in prod') + REFUSAL)
    status, out, err = got = it.run('report', '--export', 'prod', '--partial')
    it.checked('--partial', status == 0 and err.endswith(CAUTION) and '- A part of the export is missing: `%s`.' % (
        said % '').replace('`', '\\x60').replace('|', '\\x7c') in parts_in(out)[TITLES[6]][0], got)
    report = json.loads(it.run('report', '--export', 'prod', '--partial', '-ojson')[1])
    it.checked('--partial, as JSON', 'A part of the export is missing: %s.' % (said % '') in report['misses'] and report['counts']['ServiceAccount'] is None, report)
    it.run('export', '-n', 'shop', 'part')
    status, out, err = got = it.run('report', '--export', 'part')
    it.checked('one namespace', status == 0 and 'knows no other' in err and '- The export has the namespace `shop` alone.' in parts_in(out)[TITLES[6]][0]
               and ['only', 'shop'] in rows_in(parts_in(out)[TITLES[0]]), got)
    it.checked('one namespace: how many objects', rows_in(parts_in(out)[TITLES[0]])[-7:] == [['ClusterRole', '6'], ['ClusterRoleBinding', '2'], [
        'Role', '1'], ['RoleBinding', '2'], ['Namespace', '1'], ['ServiceAccount', '1'], ['APIResourceList', '4']], parts_in(out)[TITLES[0]])
    it.serve({'cluster': stale_with('get', 'use'), 'namespaced': of_kinds([])})
    report = json.loads(it.run('report', '-o', 'json')[1])
    it.checked('a stale aggregate', report['stale_aggregates'] == ['ClusterRole/a'], report)


ODD = [name for name in NAMES if name] + ['a|b', '`', '``', 'a`b', '|', '![x](http://example.com/x)', '<script>alert(1)</script>', '[a](b)', '# a', '| a |', '&lt;', '*a*', 'a\\|b',
                                          '$(touch owned)', "'; touch owned; '"]


def name_in(cell):
    """The name in a span of code: escapes are bytes."""
    return re.sub(rb'\\(\\|x(..))', lambda found: bytes([int(found[2], 16)]) if found[2] else b'\\', cell[1:-1].encode()).decode()


@in_each_shell
def strangers(it):
    """Names of others in Markdown and JSON: each comes back, none is more than a name, and none hides."""
    verbs = role('all', rule('impersonate', 'users'))
    exported(it, 'prod', verbs, *({**bound('b%d' % at, 'all'), 'subjects': [{'kind': kind, 'name': name} for kind in ('User', 'Group')]} for at, name in enumerate(ODD)),
             *(bound('%s x' % name, 'none') for name in ODD if '/' not in name))
    out = it.run('report', '--export', 'prod')[1]
    parts, report = parts_in(out), json.loads(it.run('report', '--export', 'prod', '-o', 'json')[1])
    it.checked('names in JSON', {line['who'] for line in report['powers']} == {kind + name for kind in ('u:', 'g:') for name in ODD}, report['powers'])
    it.checked('groups in JSON', sorted(report['groups']) == sorted('g:' + name for name in ODD), report['groups'])
    rows = parts[TITLES[2]][1]
    it.checked('each row has three cells', {len(row) for row in rows} == {3} and len(rows) == 2 * len(ODD), rows)
    spans = [cell for _, table, _ in parts.values() for row in table for cell in row if cell.startswith('`')]
    it.checked('each name is one span of code', len(spans) > 4 * len(ODD) and all(re.fullmatch('`[^`|]+`', span) for span in spans), spans)
    it.checked('and comes back', {name_in(row[0]) for row in rows} == {kind + name for kind in ('u:', 'g:') for name in ODD}, rows)
    it.checked('none hides', not re.search('[\u009b\u200b\u200e\u202e\u2066\u2028\u2800\ufeff\U000e0041]', out), out)
    it.write('context: a\x1b[2Jb\x07\u202ec|`\nserver: d\x9b2K\x00\u0085e\n', 'prod', 'about.txt')
    wanted = [['context', r'a?[2Jb?\xe2\x80\xaec\x7c\x60'], ['server', r'd\xc2\x9b2K?\xc2\x85e']]
    for got in (it.run('report', '--export', 'prod'), on_terminal(it, 'report', '--export', 'prod')):
        it.checked('nor what a terminal obeys in about.txt', got[0] == 0 and rows_in(parts_in(got[1])[TITLES[0]])[:2] == wanted
                   and not re.search('[\x00-\x09\x0b-\x1f\x7f-\x9f]', got[1]), got[1][:500])
    it.checked('each line is a title, a row, an item, a command or a paragraph of ours', all(re.match(r'$|#|\||- |    kubectl|[A-Z0-9][^<>`|]*$|Ways', line)
                                                                                          for line in out.split('\n')), out)


@in_each_shell
def refused(it):
    """What isn't known, before anything is read."""
    for words, said in ((['-o', 'table'], 'report has no format table: -o takes md, json or html'), (['-o'], '-o needs a value'), (['x'], 'report has no x; kubectl rbacaudit report --help lists its options'),
                        (['--color', 'always'], 'report has no --color; kubectl rbacaudit report --help lists its options'), (['-omd', '-o', 'md'], '-o is given twice'),
                        (['--export', 'nothing'], 'there is no folder nothing: kubectl rbacaudit export makes one')):
        it.expect('refused: report %s' % words, ['report', *words], 2, '', 'kubectl-rbacaudit: %s\n' % said)
    it.checked('asks no cluster', not it.lines('calls'), 'calls')
    it.run('export', 'prod')
    path = os.path.join(it.work, 'prod', 'namespaced.json')
    with open(path, 'w', encoding='utf-8') as file:
        json.dump({'apiVersion': V1, 'kind': 'Role', 'metadata': {}}, file)
    status, out, err = got = it.run('report', '--export', 'prod')
    it.checked('a bad export', (status, out) == (2, '') and 'is prod/namespaced.json' in err, got)


CHECKS = [company_report, as_json, as_page, fresh, strangers, refused]
