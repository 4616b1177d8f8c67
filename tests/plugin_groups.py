"""Group documents in the kubectl plugin: what an export reads of them, and what questions make of it."""

import json
import os

from plugin_room import CAUTION, REFUSAL, WHOLE, api_groups, document, in_each_shell

VERSION = 'user.openshift.io/v1'
LIST = 'api-' + VERSION.replace('/', '-')
CALL, PROBE = '|get|groups.user.openshift.io|-o|json', '|get|--raw|/apis/' + VERSION
TYPES = {'kind': 'APIResourceList', 'apiVersion': 'v1', 'groupVersion': VERSION, 'resources': [
    {'name': name, 'singularName': '', 'namespaced': False, 'verbs': ['get', 'list']} for name in ('groups', 'identities', 'users')]}
GROUPS = {'apiVersion': 'v1', 'kind': 'List', 'metadata': {'resourceVersion': ''}, 'items': [
    {'apiVersion': VERSION, 'kind': 'Group', 'metadata': {'name': 'shop-developers', 'uid': '1'}, 'users': ['kim@example.com', 'lee@example.com']},
    {'apiVersion': VERSION, 'kind': 'Group', 'metadata': {'name': 'nobody'}, 'users': None}]}
LEE, KIM = ['--as', 'lee@example.com', '-n', 'shop'], ['--as', 'kim@example.com', '-n', 'shop']
PODS = ['-n', 'shop', 'list', 'pods']
DANA = 'u:dana@example.com\tClusterRoleBinding/admins\n'
OF_DEVELOPERS = 'RoleBinding/shop/developers-view'
MEMBERS = DANA + ''.join('%s\t%s\n' % (who, OF_DEVELOPERS) for who in ('g:shop-developers', 'u:kim@example.com', 'u:lee@example.com'))
REFUSED = 'kubectl-rbacaudit: there is no groups.json in %s: kubectl get groups.user.openshift.io -o json ended with status 1: %s\n'
GONE = 'kubectl-rbacaudit: there is no groups.json in %s\n'


def openshift(it, types=TYPES):
    """Makes the server one of OpenShift."""
    groups = api_groups()
    groups['groups'].append({'name': 'user.openshift.io', 'versions': [{'groupVersion': VERSION, 'version': 'v1'}]})
    it.serve({'apis': groups, LIST: types, 'groups': GROUPS})


@in_each_shell
def exported(it):
    """An export of OpenShift has the groups; one of another cluster doesn't ask for them."""
    it.expect('another cluster', ['export', 'other'], 0, 'The export in other is whole: 8 files.\n')
    it.checked('it has none', it.files('other') == WHOLE and CALL not in it.lines('calls'), it.files('other'))
    openshift(it)
    it.expect('OpenShift', ['export', 'prod'], 0, 'The export in prod is whole: 10 files.\n')
    calls, said = it.lines('calls'), it.read('prod', 'about.txt')
    it.checked('it asks for them at last', calls[-1] == CALL and calls.count(CALL) == 1 and calls.count(PROBE) == 1, calls)
    it.checked('its files', it.files('prod') == sorted([*WHOLE, 'groups.json', LIST + '.json']), it.files('prod'))
    it.checked('as they were served', document(it.read('prod', 'groups.json')) == GROUPS, it.read('prod', 'groups.json'))
    it.checked('about.txt has the call', 'file: groups.json: kubectl get groups.user.openshift.io -o json\n' in said, said)
    it.expect('of one namespace too', ['export', '-n', 'shop', 'own'], 0, 'The export in own is whole for the namespace shop: 10 files.\n')
    openshift(it, {**TYPES, 'resources': TYPES['resources'][1:]})
    it.lines('calls')
    it.expect('without the type', ['export', 'bare'], 0, 'The export in bare is whole: 9 files.\n')
    it.checked('it does not ask', CALL not in it.lines('calls') and 'groups.json' not in it.files('bare'), it.files('bare'))


@in_each_shell
def asked(it):
    """Questions about a user, and those about members, take the groups of an export."""
    openshift(it)
    it.run('export', 'prod')
    it.expect('can-i', ['can-i', '--export', 'prod', *LEE, 'list', 'pods'], 0, 'yes\n')
    it.expect('can-i of another', ['can-i', '--export', 'prod', '--as', 'max', '-n', 'shop', 'list', 'pods'], 1, 'no\n',
              'kubectl-rbacaudit: no binding of the export names the user max, so it has only what its groups have; --groups A,B names them\n')
    it.expect('who-can', ['who-can', '--export', 'prod', *PODS], 0, ''.join(MEMBERS.splitlines(True)[:2]))
    it.expect('who-can --members', ['who-can', '--export', 'prod', '--members', *PODS], 0, MEMBERS)
    status, out, err = got = it.run('who-can', '--export', 'prod', '--members', '-o', 'json', *PODS)
    it.checked('as JSON', (status, err) == (0, '') and [json.loads(line)['who'] for line in out.splitlines()] == [
        line.partition('\t')[0] for line in MEMBERS.splitlines()], got)
    status, out, err = got = it.run('who-can', '--export', 'prod', '--members', '--why', '-o', 'table', *PODS)
    it.checked('as a table', (status, err) == (0, '') and 'u:lee@example.com' in out and 'WHO' in out, got)
    for command in ('rules', 'access'):
        status, out, err = got = it.run(command, '--export', 'prod', '-n', 'shop', 'u:lee@example.com')
        wanted = it.run(command, '--export', 'prod', '-n', 'shop', '--groups', 'shop-developers', 'u:lee@example.com')
        it.checked('%s has what the group has' % command, (status, err) == (0, '') and out and got == wanted, (got, wanted))
    status, out, err = got = it.run('paths', '--export', 'prod', 'u:kim@example.com')
    wanted = it.run('paths', '--export', 'prod', '--groups', 'shop-developers', 'u:kim@example.com')
    it.checked('paths go by what the group has', (status, err) == (0, '') and out and got == wanted, (got, wanted))


@in_each_shell
def fresh(it):
    """Without an export, only questions about a user, about paths or about members look for groups."""
    it.expect('another cluster', ['can-i', *LEE, 'list', 'pods'], 1, 'no\n',
              'kubectl-rbacaudit: no binding of the export names the user lee@example.com, so it has only what its groups have; --groups A,B names them\n')
    it.checked('nothing is asked for', CALL not in it.lines('calls'), 'a call')
    it.run('rules', 'u:lee@example.com')
    calls = it.lines('calls')
    it.checked('rules of a user look for a list', calls.count(PROBE) == 1 and CALL not in calls and len(calls) == 3, calls)
    openshift(it)
    for words_, looks in ((['rules', 'u:lee@example.com'], 3), (['rules', 'g:shop-developers'], 0), (['paths', 'u:lee@example.com'], 4), (['paths', 'g:shop-developers'], 4),
                          (['powers'], 0)):
        status, _, err = got = it.run(*words_)
        calls = it.lines('calls')
        it.checked('%s of OpenShift' % words_, (status, err) == (0, '') and (calls[-1] == CALL) == bool(looks)
                   and calls.count(PROBE) == bool(looks) and (not looks or len(calls) == looks + 1), (got, calls))
    it.expect('can-i', ['can-i', *LEE, 'list', 'pods'], 0, 'yes\n')
    calls = it.lines('calls')
    it.checked('can-i has the lists of all types', calls.count(PROBE) == 1 and calls[-1] == CALL, calls)
    it.expect('who-can --members', ['who-can', '--members', *PODS], 0, MEMBERS)
    it.lines('calls')
    it.run('who-can', *PODS)
    it.checked('who-can without it', CALL not in it.lines('calls'), 'a call')


@in_each_shell
def missing(it):
    """Groups that can't be read are a missing part, for the questions that need them."""
    openshift(it)
    status, out, err = got = it.run('export', 'part', trouble=['forbid groups'])
    it.checked('they are refused', (status, out) == (1, '') and "groups.json can't be read: kubectl get groups.user.openshift.io -o json ended with status 1\n"
               in err and it.read('part', 'incomplete.txt').startswith('groups.json: '), got)
    reason = it.read('part', 'incomplete.txt').rstrip('\n').rpartition('status 1: ')[2]
    it.expect('can-i', ['can-i', '--export', 'part', *LEE, 'list', 'pods'], 2, '', REFUSED % ('part', reason) + REFUSAL)
    status, out, err = got = it.run('can-i', '--export', 'part', '--partial', *LEE, 'list', 'pods')
    it.checked('can-i --partial', (status, out) == (1, 'no\n') and err.startswith(REFUSED % ('part', reason) + CAUTION), got)
    it.expect('who-can --members', ['who-can', '--export', 'part', '--members', *PODS], 2, '', REFUSED % ('part', reason) + REFUSAL)
    it.expect('who-can', ['who-can', '--export', 'part', *PODS], 0, ''.join(MEMBERS.splitlines(True)[:2]))
    it.checked('rules of a group', it.run('rules', '--export', 'part', 'g:shop-developers')[::2] == (0, ''), 'a fault')
    status, out, err = got = it.run('export', 'list', trouble=['down ' + LIST, 'down groups'])
    it.checked('the list is down: they are missing too', status == 1 and 'groups.json: ' in it.read('list', 'incomplete.txt'), got)
    status, out, err = got = it.run('rules', 'u:lee@example.com', trouble=['down ' + LIST, 'down groups'])
    it.checked('without an export', (status, out) == (2, '') and "groups.json can't be read" in err and err.endswith(REFUSAL), got)
    it.run('export', 'prod')
    os.remove(os.path.join(it.work, 'prod', 'groups.json'))
    it.expect('they are gone', ['can-i', '--export', 'prod', *LEE, 'list', 'pods'], 2, '', GONE % 'prod' + REFUSAL)
    it.write(json.dumps({**GROUPS, 'metadata': {'continue': 'abc'}}), 'prod', 'groups.json')
    it.expect('they go on elsewhere', ['can-i', '--export', 'prod', *LEE, 'list', 'pods'], 2, '',
              "kubectl-rbacaudit: groups.json in prod isn't whole: its metadata.continue says that the list goes on\n" + REFUSAL)


@in_each_shell
def own(it):
    """Groups that somebody wrote count, and stay when the export is made anew; those of an export go."""
    it.run('export', 'prod')
    it.expect('no groups', ['who-can', '--export', 'prod', '--members', *PODS], 0, ''.join(MEMBERS.splitlines(True)[:2]),
              'kubectl-rbacaudit: the export has no groups.json, so --members lists nobody more: only Group documents tell who is in a group\n')
    it.write(json.dumps(GROUPS), 'groups.manifest')
    it.expect('of a FILE', ['who-can', '--export', 'prod', '--members', *PODS, 'groups.manifest'], 0, MEMBERS)
    it.expect('can-i by a FILE', ['can-i', '--export', 'prod', *KIM, 'list', 'pods', 'groups.manifest'], 0, 'yes\n')
    it.write(json.dumps(GROUPS), 'prod', 'groups.json')
    it.expect('in the folder', ['who-can', '--export', 'prod', '--members', *PODS], 0, MEMBERS)
    it.expect('the export is made anew', ['export', '--force', 'prod'], 0, 'The export in prod is whole: 8 files.\n')
    it.checked('they stay', document(it.read('prod', 'groups.json')) == GROUPS, it.files('prod'))
    openshift(it)
    it.run('export', '--force', 'prod')
    it.checked('those of the export', 'file: groups.json: ' in it.read('prod', 'about.txt'), it.read('prod', 'about.txt'))
    it.serve({'apis': api_groups()})
    it.expect('made anew without groups', ['export', '--force', 'prod'], 0, 'The export in prod is whole: 8 files.\n')
    it.checked('they go', 'groups.json' not in it.files('prod'), it.files('prod'))


@in_each_shell
def bad(it):
    """A bad document is named, with what to do about its version."""
    it.run('export', 'prod')
    it.write('{"kind": "Group", "metadata": {"name": "g"}}', 'prod', 'groups.json')
    status, out, err = got = it.run('can-i', '--export', 'prod', *KIM, 'list', 'pods')
    it.checked('a version', (status, out) == (2, '') and 'the document has no apiVersion: a Group has ' + VERSION in err, got)
    it.write(json.dumps({**GROUPS, 'items': [{**GROUPS['items'][0], 'users': ['kim', '']}]}), 'prod', 'groups.json')
    status, out, err = got = it.run('can-i', '--export', 'prod', *KIM, 'list', 'pods')
    it.checked('a user', (status, out) == (2, '') and 'M13 bad group' in err and 'is prod/groups.json; item 1 of it is Group shop-developers' in err, got)


@in_each_shell
def reported(it):
    """A report counts the groups, and leaves those out whose members are known."""
    openshift(it)
    it.run('export', 'prod')
    status, out, err = got = it.run('report', '--export', 'prod', '-o', 'json')
    found = document(out) or {}
    it.checked('a report', (status, err) == (0, '') and found['counts']['Group'] == 2 and 'g:shop-developers' not in found['groups'], got)
    os.remove(os.path.join(it.work, 'prod', 'groups.json'))
    it.write(it.read('prod', 'about.txt').replace('file: groups', 'was: groups'), 'prod', 'about.txt')
    status, out, err = got = it.run('report', '--export', 'prod', '-o', 'json')
    found = document(out) or {}
    it.checked('without groups', (status, err) == (0, '') and 'Group' not in found['counts'] and 'g:shop-developers' in found['groups'], got)


CHECKS = [exported, asked, fresh, missing, own, bad, reported]
