"""Paths of the kubectl plugin, and who comes to a request: rbacaudit's own answers, and what is said beside them."""

import json
import os

from common import V1
from plugin_questions import stale_with
from plugin_room import (CAUTION, CI_KEY, IMPLIED, MOUNTS, NO_ACCOUNT, NO_GROUP, NO_GROUPS, NO_SPACE, NO_USER, REFUSAL, SCOPED, UNLISTED, in_each_shell, of_kinds, served)

IDLER = 'u:system:serviceaccount:shop:idler'
BY_CI = '1\t%s\t-\t%s\t-\trun\tRoleBinding/shop/ci-deploys\tRole/shop/deployer\tRole/shop/deployer\t1\t1\n' % (IDLER, CI_KEY)
BY_OWNER = ('1\t*\tshop-staging\t%s\t-\tbind\tRoleBinding/shop-staging/developers-own\tRole/shop-staging/owner\tRole/shop-staging/owner\t1\t1\n')
PATHS_WIDE = '''\
STEPS  TO                                  WHERE  FROM                             WHERE  STEP  BINDING                      ROLE                SOURCE              RULE  SUBJECT
1      u:system:serviceaccount:shop:idler  -      u:system:serviceaccount:shop:ci  -      run   RoleBinding/shop/ci-deploys  Role/shop/deployer  Role/shop/deployer  1     1
'''


def serve_idler(it):
    """A service account that no binding names, beside the others."""
    accounts = served()['accounts']
    accounts['items'].append({'apiVersion': 'v1', 'kind': 'ServiceAccount', 'metadata': {'name': 'idler', 'namespace': 'shop'}})
    it.serve({'accounts': accounts})


@in_each_shell
def paths(it):
    """What somebody can come to, by a fresh export and by one in a folder, in each format, and what is said beside it."""
    serve_idler(it)
    it.run('export', 'prod')
    developers, kim = 'g:shop-developers', 'u:kim@example.com'
    for place in ([], ['--export', 'prod'], ['--partial', '--export=prod']):
        for line, out, err in (
                ([CI_KEY], BY_CI, ''), ([CI_KEY, '--steps', 'secrets,run'], BY_CI, ''), (['--steps=exec,secrets', CI_KEY], '', ''), ([IDLER], '', ''),
                ([developers], BY_OWNER % developers, ''), (['--steps', 'run', developers], '', ''), (['--groups', 'shop-developers', kim], BY_OWNER % kim, ''),
                (['--group=shop-developers', '--steps', 'bind', '--', kim], BY_OWNER % kim, ''), ([kim], '', NO_USER % (kim[2:], NO_GROUPS)),
                ([kim, '--groups', 'shop-developer'], '', NO_USER % (kim[2:], '') + NO_GROUP % ' shop-developer: check the spelling'),
                ([CI_KEY + 'i'], '', NO_ACCOUNT % ('cii', 'shop'))):
            it.expect('paths %s %s' % (line, place), ['paths', *place, *line], 0, out, err)
    for line in ([developers], [CI_KEY], ['--groups', 'shop-developers', kim]):
        it.lines('calls')
        it.run('paths', *line)
        got = it.lines('calls')
        it.checked('paths %s reads roles, bindings, accounts, and whether there are groups alone, each once' % line, len(got) == 4, got)
    for words_, wanted in ((['-o', 'wide'], PATHS_WIDE), (['--output=table', '--color', 'always'], PATHS_WIDE), (['-oname'], IDLER + '\n')):
        it.expect('paths %s' % words_, ['paths', '--export', 'prod', CI_KEY, *words_], 0, wanted)
    status, out, err = got = it.run('paths', '--export', 'prod', developers, '-o', 'json')
    keys = 'steps who where from from_where step binding role source rule subject'.split()
    it.checked('paths as JSON', (status, err) == (0, '') and json.loads(out) == dict(zip(keys, (
        1, '*', 'shop-staging', developers, '', 'bind', 'RoleBinding/shop-staging/developers-own', *['Role/shop-staging/owner'] * 2, 1, 1))), got)
    it.write(json.dumps({'apiVersion': 'v1', 'kind': 'ServiceAccount', 'metadata': {'name': 'new', 'namespace': 'shop'}}), 'new.json')
    it.expect('paths with a FILE', ['paths', CI_KEY, 'new.json', '--export', 'prod'], 0, BY_CI + BY_CI.replace('idler', 'new'))
    it.write('[]', 'bad.json')
    it.expect('a bad FILE of paths', ['paths', '--steps', 'run', CI_KEY, 'bad.json', '--export', 'prod'], 2, '',
              'rbacaudit: file 1: M2 not an object\nkubectl-rbacaudit: file 1 is bad.json\n')
    for name in ('namespaces.json', 'api-v1.json'):
        os.remove(os.path.join(it.work, 'prod', name))
    it.expect('paths read no namespaces and no API lists', ['paths', CI_KEY, '--export', 'prod'], 0, BY_CI)
    os.remove(os.path.join(it.work, 'prod', 'accounts.json'))
    missing = 'kubectl-rbacaudit: there is no accounts.json in prod\n'
    it.expect('paths without accounts', ['paths', CI_KEY, '--export', 'prod'], 2, '', missing + REFUSAL)
    it.expect('paths without accounts, --partial', ['paths', CI_KEY, '--export', 'prod', '--partial', 'new.json'], 0,
              BY_CI.replace('idler', 'new'), missing + CAUTION)
    status, out, err = got = it.run('paths', CI_KEY, trouble=['forbid accounts'])
    it.checked('paths where nobody may read accounts', (status, out) == (2, '') and "accounts.json can't be read" in err and err.endswith(REFUSAL), got)


# Whoever is admin, and everything, which an admin takes over.
BY_ADMIN = '0\tu:dana@example.com\t-\t-\t-\t-\tClusterRoleBinding/admins\tClusterRole/cluster-admin\tClusterRole/cluster-admin\t1\t1\n'
EVERYTHING = '0\t*\t*' + '\t-' * 8 + '\n'
# An account that may delete pods, and another that runs pods beside it.
BY_IDLER = '0\t%s\t-\t-\t-\t-\tRoleBinding/shop/cleans\tRole/shop/cleaner\tRole/shop/cleaner\t1\t1\n' % IDLER
TO_IDLER = '1\t%s\t-\t%s\t-\trun\tRoleBinding/shop/ci-deploys\tRole/shop/deployer\tRole/shop/deployer\t1\t1\n' % (CI_KEY, IDLER)
WAYS_WIDE = '''\
STEPS  WHO                                 WHERE  TO                                  WHERE  STEP  BINDING                      ROLE                       SOURCE                     RULE  SUBJECT
0      *                                   *      -                                   -      -     -                            -                          -                          -     -
0      u:dana@example.com                  -      -                                   -      -     ClusterRoleBinding/admins    ClusterRole/cluster-admin  ClusterRole/cluster-admin  1     1
0      u:system:serviceaccount:shop:idler  -      -                                   -      -     RoleBinding/shop/cleans      Role/shop/cleaner          Role/shop/cleaner          1     1
1      u:system:serviceaccount:shop:ci     -      u:system:serviceaccount:shop:idler  -      run   RoleBinding/shop/ci-deploys  Role/shop/deployer         Role/shop/deployer         1     1
'''


def cleans(*subjects):
    """A Role that deletes pods, and a binding that gives it to these."""
    rules = [{'verbs': ['delete'], 'apiGroups': [''], 'resources': ['pods']}]
    return json.dumps({'apiVersion': 'v1', 'kind': 'List', 'items': [
        {'apiVersion': V1, 'kind': 'Role', 'metadata': {'name': 'cleaner', 'namespace': 'shop'}, 'rules': rules},
        {'apiVersion': V1, 'kind': 'RoleBinding', 'metadata': {'name': 'cleans', 'namespace': 'shop'},
         'roleRef': {'kind': 'Role', 'name': 'cleaner'}, 'subjects': [*subjects]}]})


@in_each_shell
def ways(it):
    """Who comes to a request, by a fresh export and by one in a folder, in each format, and what is said beside it."""
    serve_idler(it)
    it.at_context('shop')
    it.run('export', 'prod')
    it.write(cleans({'kind': 'ServiceAccount', 'name': 'idler'}), 'cleans.json')
    whole = EVERYTHING + BY_ADMIN + BY_IDLER + TO_IDLER
    in_shop = ['-n', 'shop', 'delete', 'pods', 'cleans.json']
    for place in ([], ['--export', 'prod'], ['--partial', '--export=prod']):
        for line, out, err in (
                (in_shop, whole, ''), (['-nshop', 'delete', 'po', 'cleans.json'], whole, ''), (['delete', 'pods', 'cleans.json'], whole, IMPLIED % 'shop'),
                (['--steps=run,bind', *in_shop], whole, ''), (['--steps', 'run', *in_shop], BY_ADMIN + BY_IDLER + TO_IDLER, ''),
                (['--steps', 'exec', *in_shop], BY_ADMIN + BY_IDLER, ''), (['-A', 'delete', 'pods', 'cleans.json'], EVERYTHING + BY_ADMIN, ''),
                (['-n', 'shpo', 'delete', 'pods', 'cleans.json'], EVERYTHING + BY_ADMIN, NO_SPACE % 'shpo'),
                (['-n', 'shop', 'delete', 'nodes'], EVERYTHING + BY_ADMIN, SCOPED % ('nodes', '')),
                (['-n', 'shop', 'delete', 'podz'], EVERYTHING + BY_ADMIN, UNLISTED % 'type podz'),
                (['-A', '*', '*.*'], EVERYTHING + BY_ADMIN, ''), (['-A', '*', '*'], EVERYTHING + BY_ADMIN, UNLISTED % 'type *')):
            it.expect('who comes to %s %s' % (line, place), ['who-can', '--indirect', *place, *line], 0, out, err)
    it.lines('calls')
    it.run('who-can', '--indirect', *in_shop)
    it.checked('it reads the service accounts', [call for call in it.lines('calls') if 'serviceaccounts' in call], 'no such call')
    it.run('who-can', *in_shop)
    it.checked('and without --indirect does not', not [call for call in it.lines('calls') if 'serviceaccounts' in call], 'such a call')
    asked = ['who-can', '--indirect', '--export', 'prod', *in_shop]
    for words_, wanted in ((['-o', 'wide'], WAYS_WIDE), (['-oname'], '*\nu:dana@example.com\n%s\n%s\n' % (IDLER, CI_KEY))):
        it.expect('who comes to it, %s' % words_, [*asked, *words_], 0, wanted)
    status, out, err = got = it.run(*asked, '-o', 'json')
    keys = 'steps who where to to_where step binding role source rule subject'.split()
    it.checked('who comes to it, as JSON', (status, err) == (0, '') and json.loads(out.splitlines()[-1]) == dict(zip(keys, (
        1, CI_KEY, '', IDLER, '', 'run', 'RoleBinding/shop/ci-deploys', *['Role/shop/deployer'] * 2, 1, 1))), got)
    # (an account that no binding names has what a group of accounts has)
    it.write(cleans({'kind': 'Group', 'name': 'system:serviceaccounts:shop'}), 'cleans.json')
    each = [BY_IDLER.replace(IDLER, who) for who in ('g:system:serviceaccounts:shop', CI_KEY, IDLER)]
    it.expect('all accounts of a namespace', asked, 0, EVERYTHING + each[0] + BY_ADMIN + each[1] + each[2])
    os.remove(os.path.join(it.work, 'prod', 'accounts.json'))
    missing = 'kubectl-rbacaudit: there is no accounts.json in prod\n'
    it.expect('who comes to it without accounts', asked, 2, '', missing + REFUSAL)
    it.expect('who comes to it without accounts, --partial', [*asked, '--partial'], 0, EVERYTHING + each[0] + BY_ADMIN + each[1], missing + CAUTION)
    status, out, err = got = it.run('who-can', '--indirect', *in_shop, trouble=['forbid accounts'])
    it.checked('where nobody may read accounts', (status, out) == (2, '') and "accounts.json can't be read" in err and err.endswith(REFUSAL), got)


@in_each_shell
def one_path(it):
    """The one path to somebody, a role or everything, and what is said if the namespace of its end isn't there."""
    serve_idler(it)
    it.run('export', 'prod')
    developers = 'g:shop-developers'
    to_idler = ['--to', IDLER, CI_KEY]
    for place in ([], ['--export', 'prod']):
        for line, out, err in (
                (to_idler, BY_CI, ''), (['--steps=run', *to_idler], BY_CI, ''), (['--steps=exec', *to_idler], '', ''), (['--to', CI_KEY, CI_KEY], '', ''),
                (['--to=*', '-n', 'shop-staging', developers], BY_OWNER % developers, ''), ([developers, '--to', '*', '-nshop-staging'], BY_OWNER % developers, ''),
                (['--to', '*', developers], '', ''), (['--to', 'ClusterRole/view', developers, '--namespace', 'shop'], '', ''),
                (['--to', '*', '-n', 'shop-stagin', developers], '', NO_SPACE % 'shop-stagin')):
            it.expect('paths %s %s' % (line, place), ['paths', *place, *line], int(not out), out, err)
    it.expect('one path as a table', ['paths', '--export', 'prod', *to_idler, '-o', 'wide'], 0, PATHS_WIDE)
    it.expect('no path as a table', ['paths', '--export', 'prod', '--to', 'u:nobody', CI_KEY, '-o', 'wide'], 1)


@in_each_shell
def stale_paths(it):
    """A stale aggregate is reported where it leads to others in the cluster, or by another step: not where another rule gives the same."""
    line = '1\tu:system:serviceaccount:%s\t-\tu:kim\t-\tsecrets\tClusterRoleBinding/b\tClusterRole/a\tClusterRole/part\t1\t1\n'
    lines = ''.join(line % name for name in ('monitoring:prometheus', 'shop:ci'))
    said = ('kubectl-rbacaudit: the cluster has other paths now, because of stale aggregates (L6 of lint): ClusterRole/a\n')
    for written, gathered, out, err in (('get', 'use', '', said), ('use', 'get', lines, said), ('list', 'delete', lines, ''), ('approve', 'use', '', '')):
        it.serve({'cluster': stale_with(written, gathered), 'namespaced': of_kinds([])})
        it.run('export', '--force', 'prod')
        for place in ([], ['--export', 'prod']):
            it.expect('paths of a stale aggregate: %s, %s %s' % (written, gathered, place), ['paths', *place, 'u:kim'], 0, out, err)
            it.expect('by a step that it does not give: %s, %s %s' % (written, gathered, place), ['paths', '--steps', 'run', *place, 'u:kim'], 0)
            it.expect('the path to one of them: %s, %s %s' % (written, gathered, place), ['paths', *place, '--to', CI_KEY, 'u:kim'], int(not out),
                      out and line % 'shop:ci', err)
    impersonates = stale_with('get', 'list')
    impersonates['items'][0]['rules'].append({'verbs': ['impersonate'], 'apiGroups': [''], 'resources': ['serviceaccounts']})
    it.serve({'cluster': impersonates, 'namespaced': of_kinds([])})
    it.expect('another step to the same', ['paths', 'u:kim'], 0, lines, said)


@in_each_shell
def stale_ways(it):
    """A stale aggregate is reported where others come to the request in the cluster: not where the same do by another rule."""
    line = '0\tu:kim\t-\t-\t-\t-\tClusterRoleBinding/b\tClusterRole/a\tClusterRole/part\t1\t1\n'
    said = ('kubectl-rbacaudit: the cluster has other paths now, because of stale aggregates (L6 of lint): ClusterRole/a\n')
    asked = ['who-can', '--indirect', '-A', 'get', 'secrets']
    for written, gathered, out, err in (('get', 'use', '', said), ('use', 'get', line, said), ('*', 'get', line, ''), ('approve', 'use', '', '')):
        it.serve({'cluster': stale_with(written, gathered), 'namespaced': of_kinds([]), 'accounts': of_kinds([])})
        it.run('export', '--force', 'prod')
        for place in ([], ['--export', 'prod']):
            it.expect('who comes to secrets by a stale aggregate: %s, %s %s' % (written, gathered, place), [*asked, *place], 0, out,
                      UNLISTED % 'type secrets' + MOUNTS % ('secrets', '--indirect -A ') + err)


CHECKS = [paths, one_path, ways, stale_paths, stale_ways]
