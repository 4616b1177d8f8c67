"""What the kubectl plugin says beside an answer: where a question about a cluster-scoped type is asked,
verbs that no API resource list has, and users and groups that no binding names."""

import json
import os
import subprocess

from common import V1
from plugin_changes import GAINED, OVER, ROLE, read
from plugin_room import (DANA, DEVELOPERS, IMPLIED, KIM, MOUNTS, NO_ACCOUNT, NO_GROUP, NO_GROUPS, NO_SPACE,
                         NO_USER, NO_VERB, PLUGIN, RBAC, REPEATED, SCOPED, UNLISTED, URL_SCOPED,
                         in_each_shell, of_kinds, repeats, served)
from written import FILTER

# ---- where a question is asked

PLACE = ('kubectl-rbacaudit: a server asks about %s in the namespace of the %s, so '
         'the question is about the namespace %s; %s\n')
GIVEN = '-A asks about the whole cluster'
NOT_GIVEN = '-n NS asks about another, and -A about the whole cluster'
ANYWHERE = ('kubectl-rbacaudit: a server asks about %s in the namespace of the %s, so the '
            'RoleBindings of all namespaces count\n')
EVERYWHERE = ('kubectl-rbacaudit: no API resource list has %s, and a server asks about %s there in the whole '
              'cluster: -A does so\n')
NO_ANYWHERE = ('kubectl-rbacaudit: a server asks about %s in the namespace shop: RoleBindings there '
               'count without --anywhere\n')
PAT = 'u:pat\tRoleBinding/shop/team\n'
CLUSTER_ROLES = 'clusterroles.' + RBAC
POLICIES = 'policies.policy'


def listed(version, *types):
    """An API resource list of types, each with its singular name and whether it is namespaced."""
    return {'kind': 'APIResourceList', 'apiVersion': 'v1', 'groupVersion': version, 'resources': [
        {'name': name, 'singularName': singular, 'namespaced': namespaced, 'verbs': ['get', 'list']}
        for name, singular, namespaced in types]}


def export_team(it):
    """An export in which pat has, in the namespace shop alone, what only a server asks about there."""
    rules = [{'verbs': verbs, 'apiGroups': [group], 'resources': types} for verbs, group, types in (
        (['get', 'bind'], RBAC, ['clusterroles', 'roles']), (['use'], 'policy', ['policies']),
        (['get', 'bind'], 'other.example.com', ['clusterroles']), (['get'], '', ['namespaces', 'nodes']))]
    team = {'name': 'team', 'namespace': 'shop'}
    core = served()['api-v1']
    core['resources'].append({'name': 'namespaces', 'namespaced': False, 'verbs': ['get']})
    it.serve({'namespaced': {'apiVersion': 'v1', 'kind': 'List', 'items': [
        {'apiVersion': V1, 'kind': 'Role', 'metadata': team, 'rules': rules},
        {'apiVersion': V1, 'kind': 'RoleBinding', 'metadata': team, 'roleRef': {'kind': 'Role', 'name': 'team'},
         'subjects': [{'kind': 'User', 'name': 'pat'}]}]},
              'api-v1': core,
              'api-rbac.authorization.k8s.io-v1': listed(V1, ('roles', 'role', True), ('clusterroles', 'clusterrole', False)),
              'api-apps-v1': listed('policy/v1', ('policies', 'policy', False)),
              'api-metrics.k8s.io-v1beta1': listed('other.example.com/v1', ('clusterroles', 'clusterrole', False))})
    it.at_context('shop')
    it.run('export', 'prod')


@in_each_shell
def places(it):
    """bind of cluster roles, and use, are asked about in a namespace, as a server does, and the plugin says so."""
    export_team(it)
    pat = ['can-i', '--export', 'prod', '--as', 'pat']
    for verb, type_, place in (('bind', CLUSTER_ROLES, 'RoleBinding'), ('bind', CLUSTER_ROLES + '/edit', 'RoleBinding'),
                               ('bind', 'clusterrole.' + RBAC, 'RoleBinding'), ('use', POLICIES, 'pod'), ('use', 'policy/x', 'pod')):
        for words, answer, said in (
                (['-n', 'shop'], 'yes', PLACE % (verb, place, 'shop', GIVEN)), ([], 'yes', PLACE % (verb, place, 'shop', NOT_GIVEN)),
                (['--namespace=monitoring'], 'no', PLACE % (verb, place, 'monitoring', GIVEN)),
                (['-nshpo'], 'no', PLACE % (verb, place, 'shpo', GIVEN) + NO_SPACE % 'shpo'),
                (['-A'], 'no', ''), (['-An', 'shop'], 'no', ''), (['-n', 'shop', '--in-namespace'], 'yes', '')):
            it.expect('%s %s %s' % (verb, type_, words), [*pat, *words, verb, type_], 1 - (answer == 'yes'), answer + '\n', said)
    # (of several groups, a word without a group means the least)
    for verb, type_, said in (('bind', 'roles', ''), ('bind', CLUSTER_ROLES[:-1], UNLISTED % ('type ' + CLUSTER_ROLES[:-1])),
                              ('bind', 'clusterroles', SCOPED % ('clusterroles', '')),
                              ('bind', 'clusterroles.other.example.com', SCOPED % ('clusterroles.other.example.com', '')),
                              ('bind', POLICIES, SCOPED % (POLICIES, '')), ('*', CLUSTER_ROLES, SCOPED % (CLUSTER_ROLES, '')),
                              ('get', CLUSTER_ROLES, SCOPED % (CLUSTER_ROLES, '')), ('escalate', CLUSTER_ROLES, SCOPED % (CLUSTER_ROLES, '')),
                              ('Bind', 'clusterrole.' + RBAC, SCOPED % ('clusterrole.' + RBAC, '') +
                               NO_VERB % ('Bind', 'clusterrole.' + RBAC, 'get, list'))):
        answer = 'yes' if type_ == 'roles' else 'no'
        it.expect('another question: %s %s' % (verb, type_), [*pat, '-n', 'shop', verb, type_], 1 - (answer == 'yes'), answer + '\n', said)
    it.expect('bind of a subresource', [*pat, '-n', 'shop', 'bind', CLUSTER_ROLES, '--subresource', 'x'], 1, 'no\n',
              SCOPED % (CLUSTER_ROLES, '') + UNLISTED % ('subresource %s/x' % CLUSTER_ROLES))
    who = ['who-can', '--export', 'prod']
    for words, out, said in (
            (['-n', 'shop', 'bind', CLUSTER_ROLES], DANA + PAT, PLACE % ('bind', 'RoleBinding', 'shop', GIVEN)),
            (['bind', CLUSTER_ROLES + '/edit'], DANA + PAT, PLACE % ('bind', 'RoleBinding', 'shop', NOT_GIVEN)),
            (['--anywhere', 'bind', CLUSTER_ROLES], DANA + PAT, ANYWHERE % ('bind', 'RoleBinding')),
            (['--anywhere', 'use', 'policy'], DANA + PAT, ANYWHERE % ('use', 'pod')),
            (['--anywhere', '--in-namespace', 'use', 'policy'], DANA + PAT, ''), (['-A', '--anywhere', 'bind', CLUSTER_ROLES], DANA, '')):
        it.expect('who-can %s' % words, [*who, *words], 0, out, said)
    it.expect('of a fresh export', ['who-can', 'bind', CLUSTER_ROLES], 0, DANA + PAT, PLACE % ('bind', 'RoleBinding', 'shop', NOT_GIVEN))
    for name in it.files('prod'):
        if name.startswith('api-'):
            os.remove(os.path.join(it.work, 'prod', name))
    status, out, err = got = it.run(*who, '--partial', '-n', 'shop', 'bind', CLUSTER_ROLES)
    it.checked('without API lists scopes are unknown', (status, out) == (0, DANA + PAT) and 'taken as written\n' in err
               and 'scoped' not in err and 'server' not in err, got)


@in_each_shell
def scopes(it):
    """A -n that doesn't count, because a type is cluster-scoped or the target a URL, is reported."""
    export_team(it)
    who = ['who-can', '--export', 'prod']
    for words, out, said in (
            (['-n', 'shop', 'get', 'nodes'], DANA, SCOPED % ('nodes', '')), (['-nshop', 'get', 'no/a'], DANA, SCOPED % ('no', '')),
            (['-n', '', 'get', 'node'], DANA, SCOPED % ('node', '')), (['-n', 'shpo', 'get', 'nodes.'], DANA, SCOPED % ('nodes.', '')),
            (['get', 'nodes'], DANA, ''), (['-A', '-n', 'shop', 'get', 'nodes'], DANA, ''), (['--anywhere', 'get', 'nodes'], DANA, ''),
            (['-n=-', 'get', 'roles'], DANA, NO_SPACE % '-'), (['-n', 'a\\b', 'get', 'roles'], DANA, NO_SPACE % 'a\\b'),
            (['-n', 'shop', '--in-namespace', 'get', 'nodes'], DANA + PAT, ''), (['-n', 'shop', 'get', 'roles'], DANA + PAT, ''),
            (['-n', 'shop', '--subresource', 'x', 'get', 'nodes'], DANA, SCOPED % ('nodes', '') + UNLISTED % 'subresource nodes/x'),
            (['-n', 'shop', 'get', 'namespaces'], DANA, SCOPED % ('namespaces', '')),
            (['-n', 'monitoring', 'get', 'ns/shop'], DANA, UNLISTED % 'type ns'),
            (['-n', 'monitoring', 'get', 'namespaces/shop'], DANA,
             SCOPED % ('namespaces', '; without -n it is about the namespace shop, where a server asks')),
            (['--anywhere', 'get', 'namespaces/shop'], DANA, NO_ANYWHERE % 'namespaces/shop'),
            (['--anywhere', 'get', 'namespaces'], DANA, ''), (['-A', '--anywhere', 'get', 'namespaces/shop'], DANA, ''),
            (['-n', 'shop', 'delete', '/metrics'], DANA, URL_SCOPED), (['delete', '/metrics'], DANA, ''),
            (['-A', '-n', 'shop', 'delete', '/metrics'], DANA, '')):
        it.expect('who-can %s' % words, [*who, *words], 0, out, said)
    it.expect('can-i', ['can-i', '--export', 'prod', '--as', 'pat', '-n', 'shop', 'get', 'nodes'], 1, 'no\n', SCOPED % ('nodes', ''))
    it.expect('of a fresh export', ['who-can', '-n', 'shop', 'get', 'nodes'], 0, DANA, SCOPED % ('nodes', ''))


@in_each_shell
def unlisted(it):
    """What no API resource list has, and a server asks about in the whole cluster, isn't taken for a mistake."""
    it.run('export', 'prod')
    who = ['who-can', '--export', 'prod']
    extras, uids, signers = 'userextras.authentication.k8s.io', 'uids.authentication.k8s.io', 'signers.certificates.k8s.io'
    for verb, type_, words in (('impersonate', 'users', []), ('impersonate', 'groups.', []), ('impersonate', uids, []),
                               ('impersonate', extras, ['--subresource', 'scopes']), ('sign', signers, []), ('attest', signers, [])):
        it.expect('%s %s' % (verb, type_), [*who, '-n', 'monitoring', *words, verb, type_ + '/a'], 0, DANA, EVERYWHERE % (type_, verb))
        it.expect('%s %s with -A' % (verb, type_), [*who, '-A', *words, verb, type_], 0, DANA)
    for verb, type_ in (('get', 'users'), ('impersonate', 'user'), ('approve', 'users'), ('impersonate', extras), ('impersonate', signers)):
        it.expect('%s %s' % (verb, type_), [*who, '-n', 'monitoring', verb, type_], 0, DANA, UNLISTED % ('type ' + type_))
    it.expect('without -n', [*who, 'approve', signers], 0, DANA, EVERYWHERE % (signers, 'approve') + IMPLIED % 'default')


@in_each_shell
def bound_types(it):
    """In a universe cluster roles are namespaced, so that a matrix has who may bind them in a namespace."""
    export_team(it)
    status, out, err = got = it.run('universe', '--export', 'prod')
    entry = '{"group": "%s", "resource": "%s", "namespaced": %s}'
    it.checked('a universe', (status, err) == (0, '') and entry % (RBAC, 'clusterroles', 'true') in out
               and entry % ('other.example.com', 'clusterroles', 'false') in out and entry % ('', 'nodes', 'false') in out, got)
    it.write(out, 'u.json')
    status, out, err = got = it.run('matrix', '--export', 'prod', 'u.json')
    row = 'u:pat\tshop\tbind\t%s\tclusterroles\t-\tRoleBinding/shop/team\n'
    it.checked('its matrix', (status, err) == (0, REPEATED % repeats(out)) and row % RBAC in out and row % 'other.example.com' not in out, got)


@in_each_shell
def mounts(it):
    """Whoever may create pods mounts secrets and config maps: who-can names that question under those about reading them, once and nowhere else."""
    core = served()['api-v1']
    core['resources'] += [{'name': name, 'singularName': name[:-1], 'shortNames': short, 'namespaced': True, 'verbs': ['create', 'get', 'list', 'watch']}
                          for name, short in (('secrets', []), ('configmaps', ['cm']))]
    it.serve({'api-v1': core, 'api-apps-v1': listed('other.example.com/v1', ('secrets', 'hidden', True))})
    it.run('export', 'prod')
    who = ['who-can', '--export', 'prod']
    # (the words with which who-can create pods is about the same place)
    for words, type_, where in (
            (['-A', 'get', 'secrets'], 'secrets', '-A '), (['-A', '-n', 'shop', 'list', 'secret'], 'secrets', '-A '), (['--anywhere', 'watch', 'cm/app'], 'configmaps', '--anywhere '),
            (['-n', 'shop', 'get', 'configmaps'], 'configmaps', '-n shop '), (['-nshop', '--any-name', 'list', 'secrets.'], 'secrets', '-n shop '),
            (['--indirect', '-n', 'shop', 'get', 'secrets'], 'secrets', '--indirect -n shop ')):
        status, out, err = got = it.run(*who, *words)
        it.checked('mounts: %s' % words, (status, err) == (0, MOUNTS % (type_, where)), got)
    it.expect('mounts: in the namespace of the context', [*who, 'get', 'secrets'], 0, DANA, MOUNTS % ('secrets', '') + IMPLIED % 'default')
    for words in (['-A', 'create', 'secrets'], ['-A', '*', 'secrets'], ['-A', 'get', 'pods'], ['-A', 'get', 'secrets.other.example.com'], ['-A', 'get', 'hidden.other.example.com'],
                  ['-A', 'get', '/secrets']):
        status, out, err = got = it.run(*who, *words)
        it.checked('mounts: nothing of %s' % words, status == 0 and 'mounting' not in err, got)
    for words in (['-A', '--subresource', 'x', 'get', 'secrets'], ['-A', 'get', 'secretss']):
        status, out, err = got = it.run(*who, *words)
        it.checked('mounts: nothing of %s' % words, status == 0 and "don't have" in err and 'mounting' not in err, got)
    for words in (['can-i', '--as', 'dana@example.com', '-A', 'get', 'secrets'], ['rules', 'u:dana@example.com'], ['paths', 'u:dana@example.com']):
        status, out, err = got = it.run(*words, '--export', 'prod')
        it.checked('mounts: nothing of %s' % words[0], (status, err) == (0, ''), got)
    for name in it.files('prod'):
        if name.startswith('api-'):
            os.remove(os.path.join(it.work, 'prod', name))
    status, out, err = got = it.run(*who, '--partial', '-n', 'shop', 'get', 'secrets.')
    it.checked('mounts: a type taken as written', status == 0 and err.endswith('taken as written\n' + MOUNTS % ('secrets', '-n shop ')), got)
    status, out, err = got = it.run(*who, '--partial', '-n', 'shop', 'get', 'secrets.other.example.com')
    it.checked('mounts: nothing of one of another group', status == 0 and err.endswith('taken as written\n'), got)


# ---- verbs

# Verbs in every form that JSON has, of two versions of one group; words that are no entry's verbs.
WIDGETS = [{'kind': 'APIResourceList', 'groupVersion': 'w.example.com/v1', 'resources': [
    {'name': 'widgets', 'shortNames': ['wi', 'short'], 'singularName': 'widget', 'namespaced': True, 'kind': 'kind', 'verbs': ['get', 'spin']},
    {'name': 'widgets/part', 'singularName': '', 'namespaced': True, 'verbs': ['turn']},
    {'name': 'silent', 'singularName': '', 'namespaced': True, 'verbs': []}]}, {
    'resources': [{'verbs': ['list', 'get'], 'namespaced': True, 'categories': ['all'], 'singularName': 'widget', 'name': 'widgets'},
                  {'name': 'gadgets', 'singularName': '', 'namespaced': True, 'verbs': ['hop']}],
    'kind': 'APIResourceList', 'apiVersion': 'v1', 'groupVersion': 'w.example.com/v2'}]
SPECIAL = ('bind', 'escalate', 'impersonate', 'use', 'approve', 'sign', 'attest', '*')


@in_each_shell
def verbs(it):
    """A verb that the API resource lists don't have of the type is reported with those that they have."""
    it.run('export', 'prod')
    first, second = WIDGETS
    it.write(json.dumps({'apiVersion': 'v1', 'kind': 'List', 'items': [first, served()['api-v1']]}, indent=1), 'prod', 'api-a.json')
    it.write(json.dumps(second), 'prod', 'api-b.json')

    def asked(verb, type_, said='', *words):
        it.expect('%s %s %s' % (verb, type_, words), ['who-can', '--export', 'prod', '-n', 'monitoring', *words, verb, type_], 0, DANA, said)

    for verb in ('get', 'spin', 'list', *SPECIAL):
        asked(verb, 'widgets')
    have = 'get, spin, list'
    for verb in ('gett', 'GET', 'read', 'hop', 'turn', 'all', 'kind', 'short', 'name', 'Bind', 'spin, list', 'get"', 'a\\nb', '-'):
        asked(verb, 'wi', NO_VERB % (verb, 'wi', have))
    asked('a\x1b[2Jb', 'widget.w.example.com/x', NO_VERB % ('a?[2Jb', 'widget.w.example.com', have))
    asked('turn', 'widgets', '', '--subresource', 'part')
    asked('get', 'widgets', NO_VERB % ('get', 'widgets/part', 'turn'), '--subresource', 'part')
    for verb, type_, said in (('spin', 'gadgets', NO_VERB % ('spin', 'gadgets', 'hop')), ('spin', 'silent', ''),
                              ('spin', 'secert', UNLISTED % 'type secert'), ('spin', 'po', NO_VERB % ('spin', 'po', 'delete, get, list'))):
        asked(verb, type_, said)
    it.expect('can-i', ['can-i', '--export', 'prod', *KIM, 'gett', 'po'], 1, 'no\n', NO_VERB % ('gett', 'po', 'delete, get, list'))
    it.expect('of a fresh export', ['can-i', *KIM, 'gett', 'po'], 1, 'no\n', NO_VERB % ('gett', 'po', 'delete, get, list'))
    odd = {**second, 'resources': [{'name': 'odd', 'namespaced': True, 'verbs': ['a"b']}]}
    it.write(json.dumps(odd), 'prod', 'api-b.json')
    asked('gett', 'widgets')
    url = 'kubectl-rbacaudit: a URL has no verb %s, but get, put, post, head, options, delete, patch: check the spelling\n'
    for verb, said in (('list', url % 'list'), ('GET', url % 'GET'), ('bind', url % 'bind'), ('post', ''), ('*', ''), ('head', '')):
        it.expect('a URL: ' + verb, ['who-can', '--export', 'prod', verb, '/metrics'], 0, DANA, said)


# ---- users and groups

HOSTILE = 'a"b\\c\td\\x09'
SHOWN = 'a"b\\\\c\\x09d\\\\x09'
FOR_GROUP = 'kubectl-rbacaudit: no binding of the export names the user %s: to ask about the group, write %s\n'
FOR_ACCOUNT = 'kubectl-rbacaudit: no binding of the export names the user %s: to ask about the service account, write %s\n'
OTHER_USER = 'kubectl-rbacaudit: no binding of the export names the user %s, but the user %s: check the spelling\n'


def more_bindings():
    """Bindings of roles that are missing or empty, of a name with all that a name may have, and of accounts of one name."""
    def bound(name, kind, *subjects):
        return {'apiVersion': V1, 'kind': kind, 'metadata': {'name': name, 'namespace': 'shop', 'annotations': {'x': '"roleRef": {}'}},
                'roleRef': {'kind': 'ClusterRole', 'name': name}, 'subjects': list(subjects)}

    def account(name, namespace):
        return {'kind': 'ServiceAccount', 'name': name, 'namespace': namespace}

    return [bound('missing', 'RoleBinding', {'kind': 'Group', 'name': 'idle'}, {'kind': 'User', 'name': 'lee'}, account('twin', 'a')),
            bound('empty', 'ClusterRoleBinding', {'kind': 'Group', 'name': 'Mixed, Case'}, {'kind': 'User', 'name': HOSTILE}, account('twin', 'b')),
            {'apiVersion': V1, 'kind': 'ClusterRole', 'metadata': {'name': 'empty'}, 'rules': []}]


def asks(it, as_, said, *words):
    """A question of can-i that is answered no, and what is said beside it."""
    it.expect('as %r %s' % (as_, words), ['can-i', '--export', 'prod', '--as=' + as_, *words, '-n', 'shop', 'delete', 'pods'], 1, 'no\n', said)


def export_more(it):
    cluster, namespaced = served()['cluster'], served()['namespaced']
    items = more_bindings()
    cluster['items'] += items[1:]
    namespaced['items'] += items[:1]
    it.serve({'cluster': cluster}, separators=(',', ':'))
    it.serve({'namespaced': namespaced}, indent=2)
    it.run('export', 'prod')


@in_each_shell
def users(it):
    """A user that no binding names is reported, with who was probably meant; nobody whom one names, or a group of theirs."""
    export_more(it)
    for name in ('lee', HOSTILE, 'system:anonymous', 'system:serviceaccount:shop:ci', 'system:serviceaccount:shop:twin'):
        asks(it, name, NO_ACCOUNT % ('twin', 'shop') if name.endswith('twin') else '')
    for name in ('kim', 'le', 'lee ', 'system:node:a', SHOWN, '"', 'x"roleRef":', 'empty', 'User', 'oidc:kim', 'a:b/c'):
        asks(it, name, NO_USER % (name.replace('\\', '\\\\'), NO_GROUPS))
    for words in (['--groups', 'shop-developers'], ['--group=idle'], ['--groups', 'system:masters'], ['--group', 'Mixed, Case']):
        asks(it, 'kim', '', *words)
    asks(it, 'kim', NO_GROUP % ' x: check the spelling', '--groups=x,idle')
    asks(it, 'kim', NO_USER % ('kim', ''), '--groups', 'system:authenticated')
    asks(it, 'kim', NO_USER % ('kim', NO_GROUPS), '--groups', ',', '--group=')
    for name, said in (
            ('g:idle', FOR_GROUP % ('g:idle', '--groups idle')), ('g:a,b', FOR_GROUP % ('g:a,b', '--group a,b')),
            ('u:lee', 'kubectl-rbacaudit: no binding of the export names the user u:lee: write --as lee\n'),
            ('shop-developers', 'kubectl-rbacaudit: no binding of the export names the user shop-developers, but a group of that name: '
                                'write --groups shop-developers\n'),
            ('LEE', OTHER_USER % ('LEE', 'lee')), (HOSTILE.upper(), OTHER_USER % ('A"B\\\\C\\x09D\\\\X09', SHOWN))):
        asks(it, name, said)
    for command in ('rules', 'paths'):
        it.expect('%s u:' % command, [command, '--export', 'prod', 'u:g:idle'], 0, '', FOR_GROUP % ('g:idle', 'g:idle'))
        it.expect('%s of a user whom a binding names' % command, [command, '--export', 'prod', 'u:lee'], 0, '')
    it.expect('of a fresh export', ['can-i', '--as', 'kim', '-n', 'shop', 'delete', 'pods'], 1, 'no\n', NO_USER % ('kim', NO_GROUPS))
    it.expect('who-can asks about nobody', ['who-can', '--export', 'prod', '-n', 'shop', 'get', 'pods'], 0, DANA + DEVELOPERS)


@in_each_shell
def accounts(it):
    """What was meant for a service account is reported with its user name, of the namespace asked about or the only one."""
    export_more(it)
    ci, twin = 'system:serviceaccount:shop:ci', 'system:serviceaccount:NS:twin'
    for name, meant in (('ci', ci), ('shop:ci', ci), ('shop/ci', ci), ('sa:ci', ci), ('sa:shop:ci', ci), ('serviceaccount/shop/ci', ci),
                        ('system:serviceaccount:shop/ci', ci), ('system:serviceaccounts:shop:ci', ci), ('serviceaccounts:ci', ci),
                        ('prometheus', 'system:serviceaccount:monitoring:prometheus'), ('twin', twin), ('a:twin', 'system:serviceaccount:a:twin'),
                        ('sa:shop:cii', 'system:serviceaccount:shop:cii'), ('sa:cii', 'system:serviceaccount:NS:cii')):
        asks(it, name, FOR_ACCOUNT % (name, '--as ' + meant))
    for command in ('rules', 'paths'):
        it.expect(command, [command, '--export', 'prod', 'u:ci'], 0, '', FOR_ACCOUNT % ('ci', 'u:' + ci))
    it.write(json.dumps(of_kinds([{'apiVersion': 'v1', 'kind': 'ServiceAccount', 'metadata': {'name': 'idler', 'namespace': 'shop'}}],
                                 'ServiceAccount')), 'prod', 'accounts.json')
    asks(it, 'idler', FOR_ACCOUNT % ('idler', '--as system:serviceaccount:shop:idler'))
    asks(it, 'system:serviceaccount:shop:idler', '')
    os.remove(os.path.join(it.work, 'prod', 'accounts.json'))
    asks(it, 'idler', NO_USER % ('idler', NO_GROUPS))
    asks(it, 'system:serviceaccount:shop:idler', NO_USER % ('system:serviceaccount:shop:idler', ''))
    asks(it, ci, '')


@in_each_shell
def groups(it):
    """So are groups that no binding names, but for Kubernetes' own."""
    export_more(it)
    for words, said in (
            (['--groups', 'idle,shop-developers'], ''), (['--groups', 'system:mastres'], ''), (['--group', 'Mixed, Case'], ''),
            (['--groups', 'typo'], ' typo: check the spelling'), (['--group=typo', '--groups=idle,typo'], ' typo: check the spelling'),
            (['--groups', 'a,b'], 's a, b: check the spelling'), (['--groups', 'a,b,c,d,e'], 's a, b, c and 2 more: check the spelling'),
            (['--groups', 'a,IDLE'], 's a, IDLE, but the group idle: check the spelling'), (['--groups', 'g:idle'], ' g:idle: write --groups idle'),
            (['--group', 'mixed, case'], ' mixed, case, but the group Mixed, Case: check the spelling'),
            (['--group', 'a,b'], " a,b: --groups splits at commas, and --group doesn't"),
            (['--group', 'a\tb"\\'], ' a\\x09b"\\\\: check the spelling'),
            (['--groups', 'lee'], ' lee, but a user of that name: write --as lee')):
        asks(it, 'lee', said and NO_GROUP % said, *words)
        if '--groups' in words:
            asks(it, 'lee', said and NO_GROUP % said, '='.join(words))
    asks(it, 'kim', NO_USER % ('kim', '') + NO_GROUP % ' typo: check the spelling', '--groups', 'typo')
    asks(it, 'kim', '', '--group', 'a\nb', '--group', 'idle')
    for who, said in (('a\nb', ''), ('idle', ''), ('typo', ' typo: check the spelling'), ('lee', ' lee, but a user of that name: write u:lee'),
                      ('g:idle', ' g:idle: write g:idle'), ('a,b', ' a,b: check the spelling'), ('system:x', '')):
        for command in ('rules', 'paths'):
            it.expect('%s g:%r' % (command, who), [command, '--export', 'prod', 'g:' + who], 0, '', said and NO_GROUP % said)


@in_each_shell
def named_in_files(it):
    """Bindings in FILEs count too, unless the export has others of their names; a file that can't be read twice says nothing."""
    it.run('export', 'prod')
    it.write(json.dumps({'apiVersion': 'v1', 'kind': 'List', 'items': more_bindings()}), 'more bindings.json')
    ask = ['can-i', '--export', 'prod', '-n', 'shop', '--as', 'lee', 'delete', 'pods']
    it.expect('without the FILE', ask, 1, 'no\n', NO_USER % ('lee', NO_GROUPS))
    it.expect('with the FILE', [*ask, 'more bindings.json'], 1, 'no\n')
    named = {'apiVersion': V1, 'kind': 'ClusterRoleBinding', 'metadata': {'name': 'admins'}, 'roleRef': {'kind': 'ClusterRole', 'name': 'x'},
             'subjects': [{'kind': 'User', 'name': 'lee'}]}
    it.write(json.dumps(named), 'old.json')
    it.expect('with a binding that the export replaces', [*ask, 'old.json'], 1, 'no\n', NO_USER % ('lee', NO_GROUPS))
    os.mkfifo(os.path.join(it.work, 'pipe'))
    with open(os.path.join(it.work, 'more bindings.json'), 'rb') as file:
        text = file.read()
    pid = os.fork()
    if pid == 0:
        with open(os.path.join(it.work, 'pipe'), 'wb') as pipe:
            pipe.write(text)
        os._exit(0)
    it.expect('with a pipe', [*ask, 'pipe'], 1, 'no\n')
    os.waitpid(pid, 0)


def document(**lists):
    return json.dumps({'apiVersion': 'rbacaudit/v1', 'kind': 'Universe', 'names': [''], **lists})


NO_WHOLE = ('kubectl-rbacaudit: the namespaces of the universe lack "", the whole cluster, so what '
            'holds in it is in no row of --once: add "" to them\n')


@in_each_shell
def repeated(it):
    """A matrix of which --once leaves out more than half says so, and its rows are those of
    rbacaudit; one of half, or less, doesn't, nor does one of --once."""
    os.symlink(FILTER, os.path.join(it.bin, 'rbacaudit-page'))
    it.run('export', 'prod')
    pods = {'verbs': ['get'], 'resources': [{'resource': 'pods'}], 'urls': []}
    dana = 'u:dana@example.com\t%s\tget\t-\tpods\t-\tClusterRoleBinding/admins\n'
    for places_, said in ((['', 'a', 'b'], REPEATED % (2, 3)), (['', 'a'], ''), ([''], ''),
                          (['a'], REPEATED % (1, 1))):
        it.write(document(principals=[{'user': 'dana@example.com'}], namespaces=places_, **pods),
                 'dana.json')
        out = ''.join(dana % (place or '-') for place in places_) + 'end\n'
        it.expect('a matrix of %s' % places_, ['matrix', '--export', 'prod', 'dana.json'], 0, out,
                  said)
        it.expect('the same with --once', ['matrix', '--once', '--export', 'prod', 'dana.json'], 0,
                  ''.join(dana % '-' if place == '' else '' for place in places_) + 'end\n',
                  '' if '' in places_ else NO_WHOLE)
        status, _, err = got = it.run('page', '--export', 'prod', 'dana.json', '--output', 'page')
        it.checked('a page of %s' % places_, (status, err)
                   == (0, '' if '' in places_ else NO_WHOLE), got)
    with open('/dev/full', 'wb') as full:
        status = subprocess.run([it.shell, PLUGIN, 'matrix', '--export', 'prod', 'dana.json'],
                                cwd=it.work, env=it.environment(), stdout=full,
                                stderr=subprocess.PIPE, timeout=60).returncode
    it.checked('a full disk', status == 2, status)
    command = '"$0" "$1" matrix --export prod | head -n 1'
    ended = subprocess.run(['sh', '-c', command, it.shell, PLUGIN], cwd=it.work,
                           env=it.environment(), stdout=subprocess.PIPE, timeout=60)
    it.checked('nobody reads on', ended.stdout.count(b'\n') == 1, ended)


@in_each_shell
def universe_in_change(it):
    """A Universe document within a change is remarked on, and changes nothing."""
    it.run('export', 'prod')
    os.mkdir(os.path.join(it.work, 'change'))
    it.write(json.dumps(ROLE), 'change', 'role.json')
    it.write(document(verbs=['get']), 'change', 'u.json')
    it.expect('a Universe document in a change', ['diff', '--export', 'prod', '--with', 'change'],
              1, GAINED, read('change', '1 role, 0 bindings, 1 other object')
              + 'kubectl-rbacaudit: change: a Universe document is ignored in a change, of which all requests are compared\n'
              + OVER % 'change')


CHECKS = [repeated, universe_in_change, places, scopes, unlisted, bound_types, mounts, verbs, users, accounts, groups, named_in_files]
