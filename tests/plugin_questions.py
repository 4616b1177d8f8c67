"""Questions of the kubectl plugin: rbacaudit's own answers, and what is said beside them."""

import json
import os
import subprocess

from common import PROGRAM, TOP, V1, V1BETA1
from plugin_room import (CAUTION, CI, CI_KEY, DANA, DEVELOPERS, FINDINGS, IMPLIED, KIM, NO_ACCOUNT,
                         NO_GROUP, NO_GROUPS, NO_SPACE, NO_USER, NO_VERB, ODD, RBAC, READ, REFUSAL,
                         REPEATED, SCOPED, UNLISTED, URL_SCOPED, document, in_each_shell, of_kinds, repeats, served)
from shells import commands, options


@in_each_shell
def questions(it):
    """Fresh exports and exports in a folder give rbacaudit's own answers and statuses, with all options and words."""
    it.run('export', 'my export')
    granted = 'yes\nRoleBinding/shop/developers-view\tClusterRole/shop-view\tClusterRole/shop-view-workloads\t1\t1\n'
    for place in ([], ['--export', 'my export'], ['--export=my export']):
        it.expect('yes %s' % place, ['can-i', *place, *KIM, '--why', 'list', 'pods'], 0, granted)
        it.expect('no %s' % place, ['can-i', *KIM, 'delete', *place, 'pods'], 1, 'no\n')
        it.expect('a quiet no %s' % place, ['can-i', *place, '-qA', *KIM, '--', 'list', 'pods'], 1)
        it.expect('a short type and a subresource %s' % place, ['can-i', *KIM, 'get', 'po', '--subresource=log', *place], 0, 'yes\n')
        it.expect('holders %s' % place, ['who-can', '-nshop', 'update', 'deploy', *place], 0,
                  'u:dana@example.com\tClusterRoleBinding/admins\nu:system:serviceaccount:shop:ci\tRoleBinding/shop/ci-deploys\n')
        it.expect('a URL %s' % place, ['can-i', '--as', 'system:serviceaccount:monitoring:prometheus', *place, 'get', '/metrics'], 0, 'yes\n')
        it.expect('findings %s' % place, ['lint', *place], 1, FINDINGS)
    os.remove(os.path.join(it.work, 'my export', 'namespaces.json'))
    it.expect('a part that the command doesn\'t read', ['can-i', *KIM, '--export', 'my export', 'delete', 'pods'], 1, 'no\n')
    it.lines('calls')
    it.expect('lint of a fresh export', ['lint'], 1, FINDINGS)
    it.expect('lint of some codes', ['lint', '--only', 'L7,L2', '--skip-system', '--export', 'my export'], 1, FINDINGS.partition('L4')[0])
    it.expect('lint of others', ['lint', '--export', 'my export', '--only=L1,L7'], 0)
    it.checked('lint reads roles and bindings alone', len(it.lines('calls')) == 2, 'other calls')
    it.run('who-can', 'get', 'pods', '--context', 'far')
    it.checked('a question passes its context on', set(it.lines('targets')) == {'|--context=far'},
               'another')
    it.run('lint', '--request-timeout', '9s')
    it.checked('and its time', it.lines('targets') == ['|--request-timeout=9s'] * 2, 'another')
    it.serve({name: {**value, 'items': [{**item, 'apiVersion': V1BETA1} for item in value['items']]}
              for name, value in served().items() if name in ('cluster', 'namespaced')})
    it.expect('a question to a cluster that serves v1beta1', ['can-i', *KIM, '--why', 'list', 'pods'], 0, granted)
    it.expect('lint of such a cluster', ['lint'], 1, FINDINGS)


@in_each_shell
def namespaces(it):
    """Without -n a question is about the context's namespace, or the export's, and says so; one that isn't
    there is reported."""
    for context, name in (('shop', 'shop'), ('', 'default'), ('shpo', 'shpo')):
        it.at_context(context)
        it.run('export', '--force', 'prod')
        it.at_context('other')
        said = IMPLIED % name + (NO_SPACE % name if name == 'shpo' else '')
        holders = DANA + (DEVELOPERS if name == 'shop' else '')
        it.expect('who-can in %s of the export' % name,
                  ['who-can', '--export', 'prod', 'list', 'pods'], 0, holders, said)
        it.at_context(context)
        it.expect('who-can in %s of the context' % name, ['who-can', 'list', 'pods'], 0, holders,
                  said)
        for words_ in (['-A', 'list', 'pods'], ['--all-namespaces', 'list', 'pods'],
                       ['list', 'nodes'], ['list', 'no/a']):
            it.expect('who-can %s in %s' % (words_, name), ['who-can', *words_], 0, DANA)
        for option in (['-n', 'shop'], ['-nshop'], ['-n=shop'], ['--namespace', 'shop'],
                       ['--namespace=shop']):
            it.expect('who-can %s in %s' % (option, name), ['who-can', *option, 'list', 'pods'], 0,
                      DANA + DEVELOPERS)
    os.remove(os.path.join(it.work, 'prod', 'about.txt'))
    it.expect('an export that says nothing of itself',
              ['who-can', '--export', 'prod', 'list', 'pods'], 0, DANA, IMPLIED % 'default')
    it.expect('a namespace that isn\'t there',
              ['who-can', '--export', 'prod', '-n', 'shpo', 'list', 'pods'], 0, DANA,
              NO_SPACE % 'shpo')
    it.expect('a namespace that only looks like one', ['who-can', '-n', 'sho.', 'list', 'pods'], 0,
              DANA, NO_SPACE % 'sho.')
    it.serve({'namespaces': of_kinds([{'kind': 'Namespace', 'apiVersion': 'v1',
                                       'metadata': {'name': '10'}}], 'Namespace')})
    for name, said in (('10', ''), ('1e1', NO_SPACE % '1e1'), ('010', NO_SPACE % '010')):
        it.expect('a name is no number: ' + name, ['who-can', '-n', name, 'list', 'pods'], 0, DANA,
                  said)
    it.expect('it doesn\'t matter to nodes', ['who-can', '--export', 'prod', '-n', 'shpo', 'list',
                                              'nodes'], 0, DANA, SCOPED % ('nodes', ''))
    it.expect('namespaces may be unknown', ['who-can', '-n', 'shpo', 'list', 'pods'], 0, DANA,
              trouble=['forbid namespaces'])


OWN = ('kubectl-rbacaudit: the question is about the object of the namespace %s, so it is asked in that namespace, as a server does; '
       '-A asks about the whole cluster\n')


@in_each_shell
def own_objects(it):
    """A namespace's own object is asked about in that namespace, unless the words say where."""
    role = {'apiVersion': RBAC + '/v1', 'kind': 'Role', 'metadata': {'name': 'own', 'namespace': 'shop'},
            'rules': [{'verbs': ['patch'], 'apiGroups': [''], 'resources': ['namespaces', 'nodes']}]}
    bound = {'apiVersion': RBAC + '/v1', 'kind': 'RoleBinding', 'metadata': {'name': 'own', 'namespace': 'shop'},
             'roleRef': {'kind': 'Role', 'name': 'own'}, 'subjects': [{'kind': 'User', 'name': 'pat'}]}
    it.run('export', 'prod')
    listed = {'name': 'namespaces', 'singularName': '', 'shortNames': ['ns'], 'namespaced': False, 'kind': 'Namespace', 'verbs': ['patch']}
    files = {'own.json': {'apiVersion': 'v1', 'kind': 'List', 'items': [role, bound]},
             'prod/api-namespaces.json': {'kind': 'APIResourceList', 'groupVersion': 'v1', 'resources': [listed]}}
    for name, it_has in files.items():
        with open(os.path.join(it.work, name), 'w', encoding='utf-8') as file:
            json.dump(it_has, file)
    can_i = ['can-i', '--export', 'prod', '--as', 'pat']
    for target in ('namespaces/shop', 'ns/shop', 'namespaces./shop'):
        it.expect('the object ' + target, [*can_i, 'patch', target, 'own.json'], 0, 'yes\n', OWN % 'shop')
        it.expect('the object %s with -n' % target, [*can_i, '-n', 'shop', 'patch', target, 'own.json'], 0, 'yes\n', OWN % 'shop')
        it.expect('the object %s with -A' % target, [*can_i, '-A', 'patch', target, 'own.json'], 1, 'no\n')
    it.expect('the object of another namespace', [*can_i, '-n', 'shop', 'patch', 'ns/monitoring', 'own.json'], 1, 'no\n',
              SCOPED % ('ns', '; without -n it is about the namespace monitoring, where a server asks'))
    it.expect('the object of a namespace that isn\'t there', [*can_i, 'patch', 'ns/shpo', 'own.json'], 1, 'no\n', OWN % 'shpo' + NO_SPACE % 'shpo')
    it.expect('all namespaces', [*can_i, '-n', 'shop', 'patch', 'namespaces', 'own.json'], 1, 'no\n', SCOPED % ('namespaces', ''))
    it.expect('another type in a namespace', [*can_i, '-n', 'shop', '--in-namespace', 'patch', 'nodes', 'own.json'], 0, 'yes\n',
              NO_VERB % ('patch', 'nodes', 'delete, get, list'))
    it.expect('who can change it', ['who-can', '--export', 'prod', 'patch', 'ns/shop', 'own.json'], 0,
              DANA + 'u:pat\tRoleBinding/shop/own\n', OWN % 'shop')
    it.expect('who can, anywhere', ['who-can', '--export', 'prod', '--anywhere', 'list', 'pods'], 0, DANA + DEVELOPERS)
    it.expect('who can, whatever the name', ['who-can', '--export', 'prod', '-n', 'shop', '--any-name', 'update', 'configmaps'], 0,
              DANA + CI_KEY + '\tRoleBinding/shop/ci-deploys\n', UNLISTED % 'type configmaps')
    it.expect('groups with commas', ['can-i', '--export', 'prod', '--as', 'x', '--group', 'shop-developers', '--group', 'a,b', '-n', 'shop', 'list', 'pods'],
              0, 'yes\n', NO_GROUP % " a,b: --groups splits at commas, and --group doesn't")


@in_each_shell
def accounts(it):
    """A service account that the export doesn't have is reported, to those who may read accounts."""
    it.run('export', 'prod')
    for asker, said in (('shop:ci', ''), ('shop:cii', NO_ACCOUNT % ('cii', 'shop')),
                        ('shpo:ci', NO_ACCOUNT % ('ci', 'shpo')),
                        ('monitoring:prometheus', ''), ('shop:c.', NO_ACCOUNT % ('c.', 'shop'))):
        for place in ([], ['--export', 'prod']):
            for option in (['--as', 'system:serviceaccount:' + asker],
                           ['--as=system:serviceaccount:' + asker]):
                it.expect('account %s %s' % (option, place),
                          ['can-i', *place, *option, '-n', 'shop', 'delete', 'pods'], 1, 'no\n',
                          said)
    it.expect('an account and a URL', ['can-i', '--as=system:serviceaccount:a:b', 'get',
                                       '/metrics'], 1, 'no\n', NO_ACCOUNT % ('b', 'a'))
    it.expect('accounts may be unknown', ['can-i', '--as', 'system:serviceaccount:shop:cii', '-n',
                                          'shop', 'delete', 'pods'], 1, 'no\n',
              NO_USER % ('system:serviceaccount:shop:cii', ''), trouble=['forbid accounts'])
    it.run('export', '-n', 'shop', 'own')
    own = ['can-i', '--export', 'own', '--as', 'system:serviceaccount:monitoring:b', 'delete',
           'pods']
    it.expect('an export of another namespace knows no accounts of it', own, 1, 'no\n',
              IMPLIED % 'shop' + NO_USER % ('system:serviceaccount:monitoring:b', ''))


CI_RULES = ''.join('RoleBinding/shop/ci-deploys\tRole/shop/deployer\tRole/shop/deployer\t%s\n' % rule
                   for rule in (
    '1\t1\t[get,list,watch,update,patch]\t[apps]\t[deployments]\t[]\t[]',
    '2\t1\t[get,update]\t[apps]\t[deployments/scale]\t[]\t[]',
    '3\t1\t[get,update]\t[-]\t[configmaps]\t[storefront]\t[]'))
VIEW_RULES = ''.join('RoleBinding/shop/developers-view\tClusterRole/shop-view\tClusterRole/%s\n' % rule
                     for rule in (
    'shop-view-logs\t1\t1\t[get]\t[-]\t[pods/log]\t[]\t[]',
    'shop-view-workloads\t1\t1\t[get,list,watch]\t[-]\t[pods,services]\t[]\t[]',
    'shop-view-workloads\t2\t1\t[get,list,watch]\t[apps]\t[deployments]\t[]\t[]'))
OWNER_RULE = ('RoleBinding/shop-staging/developers-own\tRole/shop-staging/owner\tRole/shop-staging/owner'
              '\t1\t1\t[*]\t[*]\t[*]\t[]\t[]\n')


@in_each_shell
def rules(it):
    """What somebody has, by a fresh export and by one in a folder, and what is said beside it."""
    it.at_context('shop')
    it.run('export', 'prod')
    developers = 'g:shop-developers'
    for place in ([], ['--export', 'prod']):
        for line, out, err in (
                ([CI_KEY], CI_RULES, ''), ([CI_KEY, '-n', 'shop'], CI_RULES, ''),
                ([CI_KEY, '-nmonitoring'], '', ''), (['-A', CI_KEY, '-n', 'shpo'], '', ''),
                ([CI_KEY, '--namespace=shpo'], '', NO_SPACE % 'shpo'),
                ([CI_KEY + 'i', '-n', 'shop'], '', NO_ACCOUNT % ('cii', 'shop')),
                ([developers], VIEW_RULES + OWNER_RULE, ''),
                ([developers, '-n', 'shop'], VIEW_RULES, ''), ([developers, '-A'], '', ''),
                (['u:kim@example.com'], '', NO_USER % ('kim@example.com', NO_GROUPS)),
                (['--groups', 'shop-developers', 'u:kim@example.com'], VIEW_RULES + OWNER_RULE, ''),
                (['--groups', 'shop-developers', '-n', 'shop', '--', 'u:kim@example.com'],
                 VIEW_RULES, '')):
            it.expect('rules %s %s' % (line, place), ['rules', *place, *line], 0, out, err)
        it.expect('holders, and why %s' % place,
                  ['who-can', *place, '-n', 'shop', '--why', 'update', 'deploy'], 0,
                  DANA.rstrip('\n') + '\tClusterRole/cluster-admin\tClusterRole/cluster-admin\t1\t1\n'
                  'u:system:serviceaccount:shop:ci\tRoleBinding/shop/ci-deploys\tRole/shop/deployer'
                  '\tRole/shop/deployer\t1\t1\n')
    for line, calls in (([developers], 2), ([developers, '-n', 'shop'], 3), ([CI_KEY], 4),
                        ([CI_KEY, '-n', 'shop'], 5), ([CI_KEY, '-A', '-n', 'shop'], 4)):    # (of a user, also whether there are groups)
        it.lines('calls')
        it.run('rules', *line)
        got = it.lines('calls')
        it.checked('rules %s reads no more than it needs' % line, len(got) == calls, got)
    it.write('[]', 'bad.json')
    it.expect('a bad FILE of rules', ['rules', developers, 'bad.json', '--export', 'prod'], 2, '',
              'rbacaudit: file 1: M2 not an object\nkubectl-rbacaudit: file 1 is bad.json\n')
    os.remove(os.path.join(it.work, 'prod', 'api-v1.json'))
    it.expect('rules read no API lists', ['rules', developers, '-n', 'shop', '--export', 'prod'], 0,
              VIEW_RULES)


# What the developers, the admin and the CI account of the example have: a RoleBinding doesn't give what only a ClusterRoleBinding gives, nor bootstrap
# outside kube-system.
STEPS = 'impersonate token run exec secrets nodes bind escalate certificates webhooks apiservices bootstrap volumes namespaces'.split()
OF_CLUSTER = 'nodes certificates webhooks apiservices bootstrap volumes'.split()
OF_DEVELOPERS = 'g:shop-developers\tshop-staging\tRoleBinding/shop-staging/developers-own\tRole/shop-staging/owner\tRole/shop-staging/owner\t1\t1\n'
OF_DANA = 'u:dana@example.com\t*\tClusterRoleBinding/admins\tClusterRole/cluster-admin\tClusterRole/cluster-admin\t1\t1\n'
OF_CI = CI_KEY + '\tshop\tRoleBinding/shop/ci-deploys\tRole/shop/deployer\tRole/shop/deployer\t1\t1\n'
POWERS = ''.join('%s\t%s' % (step, line) for step in STEPS for line in (OF_DEVELOPERS, OF_DANA, OF_CI)
                 if line == OF_DANA or step == 'run' or (line == OF_DEVELOPERS and step not in OF_CLUSTER))
POWERS_WIDE = '''\
STEP  WHO                              WHERE         BINDING                                  ROLE                       SOURCE                     RULE  SUBJECT
run   g:shop-developers                shop-staging  RoleBinding/shop-staging/developers-own  Role/shop-staging/owner    Role/shop-staging/owner    1     1
run   u:dana@example.com               *             ClusterRoleBinding/admins                ClusterRole/cluster-admin  ClusterRole/cluster-admin  1     1
run   u:system:serviceaccount:shop:ci  shop          RoleBinding/shop/ci-deploys              Role/shop/deployer         Role/shop/deployer         1     1
'''


@in_each_shell
def powers(it):
    """Who can act as others, by a fresh export and by one in a folder, in each format, and what is said beside it."""
    it.run('export', 'prod')
    it.lines('calls')
    for place in ([], ['--export', 'prod'], ['--partial', '--export=prod']):
        it.expect('powers %s' % place, ['powers', *place], 0, POWERS)
    got = it.lines('calls')
    it.checked('powers read roles and bindings alone', len(got) == 2, got)
    # (cut down to one step, so that the table stays small)
    cluster, namespaced = served()['cluster'], served()['namespaced']
    for item in cluster['items'] + namespaced['items']:
        if item['metadata']['name'] in ('cluster-admin', 'owner'):
            item['rules'] = [{'verbs': ['create'], 'apiGroups': ['batch'], 'resources': ['jobs']}]
    it.serve({'cluster': cluster, 'namespaced': namespaced})
    it.run('export', 'run')
    for words_, wanted in ((['-o', 'wide'], POWERS_WIDE), (['--output=table', '--color', 'always'], POWERS_WIDE),
                           (['-oname'], 'g:shop-developers\nu:dana@example.com\n%s\n' % CI_KEY)):
        it.expect('powers %s' % words_, ['powers', '--export', 'run', *words_], 0, wanted)
    status, out, err = got = it.run('powers', '--export', 'run', '-o', 'json')
    keys = 'step who where binding role source rule subject'.split()
    it.checked('powers as JSON', (status, err) == (0, '') and [json.loads(line) for line in out.splitlines()][1] == dict(zip(keys, (
        'run', 'u:dana@example.com', None, 'ClusterRoleBinding/admins', 'ClusterRole/cluster-admin', 'ClusterRole/cluster-admin', 1, 1))), got)
    it.write(json.dumps({'apiVersion': V1, 'kind': 'ClusterRoleBinding', 'metadata': {'name': 'eve'}, 'roleRef': {'kind': 'ClusterRole', 'name': 'cluster-admin'},
                         'subjects': [{'kind': 'User', 'name': 'eve'}]}), 'eve.json')
    eve = 'run\tu:eve\t*\tClusterRoleBinding/eve\tClusterRole/cluster-admin\tClusterRole/cluster-admin\t1\t1\n'
    it.expect('powers with a FILE', ['powers', 'eve.json', '--export', 'run'], 0, 'run\t' + OF_DEVELOPERS + 'run\t' + OF_DANA + eve + 'run\t' + OF_CI)
    it.write('[]', 'bad.json')
    it.expect('a bad FILE of powers', ['powers', 'bad.json', '--export', 'prod'], 2, '',
              'rbacaudit: file 1: M2 not an object\nkubectl-rbacaudit: file 1 is bad.json\n')
    os.remove(os.path.join(it.work, 'prod', 'namespaced.json'))
    missing = 'kubectl-rbacaudit: there is no namespaced.json in prod\n'
    it.expect('powers without a part', ['powers', '--export', 'prod'], 2, '', missing + REFUSAL)
    it.expect('powers without a part, --partial', ['powers', '--export', 'prod', '--partial'], 0,
              ''.join('%s\t%s' % (step, OF_DANA) for step in STEPS), missing + CAUTION)


ALONE = 'kubectl-rbacaudit: the export has the namespace shop alone'


@in_each_shell
def alone(it):
    """An export of one namespace answers about it and the cluster, and with --partial about others."""
    it.at_context('other')
    it.run('export', '-n', 'shop', 'own')
    who = ['who-can', '--export', 'own']
    it.expect('about its namespace', [*who, '-n', 'shop', 'list', 'pods'], 0, DANA + DEVELOPERS)
    it.expect('without -n too', [*who, 'list', 'pods'], 0, DANA + DEVELOPERS, IMPLIED % 'shop')
    it.expect('about the cluster', [*who, '-A', 'list', 'pods'], 0, DANA)
    it.expect('about another', [*who, '-n', 'monitoring', 'list', 'pods'], 2, '',
              ALONE + '\n' + REFUSAL)
    it.expect('about another, --partial', [*who, '-n', 'monitoring', '--partial', 'list', 'pods'],
              0, DANA,
              ALONE + '\n' + CAUTION + NO_SPACE % 'monitoring')
    who = ['who-can', '--indirect', '--export', 'own']
    for place in (['-n', 'shop'], ['-A']):
        status, out, err = got = it.run(*who, *place, 'list', 'pods')
        it.checked('who comes to it, %s' % place, status == 0 and out.startswith('0\t') and err == ALONE + ', and this answer knows no other\n', got)
    it.expect('who comes to another', [*who, '-n', 'monitoring', 'list', 'pods'], 2, '', ALONE + '\n' + REFUSAL)
    group = ['rules', '--export', 'own', 'g:shop-developers']
    it.expect('rules in its namespace', [*group, '-n', 'shop'], 0, VIEW_RULES)
    it.expect('rules in the whole cluster', [*group, '-A', '-n', 'monitoring'], 0)
    it.expect('rules anywhere', group, 0, VIEW_RULES, ALONE + ', and this answer knows no other\n')
    it.expect('rules in another', [*group, '-n', 'monitoring'], 2, '', ALONE + '\n' + REFUSAL)
    for line in (['lint'], ['matrix', '--limit', '1'], ['powers'], ['paths', 'u:dana@example.com']):
        status, out, err = got = it.run(*line, '--export', 'own')
        it.checked('%s of it' % line[0], status < 2 and out
                   and err == ALONE + ', and this answer knows no other\n', got)


@in_each_shell
def idle_groups(it):
    """A dead API group refuses a question only if the type may be one of its own."""
    metrics, core = 'down api-metrics.k8s.io-v1beta1', 'down api-v1'
    for number, (trouble, words_, answers) in enumerate([
            (metrics, ['list', 'pods'], True), (metrics, ['list', 'po/x'], True),
        (metrics, ['get', 'pods', '--subresource', 'log'], True),
            (metrics, ['list', 'deployments.apps'], True), (metrics, ['get', '/metrics'], True),
        (metrics, ['list', 'pods.'], True),
            (metrics, ['list', 'deploy'], False), (metrics, ['list', 'pods.metrics.k8s.io'], False),
        (metrics, ['list', 'secert'], False),
            (core, ['list', 'pods'], False), (core, ['list', 'pods.'], False),
        (core, ['list', 'deployments.apps'], True)]):
        folder = 'prod%d' % number
        it.run('export', folder, trouble=[trouble])
        for place in ([], ['--export', folder]):
            status, out, err = got = it.run('who-can', '-n', 'shop', *place, *words_,
                                            trouble=[trouble])
            wanted = (0, True, False) if answers else (2, False, True)
            it.checked('%s: %s %s' % (trouble, words_, place),
                       (status, DANA in out, REFUSAL in err) == wanted, got)
        it.checked('an export of it says nothing', not answers
                   or err in (URL_SCOPED if words_[1] == '/metrics' else '', UNLISTED % ('type ' + words_[1])), err)
        for line in (['matrix', 'u.json'], ['universe']):
            it.write(json.dumps({'apiVersion': 'rbacaudit/v1', 'kind': 'Universe', 'names': ['']}),
                     'u.json')
            status, out, err = got = it.run(*line, '--export', folder)
            it.checked('%s needs all lists' % line[0], (status, out) == (2, '')
                       and err.endswith(REFUSAL), got)


def stale_roles():
    """Two roles that select each other and have a rule whose own role is gone; one that nobody uses."""
    def aggregated(name, selects):
        return {'apiVersion': V1, 'kind': 'ClusterRole',
                'metadata': {'name': name, 'labels': {'is': name}},
                'aggregationRule': {'clusterRoleSelectors': [{'matchLabels': {'is': selects}}]},
                'rules': [{'verbs': ['delete'], 'apiGroups': [''], 'resources': ['pods']}]}

    def plain(name, verb):
        return {'apiVersion': V1, 'kind': 'ClusterRole',
                'metadata': {'name': name, 'labels': {'is': name}},
                'rules': [{'verbs': [verb], 'apiGroups': [''], 'resources': ['pods']}]}

    def bound(name, user):
        return {'apiVersion': V1, 'kind': 'ClusterRoleBinding', 'metadata': {'name': name},
                'roleRef': {'kind': 'ClusterRole', 'name': name},
                'subjects': [{'kind': 'User', 'name': user}]}

    return of_kinds([aggregated('a', 'b'), aggregated('b', 'a'), aggregated('unused', 'none'),
                     aggregated('late', 'new'), plain('new', 'watch'),
                     plain('plain', 'list'), bound('a', 'kim'), bound('plain', 'lee'),
                     bound('late', 'max')],
                    'ClusterRole', 'ClusterRoleBinding')


STALE = ('kubectl-rbacaudit: the cluster %s now, because of stale aggregates (L6 of lint): '
         'ClusterRole/a, ClusterRole/b, ClusterRole/late\n')


@in_each_shell
def stale_aggregates(it):
    """Stale aggregates are reported once, where what is written in them would change the answer."""
    it.serve({'cluster': stale_roles()})
    it.run('export', 'prod')
    for place in ([], ['--export', 'prod']):
        it.expect('the cluster says yes %s' % place,
                  ['can-i', *place, '--as', 'kim', '-n', 'shop', 'delete', 'pods'], 1, 'no\n',
                  STALE % 'answers yes')
        it.expect('the cluster says no %s' % place,
                  ['can-i', *place, '--as', 'max', '-A', '--why', 'watch', 'pods'], 0,
                  'yes\nClusterRoleBinding/late\tClusterRole/late\tClusterRole/new\t1\t1\n',
                  NO_VERB % ('watch', 'pods', 'delete, get, list') + STALE % 'answers no')
        it.expect('both say no %s' % place, ['can-i', *place, '--as', 'lee', '-n', 'shop', 'delete',
                                             'pods'], 1, 'no\n')
        it.expect('both say yes %s' % place, ['can-i', *place, '--as', 'lee', '-n', 'shop', 'list',
                                              'pods'], 0, 'yes\n')
        it.expect('more holders %s' % place, ['who-can', *place, '-A', 'delete', 'pods'], 0, '',
                  STALE % 'has other holders')
        it.expect('fewer holders %s' % place, ['who-can', *place, '-A', 'watch', 'pods'], 0,
                  'u:max\tClusterRoleBinding/late\n',
                  NO_VERB % ('watch', 'pods', 'delete, get, list') + STALE % 'has other holders')
        it.expect('the same holders %s' % place, ['who-can', *place, '-A', 'list', 'pods'], 0,
                  'u:lee\tClusterRoleBinding/plain\n')
        it.expect('more rules %s' % place, ['rules', *place, 'u:kim'], 0, '', STALE % 'has other rules')
        it.expect('fewer rules %s' % place, ['rules', *place, 'u:max', '-A'], 0,
                  'ClusterRoleBinding/late\tClusterRole/late\tClusterRole/new\t1\t1\t[watch]\t[-]'
                  '\t[pods]\t[]\t[]\n', STALE % 'has other rules')
        it.expect('the same rules %s' % place, ['rules', *place, 'u:lee', '-n', 'shop'], 0,
                  'ClusterRoleBinding/plain\tClusterRole/plain\tClusterRole/plain\t1\t1\t[list]\t[-]'
                  '\t[pods]\t[]\t[]\n')
        status, out, err = got = it.run('matrix', *place)
        it.checked('a matrix %s' % place, status == 0 and out.endswith('\nend\n') and err == (
            'kubectl-rbacaudit: stale aggregates (L6 of lint): ClusterRole/a, ClusterRole/b, '
            'ClusterRole/late; the cluster grants what is written in them, and this matrix has what they gather\n'), got)
        status, out, err = got = it.run('lint', *place)
        it.checked('lint has its own lines %s' % place,
                   (status, err, out.count('\nL6\t')) == (1, '', 4), got)


def stale_with(written, gathered):
    """An aggregated role in use with a rule that isn't the one that it gathers, each with a verb on secrets."""
    def rules(verb):
        return [{'verbs': [verb], 'apiGroups': [''], 'resources': ['secrets']}]

    return of_kinds([
        {'apiVersion': V1, 'kind': 'ClusterRole', 'metadata': {'name': 'a'}, 'rules': rules(written),
         'aggregationRule': {'clusterRoleSelectors': [{'matchLabels': {'is': 'part'}}]}},
        {'apiVersion': V1, 'kind': 'ClusterRole', 'metadata': {'name': 'part', 'labels': {'is': 'part'}}, 'rules': rules(gathered)},
        {'apiVersion': V1, 'kind': 'ClusterRoleBinding', 'metadata': {'name': 'b'}, 'roleRef': {'kind': 'ClusterRole', 'name': 'a'},
         'subjects': [{'kind': 'User', 'name': 'kim'}]}], 'ClusterRole', 'ClusterRoleBinding')


@in_each_shell
def stale_powers(it):
    """A stale aggregate is reported where the cluster gives other powers: neither by another rule, nor by nothing."""
    line = 'secrets\tu:kim\t*\tClusterRoleBinding/b\tClusterRole/a\tClusterRole/part\t1\t1\n'
    said = ('kubectl-rbacaudit: the cluster has other powers now, because of stale aggregates (L6 of lint): ClusterRole/a\n')
    for written, gathered, out, err in (('get', 'use', '', said), ('use', 'get', line, said), ('list', 'delete', line, ''), ('approve', 'use', '', '')):
        it.serve({'cluster': stale_with(written, gathered), 'namespaced': of_kinds([])})
        it.run('export', '--force', 'prod')
        for place in ([], ['--export', 'prod']):
            it.expect('powers of a stale aggregate: %s, %s %s' % (written, gathered, place), ['powers', *place], 0, out, err)


@in_each_shell
def words(it):
    """Words that rbacaudit refuses end before a call to a cluster; what looks like an option may be a value."""
    for line, said in ((['can-i', 'get', 'pods'], '--as'), (['can-i', *KIM, 'list'], '<TARGET>'), (['who-can', 'get'], '<TARGET>'),
                       (['can-i', *KIM, '--wy', 'list', 'pods'], '--wy'), (['matrix', '--limit', '0'], '--limit'),
                       (['rules'], '<WHO>'), (['rules', 'kim'], 'U5 bad principal'), (['rules', 'u:'], 'U5 bad principal'),
                       (['rules', 'g:dev', '--groups', 'x'], 'U5 bad principal'), (['rules', '-q', 'u:kim'], '-q'), (['powers', '--why'], '--why'), (['powers', '-n', 'shop'], '-n'),
                       (['paths'], '<WHO>'), (['paths', 'kim'], 'U5 bad principal'), (['paths', 'g:dev', '--group', 'x'], 'U5 bad principal'),
                       (['paths', '--steps', 'walk', 'u:kim'], 'rbacaudit: U8 steps are %s\n' % ', '.join(STEPS)), (['paths', '--steps=', 'u:kim'], 'U8 '),
                       (['paths', 'u:kim', '--steps', 'run,', 'a.json'], 'U8 '), (['paths', 'u:kim', '--steps'], '--steps'),
                       (['paths', '-n', 'shop', 'u:kim'], 'U10 --to takes u:USER'), (['paths', '--to', 'kim', 'u:kim'], 'U10 '), (['paths', 'u:kim', '--to'], '--to'),
                       (['paths', '--to', 'Role/shop/a', '-nprod', 'u:kim'], 'U10 '), (['rules', '--to', '*', 'u:kim'], '--to'),
                       (['paths', '-A', 'u:kim'], '-A'), (['paths', '--why', 'u:kim'], '--why'),
                       (['paths', '-q', 'u:kim'], '-q'), (['paths', '--export', 'x', 'u:kim'], 'there is no folder x'),
                       *((['who-can', '--indirect', *more, 'get', 'pods'], said) for more, said in (
                           (['--why'], 'U9 '), (['--every'], 'U9 '), (['--members'], 'U9 '), (['--any-name'], 'U9 '), (['--anywhere'], 'U9 '), (['--steps', 'run,'], 'U8 '),
                           (['--steps', 'walk'], 'rbacaudit: U8 steps are %s\n' % ', '.join(STEPS)), (['--indirect'], '--indirect'), (['-q'], '-q'),
                           (['--as', 'kim'], '--as'), (['--export', 'x'], 'there is no folder x'))),
                       (['who-can', '--steps', 'run', 'get', 'pods'], 'U9 '), (['who-can', '--indirect', 'get'], '<TARGET>'), (['paths', '--indirect', 'u:kim'], '--indirect'),
                       (['matrix', '--after', 'x'], 'U4 bad token'), (['can-i', '--as', '', 'get', 'pods'], 'U2 empty word'),
                       (['lint', '--only', ''], 'U6 bad code'), (['lint', '--only', 'L6,', 'a.json'], 'U6 bad code'), (['lint', '--only'], '--only'),
                       (['can-i', '--as', '--partial', 'get', 'pods'], '--as'), (['lint', '--limit', '1'], '--limit'),
                       (['lint', '--export'], '--export needs a value'), (['lint', '--export='], '--export needs a value'),
                       (['lint', '--export', ''], '--export needs a value'), (['lint', '--context', ''], '--context needs a value'),
                       (['lint', '--export', '--partial'], '--export needs a value'),
                       (['unused', '--log', '-x'], '--log needs a value; if -x is the value, write --log=-x'),
                       (['lint', '--export', 'x', '--export=y'], '--export is given twice'),
                       (['lint', '--context', 'x', '--context', 'y'], '--context is given twice'),
                       (['lint', '--kubeconfig=x', '--kubeconfig', 'y'], '--kubeconfig is given twice'),
                       (['lint', '--export', 'x', '--context', 'y'], 'an export answers without a cluster'),
                       (['lint', '--export', 'x'], 'there is no folder x'), (['universe', 'x'], 'universe has no x'),
                       (['who-knows'], 'there is no command who-knows'), ([], 'a command is missing')):
        status, out, err = got = it.run(*line)
        it.checked('refused: %s' % ' '.join(line), (status, out) == (2, '') and said in err, got)
    it.checked('no line was refused after a call', not it.lines('calls'), 'a call')
    # (those of diff and unused that take a value are the plugin's own, and least looks for a log first)
    dashed = [([command, name], name, '-x') for command in commands() if command not in ('diff', 'unused', 'least')
              for names, (value, _) in options(command).items() if value for name in names]
    for line, name, value in [*dashed, (['who-can', '-A', '-n'], '-n', '--partial'),
                              (['can-i', '--as=kim', '-qAn'], '-n', '-x')]:
        status, out, err = got = it.run(*line, value, 'get', 'pods')
        it.checked('a value with a dash: %s' % ' '.join(line), (status, out) == (2, '')
                   and err.endswith('kubectl-rbacaudit: if %s is the value of %s, write %s=%s\n'
                                    % (value, name, name, value)), got)
    it.run('export', 'prod')
    it.expect('a value with a dash', ['can-i', '--as=-kim', '-n=-x', '--export', 'prod', 'get',
                                      'pods'], 1, 'no\n', NO_SPACE % '-x' + NO_USER % ('-kim', NO_GROUPS))
    it.run('export', './-x')
    it.expect('a folder that looks like an option', ['can-i', '--export=-x', *KIM, 'list', 'pods'], 0, 'yes\n')
    it.expect('a user that looks like a command',
              ['can-i', '--export', 'prod', '--as', 'export', 'list', 'pods'], 1, 'no\n',
              IMPLIED % 'default' + NO_USER % ('export', NO_GROUPS))
    it.expect('an option after -- is a word', ['can-i', '--export', 'prod', *KIM, '--', 'list', 'pods', '--export'], 2, '',
              'rbacaudit: file 1: I1 read fault\nkubectl-rbacaudit: file 1 is --export\nkubectl-rbacaudit: there is no --export\n')


def a_role(name, **fields):
    return {'metadata': {'labels': {'name': 'wrong'}, 'name': name, 'namespace': 'shop'}, **fields}


# Faults of an item: the list that has it, and what is said of it. Other names are no names.
NAMED_FAULTS = [
    ('a typed list',
     {'items': [a_role('a', rules=[]), a_role('b "q', rules=[{'metadata': {'name': 'no'}}])],
                      'apiVersion': V1, 'kind': 'RoleList'},
     ('2: M5 bad rule 1', '2 of it is Role shop/b \\"q')),
    ('a list of any kinds',
     {'apiVersion': 'v1', 'kind': 'List', 'metadata': {'name': 'no'}, 'items': [
        a_role('a', apiVersion=V1, kind='Role'),
         {'apiVersion': V1, 'kind': 'ClusterRole', 'rules': {}, 'metadata': {'name': 'c'}}]},
     ('2: M5 bad rule 1', '2 of it is ClusterRole c'))]


@in_each_shell
def files(it):
    """Files that the user names stand before those of the export; a matrix reads all, a fault's file is named."""
    it.run('export', 'prod')
    with open(os.path.join(TOP, 'examples', 'shop-universe.json'), encoding='utf-8') as file:
        it.write(file.read(), 'my universe.json')
    whole = subprocess.run([PROGRAM, 'matrix', 'my universe.json'] + [os.path.join('prod', name)
                                                                      for name in READ],
                           cwd=it.work,
                           stdout=subprocess.PIPE, timeout=60, check=True).stdout.decode()
    it.checked('the matrix has rows', whole.count('\n') > 5 and whole.endswith('\nend\n'), whole)
    it.expect('a matrix of all files', ['matrix', 'my universe.json', '--export', 'prod'], 0, whole)
    it.expect('a matrix of a fresh export', ['matrix', 'my universe.json'], 0, whole)
    page = it.run('matrix', '--export', 'prod', '--limit', '2', 'my universe.json')[1]
    it.checked('a page', page.startswith(''.join(whole.splitlines(True)[:2])) and '\nnext\t' in page, page)
    it.expect('the page after it', ['matrix', 'my universe.json', '--after', page.split('\t')[-1][:-1], '--export', 'prod'], 0,
              ''.join(whole.splitlines(True)[2:]))
    it.write(json.dumps({'apiVersion': V1, 'kind': 'Role', 'metadata': {}}), 'bad.json')
    bad = 'rbacaudit: file %d: M4 bad metadata\nkubectl-rbacaudit: file %d is %s\n'
    it.expect('a bad file among others', ['matrix', 'my universe.json', '--limit', '5', 'bad.json', '--export', 'prod'], 2, '',
              bad % (2, 2, 'bad.json'))
    it.expect('a bad file of a question', ['can-i', *KIM, 'list', 'pods', 'bad.json', '--export', 'prod'], 2, '', bad % (1, 1, 'bad.json'))
    it.write(json.dumps({'apiVersion': 'v1', 'kind': 'List', 'items': [{'apiVersion': V1, 'kind': 'Role'}]}), 'prod', 'namespaced.json')
    it.expect('a bad file of the export', ['lint', '--export', 'prod', 'my universe.json'], 2, '',
              'rbacaudit: file 3 item 1: M4 bad metadata\nkubectl-rbacaudit: file 3 is prod/namespaced.json\n')
    it.write(json.dumps({'apiVersion': V1, 'kind': 'Role',
                         'metadata': {'name': 'x', 'namespace': 's'}, 'rules': 5}), 'bad.json')
    it.expect('a bad document with a name', ['lint', '--export', 'prod', 'bad.json'], 2, '',
              'rbacaudit: file 1: M5 bad rule 1\nkubectl-rbacaudit: file 1 is bad.json, Role s/x\n')
    for name, fields, said in NAMED_FAULTS:
        it.write(json.dumps(fields), 'prod', 'namespaced.json')
        it.expect('the object of a fault: ' + name, ['lint', '--export', 'prod'], 2, '',
                  'rbacaudit: file 2 item %s\n'
                  'kubectl-rbacaudit: file 2 is prod/namespaced.json; item %s\n' % said)
    it.write('', 'prod', 'api-v1.json')
    status, out, err = got = it.run('can-i', *KIM, 'list', 'pods', '--export', 'prod')
    it.checked('a bad API list', (status, out) == (2, '') and err.endswith(' is prod/api-v1.json\n'), got)
    it.serve({'accounts': {'apiVersion': 'v1', 'kind': 'List', 'items': [5]}})
    it.expect('a bad file of a fresh export', ['matrix'], 2, '', 'rbacaudit: file 4 item 1: M2 not an object\nkubectl-rbacaudit: '
              'file 4 is accounts.json of the fresh export; kubectl rbacaudit export DIR would keep it\n')


# Universe documents that say something else than was meant, and what is said of them.
NO_FIELD = 'kubectl-rbacaudit: u.json: %s has no field %s, so it is ignored\n'
NO_UNIVERSE = ('kubectl-rbacaudit: u.json: a document of the version %s and the kind %s is ignored: '
               'a Universe document has rbacaudit/v1 and Universe\n')
UNIVERSE_FAULTS = [
    ({'namespace': ['shop'], 'names': ['"names": ["x"]', 'verb']},
     NO_FIELD % ('a Universe document', 'namespace')),
    ({'principals': [{'user': 'kim', 'group ': ['x']}, {'user': 'lee'}]},
     NO_FIELD % ('an item of principals', 'group ')),
    ({'resources': [{'resource': 'pods', 'namspaced': False}] * 2},
     NO_FIELD % ('an item of resources', 'namspaced')),
    ({'kind': 'Universes'}, NO_UNIVERSE % ('rbacaudit/v1', 'Universes')),
    ({'apiVersion': 'v1'}, NO_UNIVERSE % ('v1', 'Universe')),
    ({'apiVersion': 'rbacaudit/v2'}, NO_UNIVERSE % ('rbacaudit/v2', 'Universe')),
    ({'metadata': {'name': 'u', 'x': 'y'},
      'principals': [{'user': 'kim', 'groups': ['verb', 'items']}, {'group': 'g'}], 'verbs': [],
      'namespaces': [''], 'resources': [{'group': '', 'resource': 'pods', 'namespaced': True}],
      'urls': ['/x']}, '')]


@in_each_shell
def universe_faults(it):
    """A Universe document's mistyped field, kind or version is reported, alone and in a list."""
    it.run('export', 'prod')
    for fields, said in UNIVERSE_FAULTS:
        universe = {'apiVersion': 'rbacaudit/v1', 'kind': 'Universe', **fields}
        listed = {'apiVersion': 'v1', 'kind': 'List',
                  'items': [universe, {'apiVersion': 'v1', 'kind': 'Pod', 'verb': 'Universe'}]}
        for value in (universe, listed, dict(reversed(listed.items()))):
            for indent in (None, 2):
                it.write(json.dumps(value, indent=indent), 'u.json')
                status, out, err = got = it.run('matrix', '--limit', '1', '--export', 'prod',
                                                'u.json')
                it.checked('universe %s' % json.dumps(value), (status, err) == (0, said) and out,
                           got)
    it.write('{"kind": "Universe", "x', 'u.json')
    it.expect('no JSON', ['matrix', '--export', 'prod', 'u.json'], 2, '',
              'rbacaudit: file 1: M1 not JSON\nkubectl-rbacaudit: file 1 is u.json\n')
    it.lines('calls')
    it.write(json.dumps({'apiVersion': 'rbacaudit/v1', 'kind': 'Universe', 'verb': []}), 'a=b')
    status, out, err = got = it.run('matrix', 'a=b', trouble=['down apis'])
    it.checked('it is said before the cluster is read', (status, out) == (2, '')
               and err.startswith('kubectl-rbacaudit: a=b: '), got)


UPDATE = ['can-i', *CI, 'update', 'deployments.apps']
DOWN = ['down api-apps-v1']


@in_each_shell
def parts(it):
    """A fresh export with a part missing answers with --partial alone, and says so."""
    down = "Warning: old\nError from server (ServiceUnavailable): try later\n" \
           "kubectl-rbacaudit: api-apps-v1.json can't be read: kubectl get --raw /apis/apps/v1 ended with status 1\n"
    it.expect('a group is down', UPDATE, 2, '', down + REFUSAL, trouble=DOWN)
    it.expect('a group is down, --partial', [*UPDATE, '--partial'], 0, 'yes\n',
              down + CAUTION + UNLISTED % 'type deployments.apps', trouble=DOWN)
    it.expect('a universe of what isn\'t whole', ['universe'], 2, '', down + REFUSAL, trouble=DOWN)
    it.expect('what lint doesn\'t read may be down', ['lint'], 1, FINDINGS, trouble=DOWN)
    it.expect('accounts matter to a matrix alone', UPDATE, 0, 'yes\n', trouble=['forbid accounts'])
    status, out, err = got = it.run('matrix', trouble=['forbid accounts'])
    it.checked('and there they matter', (status, out) == (2, '') and err.endswith(REFUSAL), got)
    status, out, err = got = it.run(*UPDATE, '--partial', trouble=['forbid cluster', 'forbid namespaced'])
    it.checked('without roles nothing answers', (status, out) == (2, '') and 'nothing can be answered' in err, got)


@in_each_shell
def gaps(it):
    """The same of an export in a folder, by what is noted and by what is there."""
    it.run('export', 'prod', trouble=DOWN)
    noted = 'kubectl-rbacaudit: ' + it.read('prod', 'incomplete.txt')
    it.expect('an export that lacks a group', [*UPDATE, '--export', 'prod'], 2, '', noted + REFUSAL)
    it.expect('an export that lacks a group, --partial', [*UPDATE, '--partial', '--export', 'prod'],
              0, 'yes\n',
              noted + CAUTION + UNLISTED % 'type deployments.apps')
    it.write(json.dumps(served()['api-apps-v1']), 'prod', 'api-apps-v1.json')
    it.expect('a group that was fetched by hand', [*UPDATE, '--export', 'prod'], 0, 'yes\n')
    os.remove(os.path.join(it.work, 'prod', 'api-apps-v1.json'))
    it.expect('an export that lacks what lint doesn\'t read', ['lint', '--export', 'prod'], 1, FINDINGS)
    for noted, said in (('export: it was interrupted\n', 'export: it was interrupted'), ('export: cut', 'export: cut'),
                        ('export: \x1b[2J\x07\x7f\u00e9\n', 'export: ?[2J??\u00e9')):
        it.write(noted, 'prod', 'incomplete.txt')
        it.expect('an export that says %r' % noted, ['lint', '--export', 'prod'], 2, '', 'kubectl-rbacaudit: %s\n' % said + REFUSAL)
    os.remove(os.path.join(it.work, 'prod', 'incomplete.txt'))
    os.mkfifo(os.path.join(it.work, 'prod', 'incomplete.txt'))
    it.expect('a pipe in place of what is noted', ['lint', '--export', 'prod'], 2, '',
              "kubectl-rbacaudit: can't read prod/incomplete.txt\n")
    os.remove(os.path.join(it.work, 'prod', 'incomplete.txt'))
    it.run('export', '--force', 'prod')
    os.remove(os.path.join(it.work, 'prod', 'cluster.json'))
    missing = 'kubectl-rbacaudit: there is no cluster.json in prod\n'
    it.expect('a file that is gone', [*UPDATE, '--export', 'prod'], 2, '', missing + REFUSAL)
    it.expect('a file that is gone, --partial', [*UPDATE, '--export', 'prod', '--partial'], 0, 'yes\n', missing + CAUTION)
    for name in it.files('prod'):
        if name.startswith('api-'):
            os.remove(os.path.join(it.work, 'prod', name))
    missing += 'kubectl-rbacaudit: there is no api-*.json in prod\n'
    it.expect('no API lists', [*UPDATE, '--export', 'prod'], 2, '', missing + REFUSAL)
    it.expect('no API lists, --partial', [*UPDATE, '--export', 'prod', '--partial'], 0, 'yes\n', missing + CAUTION +
              'kubectl-rbacaudit: the export has no API resource lists, so the type deployments.apps is taken as written\n')
    it.expect('no API lists know no subresource', [*UPDATE, '--subresource', 'exce', '--export', 'prod', '--partial'], 1, 'no\n', missing +
              CAUTION + 'kubectl-rbacaudit: the export has no API resource lists, so the type deployments.apps is taken as written\n')
    it.run('export', 'part', trouble=['forbid cluster'])
    missing = 'kubectl-rbacaudit: there is no cluster.json in part: kubectl get clusterroles.%s,' \
              'clusterrolebindings.%s -o json ended with status 1: Error from server (Forbidden): ' \
              'cluster is? forbidden sorry\n' % (RBAC, RBAC)
    it.expect('a part that may not be read', [*UPDATE, '--export', 'part'], 2, '',
              missing + REFUSAL)
    it.expect('a part that may not be read, --partial', [*UPDATE, '--partial', '--export', 'part'],
              0, 'yes\n', missing + CAUTION)
    os.remove(os.path.join(it.work, 'prod', 'namespaced.json'))
    status, out, err = got = it.run(*UPDATE, '--partial', '--export', 'prod')
    it.checked('an export without roles never answers', (status, out) == (2, '') and 'nothing can be answered' in err, got)


def dana_alone(it, name, words_, said=''):
    """One check of a question that names no namespace with bindings: its answer, and what is reported before it."""
    it.expect(name, ['who-can', '--export', 'prod', '-n', 'monitoring', *words_], 0,
              'u:dana@example.com\tClusterRoleBinding/admins\n', said)


# A type that one version has as cluster-scoped and another as namespaced, and a type called as the word for all.
BOTH_WAYS = [{'kind': 'APIResourceList', 'apiVersion': 'v1', 'groupVersion': version, 'resources': [
    {'name': name, 'singularName': '', 'namespaced': namespaced, 'verbs': ['get']}]} for version, name, namespaced in (
        ('both.example.com/v1', 'both', True), ('both.example.com/v2', 'both', False), ('v1', '*', False))]


@in_each_shell
def types(it):
    """A type that the API lists don't have is reported, and the question answered; a label or another text is no type."""
    core = served()['api-v1']
    core['resources'].append({'name': 'services', 'singularName': 'fooled', 'namespaced': True, 'verbs': ['"widgets"'], 'shortNames': ['svc', '']})
    it.serve({'api-v1': core})
    it.run('export', 'prod')
    for type_ in ('pods', 'pod', 'po', 'po/web', 'deployments', 'deploy', 'deploy.apps', 'deployment.apps/web', 'role', 'svc', 'fooled', 'pods.'):
        dana_alone(it, 'known: ' + type_, ['*', type_])
    dana_alone(it, 'known in the cluster', ['*', 'nodes.metrics.k8s.io'], SCOPED % ('nodes.metrics.k8s.io', ''))
    dana_alone(it, 'a URL', ['*', '/metrics'], URL_SCOPED)
    for type_ in ('secert', 'Pods', 'widgets', '"widgets"', 'deployments.app', 'pods.apps', 'po.apps', 'apps', 'v1', 'pod*', '*',
                  'deployments.v1.apps', 'a\\x2d', 'list', '-'):
        dana_alone(it, 'unknown: ' + type_, ['*', type_], UNLISTED % ('type ' + type_))
    it.write(json.dumps({'apiVersion': 'v1', 'kind': 'List', 'items': BOTH_WAYS}), 'prod', 'api-both.json')
    for type_, said in (('both', ''), ('pods', ''), ('nodes', SCOPED % ('nodes', ''))):
        dana_alone(it, 'some version of it is namespaced, or none: ' + type_, ['*', type_], said)
    it.expect('unknown: secert/x, of a fresh export', ['can-i', *KIM, 'get', 'secert/x'], 1, 'no\n', UNLISTED % 'type secert')
    it.expect('unknown: a word with a dash before it', ['can-i', '--export', 'prod', *KIM, 'get', '--', '-q'], 1, 'no\n', UNLISTED % 'type -q')


# A list of subresources alone, as there are: their type is in no list, and yet they aren't unknown.
CONSOLES = {'kind': 'APIResourceList', 'apiVersion': 'v1', 'groupVersion': 'consoles.example.com/v1', 'resources': [
    {'name': 'machines/console', 'singularName': '', 'namespaced': True, 'verbs': ['get']}]}


@in_each_shell
def subresources(it):
    """So is a subresource that the API lists don't have of a type that they have; what is no subresource is none of them."""
    it.run('export', 'prod')
    it.write(json.dumps(CONSOLES), 'prod', 'api-consoles.example.com-v1.json')
    for type_, subresource in (('pods', 'log'), ('pod', 'log'), ('po/web', 'log'), ('pods', ''), ('po/web', ''),
                               ('machines.consoles.example.com', 'console')):
        for given in (['--subresource', subresource], ['--subresource=' + subresource]):
            dana_alone(it, 'known: %s %s' % (type_, given), [*given, '*', type_])
    for type_, subresource, said in (
            ('pods', 'exce', 'subresource pods/exce'), ('po/web', 'exce', 'subresource po/exce'), ('pods', 'Log', 'subresource pods/Log'),
            ('pods', 'log/x', 'subresource pods/log/x'), ('pods', 'pods/log', 'subresource pods/pods/log'), ('pods', '*', 'subresource pods/*'),
            ('pods', 'odd', 'subresource pods/odd'), ('no', 'log', 'subresource no/log'), ('deploy.apps', 'log', 'subresource deploy.apps/log'),
            ('pods.metrics.k8s.io', 'log', 'subresource pods.metrics.k8s.io/log'), ('secert', 'log', 'type secert'),
            ('machines', 'console', 'type machines'), ('machines.consoles.example.com', 'log', 'type machines.consoles.example.com')):
        for given in (['--subresource', subresource, '*', type_], ['*', type_, '--subresource=' + subresource]):
            dana_alone(it, 'unknown: %s' % ' '.join(given), given, (SCOPED % ('no', '') if type_ == 'no' else '') + UNLISTED % said)
    it.expect('unknown: pods/exce of a fresh export', ['can-i', *KIM, '--subresource', 'exce', 'get', 'pods'], 1, 'no\n',
              UNLISTED % 'subresource pods/exce')
    it.expect('a name is no subresource', ['can-i', '--export', 'prod', *KIM, 'get', 'pods/exce'], 0, 'yes\n')
    named = 'kubectl-rbacaudit: %s/log is taken for an object named log: to ask about the subresource, write %s --subresource log\n'
    for type_ in ('pods', 'po'):
        dana_alone(it, 'a name that is one: %s/log' % type_, ['*', type_ + '/log'], named % (type_, type_))
    for given in (['pods/log', '--subresource', 'log'], ['pods/'], ['pods/log/x'], ['pods/x/log'], ['pods.metrics.k8s.io/log']):
        dana_alone(it, 'a name that is none: %s' % ' '.join(given), ['*', *given])
    dana_alone(it, 'a name that is none in the cluster', ['*', 'no/log'], SCOPED % ('no', ''))
    dana_alone(it, 'nor is a name of an unknown type', ['*', 'machines.consoles.example.com/console'],
               UNLISTED % 'type machines.consoles.example.com')
    it.expect('a subresource of a URL ends before', ['who-can', '--export', 'prod', '--subresource', 'exce', 'get', '/metrics'], 2, '',
              'rbacaudit: U3 subresource with a URL\n')


@in_each_shell
def universes(it):
    """A universe has the types of the API lists, and those that only rules name, each as rbacaudit takes it."""
    it.run('export', 'prod')
    resources = [('', 'nodes', False), ('', 'pods', True), ('', 'pods/log', True), ('apps', 'deployments', True),
                 ('metrics.k8s.io', 'nodes', False), ('metrics.k8s.io', 'pods', True), ('rbac.authorization.k8s.io', 'roles', True),
                 ('', '-', True), ('', 'configmaps', True), ('', 'nodes/metrics', False), ('', 'pods/odd', True), ('', 'services', True),
                 ('apps', 'deployments/scale', True), ('odd"group', ODD, True), ('odd"group', 'deployments', True)]
    wanted = {'apiVersion': 'rbacaudit/v1', 'kind': 'Universe', 'names': [''], 'resources': [
        {'group': group, 'resource': name, 'namespaced': namespaced} for group, name, namespaced in resources]}
    os.mkdir(os.path.join(it.work, 't=u'))
    for place, temporary in ((['--export', 'prod'], it.temporary), ([], it.temporary), ([], 't=u')):
        status, out, err = got = it.run('universe', *place, environment={**it.environment(), 'TMPDIR': temporary})
        it.checked('a universe %s, by way of %s' % (place, temporary), (status, err) == (0, '') and document(out) == wanted, got)
    it.write(out, 'universe.json')
    status, rows, err = got = it.run('matrix', '--export', 'prod', 'universe.json')
    row = 'u:dana@example.com\t%s\tget\t%s\t%s\t-\tClusterRoleBinding/admins\n'
    repeated, listed = repeats(rows)
    it.checked('most rows repeat the whole cluster', 2 * repeated > listed, listed)
    it.checked('matrix takes it', (status, err) == (0, REPEATED % (repeated, listed)) and rows.endswith('\nend\n'), got)
    for place in ('-', 'shop'):
        printed = 'a"b\\\\c\\x09d/é\\x7f\\\\x2d'
        it.checked('its matrix has %s in %s' % (printed, place), row % (place, 'odd"group', printed) in rows, rows)
        it.checked('and nodes/metrics in the cluster alone: %s' % place, (row % (place, '-', 'nodes/metrics') in rows) == (place == '-'), rows)
    for name in it.files('prod'):
        if name.startswith('api-'):
            os.remove(os.path.join(it.work, 'prod', name))
    status, out, err = got = it.run('universe', '--export', 'prod', '--partial')
    named = ['{"group": "", "resource": "%s", "namespaced": true}' % name in out for name in ('nodes/metrics', 'nodes')]
    it.checked('without API lists, the types of rules', status == 0 and named == [True, False], got)
    it.serve({'cluster': of_kinds([]), 'namespaced': of_kinds([]), **{name: {**value, 'resources': []} for name, value in served().items()
                                                                         if name.startswith('api-')}})
    status, out, err = got = it.run('universe')
    it.checked('a universe of nothing is a document too', status == 0 and document(out) == {**wanted, 'resources': []}, got)


CHECKS = [questions, rules, powers, namespaces, own_objects, accounts, alone, idle_groups, stale_aggregates, stale_powers, words, files,
          universe_faults, parts, gaps, types, subresources, universes]
