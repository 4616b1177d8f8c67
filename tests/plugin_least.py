"""least of the kubectl plugin: its document over logs of every kind, and what is refused. The export and the logs are those of plugin_unused.py, and the
rules are worked by hand, those for a real server's log from its events.
"""

import gzip
import json
import os
import re

from least import document_of
from plugin_room import CAUTION, REFUSAL, in_each_shell, of_kinds
from plugin_terminal import on_terminal
from plugin_unused import BAD, LOG, SERVER_LOG, begun, binding, heard, made, pack, role, rule, write

# What kim, max and a service account need of the log, with object names and without.
OF_KIM = {'': [{'apiGroups': [''], 'resources': ['nodes'], 'verbs': ['get']}, {'nonResourceURLs': ['/healthz/etcd'], 'verbs': ['get']}],
          'shop': [{'apiGroups': [''], 'resources': ['pods'], 'verbs': ['delete']}]}
NAMES_OF_KIM = {'': [{'apiGroups': [''], 'resources': ['nodes'], 'resourceNames': ['n1'], 'verbs': ['get']}, OF_KIM[''][1]],
                'shop': [{'apiGroups': [''], 'resources': ['pods'], 'resourceNames': ['a'], 'verbs': ['delete']}]}
OF_MAX = {'shop': [{'apiGroups': [''], 'resources': ['pods'], 'verbs': ['get']}, {'apiGroups': [''], 'resources': ['secrets'], 'verbs': ['list']}]}
KIM, MAX = (document_of(rules, user, 'least') for rules, user in ((OF_KIM, 'kim'), (OF_MAX, 'max')))
NOTHING = document_of({}, '', '')
EMPTY = 'kubectl-rbacaudit: the logs have no request of %s that these roles allow, so the List is empty\n'
ASK = ['least', '--export', 'prod', '--log', 'all.log']


@in_each_shell
def answers(it):
    """The worked documents; nothing that is needed; and no call but those of the export."""
    made(it)
    it.expect('a user', [*ASK, 'u:kim'], 0, KIM)
    it.expect('another user', [*ASK, 'u:max'], 0, MAX)
    it.expect('with names', [*ASK, '--names', '--name', 'ops-needs', 'u:kim'], 0, document_of(NAMES_OF_KIM, 'kim', 'ops-needs'))
    it.expect('options behind', ['least', 'u:kim', '--name=ops-needs', '--log=all.log', '--names', '--export=prod'], 0, document_of(NAMES_OF_KIM, 'kim', 'ops-needs'))
    it.expect('an option of a letter that is a name', [*ASK, '--name=-o', 'u:max'], 0, document_of(OF_MAX, 'max', '-o'))
    for who in ('lee', 'nobody', 'system:serviceaccount:shop:ci'):
        it.expect('nothing is needed: %s' % who, [*ASK, 'u:' + who], 0, NOTHING, EMPTY % who)
    items = json.loads(it.run(*ASK, 'u:kim')[1])['items']
    it.checked('objects that kubectl applies', [(item['kind'], item['metadata'].get('namespace')) for item in items] == [
        ('ClusterRole', None), ('ClusterRoleBinding', None), ('Role', 'shop'), ('RoleBinding', 'shop')] and all(item['apiVersion'] for item in items), items)
    it.write(json.dumps(of_kinds([role('Role', 'a', rule('get', 'pods'), namespace='dev'), {**binding('RoleBinding', 'a', ('Role', 'a'), namespace='dev'), 'subjects': [
        {'kind': 'ServiceAccount', 'name': 'ci', 'namespace': 'shop'}]}], 'Role', 'RoleBinding')), 'more.json')
    account = 'system:serviceaccount:shop:ci'
    write(it, 'ci.log', [LOG[0].replace('"kim"', '"%s"' % account).replace('"nodes"', '"pods", "namespace": "dev"')])
    it.expect('a service account, by a FILE', ['least', '--export', 'prod', '--log', 'ci.log', 'u:' + account, 'more.json'], 0,
              document_of({'dev': [{'apiGroups': [''], 'resources': ['pods'], 'verbs': ['get']}]}, account, 'least'))
    it.checked('on a terminal', on_terminal(it, *ASK, 'u:kim') == (0, KIM, ''), on_terminal(it, *ASK, 'u:kim'))
    it.lines('calls')
    it.expect('a fresh export', ['least', '--log', 'all.log', 'u:kim'], 0, KIM)
    it.checked('it needs two calls', len(it.lines('calls')) == 2, 'others')


def need(group, resource, verbs, *names):
    return {'apiGroups': [group], 'resources': [resource], **({'resourceNames': [*names]} if names else {}), 'verbs': verbs.split()}


# What a service account and whoever acted as it need of a real server's log, whose export lacks the role that allows /api.
OF_SERVER = {'system:serviceaccount:shop:ci': {
    '': [need('', 'pods', 'list'), need('authorization.k8s.io', 'selfsubjectaccessreviews', 'create'), {'nonResourceURLs': ['/healthz', '/version'], 'verbs': ['get']}],
    'shop': [need('', 'configmaps', 'create'), need('', 'pods', 'list'), need('apps', 'deployments', 'create'), need('', 'configmaps', 'delete get patch', 'storefront'),
             need('', 'namespaces', 'get', 'shop'), need('', 'pods', 'delete get', 'web-8df649c6b-r585j'), need('', 'pods/log', 'get', 'web-8df649c6b-8wmdz'),
             need('apps', 'deployments', 'get patch', 'web')]},
    'admin': {'': [need('', 'groups', 'impersonate', 'devs', 'system:authenticated', 'system:serviceaccounts', 'system:serviceaccounts:shop'), need('', 'users', 'impersonate', 'boss')],
              'shop': [need('', 'serviceaccounts', 'impersonate', 'ci')]}}


@in_each_shell
def of_a_server(it):
    """Events of a real API server: what the events of a user ask for and the roles allow; and by the document alone nothing else, and nothing is unused of it."""
    asked = ['--export', SERVER_LOG, '--log', os.path.join(SERVER_LOG, 'audit.log')]
    for user, rules in OF_SERVER.items():
        it.expect('what %s needs' % user, ['least', *asked, '--names', 'u:' + user], 0, document_of(rules, user, 'least'))
        os.makedirs(os.path.join(it.work, user))
        it.write(it.run('least', *asked, '--names', 'u:' + user)[1], user, 'cluster.json')
        it.write('{"apiVersion": "v1", "kind": "List"}', user, 'namespaced.json')
        it.expect('nothing of it is unused: %s' % user, ['unused', '--export', user, *asked[2:]], 0)


@in_each_shell
def logs(it):
    """One log or several, packed or not: the same document. tests/plugin_unused.py has more of them."""
    made(it)
    pack(it, 'all.log', 'all.log.gz')
    parts = [word for number in reversed(range(len(LOG))) for word in ('--log', '%d.log' % number)]
    for name, line in (('parts', parts), ('packed', ['--log', 'all.log.gz']), ('twice', ['--log', 'all.log', '--log', 'all.log.gz'])):
        it.expect(name, ['least', '--export', 'prod', *line, 'u:kim'], 0, KIM)
    with open(os.path.join(it.work, 'all.log'), 'rb') as file:
        text = file.read()
    it.expect('standard input', ['least', '--export', 'prod', '--log', '-', 'u:kim'], 0, KIM, stdin=None, input=text)
    it.write('', 'empty')
    it.expect('an empty log', ['least', '--export', 'prod', '--log', 'empty', 'u:kim'], 0, NOTHING, 'kubectl-rbacaudit: the logs are empty, so nothing counts as used\n')
    child, terminal = begun(it, *ASK, 'u:kim')
    out = child.communicate(timeout=60)[0].decode()
    said = heard(terminal, '\r%60s\r' % '')
    os.close(terminal)
    it.checked('progress', (child.returncode, out) == (0, KIM) and re.search(r'MB of logs read\r +\r$', said), (out, said))


@in_each_shell
def faults(it):
    """What is refused prints nothing, and says what to do."""
    made(it)
    write(it, 'bad.log', [*LOG[:2], '{', LOG[2]])
    it.expect('a bad line', [*ASK, '--log', 'bad.log', 'u:kim'], 2, '', BAD % (10, 10, 3, 'bad.log'))
    with open(os.path.join(it.work, 'cut.gz'), 'wb') as file:
        file.write(gzip.compress('\n'.join(LOG).encode())[:-20])
    got = it.run(*ASK, '--log', 'cut.gz', 'u:kim')
    it.checked('a log that is cut', got[:2] == (2, '') and got[2].startswith("kubectl-rbacaudit: can't read all of cut.gz, so nothing is answered: "), got)
    who = 'rbacaudit: U5 bad principal\nkubectl-rbacaudit: WHO is u:NAME for a user: '
    for line, said in (([*ASK, 'kim'], who + 'write u:kim'), ([*ASK, ''], who + 'a name is missing'), ([*ASK, 'u:'], who + 'a name is missing'),
                       ([*ASK, 'g:devs'], who + 'a log has the requests of users, whatever their groups are'),
                       ([*ASK, '--name', 'a/b', 'u:kim'], 'rbacaudit: U12 --name is empty, . or .., or has / or %'),
                       (['least', '--export', 'prod', 'u:kim'], 'kubectl-rbacaudit: least needs --log LOG, an audit log of the API server; kubectl rbacaudit least --help says more'),
                       ([*ASK, '--log', '-', '--log', '-', 'u:kim'], 'kubectl-rbacaudit: standard input can be read once: give - as one LOG alone'),
                       (['least', '--export', 'prod', '--log', 'none.log', 'u:kim'], 'kubectl-rbacaudit: there is no none.log'),
                       ([*ASK, 'u:kim', '--context', 'x'], 'kubectl-rbacaudit: an export answers without a cluster: with --export, give no option of kubectl')):
        it.expect('refused: %s' % line, line, 2, '', said + '\n')
    for words, said in ((['-o', 'json', 'u:kim'], '-o'), ([], '<WHO>'), (['--groups', 'a', 'u:kim'], '--groups'), (['--name', '-x', 'u:kim'], '--name'), (['--skip-system', 'u:kim'], '--skip-system')):
        got = it.run(*ASK, *words)
        it.checked('refused: %s' % words, got[:2] == (2, '') and said in got[2], got)
    missing = 'kubectl-rbacaudit: there is no namespaced.json in prod\n'
    os.remove(os.path.join(it.work, 'prod', 'namespaced.json'))
    it.expect('a part is missing', [*ASK, 'u:kim'], 2, '', missing + REFUSAL)
    it.expect('a part is missing, --partial', [*ASK, '--partial', 'u:max'], 0, NOTHING, missing + CAUTION + EMPTY % 'max')
    aggregated = {**role('ClusterRole', 'a', rule('get', 'pods')), 'aggregationRule': {'clusterRoleSelectors': [{'matchLabels': {'x': 'y'}}]}}
    it.serve({'cluster': of_kinds([aggregated, binding('ClusterRoleBinding', 'a', ('ClusterRole', 'a'), 'kim')], 'ClusterRole', 'ClusterRoleBinding'), 'namespaced': of_kinds([])})
    it.run('export', 'stale')
    it.expect('stale aggregates', ['least', '--export', 'stale', '--log', 'all.log', 'u:kim'], 0, NOTHING, 'kubectl-rbacaudit: stale aggregates (L6 of lint): '
              'ClusterRole/a; the cluster grants what is written in them, and these rules are for requests that are allowed by what they gather\n' + EMPTY % 'kim')


CHECKS = [answers, of_a_server, logs, faults]
