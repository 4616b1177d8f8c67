"""What the kubectl plugin adds to a message of rbacaudit's: what to do, and which object is meant, whatever stands in a file."""

import json
import os

from common import V1, V1BETA1
from plugin_changes import a_list
from plugin_room import KIM, RBAC, in_each_shell, served
from plugin_show import bound, exported, rule
from plugin_show import role as role_of
from written import Parts, rows_in

YAML = ('kubectl-rbacaudit: %s looks like YAML, and rbacaudit reads JSON: '
        'kubectl rbacaudit read %s makes JSON of it\n')
SEVERAL = ('kubectl-rbacaudit: %s has several JSON documents, one behind the other: put their objects into one List, '
           'or each document into a file of its own, as jq -c . FILE | split -l 1 - part- does\n')
NO_JSON = 'rbacaudit: file 1: M1 not JSON\nkubectl-rbacaudit: file 1 is %s\n'
UNREAD = 'rbacaudit: file 1: I1 read fault\nkubectl-rbacaudit: file 1 is %s\n'
ROLE = json.dumps({'apiVersion': V1, 'kind': 'Role', 'metadata': {'name': 'a}"{"b', 'namespace': 's'}, 'rules': []})
# Texts that are no JSON value, and what they are taken for.
TEXTS = [
    ('apiVersion: v1\nkind: List\n', YAML), ('---\n{"a": 1}\n', YAML), ('# made by hand\n\n%YAML 1.2\n---\nkind: Role\n', YAML),
    ('\ufeffkind: Role\r\n', YAML), ('- apiVersion: v1\n  kind: Role\n', YAML), ('metadata:\n  name: x\n', YAML),
    ('rbac.authorization.k8s.io/x:\n', YAML), (ROLE + ROLE, SEVERAL), (ROLE + '\n\n' + ROLE + '\n', SEVERAL), ('{}{}', SEVERAL),
    (ROLE + ',' + ROLE, SEVERAL), ('{"a": "}{"', ''), (ROLE + ']', ''), (ROLE[:-1], ''), ('', ''), ('\n \n', ''), ('# nothing\n', ''),
    ('{kind: Role}\n', ''), ('[\n- a\n', ''), ('"kind": "Role",\nname: x\n', ''), ('NAME   AGE\nkind: x\n', ''),
    ('error: You must be logged in to the server\n', ''), ('Error from server (Forbidden): no\nkind: x\n', ''), ('http://x\n', ''),
    ('Unable to connect to the server: dial tcp\n', ''), ('\x00kind: Role\n', '')]


@in_each_shell
def texts(it):
    """YAML and several documents in one file are told from other texts that are no JSON."""
    it.run('export', 'prod')
    for text, said in TEXTS:
        it.write(text, 'my file')
        it.expect('no JSON: %r' % text[:40], ['lint', '--export', 'prod', 'my file'], 2, '',
                  NO_JSON % 'my file' + said.replace('%s', 'my file'))
    it.write('kind: Role\n', 'prod', 'namespaced.json')
    status, out, err = got = it.run('lint', '--export', 'prod')
    it.checked('a file of the export', (status, out) == (2, '') and err.endswith(YAML.replace('%s', 'prod/namespaced.json')), got)
    status, out, err = got = it.run('matrix', '/dev/stdin', '--export', 'prod', stdin=None, input=b'kind: Role\n')
    it.checked('a pipe', (status, out) == (2, '') and err == NO_JSON % '/dev/stdin', got)


@in_each_shell
def paths(it):
    """A folder in the place of a file, and a file that isn't there."""
    it.run('export', 'prod')
    os.mkdir(os.path.join(it.work, 'roles'))
    export = ('kubectl-rbacaudit: %s is a folder that holds an export: write --export prod, or prod/*.json for its files\n')
    for place in ([], ['--export', 'prod']):
        for name, said in (('prod', export % 'prod'), ('prod/', export % 'prod/'),
                           ('roles', 'kubectl-rbacaudit: roles is a folder: write roles/*.json for its files\n'),
                           ('gone.json', 'kubectl-rbacaudit: there is no gone.json\n'),
                           ('gone/*.json', 'kubectl-rbacaudit: there is no gone/*.json\n'),
                           ('gone\u202e', 'kubectl-rbacaudit: there is no gone\\xe2\\x80\\xae\n')):
            shown = name.replace('\u202e', '\\xe2\\x80\\xae')
            it.expect('can-i %s %s' % (name, place), ['can-i', '--as', 'kim', '-A', 'list', 'nodes', *place, name], 2, '',
                      UNREAD % shown + said)
    os.remove(os.path.join(it.work, 'prod', 'cluster.json'))
    it.expect('an export that is a part', ['matrix', 'prod'], 2, '', UNREAD % 'prod' + export % 'prod')


@in_each_shell
def principals(it):
    """WHO without u: or g:, without a name, and a group with groups."""
    mistyped = 'kubectl-rbacaudit: WHO is u:NAME for a user, or g:NAME for a group: '
    of_group = 'kubectl-rbacaudit: a group has no groups: ask about g:dev without --groups and --group, or about a user, u:NAME\n'
    for line, said in ((['kim'], mistyped + 'write u:kim, or g:kim\n'), (['u:'], mistyped + 'a name is missing\n'),
                       (['g:'], mistyped + 'a name is missing\n'), (['-A', '--', '-x', 'file.json'], mistyped + 'write u:-x, or g:-x\n'),
                       (['-n', 'shop', 'system:serviceaccount:shop:ci'],
                        mistyped + 'write u:system:serviceaccount:shop:ci, or g:system:serviceaccount:shop:ci\n'),
                       (['--groups', 'x', 'g:dev'], of_group), (['g:dev', 'f.json', '--group=x'], of_group)):
        it.expect('rules %s' % line, ['rules', *line], 2, '', 'rbacaudit: U5 bad principal\n' + said)
    for line, said in ((['kim'], mistyped + 'write u:kim, or g:kim\n'), (['--steps', 'run', 'x', 'u:kim'], mistyped + 'write u:x, or g:x\n'),
                       (['--groups', 'x', 'g:dev'], of_group)):
        it.expect('paths %s' % line, ['paths', *line], 2, '', 'rbacaudit: U5 bad principal\n' + said)
    status, out, err = got = it.run('rules', '')
    it.checked('an empty WHO', (status, out) == (2, '') and err.startswith('rbacaudit: U') and 'write u:' not in err, got)
    it.checked('no call is made', not it.lines('calls'), 'calls')


# ---- words

SAYS = 'kubectl-rbacaudit: %s\n'
NO_USER_NAME = "USER is empty: write a user's name after --as"
NO_VERB_WORD = 'VERB is empty: write a verb, such as get'
NO_TARGET = 'TARGET is empty: write a type or a URL, such as pods or /metrics'
DOTTED = 'TARGET begins with a dot: write a resource in front of it, as in deployments.apps'
# Questions with an empty word, and what is said of each.
EMPTY_WORDS = [
    (['can-i', '--as', '', 'get', 'pods'], [NO_USER_NAME]), (['can-i', '--as=', '-A', 'get', 'pods', 'f.json'], [NO_USER_NAME]),
    (['can-i', '--as', 'kim', '', 'pods'], [NO_VERB_WORD]), (['can-i', '--as', 'kim', 'get', ''], [NO_TARGET]),
    (['can-i', '', '', '--as', ''], [NO_USER_NAME, NO_VERB_WORD, NO_TARGET]), (['can-i', '--as', 'kim', 'get', '.'], [DOTTED]),
    (['who-can', '-n', '', '', 'pods'], [NO_VERB_WORD]), (['who-can', '-n', 'shop', 'get', '', 'f.json'], [NO_TARGET]),
    (['who-can', '--', 'get', '.apps'], [DOTTED]), (['who-can', '--indirect', '--steps', 'runs', '', '.apps/x'], [NO_VERB_WORD, DOTTED]),
    (['who-can', '--subresource', '', 'get', '', '--export', 'gone'], [NO_TARGET])]
CODES_ARE = ': --only takes L1 to L7, separated by commas, as in --only L1,L3'
# What may stand after --only, and what is said of it.
BAD_CODES = [('', 'a code is missing'), ('L6,', 'a code is missing'), (',L6', 'a code is missing'), ('L1,,L2', 'a code is missing'),
             ('l6', 'there is no code l6'), ('L8', 'there is no code L8'), ('L1,L10,L9', 'there is no code L10'), ('lint.json', 'there is no code lint.json'),
             ('L1;L2', 'there is no code L1;L2'), ('L*', 'there is no code L*'), ('L1, L2', 'there is no code " L2" with a blank'),
             ('L1 ', 'there is no code "L1 " with a blank'), (' ', 'there is no code " " with a blank'),
             ('L1\u202e', 'there is no code L1\\xe2\\x80\\xae')]
TOKEN_IS = SAYS % "--after takes the TOKEN of a matrix's last line, next TOKEN: copy all of it"


@in_each_shell
def words(it):
    """Which word is empty, which part of --only is no code, and where a token comes from."""
    for line, said in EMPTY_WORDS:
        it.expect('an empty word: %s' % line, line, 2, '', 'rbacaudit: U2 empty word\n' + SAYS % '; '.join(said))
    for text, said in BAD_CODES:
        for form in (['--only', text], ['--only=' + text, 'f.json'], ['--skip-system', '--export', 'gone', '--only', text]):
            it.expect('no codes: %s' % form, ['lint', *form], 2, '', 'rbacaudit: U6 bad code\n' + SAYS % (said + CODES_ARE))
    for form in (['--after', 'x'], ['--after=next\tMQl1OmFsaWNlCS0JZ2V0CS0JcG9kcwkt'], ['--every', '--after', '', 'f.json'],
                 ['-o', 'json', '--after', 'MQl1OmFsaWNlCS0JZ2V0CS0JcG9kcwk']):
        it.expect('no token: %s' % form, ['matrix', *form], 2, '', 'rbacaudit: U4 bad token\n' + TOKEN_IS)
    # (what the plugin itself or the parser refuses has its own message)
    for line in (['diff', '--after', 'x'], ['lint', '--only'], ['matrix', '--after'], ['can-i', '--as', '', 'get'],
                 ['can-i', '--as', 'kim', '--subresource', 'x', 'get', '/x'], ['paths', '--steps', '', 'u:kim'], ['paths', '--after', 'x', 'u:kim']):
        status, out, err = got = it.run(*line)
        it.checked('without advice: %s' % line, (status, out) == (2, '') and err and not any(
            part in err for part in (NO_USER_NAME, NO_VERB_WORD, NO_TARGET, DOTTED, CODES_ARE, TOKEN_IS)), got)
    it.checked('no call is made', not it.lines('calls'), 'calls')


# ---- versions, lengths and grants

OLDER = V1 + 'alpha1'
READS = ': of this API group, rbacaudit reads v1 and v1beta1'
OF_RBAC = ' has %s or %s' % (V1, V1BETA1)
# Documents with a bad version, and what is said of it.
VERSIONS = [
    ({'kind': 'Role'}, 'the document has no apiVersion: a Role' + OF_RBAC), ({'kind': 'ClusterRoleBinding'}, 'the document has no apiVersion: a ClusterRoleBinding' + OF_RBAC),
    ({'kind': 'RoleBindingList', 'items': []}, 'the document has no apiVersion: a RoleBindingList' + OF_RBAC),
    ({'kind': 'List', 'items': [{'apiVersion': OLDER, 'kind': 'Role'}]}, 'the document has no apiVersion: a List has v1'),
    ({'kind': 'ServiceAccountList', 'metadata': {'apiVersion': V1}}, 'the document has no apiVersion: a ServiceAccountList has v1'),
    ({'kind': 'Universe', 'resources': [{'apiVersion': 'x'}]}, 'the document has no apiVersion: a Universe has rbacaudit/v1'),
    ({'kind': 'Role', 'apiVersion': None}, "the apiVersion of the document isn't a text: a Role" + OF_RBAC),
    ({'kind': 'Namespace', 'apiVersion': {'apiVersion': V1}}, "the apiVersion of the document isn't a text: a Namespace has v1"),
    ({'kind': 'Pod', 'apiVersion': [OLDER]}, "the apiVersion of the document isn't a text"),
    ({'kind': 'Role', 'apiVersion': OLDER}, 'the apiVersion of the document is ' + OLDER + READS),
    ({'kind': 'RoleList', 'apiVersion': OLDER, 'items': [{'apiVersion': V1}]}, 'the apiVersion of the document is ' + OLDER + READS),
    ({'kind': 'Pod', 'apiVersion': RBAC + '/'}, 'the apiVersion of the document is ' + RBAC + '/' + READS),
    ({'kind': 'Role', 'apiVersion': V1 + '/v1'}, 'the apiVersion of the document is ' + V1 + '/v1' + READS),
    ({'kind': 'Role', 'apiVersion': RBAC + '/' + 'x' * 600}, 'the apiVersion of the document is ' + RBAC + '/' + 'x' * (499 - len(RBAC)) + '..' + READS),
    ('{"kind": "Role", "apiVersion": "%s", "apiVersion": "%s"}' % (V1, OLDER), 'the apiVersion of the document is ' + OLDER + READS),
    ('{"kind": "Role", "apiVersion": "%s", "apiVersion": 5}' % V1, "the apiVersion of the document isn't a text: a Role" + OF_RBAC),
    ('{"kind": "Role", "apiVersion": "%s\\/v2"}' % RBAC, 'the apiVersion of the document is ' + RBAC + '/v2' + READS),
    ('{"kind": "Role", "apiVersion": "%s", "apiVersi\\u006fn": "%s"}' % (V1, OLDER), 'the apiVersion of the document is ' + OLDER + READS),
    ('{"kind": "R\\u006fle"}', 'the document has no apiVersion: a Role' + OF_RBAC)]


def items_of(value):
    """The document as the second item of a List, which is written in two ways."""
    item = value if isinstance(value, str) else json.dumps(value)
    first = json.dumps({'apiVersion': V1, 'kind': 'Role', 'metadata': {'name': 'first', 'namespace': 's'}, 'rules': []})
    for text in ('{"apiVersion": "v1", "kind": "List", "items": [%s, %s, {}]}', '{"items": [1], "items": [%s, %s], "kind": "List", "apiVersion": "v1"}'):
        yield text % (first, item)


@in_each_shell
def versions(it):
    """Which apiVersion a document or an item has, and which versions are read; nothing of a pipe."""
    it.run('export', 'prod')
    for value, said in VERSIONS:
        text = value if isinstance(value, str) else json.dumps(value)
        it.write(text, 'f.json')
        it.expect('a bad version: %s' % text[:200], ['lint', '--export', 'prod', 'f.json'], 2, '',
                  'rbacaudit: file 1: M3 bad version\nkubectl-rbacaudit: file 1 is f.json\n' + (SAYS % said if said else ''))
        for whole in items_of(value):
            it.write(whole, 'f.json')
            it.expect('a bad version of an item: %s' % whole[:300], ['matrix', '--export', 'prod', 'f.json'], 2, '',
                      'rbacaudit: file 1 item 2: M3 bad version\nkubectl-rbacaudit: file 1 is f.json\n'
                      + (SAYS % said.replace('the document', 'item 2') if said else ''))
    alpha = {'apiVersion': OLDER, 'kind': 'RoleBinding', 'metadata': {'name': 'b', 'namespace': 's'}}
    text = json.dumps(a_list('List', 'v1', alpha))
    fault = 'rbacaudit: file %d item 1: M3 bad version\nkubectl-rbacaudit: file %d is '
    is_alpha = 'the apiVersion of item 1 is ' + OLDER + READS
    it.expect('a pipe', ['matrix', '/dev/stdin', '--export', 'prod'], 2, '', fault % (1, 1) + '/dev/stdin\n', stdin=None, input=text.encode())
    it.write(json.dumps({'apiVersion': 'rbac.authorization.k8s.io/v1', 'kind': 'RoleList', 'items': [{'apiVersion': OLDER}]}), 'f.json')
    it.expect('an item of a typed list', ['lint', '--export', 'prod', 'f.json'], 2, '', fault % (1, 1) + 'f.json\n' + SAYS % is_alpha)
    it.serve({'namespaced': a_list('List', 'v1', alpha)})
    it.expect('a fresh export', ['lint'], 2, '', fault % (2, 2) + 'namespaced.json of the fresh export; item 1 of it is RoleBinding s/b; '
              'kubectl rbacaudit export DIR would keep it\n' + SAYS % is_alpha)
    it.write(text, 'prod', 'namespaced.json')
    it.expect('a file of the export', ['powers', '--export', 'prod'], 2, '',
              fault % (2, 2) + 'prod/namespaced.json; item 1 of it is RoleBinding s/b\n' + SAYS % is_alpha)


LONG = 'a file may have at most 67,108,864 bytes (64 MiB): '
APART = SAYS % (LONG + 'put kinds or namespaces into files of their own; several files are one export')
ELSEWHERE = SAYS % (LONG + 'write kinds or namespaces into files of their own with kubectl get, and ask rbacaudit about all files, without this plugin')
IN_PARTS = SAYS % (LONG + 'write parts of the manifests into files with kubectl rbacaudit read, and ask rbacaudit about all of them, without this plugin')


@in_each_shell
def lengths(it):
    """A file that is too long: one of the question, a pipe, one of an export, and manifests."""
    fault = 'rbacaudit: file %d: I2 too long\nkubectl-rbacaudit: file %d is '
    it.run('export', 'prod')
    for name in ('long.json', 'prod/accounts.json'):
        with open(os.path.join(it.work, name), 'r+b' if '/' in name else 'wb') as file:
            file.truncate(64 * 1024 * 1024 + 1)
    it.expect('a file', ['lint', '--export', 'prod', 'long.json'], 2, '', fault % (1, 1) + 'long.json\n' + APART)
    it.expect('a device', ['lint', '--export', 'prod', '/dev/zero'], 2, '', fault % (1, 1) + '/dev/zero\n' + APART)
    it.expect('a file of an export', ['matrix', '--export', 'prod'], 2, '', fault % (4, 4) + 'prod/accounts.json\n' + ELSEWHERE)
    it.expect('of which --partial asks too', ['paths', '--partial', '--export', 'prod', 'g:system:masters'], 2, '',
              fault % (3, 3) + 'prod/accounts.json\n' + ELSEWHERE)
    os.truncate(os.path.join(it.work, 'prod', 'cluster.json'), 64 * 1024 * 1024 + 1)
    it.expect('a file of two exports', ['diff', '--export', 'prod', '--export', 'prod'], 2, '', fault % (1, 1) + 'prod/cluster.json\n' + ELSEWHERE)
    with open(os.path.join(it.at('served'), 'namespaced'), 'r+b') as file:
        file.truncate(64 * 1024 * 1024 + 1)
    it.expect('a file of a fresh export', ['powers'], 2, '',
              fault % (2, 2) + 'namespaced.json of the fresh export; kubectl rbacaudit export DIR would keep it\n' + ELSEWHERE)
    it.write(json.dumps({'apiVersion': V1, 'kind': 'Role', 'metadata': {'name': 'r', 'namespace': 's', 'annotations': {'x': 'x' * 2 ** 26}}}), 'role.json')
    status, out, err = got = it.run('lint', 'role.json')
    it.checked('manifests', (status, out) == (2, '') and err.endswith(fault % (1, 1) + 'role.json as kubectl reads it\n' + IN_PARTS), (status, err))


AT_MOST = 'rbacaudit takes at most 1,000,000 grants%s: pairs of a binding and a rule of its role%s'
SMALLER = '; for this question, export the namespace %s alone: kubectl rbacaudit export -n %s DIR'


def many_grants():
    """A cluster role with a thousand rules, and 1,001 bindings of it."""
    rule = {'verbs': ['get'], 'apiGroups': [''], 'resources': ['pods']}
    yield {'apiVersion': V1, 'kind': 'ClusterRole', 'metadata': {'name': 'many'}, 'rules': [rule] * 1000}
    for number in range(1001):
        yield {'apiVersion': V1, 'kind': 'RoleBinding', 'metadata': {'name': 'b%d' % number, 'namespace': 'far'},
               'roleRef': {'kind': 'ClusterRole', 'name': 'many'}, 'subjects': [{'kind': 'User', 'name': 'u'}]}


@in_each_shell
def grants(it):
    """Too many grants: what a grant is, and the export of one namespace, if it answers the same question."""
    role, *bindings = many_grants()
    files = served()
    more = {'cluster': {**files['cluster'], 'items': [*files['cluster']['items'], role]},
            'namespaced': {**files['namespaced'], 'items': [*files['namespaced']['items'], *bindings]}}
    it.serve(more)
    it.run('export', 'prod')
    limit = 'rbacaudit: M11 too many grants\n' + SAYS % (AT_MOST % ('', ''))
    in_shop = 'rbacaudit: M11 too many grants\n' + SAYS % (AT_MOST % ('', SMALLER % ('shop', 'shop')))
    for line, said in ((['can-i', *KIM, 'list', 'pods'], in_shop), (['who-can', '-n', 'shop', 'list', 'pods'], in_shop),
                       (['rules', '-n', 'shop', 'g:shop-developers'], in_shop), (['can-i', '--as', 'dana@example.com', 'get', 'namespaces/shop'], in_shop),
                       (['can-i', *KIM, 'get', 'nodes'], limit), (['can-i', *KIM, '-A', 'list', 'pods'], limit), (['can-i', *KIM, 'get', '/x'], limit),
                       (['who-can', '-n', 'shop', '--anywhere', 'list', 'pods'], limit), (['who-can', '-n', 'shop', '--indirect', 'list', 'pods'], limit),
                       (['rules', 'g:shop-developers'], limit), (['rules', '-A', '-n', 'shop', 'g:shop-developers'], limit), (['lint'], limit), (['powers'], limit),
                       (['matrix'], limit), (['paths', 'g:shop-developers'], limit), (['universe'], limit)):
        status, out, err = got = it.run(*line, '--export', 'prod')
        it.checked('too many grants: %s' % line, (status, out) == (2, '') and err.endswith(said) and err.count('grants:') == 1, got)
    it.expect('too many of two exports', ['diff', '--export', 'prod', '--export', 'prod'], 2, '',
              'rbacaudit: M11 too many grants\n' + SAYS % (AT_MOST % (' on each side', '')))
    # The export of the namespace has few grants, and the answer.
    it.run('export', '-n', 'shop', 'shop')
    it.expect('the namespace alone', ['can-i', *KIM, 'list', 'pods', '--export', 'shop'], 0, 'yes\n')
    it.write(json.dumps(a_list('List', 'v1', role, *bindings)), 'more.json')
    it.expect('too many beside it', ['can-i', *KIM, 'list', 'pods', '--export', 'shop', 'more.json'], 2, '', limit)
    status, out, err = got = it.run('lint', 'more.json')
    it.checked('too many of manifests', (status, out) == (2, '') and err.endswith(limit), got)


# ---- which object is meant

def role(name, **more):
    return {'apiVersion': V1, 'kind': 'Role', 'metadata': {'name': name, 'namespace': 's'}, **more}


def listed(*items):
    """The text of a list with these items, as they are written."""
    return '{"apiVersion": "v1", "items": [%s], "kind": "List"}' % ', '.join(
        item if isinstance(item, str) else json.dumps(item) for item in items)


BAD_ITEM = '{"apiVersion": "%s", "kind": "Role", "metadata": %s, "rules": 5}'
LONG_NAMES = [('x' * 500, 'x' * 500), ('x' * 501, 'x' * 500 + '..'), ('"' * 200_000, '\\"' * 250 + '..'),
              ('\\' * 200_001, '\\\\' * 250 + '..')]
# The metadata of an item, and what is said of it: of members with one name the last counts.
METADATA = [
    ('{"name": "no", "name": "yes"}', '; item 2 of it is Role yes'),
    ('{"name": "no"}, "metadata": {"name": "yes", "namespace": "s"}', '; item 2 of it is Role s/yes'),
    ('{"name": "no", "labels": {"name": "not"}, "n\\u0061me": "yes"}', '; item 2 of it is Role yes'),
    ('{"name": "no"}, "m\\u0065tadata": {"name": "yes"}', '; item 2 of it is Role yes')]


@in_each_shell
def culprits(it):
    """The object of a fault, where the file was made to mislead, or to take long."""
    it.run('export', 'prod')

    def fault(name, text, said):
        it.write(text, 'f.json')
        it.expect(name, ['lint', '--export', 'prod', 'f.json'], 2, '',
                  'rbacaudit: file 1 item 2: M5 bad rule 1\nkubectl-rbacaudit: file 1 is f.json%s\n' % said)

    for name, said in LONG_NAMES:
        fault('a name of %d bytes' % len(json.dumps(name)), listed(role('a'), role(name, rules=5)), '; item 2 of it is Role s/' + said)
    for metadata, said in METADATA:
        fault('its metadata is %s' % metadata, listed(role('a'), BAD_ITEM % (V1, metadata)), said)
    first = json.dumps([role('a'), role('no')])
    fault('an earlier list of items', '{"apiVersion": "v1", "kind": "List", "items": %s, "items": [%s, %s]}'
          % (first, json.dumps(role('a')), json.dumps(role('yes', rules=5))), '; item 2 of it is Role s/yes')
    fault('an escape in the name of items', '{"apiVersion": "v1", "kind": "List", "items": %s, "it\\u0065ms": [%s, %s]}'
          % (first, json.dumps(role('a')), json.dumps(role('yes', rules=5))), '; item 2 of it is Role s/yes')
    # (the text is read in pieces: the escapes of a name come to stand across each end)
    for fill in range(1780, 1812):
        name = 'x"\\"\\\\y'
        fault('after %d bytes' % fill, listed(role('a', filled='z' * fill), role(name, rules=5)),
              '; item 2 of it is Role s/x\\"\\\\\\"\\\\\\\\y')
    fault('many marks', '{"x": [%s0], %s' % ('[],{},' * 50_000, listed(role('a'), role('b', rules=5))[1:]), '; item 2 of it is Role s/b')


@in_each_shell
def long_universes(it):
    """A Universe document with many fields that such documents don't have, and with a long name of one."""
    it.run('export', 'prod')
    no_field = 'kubectl-rbacaudit: u.json: a Universe document has no field %s, so it is ignored\n'
    names = ['x%d' % number for number in range(3000)] + ['y' * 501]
    it.write(json.dumps({'apiVersion': 'rbacaudit/v1', 'kind': 'Universe', **dict.fromkeys(names, []), 'verbs': []}), 'u.json')
    it.expect('many fields', ['matrix', '--export', 'prod', 'u.json'], 0, 'end\n',
              ''.join(no_field % name for name in names[:-1]) + no_field % ('y' * 500 + '..'))


TOO_MANY = """rbacaudit: P4 universe too large
kubectl-rbacaudit: too many resources are named by rule 2 of Role shop/wide: 1,002,001
kubectl-rbacaudit: a universe has at most 1,000,000 targets: resources times names, and URLs; a FILE that is a Universe document with "resources" or \
"names" makes it smaller
"""


@in_each_shell
def universes(it):
    """A rule that names too many resources is told, and keeps nobody from a page of other resources."""
    words = ['r%d' % at for at in range(1001)]
    wide = {'verbs': ['get'], 'apiGroups': [*words, 'r1', '*', 'r*'], 'resources': [*words, 'r1', '*', '*/scale', '/x', '']}
    exported(it, 'prod', role_of('wide', rule('get', 'pods'), wide, namespace='shop'), bound('b', 'wide', 'kim', namespace='shop', of='Role'))
    for line in (['universe'], ['page'], ['report', '-o', 'html']):
        it.expect('too many resources: %s' % line, [*line, '--export', 'prod'], 2, '', TOO_MANY)
    it.write('{"apiVersion": "rbacaudit/v1", "kind": "Universe", "resources": [{"resource": "pods"}, {"group": "r7", "resource": "r8"}]}', 'own.json')
    status, out, err = got = it.run('page', '--export', 'prod', 'own.json')
    it.checked('a page of other resources', (status, err) == (0, '') and rows_in(Parts(out).data()['rows']) == [
        'u:kim\tshop\tget\t%s\tRoleBinding/shop/b' % kind for kind in ('-\tpods\t-', 'r7\tr8\t-')], repr(got)[:2000])
    it.write('{"apiVersion": "rbacaudit/v1", "kind": "Universe", "verbs": ["get"]}', 'verbs.json')
    status, out, err = got = it.run('page', '--export', 'prod', 'verbs.json')
    it.checked('not with a FILE that lists none', (status, out, err) == (2, '', TOO_MANY), got)


CHECKS = [texts, paths, principals, words, versions, lengths, grants, culprits, long_universes, universes]
