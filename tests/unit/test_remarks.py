"""What is said beside an answer, and what words say of a question."""

import unittest

from rbacaudit_kubectl.answer import Asking, Counts, bindings_of
from rbacaudit_kubectl.documents import first_three
from rbacaudit_kubectl.listed import Type
from rbacaudit_kubectl.options import Options
from rbacaudit_kubectl.processes import Session
from rbacaudit_kubectl.question import Question, read_question
from rbacaudit_kubectl.remarks import Names, as_written, on_implied, on_mounts, on_own_object, on_place, on_scope, on_url, universe_faults

ROLES = Type('rbac.authorization.k8s.io', 'clusterroles', False)


def asking(*words):
    """A question as its remarks get it."""
    options, question = read_question(words[0], [*words[1:]])
    question.asked_in = question.namespace
    return Asking(Session(), options, question)


class Words(unittest.TestCase):
    def test_letters(self):
        question = read_question('can-i', ['-qAn=shop', '--as=-x', '--', '-get', 'pods/-x', '--as'])[1]
        self.assertEqual((question.everywhere, question.namespace, question.asker, question.verb, question.type, question.object, question.files),
                         (True, 'shop', '-x', '-get', 'pods', '-x', ['--as']))

    def test_value_with_dash(self):
        question = read_question('who-can', ['-n', '-x', 'get', 'pods'])[1]
        self.assertEqual((question.dashed, question.namespace), ('-n=-x', '-x'))

    def test_own_options_leave(self):
        options, question = read_question('rules', ['--export', 'prod', 'u:kim', '-ojson', '--groups', 'a,,b', 'x.json'])
        self.assertEqual((options.export, options.format, question.words, question.groups, question.files),
                         ('prod', 'json', ['u:kim', '--groups', 'a,,b'], ['a', 'b'], ['x.json']))


class Scopes(unittest.TestCase):
    def said(self, remark, it, *more):
        return [*remark(it, *more)]

    def test_cluster_scoped(self):
        it = asking('who-can', '-n', 'shop', 'get', 'nodes')
        self.assertEqual(self.said(on_scope, it, Type('', 'nodes', False)), [
            "the type nodes is cluster-scoped, so -n doesn't count: the question is about the whole cluster"])
        self.assertEqual(it.question.asked_in, '')

    def test_namespaced(self):
        self.assertEqual(self.said(on_scope, asking('who-can', '-n', 'shop', 'get', 'pods'), Type('', 'pods')), [])

    def test_bind(self):
        it = asking('who-can', '-n', 'shop', 'bind', 'clusterroles.rbac.authorization.k8s.io')
        self.assertEqual(self.said(on_scope, it, ROLES), [])
        self.assertEqual(self.said(on_place, it), ['a server asks about bind in the namespace of the RoleBinding, so the question is about the '
                                                   'namespace shop; -A asks about the whole cluster'])
        self.assertIn('--in-namespace', it.question.line)

    def test_url(self):
        self.assertEqual(len(self.said(on_url, asking('who-can', '-n', 'shop', 'list', '/metrics'))), 2)
        self.assertEqual(self.said(on_url, asking('who-can', '-A', 'get', '/metrics')), [])

    def test_mounts(self):
        said = 'whoever may create pods in a namespace can read its %s too, by mounting them: kubectl rbacaudit who-can %screate pods lists them'
        for words, type_, where in ((['get', 'secrets'], 'secrets', ''), (['-n', 'shop', '--indirect', 'watch', 'configmaps.'], 'configmaps', '--indirect -n shop '),
                                    (['-A', '--anywhere', '-n', 'shop', 'list', 'secrets/x'], 'secrets', '-A '), (['--anywhere', 'list', 'secrets'], 'secrets', '--anywhere ')):
            it = asking('who-can', *words)
            self.assertEqual(self.said(on_mounts, it, as_written(it.question.type)), [said % (type_, where)])
        for words in (['create', 'secrets'], ['get', 'secrets.x'], ['get', 'pods'], ['--subresource', 'x', 'get', 'secrets'], ['*', 'secrets']):
            it = asking('who-can', *words)
            self.assertEqual(self.said(on_mounts, it, as_written(it.question.type)), [])
        self.assertEqual(self.said(on_mounts, asking('can-i', '--as', 'kim', 'get', 'secrets'), as_written('secrets')), [])

    def test_implied(self):
        it = asking('who-can', 'get', 'pods')
        it.question.implied = it.question.asked_in = 'dev'
        self.assertEqual(len(self.said(on_implied, it)), 1)
        self.assertEqual(it.question.line, ['who-can', '--namespace=dev', 'get', 'pods'])
        self.assertEqual(self.said(on_own_object, it), [])


class Askers(unittest.TestCase):
    def said(self, asker, *groups, is_who=False, known=()):
        names = Names(is_who, 'shop', {'u:lee', 'g:idle', 'u:a\\x0ab'}, {*known})
        return [*names.unnamed(asker, [*groups])]

    def test_named(self):
        for asker, groups in (('lee', ()), ('a\nb', ()), ('system:anonymous', ()), ('kim', ('idle',)), ('kim', ('system:masters',))):
            self.assertEqual(self.said(asker, *groups), [])

    def test_meant(self):
        account = 'system:serviceaccount:shop:ci'
        for asker, end, known in (('LEE', ', but the user lee: check the spelling', ()), ('idle', ', but a group of that name: write --groups idle', ()),
                                  ('g:idle', ': to ask about the group, write --groups idle', ()), ('sa:shop:ci', ': to ask about the service account, write --as ' + account, ()),
                                  ('ci', ': to ask about the service account, write --as ' + account, ('u:' + account,)),
                                  ('kim', ', so it has only what its groups have; --groups A,B names them', ())):
            self.assertEqual(self.said(asker, known=known), ['no binding of the export names the user %s%s' % (asker, end)])

    def test_groups(self):
        self.assertEqual(self.said('lee', 'a', 'b', 'c', 'd'), ['no binding of the export names the groups a, b, c and 1 more: check the spelling'])
        self.assertEqual(self.said('', 'lee', is_who=True), ['no binding of the export names the group lee, but a user of that name: write u:lee'])


class Others(unittest.TestCase):
    def test_universe(self):
        well = {'apiVersion': 'rbacaudit/v1', 'kind': 'Universe', 'resources': [{'resource': 'x'}]}
        self.assertEqual([*universe_faults(well, False)], [])
        self.assertEqual([*universe_faults({**well, 'verb': [], 'principals': [{'users': 'x'}]}, False)], [
            'a Universe document has no field verb, so it is ignored', 'an item of principals has no field users, so it is ignored'])
        self.assertEqual(len([*universe_faults(well, True)]), 1)
        self.assertEqual(len([*universe_faults({**well, 'apiVersion': 'v1'}, False)]), 1)

    def test_first_three(self):
        self.assertEqual((first_three([]), first_three('b a b'.split()), first_three('d c b a'.split())), ('', 'a, b', 'a, b, c and 1 more'))

    def test_counts(self):
        counts = Counts()
        counts.take([b'u:a\t-\tget\t-\tpods\t-\tClusterRoleBinding/b\n', b'u:a\tdev\tget\t-\tpods\t-\tClusterRoleBinding/b\n',
                     b'u:a\t-x\tget\t-\tpods\t-\tClusterRoleBinding/b\n', b'u:a\tdev\tget\t-\tpods\t-\tRoleBinding/dev/b\n', b'next\tabc\n'])
        self.assertEqual((counts.rows, counts.repeated), (4, 2))

    def test_bindings(self):
        row = 'yes\n%s\t1\t1\n'
        found = [binding['roleRef'] for source in ('ClusterRole/a/b', 'Role/dev/x', 'Role/dev/x/y') for binding in bindings_of(
            row % '\t'.join(['RoleBinding/dev/b', 'ClusterRole/c', source]))]
        self.assertEqual(found, [{'kind': 'ClusterRole', 'name': 'a/b'}, {'kind': 'Role', 'name': 'x'}])

    def test_parts(self):
        self.assertEqual(Question('lint').parts(), (['cluster.json', 'namespaced.json'], []))
        question = Question('who-can', asked_in='dev')
        question.indirect = True
        self.assertEqual(question.parts(), (['cluster.json', 'namespaced.json', 'api', 'accounts.json', 'groups.json'], ['namespaces.json']))
        self.assertEqual(Options().export, '')
