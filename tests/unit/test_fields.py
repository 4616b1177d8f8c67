"""Fields and their escapes, which lines are of which command, and the powers of what they allow."""

import time
import unittest

from rbacaudit_kubectl import fields

GRANT = 'ClusterRoleBinding/b\tClusterRole/r\tClusterRole/r\t1\t1'


class Fields(unittest.TestCase):
    def test_there_and_back(self):
        for text, field in (('', '-'), ('-', '\\x2d'), ('--', '--'), ('a\\b', 'a\\\\b'), ('a\tb\n\x7f', 'a\\x09b\\x0a\\x7f'), ('é\u202e', 'é\u202e'), ('\\x41', '\\\\x41')):
            self.assertEqual(fields.in_field(text), field)
            self.assertEqual(fields.text_of(field), text)

    def test_bytes_that_were_escaped_one_by_one(self):
        self.assertEqual(fields.text_of('\\xe2\\x80\\xaea\\xff'), '\u202ea\udcff')

    def test_lists(self):
        for texts, field in (([], '[]'), ([''], '[-]'), (['a,b', '-', ']'], '[a\\x2cb,\\x2d,]]')):
            self.assertEqual([fields.text_of(word) for word in fields.words_of(field)], texts)


class Lines(unittest.TestCase):
    def commands_of(self, line):
        return [shape.command for shape in fields.SHAPES if shape.cells_of(line)]

    def test_each_command(self):
        for line, command in (('RoleBinding/a/b\tRole/a/r\tRole/a/r\t3\t1', 'can-i'), ('u:a\tClusterRoleBinding/b', 'who-can'), ('u:a\t' + GRANT, 'who-can'),
                              ('L2\tx\tRole/a/b\t-\t-', 'lint'), ('exec\tu:a\t*\t' + GRANT, 'powers'), ('total\t-\t-\t0\t0\t[]\t[]', 'diff --summary'),
                              ('+\tu:a\t*\tget\t-\tpods\t*\tClusterRoleBinding/b', 'diff'), ('-\tr:Role/a/b\ta\tget\t-\tpods\t*\t-', 'diff'),
                              ('r:ClusterRole/a b\t*\t-\t1\t0\t[]\t[]', 'diff --summary'), (GRANT + '\t[get]\t[-]\t[pods]\t[]\t[]', 'rules'),
                              ('u:a\t-\tget\t-\tpods\t-\tClusterRoleBinding/b', 'matrix'), ('1\t*\t*\tu:a\t-\tbind\t' + GRANT, 'paths')):
            self.assertEqual(self.commands_of(line), [command])

    def test_none(self):
        for line in ('', 'yes', 'u:\tClusterRoleBinding/b', 'u:a\tRoleBinding/b', 'u:a\\\tClusterRoleBinding/b', 'u:a\tClusterRoleBinding/b\r', GRANT + '\t[get,]\t[]\t[]\t[]\t[]',
                     '-\tr:Role/a/b\ta\tget\t-\tpods\t*\tRoleBinding/a/b', '+\tu:a\t*\tget\t-\tpods\t*\t-', '+\tr:a\t*\tget\t-\tpods\t*\t-',
                     'u:a\t*\t-\t1\t0\t[]\t[]', 'r:ClusterRole/a\t*\tClusterRoleBinding/b\t1\t0\t[]\t[]', 'total\t-\tClusterRoleBinding/b\t1\t0\t[]\t[]',
                     GRANT + '\t[,]\t[]\t[]\t[]\t[]', '01\t*\t*\tu:a\t-\tbind\t' + GRANT, '1\t*\t*\tu:a\t-\tsecrets\t' + GRANT):
            self.assertEqual(self.commands_of(line), [])

    def test_whom_a_step_takes_over(self):
        account, all_, group = 'u:system:serviceaccount:dev:ci\t-', '*\t*', 'g:system:bootstrappers\t-'
        for step, nodes in (('certificates', (all_, account)), ('apiservices', (all_,)), ('escalate', (all_, '*\tdev')), ('volumes', ()), ('namespaces', ()),
                            ('bootstrap', (group, 'g:system:bootstrappers:kubeadm:default\t-')), ('bind', (all_, '*\tdev', 'Role/dev/r\tdev', 'ClusterRole/r\t*')), ('nodes', (account,))):
            for node in (all_, '*\tdev', account, group, 'g:system:bootstrappers:kubeadm:default\t-', 'g:system:bootstrappersx\t-', 'u:system:bootstrappers\t-',
                         'Role/dev/r\tdev', 'ClusterRole/r\t*', 'u:kim\t-'):
                self.assertEqual(self.commands_of('1\t%s\tu:a\t-\t%s\t%s' % (node, step, GRANT)), ['paths'] if node in nodes else [], (step, node))

    def test_long_lines_are_read_once(self):
        began = time.process_time()
        for name in ('a/' * 200_000, '\\\\' * 200_000, '[,' * 200_000, '\\x0a' * 100_000):
            for end in ('', '\x7f', '\\'):
                self.commands_of('RoleBinding/%s%s\tRole/%s/r\tRole/a/r\t1\t1\t[%s]\t[]\t[]\t[]\t[]' % (name, end, name, name))
        self.assertLess(time.process_time() - began, 10)


class Powers(unittest.TestCase):
    def test_of_lines(self):
        for command, line, wanted in (
                ('diff', '+ u:a * * * * * B', ('impersonate', 'token', 'run', 'exec', 'secrets', 'nodes', 'bind', 'escalate', 'certificates', 'webhooks', 'apiservices',
                                               'bootstrap', 'volumes', 'namespaces')),
                ('diff', '+ u:a dev get - secrets one B', ('secrets',)), ('diff', '+ u:a dev create - pods one B', ()), ('diff', '+ u:a dev patch - pods one B', ('exec',)),
                ('diff', '+ u:a dev * - pods one B', ('exec',)), ('diff', '+ u:a dev * apps deployments one B', ('run',)), ('diff', '+ u:a dev deletecollection - secrets one B', ()),
                ('diff', '+ u:a dev deletecollection - secrets * B', ('secrets',)), ('diff', '+ u:a kube-system create - secrets * B', ('bootstrap',)),
                ('diff', '+ u:a kube-system create - secrets one B', ()), ('diff', '+ u:a kube-system patch - secrets one B', ('secrets', 'bootstrap')),
                ('diff', '+ u:a kube-systemx create - secrets * B', ()), ('diff', '+ u:a cluster create - secrets * B', ()), ('diff', '+ u:a * create - secrets * B', ('bootstrap',)),
                ('diff', '+ u:a * create certificates.k8s.io certificatesigningrequests/nodeclient * B', ('certificates',)),
                ('diff', '+ u:a * create certificates.k8s.io certificatesigningrequests/selfnodeclient one B', ()),
                ('diff', '+ u:a * create - */nodeclient * B', ()), ('diff', '+ u:a * create * */nodeclient one B', ()),
                ('matrix', 'u:a - create - persistentvolumes - B', ('volumes',)), ('matrix', 'u:a dev create - persistentvolumes - B', ()),
                ('matrix', 'u:a dev patch - namespaces dev B', ('namespaces',)), ('matrix', 'u:a kube-system update - secrets x B', ('secrets', 'bootstrap')),
                ('rules', 'RoleBinding/kube-system/b r r 1 1 [create] [-] [secrets] [] []', ('bootstrap',)),
                ('rules', 'RoleBinding/dev/kube-system r r 1 1 [create] [-] [secrets] [] []', ()), ('rules', 'ClusterRoleBinding/b r r 1 1 [create] [-] [secrets] [a] []', ()),
                ('diff', '- u:a dev create - serviceaccounts/token one B', ('token',)), ('diff', '+ u:a - get - /x - B', ()),
                ('diff --summary', 'u:a dev B 1 0 [exec] []', ('exec',)), ('matrix', 'u:a dev get - nodes/proxy - B', ()), ('matrix', 'u:a - get - nodes/proxy - B', ('nodes',)),
                ('rules', 'C r r 1 1 [get] [-] [*/exec] [] []', ('exec',)), ('rules', 'R r r 1 1 [get] [-] [pods/*] [] []', ()), ('lint', 'L4 escalation R 1 bind', ())):
            self.assertEqual(fields.powers_of(command, line.split(' ')), wanted, line)


if __name__ == '__main__':
    unittest.main()
