"""Rows of a matrix on standard output: USERS users of one namespace, each of whom has by a RoleBinding of their own one of ROLES roles with SIZE
requests on average.

    python3 generate_rows.py USERS ROLES SIZE
"""

import random
import sys

VERBS = ('create', 'delete', 'deletecollection', 'get', 'list', 'patch', 'update', 'watch')
CORE = ('configmaps', 'endpoints', 'events', 'pods', 'pods/exec', 'pods/log', 'secrets', 'serviceaccounts', 'services')


def main():
    users, roles, size = map(int, sys.argv[1:])
    rng = random.Random(1)
    types = [('', name) for name in CORE] + [('op%02d.io' % (at // 4), 'kind%02d' % at) for at in range(100)]
    requests = ['%s\t%s\t%s\t-' % (verb, group or '-', name) for verb, group, name in sorted((verb, *of) for verb in VERBS for of in types)]
    given = [[requests[at] for at in sorted(rng.sample(range(len(requests)), rng.randrange(size // 2, size * 3 // 2)))] for _ in range(roles)]
    for user in range(users):
        begin, end = 'u:user-%06d@example.com\tbig\t' % user, '\tRoleBinding/big/binding-%06d\n' % user
        sys.stdout.write(''.join(begin + request + end for request in rng.choice(given)))
    sys.stdout.write('end\n')


if __name__ == '__main__':
    main()
