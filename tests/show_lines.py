"""Lines of each command, and what rbacaudit-show has to make of them: tests/show.py compares them.

All of it is written by hand from docs/FORMATS.md.
"""


def tabs(text):
    """Lines that are written with blanks."""
    return ''.join(line.strip().replace(' ', '\t') + '\n' for line in text.strip().splitlines())


# ---- lines of each command, their table and their objects

ANSWER = 'yes\n' + tabs('RoleBinding/shop/readers ClusterRole/shop-view ClusterRole/shop-pods 1 12')
ANSWER_TABLE = '''\
yes
BINDING                   ROLE                   SOURCE                 RULE  SUBJECT
RoleBinding/shop/readers  ClusterRole/shop-view  ClusterRole/shop-pods  1     12
'''
ANSWER_HEADLESS = 'RoleBinding/shop/readers  ClusterRole/shop-view  ClusterRole/shop-pods  1  12\n'
# (85 columns: BINDING of 24 gives three, and then the first two of those that have 21 give one each)
ANSWER_80 = '''\
yes
BINDING               ROLE                  SOURCE                 RULE  SUBJECT
RoleBinding/shop/re…  ClusterRole/shop-vi…  ClusterRole/shop-pods  1     12
'''
LACKING = 'no\n' + tabs(r'''
namespace prod RoleBinding/prod/b Role/prod/r Role/prod/r 1 2
verb [get,a\x2cb] RoleBinding/dev/b ClusterRole/r ClusterRole/s 12 1
member g:ops ClusterRoleBinding/b ClusterRole/r ClusterRole/r 1 3''')
LACKING_TABLE = r'''no
WHAT       HAS           BINDING               ROLE           SOURCE         RULE  SUBJECT
namespace  prod          RoleBinding/prod/b    Role/prod/r    Role/prod/r    1     2
verb       [get,a\x2cb]  RoleBinding/dev/b     ClusterRole/r  ClusterRole/s  12    1
member     g:ops         ClusterRoleBinding/b  ClusterRole/r  ClusterRole/r  1     3
'''
# (90 columns: BINDING of 20 gives seven, and then the three that have 13 give one each)
LACKING_80 = r'''no
WHAT       HAS           BINDING       ROLE          SOURCE        RULE  SUBJECT
namespace  prod          RoleBinding…  Role/prod/r   Role/prod/r   1     2
verb       [get,a\x2cb]  RoleBinding…  ClusterRole…  ClusterRole…  12    1
member     g:ops         ClusterRole…  ClusterRole…  ClusterRole…  1     3
'''
HOLDERS = tabs('''
g:system:masters ClusterRoleBinding/cluster-admin
u:kim RoleBinding/shop/kim''')
HOLDERS_TABLE = '''\
WHO               BINDING
g:system:masters  ClusterRoleBinding/cluster-admin
u:kim             RoleBinding/shop/kim
'''
WHY = tabs('u:kim RoleBinding/shop/kim Role/shop/ops Role/shop/ops 3 1')
WHY_TABLE = '''\
WHO    BINDING               ROLE           SOURCE         RULE  SUBJECT
u:kim  RoleBinding/shop/kim  Role/shop/ops  Role/shop/ops  3     1
'''
# Lines of rules, of which two have the rules of these lines.
WORDS = tabs(r'''
ClusterRoleBinding/m ClusterRole/shop-view ClusterRole/shop-pods 1 2 [get,list] [-] [pods,pods/log] [] []
ClusterRoleBinding/m ClusterRole/shop-view ClusterRole/shop-pods 2 2 [no] [-] [no] [] []
RoleBinding/x/y Role/shop/ops Role/shop/ops 3 9 [*] [apps,-] [deployments,a\x2cb,WORD] [x,y] [/metrics]
RoleBinding/x/y Role/shop/gone Role/shop/ops 3''').replace('WORD', '\u202e a  NAMES')
SHOP_WORDS = '    VERBS get,list  GROUPS -  RESOURCES pods,pods/log\n'
# (the pipe gets the bytes; and a blank behind another is an escape, so that no word looks like a list)
OPS_WORDS = '    VERBS *  GROUPS apps,-  RESOURCES deployments,a\\x2cb,\u202e a \\x20NAMES  NAMES x,y  URLS /metrics\n'
OPS_WORDS_44 = '''\
    VERBS *  GROUPS apps,-
      RESOURCES deployments,a\\x2cb,
      \\xe2\\x80\\xae a \\x20NAMES  NAMES x,y
      URLS /metrics
'''
RULES = tabs(r'''
RoleBinding/shop/ci Role/shop/ci Role/shop/ci 1 1 [get,list] [apps,-] [deployments] [] []
ClusterRoleBinding/m ClusterRole/m ClusterRole/m 10 2 [get] [] [] [] [/metrics,/a\x2cb]''')
RULES_TABLE = r'''BINDING               ROLE           SOURCE         RULE  SUBJECT  VERBS       GROUPS    RESOURCES      NAMES  URLS
RoleBinding/shop/ci   Role/shop/ci   Role/shop/ci   1     1        [get,list]  [apps,-]  [deployments]  []     []
ClusterRoleBinding/m  ClusterRole/m  ClusterRole/m  10    2        [get]       []        []             []     [/metrics,/a\x2cb]
'''
# (129 columns, of which blanks take 18: 111 become 62. All that have more than 7 have 7 at last, which is 3 too many: the first three give one)
RULES_80 = '''\
BINDI…  ROLE    SOURCE  RULE  SUBJECT  VERBS    GROUPS   RESOUR…  NAMES  URLS
RoleB…  Role/…  Role/…  1     1        [get,l…  [apps,…  [deplo…  []     []
Clust…  Clust…  Clust…  10    2        [get]    []       []       []     [/metr…
'''
ROWS = tabs('''
g:devs - get - /metrics - ClusterRoleBinding/scrapers
u:ann dev update - configmaps app RoleBinding/dev/ann
u:system:serviceaccount:dev:ci dev patch apps deployments - RoleBinding/dev/ci''')
MATRIX = ROWS + 'end\n'
MATRIX_TABLE = '''\
WHO                             NAMESPACE  VERB    GROUP  RESOURCE     NAME  BINDING
g:devs                          -          get     -      /metrics     -     ClusterRoleBinding/scrapers
u:ann                           dev        update  -      configmaps   app   RoleBinding/dev/ann
u:system:serviceaccount:dev:ci  dev        patch   apps   deployments  -     RoleBinding/dev/ci
end
'''
# (104 columns: WHO of 30 and BINDING of 27 give 24, so they have 16 and 17)
MATRIX_80 = '''\
WHO               NAMESPACE  VERB    GROUP  RESOURCE     NAME  BINDING
g:devs            -          get     -      /metrics     -     ClusterRoleBindi…
u:ann             dev        update  -      configmaps   app   RoleBinding/dev/…
u:system:servic…  dev        patch   apps   deployments  -     RoleBinding/dev/…
end
'''
LINT = tabs(r'''
L1 dangling-role RoleBinding/shop/old - Role/shop/gone
L3 redundant-rule Role/shop/ops 2 1
L5 account-without-namespace ClusterRoleBinding/m 1 7
L6 stale-aggregate ClusterRole/view - -
L7 replaced-object Namespace/shop - 2''')
LINT_TABLE = '''\
CODE  NAME                       OBJECT                PLACE  DETAIL
L1    dangling-role              RoleBinding/shop/old  -      Role/shop/gone
L3    redundant-rule             Role/shop/ops         2      1
L5    account-without-namespace  ClusterRoleBinding/m  1      7
L6    stale-aggregate            ClusterRole/view      -      -
L7    replaced-object            Namespace/shop        -      2
'''
FILES = tabs(r'L2 unused-role ClusterRole/old - - rbac/roles\\.yaml')
FILES_TABLE = r'''CODE  NAME         OBJECT           PLACE  DETAIL  FILE
L2    unused-role  ClusterRole/old  -      -       rbac/roles\\.yaml
'''
POWERS = tabs(r'''
exec g:devs shop RoleBinding/shop/devs ClusterRole/edit ClusterRole/edit-exec 2 1
secrets u:bob * ClusterRoleBinding/bobs ClusterRole/ops ClusterRole/ops 10 3
secrets u:eve \x2a RoleBinding/*/eve Role/*/r Role/*/r 1 1''')
POWERS_TABLE = r'''STEP     WHO     WHERE  BINDING                  ROLE              SOURCE                 RULE  SUBJECT
exec     g:devs  shop   RoleBinding/shop/devs    ClusterRole/edit  ClusterRole/edit-exec  2     1
secrets  u:bob   *      ClusterRoleBinding/bobs  ClusterRole/ops   ClusterRole/ops        10    3
secrets  u:eve   \x2a   RoleBinding/*/eve        Role/*/r          Role/*/r               1     1
'''
# (103 columns: BINDING of 23 gives two, then BINDING and SOURCE five each, then these and ROLE of 16 give four, four and three)
POWERS_80 = r'''STEP     WHO     WHERE  BINDING       ROLE          SOURCE         RULE  SUBJECT
exec     g:devs  shop   RoleBinding…  ClusterRole…  ClusterRole/…  2     1
secrets  u:bob   *      ClusterRole…  ClusterRole…  ClusterRole/…  10    3
secrets  u:eve   \x2a   RoleBinding…  Role/*/r      Role/*/r       1     1
'''
# From a group, from everything in a namespace that is called *, from a role in a namespace, and from a user.
PATHS = tabs(r'''
1 * \x2a g:devs - bind RoleBinding/*/devs Role/*/lead Role/*/lead 2 1
1 ClusterRole/edit shop g:devs - bind ClusterRoleBinding/devs ClusterRole/binds ClusterRole/binds 10 3
2 u:system:serviceaccount:*:ci - * \x2a impersonate - - - - -
2 u:system:serviceaccount:shop:ci - ClusterRole/edit shop run - ClusterRole/edit ClusterRole/edit-run 1 -
3 * * u:system:serviceaccount:shop:ci - escalate ClusterRoleBinding/ci ClusterRole/ci ClusterRole/ci 1 1''')
PATHS_TABLE = r'''STEPS  TO                               WHERE  FROM                             WHERE  STEP         BINDING                  ROLE               SOURCE                RULE  SUBJECT
1      *                                \x2a   g:devs                           -      bind         RoleBinding/*/devs       Role/*/lead        Role/*/lead           2     1
1      ClusterRole/edit                 shop   g:devs                           -      bind         ClusterRoleBinding/devs  ClusterRole/binds  ClusterRole/binds     10    3
2      u:system:serviceaccount:*:ci     -      *                                \x2a   impersonate  -                        -                  -                     -     -
2      u:system:serviceaccount:shop:ci  -      ClusterRole/edit                 shop   run          -                        ClusterRole/edit   ClusterRole/edit-run  1     -
3      *                                *      u:system:serviceaccount:shop:ci  -      escalate     ClusterRoleBinding/ci    ClusterRole/ci     ClusterRole/ci        1     1
'''
# (179 columns, of which blanks take 20: 159 become 60. All that have more than 7 have 7 at last, which is 8 too many: the first four give two)
PATHS_80 = r'''STEPS  TO     WHERE  FROM   WHERE  STEP   BIND…  ROLE     SOURCE   RULE  SUBJECT
1      *      \x2a   g:de…  -      bind   Role…  Role/*…  Role/*…  2     1
1      Clus…  shop   g:de…  -      bind   Clus…  Cluste…  Cluste…  10    3
2      u:sy…  -      *      \x2a   impe…  -      -        -        -     -
2      u:sy…  -      Clus…  shop   run    -      Cluste…  Cluste…  1     -
3      *      *      u:sy…  -      esca…  Clus…  Cluste…  Cluste…  1     1
'''
# Everything in a namespace that is called *, a role, a group and a user; then who takes over the first or the second of them, and who the next.
WAYS = tabs(r'''
0 * \x2a - - - - - - - -
0 ClusterRole/edit shop - - - - ClusterRole/edit ClusterRole/edit-run 1 -
0 g:devs - - - - RoleBinding/*/devs Role/*/lead Role/*/lead 2 1
0 u:system:serviceaccount:shop:ci - - - - ClusterRoleBinding/ci ClusterRole/ci ClusterRole/ci 10 3
1 * shop u:system:serviceaccount:shop:ci - impersonate - - - - -
1 ClusterRole/binds shop ClusterRole/edit shop bind - ClusterRole/binds ClusterRole/binds 10 -
2 u:ann - * shop bind RoleBinding/shop/ann Role/shop/a Role/shop/a 1 1''')
WAYS_TABLE = r'''STEPS  WHO                              WHERE  TO                               WHERE  STEP         BINDING                ROLE               SOURCE                RULE  SUBJECT
0      *                                \x2a   -                                -      -            -                      -                  -                     -     -
0      ClusterRole/edit                 shop   -                                -      -            -                      ClusterRole/edit   ClusterRole/edit-run  1     -
0      g:devs                           -      -                                -      -            RoleBinding/*/devs     Role/*/lead        Role/*/lead           2     1
0      u:system:serviceaccount:shop:ci  -      -                                -      -            ClusterRoleBinding/ci  ClusterRole/ci     ClusterRole/ci        10    3
1      *                                shop   u:system:serviceaccount:shop:ci  -      impersonate  -                      -                  -                     -     -
1      ClusterRole/binds                shop   ClusterRole/edit                 shop   bind         -                      ClusterRole/binds  ClusterRole/binds     10    -
2      u:ann                            -      *                                shop   bind         RoleBinding/shop/ann   Role/shop/a        Role/shop/a           1     1
'''
# (177 columns, of which blanks take 20: 157 become 60. All that have more than 7 have 7 at last, which is 8 too many: the first four give two)
WAYS_80 = r'''STEPS  WHO    WHERE  TO     WHERE  STEP   BIND…  ROLE     SOURCE   RULE  SUBJECT
0      *      \x2a   -      -      -      -      -        -        -     -
0      Clus…  shop   -      -      -      -      Cluste…  Cluste…  1     -
0      g:de…  -      -      -      -      Role…  Role/*…  Role/*…  2     1
0      u:sy…  -      -      -      -      Clus…  Cluste…  Cluste…  10    3
1      *      shop   u:sy…  -      impe…  -      -        -        -     -
1      Clus…  shop   Clus…  shop   bind   -      Cluste…  Cluste…  10    -
2      u:ann  -      *      shop   bind   Role…  Role/s…  Role/s…  1     1
'''
DIFF = tabs(r'''
+ g:devs shop list - secrets * RoleBinding/shop/devs
- u:bob * * apps * \x2a ClusterRoleBinding/bobs
- u:bob - get - /healthz/* - ClusterRoleBinding/bobs''')
DIFF_TABLE = r'''CHANGE  WHO     NAMESPACE  VERB  GROUP  RESOURCE    NAME  BINDING
+       g:devs  shop       list  -      secrets     *     RoleBinding/shop/devs
-       u:bob   *          *     apps   *           \x2a  ClusterRoleBinding/bobs
-       u:bob   -          get   -      /healthz/*  -     ClusterRoleBinding/bobs
'''
# (81 columns)
DIFF_80 = DIFF_TABLE.replace('bobs', 'bo…')
SUMMARY = tabs('''
g:devs shop RoleBinding/shop/devs 2 0 [secrets] []
u:bob - ClusterRoleBinding/bobs 0 1 [] []
u:\\x2da * ClusterRoleBinding/bobs 7 12 [exec] [run,exec]
total - - 9 13 [secrets,exec] [run,exec]''')
SUMMARY_TABLE = r'''WHO      NAMESPACE  BINDING                  GAINED  LOST  POWERS_GAINED   POWERS_LOST
g:devs   shop       RoleBinding/shop/devs    2       0     [secrets]       []
u:bob    -          ClusterRoleBinding/bobs  0       1     []              []
u:\x2da  *          ClusterRoleBinding/bobs  7       12    [exec]          [run,exec]
total    -          -                        9       13    [secrets,exec]  [run,exec]
'''
# (86 columns: BINDING of 23 gives six)
SUMMARY_80 = SUMMARY_TABLE.replace('BINDING       ', 'BINDING ').replace('RoleBinding/shop/devs  ', 'RoleBinding/shop…').replace('ClusterRoleBinding/bobs', 'ClusterRoleBindi…')
SUMMARY_80 = SUMMARY_80.replace('-          -                      ', '-          -                ').replace('…    2', '…  2')


UNUSED = tabs(r'''
binding ClusterRoleBinding/m ClusterRole/m - - - - - - -
subject RoleBinding/shop/ci Role/shop/ci - - 12 u:system:serviceaccount:shop:ci - - -
rule RoleBinding/shop/ci Role/shop/ci Role/shop/ci 10 - - - - -
permission ClusterRoleBinding/ops ClusterRole/ops ClusterRole/part 1 - get - /metrics -
permission ClusterRoleBinding/ops ClusterRole/ops ClusterRole/part 2 - list - secrets *
permission ClusterRoleBinding/ops ClusterRole/ops ClusterRole/part 3 - \x2a apps deployments/scale \x2a''')
UNUSED_TABLE = r'''LINE        BINDING                 ROLE             SOURCE            RULE  SUBJECT  WHO/VERB                         GROUP  RESOURCE           NAME
binding     ClusterRoleBinding/m    ClusterRole/m    -                 -     -        -                                -      -                  -
subject     RoleBinding/shop/ci     Role/shop/ci     -                 -     12       u:system:serviceaccount:shop:ci  -      -                  -
rule        RoleBinding/shop/ci     Role/shop/ci     Role/shop/ci      10    -        -                                -      -                  -
permission  ClusterRoleBinding/ops  ClusterRole/ops  ClusterRole/part  1     -        get                              -      /metrics           -
permission  ClusterRoleBinding/ops  ClusterRole/ops  ClusterRole/part  2     -        list                             -      secrets            *
permission  ClusterRoleBinding/ops  ClusterRole/ops  ClusterRole/part  3     -        \x2a                             apps   deployments/scale  \x2a
'''
# (149 columns, of which blanks take 18: 131 become 62. All that have more than 7 have 7)
UNUSED_80 = r'''LINE     BINDING  ROLE     SOURCE   RULE  SUBJECT  WHO/VE…  GROUP  RESOUR…  NAME
binding  Cluste…  Cluste…  -        -     -        -        -      -        -
subject  RoleBi…  Role/s…  -        -     12       u:syst…  -      -        -
rule     RoleBi…  Role/s…  Role/s…  10    -        -        -      -        -
permis…  Cluste…  Cluste…  Cluste…  1     -        get      -      /metri…  -
permis…  Cluste…  Cluste…  Cluste…  2     -        list     -      secrets  *
permis…  Cluste…  Cluste…  Cluste…  3     -        \x2a     apps   deploy…  \x2a
'''


def objects(keys, *values):
    return [dict(zip(keys.split(), line)) for line in values]


OF_WHY = 'binding role source rule subject'
OF_ROW = 'who namespace verb group resource name binding'
OF_COUNTS = 'gained lost powers_gained powers_lost'
OF_FINDING = 'code name object place detail'
OF_PART = 'line binding role source rule subject %s group resource name'
COMMANDS = {
    'can-i --why': (ANSWER, ANSWER_TABLE, ANSWER_80, [{'allowed': True}, *objects(
        OF_WHY, ('RoleBinding/shop/readers', 'ClusterRole/shop-view', 'ClusterRole/shop-pods', 1, 12))],
                    ['RoleBinding/shop/readers']),
    'can-i': ('no\n', 'no\n', 'no\n', [{'allowed': False}], []),
    'can-i --why-not': (LACKING, LACKING_TABLE, LACKING_80, [{'allowed': False}, *objects(
        'what has ' + OF_WHY, ('namespace', 'prod', 'RoleBinding/prod/b', 'Role/prod/r', 'Role/prod/r', 1, 2),
        ('verb', ['get', 'a,b'], 'RoleBinding/dev/b', 'ClusterRole/r', 'ClusterRole/s', 12, 1),
        ('member', 'g:ops', 'ClusterRoleBinding/b', 'ClusterRole/r', 'ClusterRole/r', 1, 3))], ['namespace', 'verb', 'member']),
    'who-can': (HOLDERS, HOLDERS_TABLE, HOLDERS_TABLE, objects(
        'who binding', ('g:system:masters', 'ClusterRoleBinding/cluster-admin'), ('u:kim', 'RoleBinding/shop/kim')),
                ['g:system:masters', 'u:kim']),
    'who-can --why': (WHY, WHY_TABLE, WHY_TABLE, objects(
        'who ' + OF_WHY, ('u:kim', 'RoleBinding/shop/kim', 'Role/shop/ops', 'Role/shop/ops', 3, 1)), ['u:kim']),
    'rules': (RULES, RULES_TABLE, RULES_80, objects(
        OF_WHY + ' verbs api_groups resources resource_names non_resource_urls',
        ('RoleBinding/shop/ci', 'Role/shop/ci', 'Role/shop/ci', 1, 1, ['get', 'list'], ['apps', ''], ['deployments'], [], []),
        ('ClusterRoleBinding/m', 'ClusterRole/m', 'ClusterRole/m', 10, 2, ['get'], [], [], [], ['/metrics', '/a,b'])),
              ['RoleBinding/shop/ci', 'ClusterRoleBinding/m']),
    'matrix': (MATRIX, MATRIX_TABLE, MATRIX_80, [*objects(
        OF_ROW, ('g:devs', '', 'get', '', '/metrics', '', 'ClusterRoleBinding/scrapers'),
        ('u:ann', 'dev', 'update', '', 'configmaps', 'app', 'RoleBinding/dev/ann'),
        ('u:system:serviceaccount:dev:ci', 'dev', 'patch', 'apps', 'deployments', '', 'RoleBinding/dev/ci')), {'end': True}],
               ['g:devs', 'u:ann', 'u:system:serviceaccount:dev:ci']),
    'lint': (LINT, LINT_TABLE, LINT_TABLE, objects(
        OF_FINDING, ('L1', 'dangling-role', 'RoleBinding/shop/old', None, 'Role/shop/gone'),
        ('L3', 'redundant-rule', 'Role/shop/ops', 2, 1), ('L5', 'account-without-namespace', 'ClusterRoleBinding/m', 1, '7'),
        ('L6', 'stale-aggregate', 'ClusterRole/view', None, ''), ('L7', 'replaced-object', 'Namespace/shop', None, 2)),
             ['RoleBinding/shop/old', 'Role/shop/ops', 'ClusterRoleBinding/m', 'ClusterRole/view', 'Namespace/shop']),
    'lint of manifests': (FILES, FILES_TABLE, FILES_TABLE, objects(
        OF_FINDING + ' file', ('L2', 'unused-role', 'ClusterRole/old', None, '', 'rbac/roles\\.yaml')), ['ClusterRole/old']),
    'powers': (POWERS, POWERS_TABLE, POWERS_80, objects(
        'step who where ' + OF_WHY, ('exec', 'g:devs', 'shop', 'RoleBinding/shop/devs', 'ClusterRole/edit', 'ClusterRole/edit-exec', 2, 1),
        ('secrets', 'u:bob', None, 'ClusterRoleBinding/bobs', 'ClusterRole/ops', 'ClusterRole/ops', 10, 3),
        ('secrets', 'u:eve', '*', 'RoleBinding/*/eve', 'Role/*/r', 'Role/*/r', 1, 1)), ['g:devs', 'u:bob', 'u:eve']),
    'paths': (PATHS, PATHS_TABLE, PATHS_80, objects(
        'steps who where from from_where step ' + OF_WHY,
        (1, '*', '*', 'g:devs', '', 'bind', 'RoleBinding/*/devs', 'Role/*/lead', 'Role/*/lead', 2, 1),
        (1, 'ClusterRole/edit', 'shop', 'g:devs', '', 'bind', 'ClusterRoleBinding/devs', 'ClusterRole/binds', 'ClusterRole/binds', 10, 3),
        (2, 'u:system:serviceaccount:*:ci', '', '*', '*', 'impersonate', '', '', '', None, None),
        (2, 'u:system:serviceaccount:shop:ci', '', 'ClusterRole/edit', 'shop', 'run', '', 'ClusterRole/edit', 'ClusterRole/edit-run', 1, None),
        (3, '*', None, 'u:system:serviceaccount:shop:ci', '', 'escalate', 'ClusterRoleBinding/ci', 'ClusterRole/ci', 'ClusterRole/ci', 1, 1)),
              ['*', 'ClusterRole/edit', 'u:system:serviceaccount:*:ci', 'u:system:serviceaccount:shop:ci', '*']),
    'who-can --indirect': (WAYS, WAYS_TABLE, WAYS_80, objects(
        'steps who where to to_where step ' + OF_WHY,
        (0, '*', '*', '', '', '', '', '', '', None, None),
        (0, 'ClusterRole/edit', 'shop', '', '', '', '', 'ClusterRole/edit', 'ClusterRole/edit-run', 1, None),
        (0, 'g:devs', '', '', '', '', 'RoleBinding/*/devs', 'Role/*/lead', 'Role/*/lead', 2, 1),
        (0, 'u:system:serviceaccount:shop:ci', '', '', '', '', 'ClusterRoleBinding/ci', 'ClusterRole/ci', 'ClusterRole/ci', 10, 3),
        (1, '*', 'shop', 'u:system:serviceaccount:shop:ci', '', 'impersonate', '', '', '', None, None),
        (1, 'ClusterRole/binds', 'shop', 'ClusterRole/edit', 'shop', 'bind', '', 'ClusterRole/binds', 'ClusterRole/binds', 10, None),
        (2, 'u:ann', '', '*', 'shop', 'bind', 'RoleBinding/shop/ann', 'Role/shop/a', 'Role/shop/a', 1, 1)),
                           ['*', 'ClusterRole/edit', 'g:devs', 'u:system:serviceaccount:shop:ci', '*', 'ClusterRole/binds', 'u:ann']),
    'diff': (DIFF, DIFF_TABLE, DIFF_80, objects(
        'change ' + OF_ROW, ('+', 'g:devs', 'shop', 'list', '', 'secrets', None, 'RoleBinding/shop/devs'),
        ('-', 'u:bob', None, '*', 'apps', '*', '*', 'ClusterRoleBinding/bobs'),
        ('-', 'u:bob', '', 'get', '', '/healthz/*', '', 'ClusterRoleBinding/bobs')), ['g:devs', 'u:bob']),
    'diff --summary': (SUMMARY, SUMMARY_TABLE, SUMMARY_80, [*objects(
        'who namespace binding ' + OF_COUNTS, ('g:devs', 'shop', 'RoleBinding/shop/devs', 2, 0, ['secrets'], []),
        ('u:bob', '', 'ClusterRoleBinding/bobs', 0, 1, [], []), ('u:-a', None, 'ClusterRoleBinding/bobs', 7, 12, ['exec'], ['run', 'exec'])),
        *objects('total ' + OF_COUNTS, (True, 9, 13, ['secrets', 'exec'], ['run', 'exec']))], ['g:devs', 'u:bob', 'u:\\x2da']),
    # (the key of the seventh field depends on the line)
    'unused': (UNUSED, UNUSED_TABLE, UNUSED_80, [
        *objects(OF_PART % 'verb', ('binding', 'ClusterRoleBinding/m', 'ClusterRole/m', '', None, None, '', '', '', '')),
        *objects(OF_PART % 'who', ('subject', 'RoleBinding/shop/ci', 'Role/shop/ci', '', None, 12, 'u:system:serviceaccount:shop:ci', '', '', '')),
        *objects(OF_PART % 'verb', ('rule', 'RoleBinding/shop/ci', 'Role/shop/ci', 'Role/shop/ci', 10, None, '', '', '', ''),
                 ('permission', 'ClusterRoleBinding/ops', 'ClusterRole/ops', 'ClusterRole/part', 1, None, 'get', '', '/metrics', ''),
                 ('permission', 'ClusterRoleBinding/ops', 'ClusterRole/ops', 'ClusterRole/part', 2, None, 'list', '', 'secrets', None),
                 ('permission', 'ClusterRoleBinding/ops', 'ClusterRole/ops', 'ClusterRole/part', 3, None, '*', 'apps', 'deployments/scale', '*'))],
               ['ClusterRoleBinding/m', 'RoleBinding/shop/ci', 'ClusterRoleBinding/ops']),
}
