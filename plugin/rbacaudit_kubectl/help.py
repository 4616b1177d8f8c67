"""The texts of --help. Lines on commands and options are made from their tables, and paragraphs are set as wide as a screen."""

from __future__ import annotations

import textwrap
from collections.abc import Iterator
from itertools import groupby

from .fields import SHAPES
from .options import COMMANDS, OF_DIFF, OF_EXPORT, OF_LOGS, OF_PAGE, OF_READ, OF_REPORT, OWN, SHOWN, Option

MAIN = '''\
Answer questions about the RBAC of a cluster with rbacaudit. kubectl reads the cluster, and nothing in it is changed.

{commands}

The commands up to lint, unused and least take rbacaudit's options (see can-i --help), and these, but least no -o:
{options}

Without --export, each question reads the cluster anew. For several questions, and for pages of a matrix, export first:
  kubectl rbacaudit export prod
  kubectl rbacaudit access --export prod u:kim@example.com

PATH is a file or folder with manifests, a folder with a kustomization, or - for standard input. lint PATH reads no cluster; it knows Kubernetes' own
roles without --no-defaults. Without -n or -A, can-i and who-can ask about the namespace of the context, or of the context that the export was made
with; rules and access list all bindings.

FILEs are read before the files of the export: if both have an object, the export's counts. The exit status is rbacaudit's: 2 is an error. If a part
that the command reads is missing, the status is 2, unless --partial is given. Standard error lists which type, verb, namespace, user or group isn't
in the export; pods/exec means a pod named exec.

Needs: Python 3.9, rbacaudit on the PATH or beside this plugin and, but for exports, kubectl. --version prints versions.
'''
EXPORT = '''\
Write everything that rbacaudit reads into the folder DIR, with your kubectl.

  kubectl rbacaudit export [--force] [-n NS] [OPTION OF KUBECTL].. DIR

  cluster.json, namespaced.json   cluster roles and roles, and their bindings
  namespaces.json, accounts.json  namespaces, and service accounts of all namespaces
  api-*.json                      the API resource list of each API version
  groups.json                     who is in which group, where the server has groups.user.openshift.io
  about.txt                       the context, its server, namespace and version, when and which files were read
  incomplete.txt                  what is missing, and the server's reason; a complete export has no such file

{options}

You need this ClusterRole, bound by a ClusterRoleBinding:
  apiVersion: rbac.authorization.k8s.io/v1
  kind: ClusterRole
  metadata:
    name: rbacaudit-export
  rules:
  - apiGroups: [rbac.authorization.k8s.io]
    resources: [clusterroles, clusterrolebindings, roles, rolebindings]
    verbs: [list]
  - apiGroups: [""]
    resources: [namespaces, serviceaccounts]
    verbs: [list]
  - apiGroups: [user.openshift.io]
    resources: [groups]
    verbs: [list]
  - nonResourceURLs: [/api, /api/*, /apis, /apis/*, /version]
    verbs: [get]

Each file is complete or missing, and for you alone. The calls of kubectl run at the same time, so a change during the export may be in some files
only. Exit status: 0 the export is complete; 1 a part is missing, because you may not read it or a call failed; 2 nothing could be read or written. An
earlier export in DIR then stays as it was, or has an incomplete.txt with the reason. Ask the export with --export DIR, as in:
  kubectl rbacaudit can-i --export DIR --as alice -n dev get pods
'''
DIFF = '''\
List what a change lets users do, and what it takes from them.

  kubectl rbacaudit diff --export OLD --export NEW   from one export to another
  kubectl rbacaudit diff --export OLD                from an export to the cluster as it is now
  kubectl rbacaudit diff --export DIR --with PATH    what a change under review would do
  kubectl rbacaudit diff --with PATH                 the same, to the cluster as it is now
  kubectl rbacaudit diff --from PATH --to PATH       from some manifests to others, without a cluster; with
                                                     --export DIR, what that change would do to its cluster
{options}
  -o sarif         the changes as SARIF, for code hosts, with the file of each binding or of its role

PATH is a file, a folder (.json, .yaml and .yml, folders within), a folder with a kustomization, or - for standard input. kubectl reads it, without a
cluster (kubectl rbacaudit read --help). Standard error says how many roles and bindings were read. Without --without, objects that the change deletes
still count.

With --from and --to alone, the roles and bindings that Kubernetes itself makes count on both sides. r:ROLE in the place of WHO is whoever has this
role elsewhere in the cluster, and "what ROLE gathers elsewhere" is what an aggregated role selects there. If neither state nor Kubernetes has the
role of a binding, nothing is answered; --partial leaves such bindings out, and standard error says which.

A line begins with + for a permission that is gained, or with - for one that is lost; rbacaudit diff --help lists the fields. All requests of all
users are compared, whether an export names them or not. The other options (--partial, -o, ..) mean what kubectl rbacaudit --help says. Exit status: 0
nothing changes, or nothing that --fail-on names; 1 something does; 2 an error.
'''
READ = '''\
Print the manifests at some paths as one List in JSON, as kubectl reads them.

  kubectl rbacaudit read [-n NS] PATH..

  PATH     a file; a folder: its .json, .yaml and .yml files, and those of folders within; a folder with a
           kustomization, which kubectl renders; or - for standard input, such as helm template prints
{options}

Lint, and the options --with, --without, --from and --to of diff, read their PATH in the same way. kubectl reads neither a cluster nor a kubeconfig
for it. Documents of every kind pass. Standard error says how many roles and bindings were read, and which have no namespace. This is refused:
  - a file that kubectl can't read: kubectl's reason is printed first
  - a folder without a manifest, with a Helm chart, or with a kustomization in a folder within
  - a role or binding whose name the server makes (generateName)
  - a kind that rbac.authorization.k8s.io doesn't have, such as Clusterrole, and a role without apiVersion

The List is for rbacaudit, as in:
  kubectl rbacaudit read main/ > main.json
  kubectl rbacaudit read change/ > change.json
  rbacaudit diff --before main.json --after change.json
'''
PAGE = '''\
Write everything about the export as one HTML file, which any current browser opens.

  kubectl rbacaudit page [-n NS] [--output FILE] [--title TEXT] [--diff FILE] [--every] [FILE]..

{options}

The rows are those of matrix --once, over the universe that kubectl rbacaudit universe writes: without object names. What holds in the whole cluster
is listed once, and the page shows it in each namespace. A FILE may be a Universe document of your own: each of its fields replaces a list of that
universe. The page also shows the findings of lint, and whom everybody with a power can take over: it asks paths about them for up to 60 seconds, and
the page says about whom it didn't ask. Its watch list counts separately who may do something only to objects with certain names, whether the Universe
document has these names or not. --export, --partial, --context, --kubeconfig and --request-timeout mean what kubectl rbacaudit --help says. Exit
status: 0 the page is written; 2 an error.
'''
ACCESS = '''\
Show what a user or a group may do, as a table of types by verbs.

  kubectl rbacaudit access [--groups A,B] [--group G].. [-n NS] [-A] WHO [FILE]..

  yes               the verb on every object of the type
  names             only on objects whose names are in the last column
  -                 no rule with these words has the verb; a row or a column * may allow it

  -n NS             what counts in the namespace NS, with what holds in the whole cluster. Without it, WHERE
                    is the namespace of what RoleBindings grant, or * for the whole cluster
  -A                what holds in the whole cluster alone
  -o FORMAT         table (default), wide, or json: an object for each type and each URL

WHO is u:NAME for a user or g:NAME for a group. The table is made of the lines of rules, and all words stay as the roles have them: * in the place of a
verb, type or API group is any, and what it allows isn't repeated elsewhere. URLs come last, in a table of their own. Powers are bold
(kubectl rbacaudit powers --help), and types that are limited to names are yellow. Standard error names cluster-scoped types that RoleBindings name,
if the export has API resource lists. The other options mean what kubectl rbacaudit --help says. Exit status: 0 the table is written; 2 an error.
'''
UNUSED = '''\
List what of the bindings no request of an audit log used, and so may be taken away: status 1 if any.

  kubectl rbacaudit unused --log LOG [--log LOG].. [--skip-system] [FILE]..

{options}
  --skip-system  leave out the bindings whose names begin with system:
  -o FORMAT      table (on a terminal), wide, json, name (the bindings), or tsv (elsewhere): the lines of
                 rbacaudit. Above a table is how much isn't used

  binding        nobody used anything that the binding grants
  subject        the binding is used, but not by anybody whom this subject names
  rule           nobody used any permission of this rule through the binding
  permission     nobody used these words of the rule: a verb, and an API group, a resource and an object name
                 (* for any), or a URL

Each unused permission is in one line, by the first of these words that is true. A log has lines of JSON, as the API server writes them with
--audit-log-path: events of audit.k8s.io/v1. Give the logs of all API servers, in any order; packed ones (.gz) count as they are. They tell only what
was asked while they were written, and what the server's audit policy logs. So what is needed once a year may look unused. As in:
  kubectl rbacaudit unused --export prod --skip-system --log audit.log --log audit-2026-11-30.log.gz
  ssh master cat /var/log/kubernetes/audit.log | kubectl rbacaudit unused --export prod --log -

A line of a log that is no event refuses the answer, and standard error has its place; a log that a server is writing may end in half a line. The
other options mean what kubectl rbacaudit --help says, and rbacaudit unused --help lists the fields. Exit status: 0 all is used; 1 something isn't; 2
an error.
'''
LEAST = '''\
Print the roles and bindings that let a user do what it did by an audit log, as JSON for kubectl apply.

  kubectl rbacaudit least --log LOG [--log LOG].. [--names] [--name NAME] WHO [FILE]..

{options}
  --names        keep the object names that were asked for; without it, a rule is for any object of its types
  --name NAME    the name of each role and binding (default: least)

WHO is u:NAME for a user, such as u:system:serviceaccount:shop:ci. What counts is what the logs have of this user, in whatever groups, and what the
roles of the export allow. In each namespace a Role and a RoleBinding allow it, and for the whole cluster and URLs a ClusterRole and a
ClusterRoleBinding. Without --names they may allow more than the roles do now, where these are for some object names alone. So look at what would be
gained and lost, before anything is applied:
  kubectl rbacaudit least --export prod --log audit.log --name ci u:system:serviceaccount:shop:ci > least.json
  kubectl rbacaudit diff --export prod --without old/ --with least.json
  kubectl apply -f least.json

In old/ are the bindings that the user has now. The logs are those of kubectl rbacaudit unused --help, and they tell only what was asked while they
were written: what is needed once a year would be lost. A request with a * for a verb, a type or an API group isn't written, since a rule would allow
all. The other options mean what kubectl rbacaudit --help says. Exit status: 0 the List is written, which is empty if nothing is needed; 2 an error.
'''
REPORT = '''\
Write one document about the export, for an auditor.

  kubectl rbacaudit report [-o FORMAT]

{options}

The document has what was read, who takes over the whole cluster and by which step, the powers of each user and group, the findings of lint by
severity, stale aggregates, the groups whose members no Group document tells, and what the report misses; and with each the command that shows more.
All of it is made of answers of rbacaudit. Findings about Kubernetes' own objects are left out, and counted. --export, --partial, --context,
--kubeconfig and --request-timeout mean what kubectl rbacaudit --help says. Exit status: 0 the report is written; 2 an error.
'''
SHOW = '''\
Show the lines of rbacaudit: as a table, as JSON, or as names.

  rbacaudit rules u:kim *.json | rbacaudit-show [-o FORMAT]

  -o FORMAT, --output FORMAT
                 table  aligned columns under a head (default). On a terminal a
                        line is no longer than the screen: the widest columns
                        are cut, and a cut field ends in ...
                 wide   the same, and nothing is cut
                 json   an object for each line, on a line of its own
                 name   only who or what a line is about, once if several
                        lines in a row are about the same
  --no-headers   a table without its head
  --color WHEN   auto (default), always or never. In a table + is green, - is
                 red, and powers are bold: permissions by which somebody takes
                 over somebody else. auto: on a terminal, unless TERM is dumb
                 or NO_COLOR is set
  --rules FILE   lines of rbacaudit rules: in a table of --why, the words of
                 the rule are below each row, if the file has the rule
  --indirect     take lines that could also be of paths as lines of who-can
                 --indirect
  -h, --help     print help
  -V, --version  print version

rbacaudit-show knows the command by the number of fields and the first field:
{lines}

All lines have to be of one command. The answer of who-can --indirect begins with lines whose STEPS is 0. Without them, a line may be taken as one of
paths: use --indirect. The first 500 lines of a table set the widths of its columns. The width of the screen is $COLUMNS or, if it isn't set, the
terminal's.

Exit status: 0 all lines are shown; 2 an error, also a line that no command prints. The status of rbacaudit itself is lost in a pipe: with set -o
pipefail bash keeps it.
'''
# The lines of each command: which of SHAPES, and what is said around the fields.
LINES = (('can-i', 0, 'yes or no; %s'), ('can-i --why-not', 1, '%s'), ('who-can', 2, '%s'), ('who-can --why', 3, '%s'), ('who-can --indirect', 10, '%s'),
         ('rules', 4, '%s'), ('matrix', 5, '%s; end, or next and a token'), ('lint', 6, '%s, and FILE from the plugin'), ('powers', 8, '%s'),
         ('paths', 9, '%s'), ('diff', 11, '%s'), ('diff --summary', 12, 'of the plugin: %s, and at last total in the place of WHO'),
         ('unused', 13, '%s'))
# The text of a command, its options, and the column of what they do.
TEXTS = {'': (MAIN, OWN + SHOWN, 21), 'export': (EXPORT, OF_EXPORT, 20), 'diff': (DIFF, OF_DIFF, 19), 'read': (READ, OF_READ, 11),
         'access': (ACCESS, (), 0), 'unused': (UNUSED, OF_LOGS, 17), 'least': (LEAST, OF_LOGS, 17), 'report': (REPORT, OF_REPORT, 20),
         'page': (PAGE, OF_PAGE, 17)}


def described(options: tuple[Option, ...], column: int) -> Iterator[str]:
    """Lines on options; what several do alike is said once."""
    for text in dict.fromkeys(option.text for option in options):
        names = ', '.join(('%s %s' % (option.spellings[0], option.value)).strip() for option in options if option.text == text)
        yield from textwrap.wrap(text, 116, initial_indent=('  ' + names).ljust(column - 2) + '  ', subsequent_indent=' ' * column,
                                 break_on_hyphens=False)


def filled(text: str, width: int = 120) -> str:
    """A text whose paragraphs have lines of this width. What is indented stays as it is."""
    lines: list[str] = []
    for is_set, some in groupby(text.split('\n'), key=lambda line: line[:1] in ('', ' ')):
        lines += some if is_set else textwrap.wrap(' '.join(some), width, break_on_hyphens=False)
    return '\n'.join(lines)


def help_of(command: str) -> str:
    """What --help of a command prints; a command without a text of its own has that of the plugin."""
    text, options, column = TEXTS.get(command, TEXTS[''])
    commands = '\n'.join('  kubectl rbacaudit %-36s  %s' % ('%s %s' % (name, it.usage), it.text) for name, it in COMMANDS.items())
    return filled(text.replace('{commands}', commands).replace('{options}', '\n'.join(described(options, column))))


def help_of_show() -> str:
    """What --help of rbacaudit-show prints."""
    lines: list[str] = []
    for name, at, around in LINES:
        head, blank = ('  ' + name).ljust(17), ' ' * 17
        lines += [head] * (head[-1] != ' ') + textwrap.wrap(around % ' '.join(head for head, _, _ in SHAPES[at].fields), 80,
                                                            initial_indent=head if head[-1] == ' ' else blank, subsequent_indent=blank)
    return filled(SHOW.replace('{lines}', '\n'.join(lines)), 79)
