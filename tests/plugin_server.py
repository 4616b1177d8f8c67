"""The kubectl plugin with kubectl itself, and a small API server that serves what the stand-in for
kubectl does.

The stand-in takes the words of a call by heart; here kubectl has to understand them. Where there is
no kubectl, this is skipped.
"""

import contextlib
import json
import os
import re
import shutil
import threading
from http.server import BaseHTTPRequestHandler, ThreadingHTTPServer
from urllib.parse import urlsplit

from common import V1, skipped
from plugin_room import CI, IMPLIED, RBAC, WHOLE, document, in_each_shell, served

RBAC_TYPES = {'clusterroles': 'ClusterRole', 'clusterrolebindings': 'ClusterRoleBinding',
              'roles': 'Role', 'rolebindings': 'RoleBinding'}
CORE_TYPES = {'namespaces': 'Namespace', 'serviceaccounts': 'ServiceAccount'}
REASONS = {403: 'Forbidden', 503: 'ServiceUnavailable'}
CLUSTER_SCOPED = ('clusterroles', 'clusterrolebindings', 'namespaces')


def resources(types):
    """Entries of an API resource list, by which kubectl finds a type."""
    return [{'name': name, 'singularName': '', 'kind': kind, 'verbs': ['get', 'list'],
             'namespaced': name not in CLUSTER_SCOPED} for name, kind in types.items()]


def lists():
    """The API resource lists by their paths: the stand-in's, with the types that are read."""
    core, roles = served()['api-v1'], served()['api-%s-v1' % RBAC]
    return {'/api/v1': {**core, 'resources': core['resources'] + resources(CORE_TYPES)},
            '/apis/apps/v1': served()['api-apps-v1'],
            '/apis/metrics.k8s.io/v1beta1': served()['api-metrics.k8s.io-v1beta1'],
            '/apis/' + V1: {**roles, 'resources': resources(RBAC_TYPES)}}


def objects():
    """All objects that are served."""
    return [item for name in ('cluster', 'namespaced', 'namespaces', 'accounts')
            for item in served()[name]['items']]


def answer(path):
    """What the server says of a path, or nothing if it knows none."""
    known = {'/api': {'kind': 'APIVersions', 'versions': ['v1']}, '/apis': served()['apis'],
             '/version': served()['version'], **lists()}
    found = re.fullmatch(r'(/api/v1|/apis/%s)(?:/namespaces/([^/]+))?/([a-z]+)(?:/([^/]+))?'
                         % re.escape(V1), path)
    if path in known or not found:
        return known.get(path)
    version, namespace, type_, name = found.groups()
    kind = {**RBAC_TYPES, **CORE_TYPES}[type_]
    items = [item for item in objects() if item['kind'] == kind
             and namespace in (None, item['metadata'].get('namespace'))
             and name in (None, item['metadata']['name'])]
    return items[0] if name else {'kind': kind + 'List', 'items': items, 'metadata': {},
                                  'apiVersion': V1 if '/apis/' in version else 'v1'}


class Handler(BaseHTTPRequestHandler):
    """Answers each request, and writes down who asks. What `faults` has gets no answer."""

    def do_GET(self):
        path = urlsplit(self.path).path
        self.server.asked.append((path, self.headers['Impersonate-User'],
                                  self.headers.get_all('Impersonate-Group')))
        found = answer(path)
        fault = self.server.faults.get(path.rpartition('/')[2])
        if fault:
            self.say(fault, {'kind': 'Status', 'apiVersion': 'v1', 'status': 'Failure',
                             'code': fault, 'reason': REASONS[fault], 'message': 'not now'})
        else:
            self.say(200 if found else 404, found or {})

    def say(self, status, value):
        text = json.dumps(value).encode()
        self.send_response(status)
        self.send_header('Content-Type', 'application/json')
        self.send_header('Content-Length', str(len(text)))
        self.end_headers()
        self.wfile.write(text)

    def log_message(self, *_):
        pass


@contextlib.contextmanager
def server():
    with ThreadingHTTPServer(('127.0.0.1', 0), Handler) as it:
        it.asked, it.faults = [], {}
        thread = threading.Thread(target=it.serve_forever)
        thread.start()
        try:
            yield it
        finally:
            it.shutdown()
            thread.join()


def kubeconfig(port):
    """The context `here`, and the current one, which leads nowhere."""
    def named(name, **fields):
        return {'name': name, **fields}

    here = {'cluster': 'near', 'user': 'kim', 'namespace': 'shop'}
    return json.dumps({
        'apiVersion': 'v1', 'kind': 'Config', 'current-context': 'nowhere',
        'users': [named('kim', user={})],
        'clusters': [named('near', cluster={'server': 'http://127.0.0.1:%d' % port}),
                     named('far', cluster={'server': 'http://127.0.0.1:1'})],
        'contexts': [named('here', context=here),
                     named('nowhere', context={'cluster': 'far', 'user': 'kim'})]})


def items_of(value):
    """The objects of a document in any order, each as a text."""
    return sorted(json.dumps(item, sort_keys=True) for item in value.get('items', [value]))


def has_what_is_served(it, folder, of_one=''):
    """One check of each file of an export."""
    for name in ('cluster', 'namespaced', 'namespaces', 'accounts'):
        wanted = served()[name + (of_one if name != 'cluster' else '')]
        got = document(it.read(folder, name + '.json'))
        it.checked('%s: %s' % (folder, name), got and items_of(got) == items_of(wanted), got)
    for path, wanted in lists().items():
        name = 'api-%s.json' % path.removeprefix('/apis/').removeprefix('/api/').replace('/', '-')
        it.checked('%s: %s' % (folder, name), document(it.read(folder, name)) == wanted, name)
    it.checked('%s: no other file' % folder, it.files(folder) == WHOLE, it.files(folder))


@contextlib.contextmanager
def cluster(it):
    """The server, with kubectl itself in the place of its stand-in; the options that lead to it,
    and the environment."""
    os.remove(os.path.join(it.bin, 'kubectl'))
    with server() as serving:
        it.write(kubeconfig(serving.server_port), it.at('kube config'))
        options = ['--kubeconfig', it.at('kube config'), '--context=here']
        yield serving, options, {**it.environment(), 'HOME': it.path}


@in_each_shell
def exports(it):
    """Exports with all options, and of one namespace."""
    with cluster(it) as (serving, options, environment):
        it.expect('an export', ['export', *options, '--as=kim', '--as-group', 'a,b',
                                '--as-group=c d', '--request-timeout=50s', 'prod'], 0,
                  'The export in prod is whole: 8 files.\n', environment=environment)
        has_what_is_served(it, 'prod')
        it.checked('kim asks', {tuple(map(str, who)) for _, *who in serving.asked}
                   == {('kim', "['a,b', 'c d']")}, serving.asked)
        it.checked('it says where it is from', it.read('prod', 'about.txt').startswith(
            'context: here\nserver: http://127.0.0.1:%d\nversion: v1.32.4\nnamespace: shop\ntime: '
            % serving.server_port), it.read('prod', 'about.txt'))
        serving.asked.clear()
        it.expect('an export of one namespace', ['export', *options, '-n', 'shop', 'own'], 0,
                  'The export in own is whole for the namespace shop: 8 files.\n',
                  environment=environment)
        has_what_is_served(it, 'own', '-shop')
        elsewhere = [path for path, *_ in serving.asked
                     if re.search(r'/(roles|rolebindings|serviceaccounts|namespaces)$', path)
                     and '/namespaces/shop/' not in path]
        it.checked('it asks nowhere else', not elsewhere, elsewhere)


@in_each_shell
def faults(it):
    """What may not be read, and a group that doesn't answer, are noted with the server's reason, and
    the group is told once."""
    with cluster(it) as (serving, options, environment):
        serving.faults = {'clusterrolebindings': 403, 'serviceaccounts': 403, 'v1beta1': 503}
        status, out, err = got = it.run('export', *options, 'part', environment=environment)
        noted = it.read('part', 'incomplete.txt')
        wanted = ''.join(
            '%s: kubectl get %s ended with status 1: Error from server (%s): not now\n' % fault
            for fault in (
                ('cluster.json', 'clusterroles.%s,clusterrolebindings.%s -o json' % (RBAC, RBAC),
                 'Forbidden'),
                ('accounts.json', 'serviceaccounts --all-namespaces -o json', 'Forbidden'),
                ('api-metrics.k8s.io-v1beta1.json', '--raw /apis/metrics.k8s.io/v1beta1',
                 'ServiceUnavailable')))
        it.checked('parts are missing', (status, out, noted) == (1, '', wanted), (got, noted))
        it.checked('the whole cluster is still read',
                   items_of(document(it.read('part', 'namespaced.json')))
                   == items_of(served()['namespaced']), it.files('part'))
        serving.faults = {'v1beta1': 503}
        status, out, err = got = it.run('export', *options, 'most', environment=environment)
        it.checked('a group is silent', (status, out) == (1, '') and err ==
                   'Error from server (ServiceUnavailable): not now\nkubectl-rbacaudit: '
                   "api-metrics.k8s.io-v1beta1.json can't be read: kubectl get --raw "
                   '/apis/metrics.k8s.io/v1beta1 ended with status 1\nkubectl-rbacaudit: '
                   'a part of the export is missing; most/incomplete.txt repeats it\n', got)


@in_each_shell
def questions(it):
    """A question to the cluster of a context, in its namespace."""
    with cluster(it) as (_, options, environment):
        for place in ([], ['-n', 'shop']):
            it.expect('a question %s' % place, ['can-i', *options, *CI[:2], *place, 'update',
                                                'deployments.apps'], 0, 'yes\n',
                      '' if place else IMPLIED % 'shop', environment=environment)


def unless_missing(check):
    """A check that is skipped where there is no kubectl."""
    def checks():
        if shutil.which('kubectl'):
            check()
        else:
            skipped('kubectl', 'its own calls')
    checks.__doc__ = check.__doc__
    return checks


CHECKS = [unless_missing(check) for check in (exports, faults, questions)]
