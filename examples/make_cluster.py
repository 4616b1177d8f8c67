"""Makes the example cluster: an export as docs/EXPORT.md writes it, of a company's cluster.

    python3 make_cluster.py [FOLDER]

writes its files into FOLDER, which is examples/cluster if none is given. FOLDER/before/ has the roles and bindings of an
earlier export, FOLDER/change/ those of a change that waits for review, and FOLDER/audit.log a server's audit log. Everything stands in the tables below, and a rule is
a line of verbs, groups, resources and names, or of verbs and URLs; `-` is the core group. The default roles follow Kubernetes'
own, without those that nobody uses here and without the group `extensions`. A server sends an API resource list as one line;
here each resource has its own.
"""

import json
import os
import sys

HERE = os.path.dirname(os.path.abspath(__file__))
RBAC = 'rbac.authorization.k8s.io'
V1 = RBAC + '/v1'
READ = 'get list watch'
WRITE = 'create delete deletecollection patch update'
ALL = 'create delete deletecollection get list patch update watch'

NAMESPACES = ('cert-manager checkout ci cnpg-system default flux-system kube-node-lease kube-public kube-system monitoring payments '
              'payments-staging search').split()

# Beside the account `default`, which each namespace has.
ACCOUNTS = {
    'cert-manager': 'cert-manager',
    'checkout': 'web',
    'ci': 'deploy-checkout deploy-payments deploy-search onboarding runner',
    'cnpg-system': 'cnpg-manager',
    'flux-system': 'helm-controller kustomize-controller source-controller',
    'kube-system': 'backup coredns',
    'monitoring': 'prometheus-k8s prometheus-operator',
    'payments': 'gateway',
    'search': 'indexer',
}

# ---- roles

DEFAULT_ROLES = {
    'cluster-admin': ['* | * | *', '* | *'],
    'system:aggregate-to-admin': [
        'create | authorization.k8s.io | localsubjectaccessreviews',
        f'{ALL} | {RBAC} | rolebindings roles',
    ],
    'system:aggregate-to-edit': [
        f'{READ} | - | pods/attach pods/exec pods/portforward pods/proxy secrets services/proxy',
        'impersonate | - | serviceaccounts',
        f'{WRITE} | - | pods pods/attach pods/exec pods/portforward pods/proxy',
        'create | - | pods/eviction',
        f'{WRITE} | - | configmaps events persistentvolumeclaims replicationcontrollers replicationcontrollers/scale secrets '
        'serviceaccounts services services/proxy',
        'create | - | serviceaccounts/token',
        f'{WRITE} | apps | daemonsets deployments deployments/rollback deployments/scale replicasets replicasets/scale '
        'statefulsets statefulsets/scale',
        f'{WRITE} | autoscaling | horizontalpodautoscalers',
        f'{WRITE} | batch | cronjobs jobs',
        f'{WRITE} | policy | poddisruptionbudgets',
        f'{WRITE} | networking.k8s.io | ingresses networkpolicies',
        f'{ALL} | coordination.k8s.io | leases',
    ],
    'system:aggregate-to-view': [
        f'{READ} | - | configmaps endpoints persistentvolumeclaims persistentvolumeclaims/status pods replicationcontrollers '
        'replicationcontrollers/scale serviceaccounts services services/status',
        f'{READ} | - | bindings events limitranges namespaces/status pods/log pods/status replicationcontrollers/status '
        'resourcequotas resourcequotas/status',
        f'{READ} | - | namespaces',
        f'{READ} | discovery.k8s.io | endpointslices',
        f'{READ} | apps | controllerrevisions daemonsets daemonsets/status deployments deployments/scale deployments/status '
        'replicasets replicasets/scale replicasets/status statefulsets statefulsets/scale statefulsets/status',
        f'{READ} | autoscaling | horizontalpodautoscalers horizontalpodautoscalers/status',
        f'{READ} | batch | cronjobs cronjobs/status jobs jobs/status',
        f'{READ} | policy | poddisruptionbudgets poddisruptionbudgets/status',
        f'{READ} | networking.k8s.io | ingresses ingresses/status networkpolicies',
    ],
    'system:basic-user': [
        'create | authorization.k8s.io | selfsubjectaccessreviews selfsubjectrulesreviews',
        'create | authentication.k8s.io | selfsubjectreviews',
    ],
    'system:coredns': ['list watch | - | endpoints services pods namespaces', 'list watch | discovery.k8s.io | endpointslices'],
    'system:discovery': ['get | /api /api/* /apis /apis/* /healthz /livez /openapi /openapi/* /readyz /version /version/'],
    'system:public-info-viewer': ['get | /healthz /livez /readyz /version /version/'],
}

OPERATOR_ROLES = {
    'cert-manager-controller': [
        f'{READ} patch update | cert-manager.io | certificaterequests certificaterequests/status certificates certificates/status '
        'clusterissuers issuers',
        f'create delete {READ} | acme.cert-manager.io | challenges orders',
        f'create delete {READ} patch update | - | secrets',
        'create patch | - | events',
    ],
    'cert-manager-edit': [f'{WRITE} | cert-manager.io | certificaterequests certificates issuers'],
    'cert-manager-view': [
        f'{READ} | cert-manager.io | certificaterequests certificates issuers',
        f'{READ} | acme.cert-manager.io | challenges orders',
    ],
    'cnpg-manager': [
        f'create delete {READ} patch update | - | configmaps persistentvolumeclaims pods secrets serviceaccounts services',
        'create get | - | pods/exec',
        f'create {READ} patch update | {RBAC} | rolebindings roles',
        f'create delete {READ} patch update | postgresql.cnpg.io | backups clusters poolers',
        'create patch | - | events',
    ],
    'crd-controller-flux-system': [
        '* | helm.toolkit.fluxcd.io kustomize.toolkit.fluxcd.io source.toolkit.fluxcd.io | *',
        f'{READ} | - | configmaps namespaces secrets serviceaccounts',
        'create patch | - | events',
        'create | - | serviceaccounts/token',
        f'create delete {READ} patch update | coordination.k8s.io | leases',
    ],
    'flux-edit-flux-system': [f'{WRITE} | helm.toolkit.fluxcd.io kustomize.toolkit.fluxcd.io source.toolkit.fluxcd.io | *'],
    'flux-view-flux-system': [f'{READ} | helm.toolkit.fluxcd.io kustomize.toolkit.fluxcd.io source.toolkit.fluxcd.io | *'],
    'prometheus-k8s': [
        'get | - | nodes/metrics',
        f'{READ} | - | endpoints pods services',
        f'{READ} | discovery.k8s.io | endpointslices',
        'get | /metrics /metrics/slis',
    ],
    'prometheus-operator': [
        '* | monitoring.coreos.com | alertmanagers podmonitors prometheuses prometheusrules servicemonitors',
        '* | apps | statefulsets',
        '* | - | configmaps secrets',
        'delete list | - | pods',
        'create delete get update | - | endpoints services',
        f'{READ} | - | namespaces nodes',
    ],
}

DEPLOYER = [
    f'create {READ} patch update | apps | deployments statefulsets',
    f'create {READ} patch update | - | configmaps services',
    f'create delete {READ} | batch | cronjobs jobs',
    'get patch | apps | deployments',                                      # L3: the first rule has all of it
]
DEBUGGER = [f'{READ} | - | pods pods/log', 'create get | - | pods/exec']

OWN_ROLES = {
    'backup-reader': ['get list | * | *'],
    'deployer': DEPLOYER,
    'impersonator': ['impersonate | - | groups users'],
    'legacy-dashboard': [f'{READ} | - | pods services'],                   # L2
    'namespace-owner': [
        f'create delete {READ} update | {RBAC} | rolebindings roles',
        f'bind get list | {RBAC} | clusterroles',                          # L4
    ],
    'onboarding': [
        'create get list | - | namespaces',
        f'bind create escalate get update | {RBAC} | roles',               # L4
        f'create get update | {RBAC} | rolebindings',
    ],
    'pod-debugger': DEBUGGER + ['patch | - | pods/ephemeralcontainers'],
    'rbac-viewer': [f'{READ} | {RBAC} | *'],
    'support-logs': ['get list | - | pods pods/log'],
}

# L6: these two select each other, so both keep a rule for ever whose own role is gone.
LEFT_OVER = ['create get | - | pods/exec']
CIRCULAR = ('oncall-tools', 'support-tools')

# Aggregated roles, and the label that each selects.
DEFAULT_LABEL = RBAC + '/aggregate-to-%s'
OWN_LABEL = 'example.com/aggregate-to-%s'
AGGREGATED = {'admin': DEFAULT_LABEL % 'admin', 'edit': DEFAULT_LABEL % 'edit', 'view': DEFAULT_LABEL % 'view',
              **{name: OWN_LABEL % name for name in CIRCULAR}}

# What each role is labelled for: aggregated roles that select it.
SELECTED_BY = {
    'cert-manager-edit': 'admin edit',
    'cert-manager-view': 'admin edit view',
    'edit': 'admin',
    'flux-edit-flux-system': 'admin edit',
    'flux-view-flux-system': 'admin edit view',
    'oncall-tools': 'support-tools',
    'support-logs': 'support-tools',
    'support-tools': 'oncall-tools',
    'system:aggregate-to-admin': 'admin',
    'system:aggregate-to-edit': 'edit',
    'system:aggregate-to-view': 'view',
    'view': 'edit',
}

ROLES = {
    'checkout migration-2023': ['* | - | configmaps secrets'],             # L2
    'ci build-logs': ['get list | - | pods pods/log'],
    'kube-public kubeadm:bootstrap-signer-clusterinfo': ['get | - | configmaps | cluster-info'],
    'kube-system cert-manager:leaderelection': [
        'get patch update | coordination.k8s.io | leases | cert-manager-controller',
        'create | coordination.k8s.io | leases',
    ],
    'payments gateway': [
        'get list | - | secrets',
        'get | - | secrets | gateway-tls',                                 # L3: the first rule has all secrets
    ],
    'payments settings-reader': ['get | - | configmaps | settings'],
    'search config-reader': ['get list | - | configmaps'],
}

# ---- bindings: a name, a role, and subjects

CLUSTER_BINDINGS = '''
auditors-rbac rbac-viewer g:auditors
auditors-view view g:auditors
backup backup-reader a:kube-system:backup
break-glass cluster-admin u:dana@example.com
cert-manager-controller cert-manager-controller a:cert-manager:cert-manager
cluster-admin cluster-admin g:system:masters
cluster-reconciler-flux-system cluster-admin a:flux-system:kustomize-controller a:flux-system:helm-controller
cnpg-manager cnpg-manager a:cnpg-system:cnpg-manager
crd-controller-flux-system crd-controller-flux-system a:flux-system:source-controller a:flux-system:kustomize-controller \
a:flux-system:helm-controller
onboarding onboarding a:ci:onboarding
platform-admins cluster-admin g:platform
prometheus-k8s prometheus-k8s a:monitoring:prometheus-k8s
prometheus-operator prometheus-operator a:monitoring:prometheus-operator
support-login impersonator g:support
system:basic-user system:basic-user g:system:authenticated
system:coredns system:coredns a:kube-system:coredns
system:discovery system:discovery g:system:authenticated
system:public-info-viewer system:public-info-viewer g:system:authenticated g:system:unauthenticated
'''
# L1: nobody made this role again when its operator went away.
DANGLING = 'log-shipper log-shipper a:monitoring:log-shipper\n'

BINDINGS = '''
checkout ci-deploys ClusterRole/deployer a:ci:deploy-checkout
checkout developers ClusterRole/edit g:team-checkout
checkout support ClusterRole/support-tools g:support
ci developers ClusterRole/view g:team-checkout g:team-payments g:team-search
ci everybody-reads-logs Role/build-logs g:system:authenticated
kube-public kubeadm:bootstrap-signer-clusterinfo Role/kubeadm:bootstrap-signer-clusterinfo u:system:anonymous
kube-system cert-manager:leaderelection Role/cert-manager:leaderelection a:cert-manager:cert-manager
payments ci-deploys ClusterRole/deployer a:ci:deploy-payments
payments developers ClusterRole/view g:team-payments
payments gateway Role/gateway a:payments:gateway
payments leads ClusterRole/namespace-owner g:payments-leads
payments settings Role/settings-reader g:system:serviceaccounts:payments
payments support ClusterRole/support-tools g:support
payments-staging ci-deploys ClusterRole/deployer a:ci:deploy-payments
payments-staging developers ClusterRole/edit g:team-payments
search ci-deploys ClusterRole/deployer a:ci:deploy-search
search default-reads-config Role/config-reader a:search:default
search developers ClusterRole/edit g:team-search
search leads ClusterRole/admin g:search-leads
'''
# L1: the role's name is of an older version.
OLD_VERSION = 'search indexer Role/indexer-v1 a:search:indexer\n'

# Between the two exports, who is on call may debug pods everywhere and no longer in two namespaces, and Kim nowhere.
ONLY_NOW = 'oncall-debug pod-debugger g:oncall\n'
ONLY_BEFORE = '''
checkout oncall-debug ClusterRole/pod-debugger g:oncall
payments kim-debug ClusterRole/pod-debugger u:kim@example.com
payments oncall-debug ClusterRole/pod-debugger g:oncall
'''

# The change: accounts without a namespace (L5), two objects twice (L7), and CI may read secrets.
CHANGED_CLUSTER_ROLES = {'deployer': DEPLOYER[:3] + ['get list | - | secrets']}
CHANGED_CLUSTER_BINDINGS = '''
indexer-metrics prometheus-k8s a::indexer
indexer-nodes view a::indexer
'''
CHANGED_ROLES = {'search indexer': ['get list | - | configmaps']}
CHANGED_BINDINGS = 'search indexer Role/indexer a:search:indexer\n'

# ---- the audit log: who asked, with whose groups, the verb, the namespace, and a type with its object, or a URL. A type has its
# group after a dot. Whoever acted as somebody else has them after `as`; what the server forbade ends with `forbidden`.

AUDITED = '''
a:kube-system:coredns list - endpointslices.discovery.k8s.io
a:flux-system:source-controller list - gitrepositories.source.toolkit.fluxcd.io
a:flux-system:source-controller patch flux-system gitrepositories/status.source.toolkit.fluxcd.io apps
a:flux-system:kustomize-controller list - kustomizations.kustomize.toolkit.fluxcd.io
a:flux-system:kustomize-controller patch checkout deployments.apps web
a:flux-system:kustomize-controller create flux-system events kustomization-apps
a:cert-manager:cert-manager update kube-system leases.coordination.k8s.io cert-manager-controller
a:cert-manager:cert-manager list - certificates.cert-manager.io
a:cert-manager:cert-manager update payments secrets gateway-tls
a:monitoring:prometheus-k8s get - nodes/metrics node-1
a:monitoring:prometheus-k8s list - pods
a:monitoring:prometheus-k8s list - endpointslices.discovery.k8s.io
a:monitoring:prometheus-k8s get - /metrics
a:monitoring:prometheus-operator list - prometheuses.monitoring.coreos.com
a:monitoring:prometheus-operator update monitoring statefulsets.apps prometheus-k8s
a:monitoring:prometheus-operator get monitoring secrets prometheus-k8s
a:kube-system:backup list - persistentvolumeclaims
a:kube-system:backup get payments configmaps settings
a:ci:deploy-checkout get checkout deployments.apps web
a:ci:deploy-checkout patch checkout deployments.apps web
a:ci:deploy-checkout create checkout configmaps web-4
a:ci:deploy-payments get payments-staging deployments.apps gateway
a:ci:deploy-payments patch payments-staging deployments.apps gateway
a:ci:deploy-payments get payments deployments.apps gateway
a:ci:deploy-payments patch payments deployments.apps gateway
a:ci:deploy-search get search statefulsets.apps indexer
a:ci:deploy-search update search statefulsets.apps indexer
a:ci:deploy-search get search secrets indexer forbidden
a:payments:gateway get payments secrets gateway-tls
a:payments:gateway get payments configmaps settings
u:system:anonymous,system:unauthenticated get kube-public configmaps cluster-info
u:system:anonymous,system:unauthenticated get - /healthz
u:robin@example.com,platform list - nodes
u:robin@example.com,platform get - namespaces
u:robin@example.com,platform patch flux-system deployments.apps source-controller
u:mia@example.com,auditors list - clusterrolebindings.rbac.authorization.k8s.io
u:mia@example.com,auditors list - rolebindings.rbac.authorization.k8s.io
u:kim@example.com,team-payments list payments pods
u:kim@example.com,team-payments get payments pods/log gateway-0
u:kim@example.com,team-payments get payments secrets gateway-tls forbidden
u:kim@example.com,team-payments create payments-staging pods/exec gateway-0
u:kim@example.com,team-payments delete payments-staging pods gateway-0
u:kim@example.com,team-payments get ci pods/log runner-7
u:ines@example.com,team-search,search-leads list search pods
u:ines@example.com,team-search,search-leads patch search deployments.apps web
u:noah@example.com,team-checkout get checkout deployments.apps web
u:lee@example.com,oncall list search pods
u:lee@example.com,oncall create search pods/exec indexer-0
u:sam@example.com,support list checkout pods
u:sam@example.com,support get checkout pods/log web-1
u:sam@example.com,support list payments-staging pods as kim@example.com,team-payments
'''

# ---- API resources: a scope, a name, a kind, its short names, and its subresources

API = {
    'v1': '''
        namespaced bindings Binding -
        namespaced configmaps ConfigMap cm
        namespaced endpoints Endpoints ep
        namespaced events Event ev
        namespaced limitranges LimitRange limits
        cluster namespaces Namespace ns finalize status
        cluster nodes Node no proxy status
        namespaced persistentvolumeclaims PersistentVolumeClaim pvc status
        cluster persistentvolumes PersistentVolume pv status
        namespaced pods Pod po attach ephemeralcontainers eviction exec log portforward proxy status
        namespaced replicationcontrollers ReplicationController rc scale status
        namespaced resourcequotas ResourceQuota quota status
        namespaced secrets Secret -
        namespaced serviceaccounts ServiceAccount sa token
        namespaced services Service svc proxy status''',
    'acme.cert-manager.io/v1': '''
        namespaced challenges Challenge - status
        namespaced orders Order - status''',
    'admissionregistration.k8s.io/v1': '''
        cluster mutatingwebhookconfigurations MutatingWebhookConfiguration -
        cluster validatingwebhookconfigurations ValidatingWebhookConfiguration -''',
    'apiextensions.k8s.io/v1': '''
        cluster customresourcedefinitions CustomResourceDefinition crd,crds status''',
    'apps/v1': '''
        namespaced controllerrevisions ControllerRevision -
        namespaced daemonsets DaemonSet ds status
        namespaced deployments Deployment deploy scale status
        namespaced replicasets ReplicaSet rs scale status
        namespaced statefulsets StatefulSet sts scale status''',
    'authentication.k8s.io/v1': '''
        cluster selfsubjectreviews SelfSubjectReview -
        cluster tokenreviews TokenReview -''',
    'authorization.k8s.io/v1': '''
        namespaced localsubjectaccessreviews LocalSubjectAccessReview -
        cluster selfsubjectaccessreviews SelfSubjectAccessReview -
        cluster selfsubjectrulesreviews SelfSubjectRulesReview -
        cluster subjectaccessreviews SubjectAccessReview -''',
    'autoscaling/v1': '''
        namespaced horizontalpodautoscalers HorizontalPodAutoscaler hpa status''',
    'autoscaling/v2': '''
        namespaced horizontalpodautoscalers HorizontalPodAutoscaler hpa status''',
    'batch/v1': '''
        namespaced cronjobs CronJob cj status
        namespaced jobs Job - status''',
    'cert-manager.io/v1': '''
        namespaced certificaterequests CertificateRequest cr,crs status
        namespaced certificates Certificate cert,certs status
        cluster clusterissuers ClusterIssuer - status
        namespaced issuers Issuer - status''',
    'certificates.k8s.io/v1': '''
        cluster certificatesigningrequests CertificateSigningRequest csr approval status''',
    'coordination.k8s.io/v1': '''
        namespaced leases Lease -''',
    'discovery.k8s.io/v1': '''
        namespaced endpointslices EndpointSlice -''',
    'helm.toolkit.fluxcd.io/v2': '''
        namespaced helmreleases HelmRelease hr status''',
    'kustomize.toolkit.fluxcd.io/v1': '''
        namespaced kustomizations Kustomization ks status''',
    'monitoring.coreos.com/v1': '''
        namespaced alertmanagers Alertmanager am scale status
        namespaced podmonitors PodMonitor pmon
        namespaced prometheuses Prometheus prom scale status
        namespaced prometheusrules PrometheusRule promrule
        namespaced servicemonitors ServiceMonitor smon''',
    'networking.k8s.io/v1': '''
        cluster ingressclasses IngressClass -
        namespaced ingresses Ingress ing status
        namespaced networkpolicies NetworkPolicy netpol''',
    'policy/v1': '''
        namespaced poddisruptionbudgets PodDisruptionBudget pdb status''',
    'postgresql.cnpg.io/v1': '''
        namespaced backups Backup - status
        namespaced clusters Cluster - scale status
        namespaced poolers Pooler - scale status''',
    V1: '''
        cluster clusterrolebindings ClusterRoleBinding -
        cluster clusterroles ClusterRole -
        namespaced rolebindings RoleBinding -
        namespaced roles Role -''',
    'source.toolkit.fluxcd.io/v1': '''
        namespaced buckets Bucket - status
        namespaced gitrepositories GitRepository gitrepo status
        namespaced helmrepositories HelmRepository helmrepo status''',
    'storage.k8s.io/v1': '''
        cluster storageclasses StorageClass sc''',
}
CREATED = ['bindings', 'localsubjectaccessreviews', 'selfsubjectaccessreviews', 'selfsubjectreviews', 'selfsubjectrulesreviews',
           'subjectaccessreviews', 'tokenreviews']
VERBS = {**dict.fromkeys(CREATED, 'create'), 'namespaces': 'create delete get list patch update watch'}
SUBRESOURCE_VERBS = {**dict.fromkeys(['attach', 'exec', 'portforward'], 'create get'), **dict.fromkeys(['eviction', 'token'], 'create'),
                     'log': 'get', 'finalize': 'update', 'proxy': 'create delete get patch update'}


# ---- documents

def rule(line):
    verbs, *parts = [part.split() for part in line.split('|')]
    if len(parts) == 1:
        return {'nonResourceURLs': parts[0], 'verbs': verbs}
    made = {'apiGroups': ['' if group == '-' else group for group in parts[0]], 'resources': parts[1], 'verbs': verbs}
    return made if len(parts) == 2 else {**made, 'resourceNames': parts[2]}


def gathered(roles, name):
    """The lines of rules that the controller writes into an aggregated role."""
    lines = []
    for other in sorted(SELECTED_BY):
        if name in SELECTED_BY[other].split():
            lines += [line for line in roles.get(other) or gathered(roles, other) if line not in lines]
    return lines


def cluster_role(name, lines):
    labels = {AGGREGATED[to]: 'true' for to in SELECTED_BY.get(name, '').split()}
    metadata = {'name': name}
    if name in DEFAULT_ROLES or name in ('admin', 'edit', 'view'):
        labels['kubernetes.io/bootstrapping'] = 'rbac-defaults'
        metadata['annotations'] = {'rbac.authorization.kubernetes.io/autoupdate': 'true'}
    if labels:
        metadata['labels'] = labels
    made = {'apiVersion': V1, 'kind': 'ClusterRole', 'metadata': metadata, 'rules': [rule(line) for line in lines]}
    if name in AGGREGATED:
        made['aggregationRule'] = {'clusterRoleSelectors': [{'matchLabels': {AGGREGATED[name]: 'true'}}]}
    return made


def cluster_roles(own):
    """All cluster roles: Kubernetes' own, the operators', these, and the aggregated ones."""
    roles = {**DEFAULT_ROLES, **OPERATOR_ROLES, **own}
    roles.update({name: OWN_ROLES['support-logs'] + LEFT_OVER for name in CIRCULAR})
    roles.update({name: gathered(roles, name) for name in ('view', 'edit', 'admin')})
    return [cluster_role(name, roles[name]) for name in sorted(roles)]


def namespaced_roles(table):
    for place in sorted(table, key=str.split):
        namespace, name = place.split()
        yield {'apiVersion': V1, 'kind': 'Role', 'metadata': {'name': name, 'namespace': namespace},
               'rules': [rule(line) for line in table[place]]}


def subject(text):
    kind, name = text.split(':', 1)
    if kind != 'a':
        return {'apiGroup': RBAC, 'kind': {'u': 'User', 'g': 'Group'}[kind], 'name': name}
    namespace, name = name.split(':')
    return {'kind': 'ServiceAccount', 'name': name, **({'namespace': namespace} if namespace else {})}


def binding(kind, metadata, role, subjects):
    role_kind, name = role.split('/')
    return {'apiVersion': V1, 'kind': kind, 'metadata': metadata, 'roleRef': {'apiGroup': RBAC, 'kind': role_kind, 'name': name},
            'subjects': [subject(text) for text in subjects]}


def cluster_bindings(lines):
    for name, role, *subjects in sorted(line.split() for line in lines.strip().split('\n')):
        yield binding('ClusterRoleBinding', {'name': name}, 'ClusterRole/' + role, subjects)


def bindings(lines):
    for namespace, name, role, *subjects in sorted(line.split() for line in lines.strip().split('\n')):
        yield binding('RoleBinding', {'name': name, 'namespace': namespace}, role, subjects)


def namespaces():
    for name in NAMESPACES:
        yield {'apiVersion': 'v1', 'kind': 'Namespace', 'metadata': {'labels': {'kubernetes.io/metadata.name': name}, 'name': name},
               'spec': {'finalizers': ['kubernetes']}, 'status': {'phase': 'Active'}}


def accounts():
    for namespace in NAMESPACES:
        for name in sorted(['default', *ACCOUNTS.get(namespace, '').split()]):
            yield {'apiVersion': 'v1', 'kind': 'ServiceAccount', 'metadata': {'name': name, 'namespace': namespace}}


def api_resources(line):
    """The entries of a resource and of its subresources, with their fields in a server's order."""
    scope, name, kind, short, *subresources = line.split()
    entry = {'name': name, 'singularName': kind.lower(), 'namespaced': scope == 'namespaced', 'kind': kind,
             'verbs': VERBS.get(name, ALL).split()}
    yield entry if short == '-' else {**entry, 'shortNames': short.split(',')}
    for subresource in subresources:
        verbs = SUBRESOURCE_VERBS.get(subresource, 'get patch update')
        yield {**entry, 'name': name + '/' + subresource, 'singularName': '', 'verbs': verbs.split()}


# ---- the audit log

def audited_user(text):
    """A user as the server logs it: an account's groups, and for everybody who signs in one more."""
    name, *groups = text.split(',')
    if name.startswith('a:'):
        _, namespace, account = name.split(':')
        return {'username': 'system:serviceaccount:%s:%s' % (namespace, account),
                'groups': ['system:serviceaccounts', 'system:serviceaccounts:' + namespace, 'system:authenticated']}
    signed_in = [] if 'system:unauthenticated' in groups else ['system:authenticated']
    return {'username': name.removeprefix('u:'), 'groups': groups + signed_in}


def reference(namespace, type_word, name):
    """The object of a request, and the path that asked for it."""
    resource, _, group = type_word.partition('.')
    resource, _, subresource = resource.partition('/')
    parts = {'resource': resource, 'namespace': namespace, 'name': name, 'apiGroup': group, 'apiVersion': 'v1', 'subresource': subresource}
    path = ['/apis/%s/v1' % group if group else '/api/v1', *(['namespaces', namespace] if namespace else []), resource, name, subresource]
    return {part: word for part, word in parts.items() if word}, '/'.join(word for word in path if word)


def event(number, line):
    """An event as a server writes it, of a line of the table. A create has its object's name in the event and not in the path."""
    words, _, other = line.partition(' as ')
    user, verb, namespace, type_word, *more = words.split()
    is_forbidden = more[-1:] == ['forbidden']
    name = ''.join(more[:len(more) - is_forbidden])
    refers, uri = reference(namespace.strip('-'), type_word, name)
    if type_word.startswith('/'):
        refers, uri = None, type_word
    elif verb == 'create' and '/' not in type_word:
        uri = uri.rpartition('/')[0]
    time = '2026-11-30T14:%02d:%02d.0000%02dZ' % (2 + number // 60, number % 60, number % 100)
    made = {'kind': 'Event', 'apiVersion': 'audit.k8s.io/v1', 'level': 'Metadata', 'auditID': '00000000-0000-4000-8000-%012d' % number,
            'stage': 'ResponseComplete', 'requestURI': uri, 'verb': verb, 'user': audited_user(user)}
    made.update({'impersonatedUser': audited_user(other)} if other else {})
    made['sourceIPs'] = ['10.0.0.1']
    made.update({'objectRef': refers} if refers else {})
    decision, code = ('forbid', 403) if is_forbidden else ('allow', 201 if verb == 'create' else 200)
    return {**made, 'responseStatus': {'metadata': {}, 'code': code}, 'requestReceivedTimestamp': time, 'stageTimestamp': time,
            'annotations': {'authorization.k8s.io/decision': decision, 'authorization.k8s.io/reason': ''}}


def log():
    """The audit log: a line an event."""
    events = [event(number, line) for number, line in enumerate(AUDITED.strip().split('\n'))]
    return ''.join(json.dumps(it, separators=(',', ':')) + '\n' for it in events)


# ---- files

def written(items):
    """A list as `kubectl get -o json` writes it."""
    return json.dumps({'apiVersion': 'v1', 'items': [*items], 'kind': 'List', 'metadata': {'resourceVersion': ''}},
                      indent=4, sort_keys=True) + '\n'


def api_list(version):
    """An API resource list as the server sends it, but for the line ends. That of the core group has no apiVersion."""
    head = {'kind': 'APIResourceList', **({} if version == 'v1' else {'apiVersion': 'v1'}), 'groupVersion': version, 'resources': []}
    lines = API[version].strip().split('\n')
    entries = [json.dumps(entry, separators=(',', ':')) for line in lines for entry in api_resources(line)]
    return json.dumps(head, separators=(',', ':'))[:-2] + '\n' + ',\n'.join(entries) + '\n]}\n'


def files():
    """Each file's name and text."""
    changed = [*(cluster_role(name, CHANGED_CLUSTER_ROLES[name]) for name in CHANGED_CLUSTER_ROLES),
               *cluster_bindings(CHANGED_CLUSTER_BINDINGS)]
    twice = [*namespaced_roles(CHANGED_ROLES), *bindings(CHANGED_BINDINGS)]
    before = {**OWN_ROLES, 'pod-debugger': DEBUGGER}
    made = {
        'cluster.json': [*cluster_roles(OWN_ROLES), *cluster_bindings(CLUSTER_BINDINGS + DANGLING + ONLY_NOW)],
        'namespaced.json': [*namespaced_roles(ROLES), *bindings(BINDINGS + OLD_VERSION)],
        'namespaces.json': namespaces(),
        'accounts.json': accounts(),
        'before/cluster.json': [*cluster_roles(before), *cluster_bindings(CLUSTER_BINDINGS + DANGLING)],
        'before/namespaced.json': [*namespaced_roles(ROLES), *bindings(BINDINGS + OLD_VERSION + ONLY_BEFORE.lstrip())],
        'change/roles.json': changed + twice + twice,
    }
    yield from ((name, written(items)) for name, items in made.items())
    yield from (('api-%s.json' % version.replace('/', '-'), api_list(version)) for version in API)
    yield 'audit.log', log()
    yield 'universe.json', '{"apiVersion": "rbacaudit/v1", "kind": "Universe", "names": [""]}\n'


def main(folder=os.path.join(HERE, 'cluster')):
    for name, text in files():
        path = os.path.join(folder, name)
        os.makedirs(os.path.dirname(path), exist_ok=True)
        with open(path, 'w', encoding='utf-8') as file:
            file.write(text)


if __name__ == '__main__':
    main(*sys.argv[1:])
