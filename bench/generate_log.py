"""An audit log over an export, for measurements.

    python3 generate_log.py EXPORT MEGABYTES DISTINCT SEED LOG LISTS

draws DISTINCT requests of the users that the bindings of EXPORT name, most of them in the words of their rules, and some of no rule.
LOG gets so many million bytes of events of these requests, in random order, each with an ID and a time of its own, and with the
fields that a server writes at level Metadata. LISTS-1.json, LISTS-2.json and so on get the same events as items of `v1` Lists,
each of less than 64 MiB: what an export of as many bytes costs to read. Prints how many events LOG has, and how many lists there are.
"""

import json
import random
import sys

MOST = 60_000_000
ODD_NAMES = ['', '', 'web-%d', 'worker-%d', 'node-%d']
# The fields of an event before and after what differs between two events of one request.
HEAD = '{"kind":"Event","apiVersion":"audit.k8s.io/v1","level":"Metadata","auditID":"%08x-0000-4000-8000-%012x","stage":"ResponseComplete",'
TAIL = (',"requestReceivedTimestamp":"2026-11-%02dT%02d:%02d:%02d.%06dZ","stageTimestamp":"2026-11-%02dT%02d:%02d:%02d.%06dZ","annotations":'
        '{"authorization.k8s.io/decision":"allow","authorization.k8s.io/reason":"RBAC: allowed by a binding of a role to a subject"}}')


def user_of(draw, subject, namespace):
    kind, name = subject['kind'], subject['name']
    if kind == 'Group':
        return {'username': 'user-%d@example.com' % draw.randrange(2000), 'groups': [name, 'system:authenticated']}
    if kind == 'User':
        return {'username': name, 'groups': ['system:authenticated']}
    home = subject.get('namespace') or namespace
    return {'username': 'system:serviceaccount:%s:%s' % (home, name), 'uid': '%032x' % draw.getrandbits(128), 'groups': [
        'system:serviceaccounts', 'system:serviceaccounts:' + home, 'system:authenticated']}


def request(draw, binding, rules):
    """The fields of an event that tell a request: of a rule of the binding, or of none."""
    namespace = binding['metadata'].get('namespace', '')
    rule = draw.choice(rules) if rules and draw.random() < 0.95 else {'verbs': ['get'], 'apiGroups': ['none.example.com'], 'resources': ['none']}
    verb = draw.choice(rule['verbs']).replace('*', 'list')
    told = {'requestURI': '/api/v1', 'verb': verb, 'user': user_of(draw, draw.choice(binding['subjects']), namespace), 'sourceIPs': [
        '10.%d.%d.%d' % tuple(draw.randrange(256) for _ in range(3))], 'userAgent': 'client/v1.32.4 (linux/amd64) kubernetes/4cb5f07'}
    if 'nonResourceURLs' in rule:
        told['requestURI'] = draw.choice(rule['nonResourceURLs']).replace('*', 'x') + '?timeout=32s'
    else:
        resource, _, below = draw.choice(rule['resources']).replace('*', 'pods').partition('/')
        name = draw.choice(rule.get('resourceNames') or ODD_NAMES)
        parts = {'resource': resource, 'namespace': namespace or 'ns-%d' % draw.randrange(400), 'name': name % draw.randrange(5000) if '%' in name else name,
                 'apiGroup': draw.choice(rule['apiGroups']).replace('*', 'apps'), 'apiVersion': 'v1', 'subresource': below}
        told['objectRef'] = {part: word for part, word in parts.items() if word}
    return json.dumps({**told, 'responseStatus': {'metadata': {}, 'code': 200}}, separators=(',', ':'))[1:-1].replace('%', '%%')


def templates(draw, items, count):
    """The events of some requests, without what differs between two of one request."""
    roles = {(item['kind'], item['metadata'].get('namespace', ''), item['metadata']['name']): item.get('rules') or [] for item in items if 'rules' in item}
    bindings = [item for item in items if item.get('subjects')]
    for _ in range(count):
        binding = draw.choice(bindings)
        wanted = binding['roleRef']
        home = binding['metadata'].get('namespace', '') if wanted['kind'] == 'Role' else ''
        yield HEAD + request(draw, binding, roles.get((wanted['kind'], home, wanted['name']), [])) + TAIL


def events(draw, texts, most):
    """Events of these requests, so many bytes of them."""
    written = number = 0
    while written < most:
        seconds = number // 20
        time = 1 + seconds // 86400 % 28, seconds // 3600 % 24, seconds // 60 % 60, seconds % 60, number % 1000000
        text = draw.choice(texts) % (number % 2**32, draw.getrandbits(48), *time, *time)
        yield text
        written, number = written + len(text) + 1, number + 1


def main(export, megabytes, distinct, seed, log, lists):
    draw = random.Random(int(seed))
    with open(export, encoding='utf-8') as file:
        texts = [*templates(draw, json.load(file)['items'], int(distinct))]
    count, parts, size, part = 0, 0, MOST, None
    with open(log, 'w', encoding='utf-8') as file:
        for text in events(draw, texts, int(megabytes) * 1_000_000):
            file.write(text + '\n')
            count += 1
            if size + len(text) > MOST:
                if part:
                    part.write('\n]}\n')
                    part.close()
                parts, size = parts + 1, 0
                part = open('%s-%d.json' % (lists, parts), 'w', encoding='utf-8')
                part.write('{"apiVersion":"v1","kind":"List","items":[\n' + text)
            else:
                part.write(',\n' + text)
            size += len(text) + 2
    part.write('\n]}\n')
    part.close()
    print('%d events, %d lists' % (count, parts))


if __name__ == '__main__':
    main(*sys.argv[1:])
