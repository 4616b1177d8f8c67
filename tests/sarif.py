"""A strict reader of SARIF: what the standard's schema says of the parts that rbacaudit writes, and of no others.

It is written by hand from the text of SARIF 2.1.0 (OASIS), since no package that the tests need has the schema. An
object may have only the properties of this table, although the standard has more; an exclamation mark stands behind
those that have to be there. What code hosts want besides is checked here too: addresses that they can look up in a
repository, a rule for each result, and something that tells each result from all others of its rule.
"""

import json
import re

LEVELS = ('none', 'note', 'warning', 'error')
# Types: a name is an object of this table; a list has one type of items, and a second word if no two may be the same; a tuple
# has the values that there may be; `text`, `number` (a whole one of at least that) and `flag` are what they are called.
OBJECTS = {
    'log': {'$schema': 'address', 'version!': ('2.1.0',), 'runs!': ['run']},
    'run': {'tool!': 'tool', 'automationDetails': 'details', 'results': ['result'], 'invocations': ['invocation', 'unique']},
    'tool': {'driver!': 'component'},
    'component': {'name!': 'text', 'semanticVersion': 'text', 'rules': ['rule', 'unique']},
    'rule': {'id!': 'text', 'name': 'text', 'shortDescription': 'string', 'fullDescription': 'string', 'help': 'string',
             'defaultConfiguration': 'configuration'},
    'string': {'text!': 'text'},
    'configuration': {'level': LEVELS},
    'details': {'id': 'text'},
    'invocation': {'executionSuccessful!': 'flag', 'toolExecutionNotifications': ['notification']},
    'notification': {'message!': 'string', 'level': LEVELS},
    'result': {'ruleId': 'text', 'ruleIndex': 0, 'level': LEVELS, 'message!': 'string', 'locations': ['location'],
               'relatedLocations': ['location', 'unique'], 'partialFingerprints': 'prints'},
    'prints': {'primaryLocationLineHash': 'text'},
    'location': {'physicalLocation': 'physical', 'logicalLocations': ['logical', 'unique']},
    'physical': {'artifactLocation!': 'artifact', 'region': 'region'},
    'artifact': {'uri': 'address', 'uriBaseId': 'text'},
    'region': {'startLine': 1},
    'logical': {'fullyQualifiedName': 'text', 'kind': 'text'},
}
# An address by RFC 3986, without what none of ours has: a query, a fragment, a user, a port.
ADDRESS = re.compile(r"([a-z][a-z0-9+.-]*:(//[A-Za-z0-9.-]*)?)?(/?[^/:]+)?(/[^/]*)*")
CHARACTERS = re.compile(r"([A-Za-z0-9._~!$&'()*+,;=:@/-]|%[0-9A-F]{2})*")


def faults(value, kind='log', where=''):
    """What is wrong with a value, a text each."""
    if isinstance(kind, tuple):
        found = [] if value in kind else ['is none of %s' % (kind,)]
    elif isinstance(kind, list):
        return list_faults(value, kind, where)
    elif isinstance(kind, int):
        found = [] if type(value) is int and value >= kind else ['is no number of at least %d' % kind]
    elif kind == 'flag':
        found = [] if isinstance(value, bool) else ['is neither true nor false']
    elif kind in ('text', 'address'):
        well = isinstance(value, str) and (kind == 'text' or ADDRESS.fullmatch(value) and CHARACTERS.fullmatch(value))
        found = [] if well else ['is no %s' % kind]
    else:
        return object_faults(value, OBJECTS[kind], where)
    return ['%s: %r %s' % (where, value, fault) for fault in found]


def list_faults(value, kind, where):
    if not isinstance(value, list):
        return ['%s: %r is no list' % (where, value)]
    found = [fault for at, item in enumerate(value) for fault in faults(item, kind[0], '%s[%d]' % (where, at))]
    coded = [json.dumps(item, sort_keys=True) for item in value]
    return found + ['%s: an item is there twice' % where] * (len(kind) > 1 and len(set(coded)) < len(coded))


def object_faults(value, properties, where):
    if not isinstance(value, dict):
        return ['%s: %r is no object' % (where, value)]
    types = {name.rstrip('!'): kind for name, kind in properties.items()}
    found = ['%s: %s is missing' % (where, name[:-1]) for name in properties if name.endswith('!') and name[:-1] not in value]
    found += ['%s: %s is unknown' % (where, name) for name in value if name not in types]
    return found + [fault for name, item in value.items() if name in types for fault in faults(item, types[name], '%s.%s' % (where, name))]


def once(pairs):
    """An object of JSON, none of whose names is there twice."""
    assert len(dict(pairs)) == len(pairs), 'a name is there twice: %r' % pairs
    return dict(pairs)


def read(text):
    """The only run of a SARIF text, and what is wrong with it."""
    try:
        log = json.loads(text, object_pairs_hook=once)
    except (ValueError, AssertionError) as fault:
        return {}, [repr(fault)]
    found = faults(log) or [fault for run in log['runs'] for fault in run_faults(run)]
    return log['runs'][0] if not found else {}, found + ['more runs than one'] * (not found and len(log['runs']) != 1)


def run_faults(run):
    """What code hosts want of a run."""
    rules = run['tool']['driver']['rules']
    for rule in rules:
        missing = {'shortDescription', 'fullDescription', 'help', 'defaultConfiguration'} - set(rule)
        if missing:
            yield 'rule %s: no %s' % (rule['id'], missing)
    if len(run['results']) > 25000:
        yield 'more results than GitHub takes'
    prints = set()
    for result in run['results']:
        rule = rules[result['ruleIndex']] if result['ruleIndex'] < len(rules) else {}
        if rule.get('id') != result['ruleId'] or rule['defaultConfiguration']['level'] != result['level']:
            yield 'another rule: %r' % result
        if len(result['locations']) != 1:
            yield 'not one location: %r' % result
        prints.add((result['ruleId'], result['partialFingerprints']['primaryLocationLineHash']))
        for location in result['locations'] + result.get('relatedLocations', []):
            yield from location_faults(location)
    if len(prints) < len(run['results']):
        yield 'two results are told apart by nothing'


def location_faults(location):
    """An address is whole, or below the root of the repository."""
    artifact = location.get('physicalLocation', {}).get('artifactLocation')
    if artifact is None:
        return
    address, base = artifact['uri'], artifact.get('uriBaseId')
    parts = address.removeprefix('file:///').split('/')
    if base != (None if address.startswith('file:///') else '%SRCROOT%') or {'', '.', '..'} & set(parts) or ':' in parts[0]:
        yield 'no address in a repository: %r' % artifact
    if not location['physicalLocation'].get('region'):
        yield 'no line: %r' % location
