"""A stand-in for `kubectl patch --local`, which prints manifests as JSON: what kubectl 1.32 does, as far as tests go.

It is called with the words that follow those. YAML is read with PyYAML, where that is installed; of a kustomization it knows
`resources` and `namespace`.
"""

import csv
import json
import os
import sys

try:
    import yaml
except ImportError:
    yaml = None

KUSTOMIZATIONS = ('kustomization.yaml', 'kustomization.yml', 'Kustomization')


class Fault(Exception):
    """What kubectl says of a bad file."""


def values(text):
    """The values of a text, one behind the other: JSON if it begins like an object, and else YAML."""
    if not text.lstrip().startswith('{'):
        if yaml is None:
            raise Fault('no PyYAML')
        yield from yaml.safe_load_all(text)
        return
    decoder, at = json.JSONDecoder(), 0
    while text[at:].strip():
        at += len(text[at:]) - len(text[at:].lstrip())
        value, at = decoder.raw_decode(text, at)
        yield value


def objects_of(value):
    """The objects of a document: each item, if it has items, whatever its kind is."""
    if not isinstance(value, dict):
        raise Fault('json: cannot unmarshal %s into Go value' % type(value).__name__)
    if not value.get('kind'):
        raise Fault("Object 'Kind' is missing in '%s'" % json.dumps(value))
    for item in value['items'] if 'items' in value else [value]:
        if not isinstance(item, dict):
            raise Fault('json: cannot unmarshal %s into Go value of type map' % type(item).__name__)
        if not item.get('kind') and not item.get('apiVersion'):
            item = {**item, 'kind': value['kind'].removesuffix('List'), 'apiVersion': value['apiVersion']}
        check_item(item, value)
        yield item


def check_item(item, document):
    """Refuses an item that kubectl can't take apart."""
    if not item['kind']:
        raise Fault("Object 'Kind' is missing in 'object has no kind field '")
    if 'items' in item and item is not document:
        raise Fault('*unstructured.Unstructured is not a list: no Items field in this object')
    for field in ('name', 'namespace'):
        if not isinstance((item.get('metadata') or {}).get(field) or '', str):
            raise Fault('json: cannot unmarshal number into Go struct field ObjectMeta.metadata.%s of type string' % field)


def objects_in(path):
    """The objects of a file, or of standard input."""
    try:
        if path == '-':
            text = sys.stdin.read()
        else:
            with open(path, encoding='utf-8-sig') as file:
                text = file.read()
        for value in values(text):
            if value is not None:
                yield from objects_of(value)
    except Fault as fault:
        raise Fault('unable to decode "%s": %s' % (path, fault)) from fault
    except OSError as fault:
        raise Fault('open %s: %s' % (path, fault.strerror.lower())) from fault
    except ValueError as fault:
        raise Fault('error parsing %s: %s' % (path, fault)) from fault
    except Exception as fault:
        if yaml is None or not isinstance(fault, yaml.YAMLError):
            raise
        raise Fault('error parsing %s: error converting YAML to JSON: %s' % (path, str(fault).partition('\n')[0])) from fault


def rendered(folder):
    """The objects of a kustomization."""
    found = [name for name in KUSTOMIZATIONS if os.path.exists(os.path.join(folder, name))]
    if not found:
        raise Fault("unable to find one of 'kustomization.yaml', 'kustomization.yml' or 'Kustomization' in directory '%s'" % folder)
    with open(os.path.join(folder, found[0]), encoding='utf-8') as file:
        [said] = values(file.read())
    for name in said.get('resources', []):
        path = os.path.join(folder, name)
        if not os.path.exists(path):
            raise Fault("accumulating resources: accumulation err='accumulating resources from '%s'" % name)
        for item in rendered(path) if os.path.isdir(path) else objects_in(path):
            if 'namespace' in said and not item['kind'].startswith('Cluster'):
                item['metadata']['namespace'] = said['namespace']
            yield item


def printed(item):
    """The object as kubectl prints it, with < > and & escaped."""
    text = json.dumps(item, indent=4, sort_keys=True, ensure_ascii=False)
    for one in '<>&\u2028\u2029':
        text = text.replace(one, '\\u%04x' % ord(one))
    return text


def main(words):
    texts, faults = [], []
    for option, value in zip(words[::2], words[1::2]):
        # (kubectl splits the value of -f at commas)
        paths = [value] if option == '-k' else next(csv.reader([value]))
        for path in paths:
            try:
                texts += map(printed, rendered(path) if option == '-k' else objects_in(path))
            except Fault as fault:
                faults.append(str(fault))
    if not texts and not faults:
        faults = ['no objects passed to patch']
    print(*texts, sep='\n', end='\n' * bool(texts))
    if faults:
        sys.exit('error: ' + '\n'.join(faults))


if __name__ == '__main__':
    main(sys.argv[1:])
