"""Packs the proved program for machines without the kit: `make dist`, which sees that it is built.

usage: python3 tools/dist.py [GATE [URL]]

Writes the archive to dist/, a Containerfile and a manifest for krew that are filled in for it, and
SHA256SUMS. The same commit and the same build give the same bytes: names are in order, owners and
modes fixed, and times those of the commit. GATE is a file with what the gate printed, and URL the
address that the archive is going to have.
"""

import gzip
import hashlib
import io
import os
import re
import shutil
import subprocess
import sys
import tarfile
import tempfile

sys.dont_write_bytecode = True
from copies import TOP  # noqa: E402

DIST = os.path.join(TOP, 'dist')
PACKAGING = os.path.join(TOP, 'packaging')
TOOLS = 'git', 'make', 'readelf', 'rt', 'strip'
DOCUMENTS = 'README.md', 'bench/README.md', 'docs', 'examples'
GATE_UNKNOWN = "not known: make dist wasn't given what the gate printed"
PROVED = """rbacaudit {version} for Linux on x86-64

commit  {commit}
date    {date}
kit     {kit}
gate    {gate}
needs   {libraries}; glibc {glibc} or later

make dist wrote this. The date is the commit's, and the kit the one that was there then.
bin/rbacaudit was built from the sources of the commit, and is stripped of its symbols.
docs/PROMISES.md says what is proved, what is only tested, and what is trusted.
"""


def refuse(why):
    sys.exit('make dist: ' + why)


def said(*words):
    """What a command prints, without the newline at its end."""
    ended = subprocess.run(words, cwd=TOP, check=True, stdout=subprocess.PIPE, text=True)
    return ended.stdout.rstrip('\n')


def bytes_of(path):
    with open(path, 'rb') as file:
        return file.read()


def packable(path):
    """A file's mode and bytes."""
    return 0o755 if os.access(path, os.X_OK) else 0o644, bytes_of(path)


def commit():
    """The commit, its date, and that in seconds. What is packed has to be what the commit has."""
    changed = said('git', 'status', '--porcelain').splitlines()
    if changed:
        refuse("%s isn't as in the commit: commit it, or take it away" % changed[0][3:])
    return said('git', 'show', '-s', '--format=%H %cI %ct', 'HEAD').split()


def gate_line(path):
    """How the gate ended, by the last line of the file with what it printed."""
    if not path:
        return GATE_UNKNOWN
    try:
        last = bytes_of(path).decode(errors='replace').rstrip('\n').split('\n')[-1]
    except OSError as fault:
        refuse("can't read %s: %s" % (path, fault.strerror))
    if not re.fullmatch(r'[0-9]+ passed, 0 failed', last):
        refuse("%s doesn't end as a gate that passed: %r" % (path, last))
    return last


def installed(stage):
    """What `make install` installs, stripped: each file's mode and bytes by its name."""
    # (the program is built, and what was said to make dist isn't for this make)
    words = ['make', '-s', '-o', 'build', 'install', 'DESTDIR=' + stage, 'PREFIX=']
    subprocess.run(words, cwd=TOP, env=dict(os.environ, MAKEFLAGS=''), check=True)
    subprocess.run(['strip', os.path.join(stage, 'bin', 'rbacaudit')], check=True)
    # (what Python compiles is of its own version)
    names = (os.path.join(folder, name) for folder, _, names in os.walk(stage)
             if os.path.basename(folder) != '__pycache__' for name in names)
    return {os.path.relpath(path, stage): packable(path) for path in names}


def documents():
    """The documents and examples of the commit: each file's mode and bytes by its name."""
    names = said('git', 'ls-files', *DOCUMENTS).splitlines()
    return {name: packable(os.path.join(TOP, name)) for name in names}


def needs_of(program):
    """The libraries that the program loads, and the oldest glibc that has all that it calls."""
    text = said('readelf', '-dV', program)
    versions = re.findall(r'\bGLIBC_([0-9]+)\.([0-9]+)', text)
    glibc = '%d.%d' % max((int(major), int(minor)) for major, minor in versions)
    return ', '.join(sorted(re.findall(r'\(NEEDED\).*\[(.+)\]', text))), glibc


def archive(root, files, seconds):
    """The bytes of the archive, in which each name stands below the root."""
    packed = io.BytesIO()
    with gzip.GzipFile('', 'wb', fileobj=packed, mtime=0) as zipped, \
            tarfile.open(mode='w', fileobj=zipped, format=tarfile.USTAR_FORMAT) as tar:
        for name, (mode, data) in sorted(files.items()):
            entry = tarfile.TarInfo('%s/%s' % (root, name))
            entry.mode, entry.mtime, entry.size = mode, seconds, len(data)
            tar.addfile(entry, io.BytesIO(data))
    return packed.getvalue()


def filled(name, values):
    """A file of packaging/ with a value in each of its places, such as @VERSION@."""
    text = bytes_of(os.path.join(PACKAGING, name)).decode()
    return re.sub('@([A-Z0-9]+)@', lambda place: values[place[1]], text).encode()


def sum_of(data):
    return hashlib.sha256(data).hexdigest()


def contents(gate):
    """The version, the time, and the files of the archive."""
    name, date, seconds = commit()
    with tempfile.TemporaryDirectory(prefix='rbacaudit-') as stage:
        program = os.path.join(stage, 'bin', 'rbacaudit')
        files = {**installed(stage), **documents()}
        version = said(program, '--version').split()[-1]
        libraries, glibc = needs_of(program)
        proved = PROVED.format(version=version, commit=name, date=date, kit=said('rt', 'version'),
                               gate=gate, libraries=libraries, glibc=glibc)
    files['install.sh'] = packable(os.path.join(PACKAGING, 'install.sh'))
    files['PROVED.txt'] = 0o644, proved.encode()
    return version, int(seconds), files


def pack(gate, url):
    version, seconds, files = contents(gate_line(gate))
    root = 'rbacaudit-%s-x86_64-linux' % version
    name = root + '.tar.gz'
    packed = archive(root, files, seconds)
    values = {'VERSION': version, 'ROOT': root, 'ARCHIVE': name, 'SHA256': sum_of(packed),
              'URI': url or 'https://downloads.example.com/' + name}
    made = {template: filled(template, values) for template in ('Containerfile', 'krew.yaml')}
    made[name] = packed
    sums = ('%s  %s\n' % (sum_of(data), name) for name, data in made.items())
    made['SHA256SUMS'] = ''.join(sums).encode()
    os.makedirs(DIST, exist_ok=True)
    for name, data in made.items():
        with open(os.path.join(DIST, name), 'wb') as file:
            file.write(data)
        print('dist/%s: %d bytes' % (name, len(data)))


def main(gate='', url=''):
    for tool in TOOLS:
        if not shutil.which(tool):
            refuse('there is no %s on the PATH' % tool)
    try:
        pack(gate, url)
    except subprocess.CalledProcessError as fault:
        refuse('%s failed' % ' '.join(fault.cmd[:2]))


if __name__ == '__main__':
    main(*sys.argv[1:])
