"""rbacaudit-show: lines of each command as a table, as JSON and as names.

Lines with their tables and objects are those of tests/show_lines.py. Lines of the built program over examples/ are read
once more here, by the rules of that document, and compared with the objects. What is skipped, since this
machine lacks a shell or a renderer, stands in the last line but one. The last line is
`N passed, M failed`.
"""

import base64
import contextlib
import fcntl
import json
import os
import pty
import random
import re
import shutil
import struct
import subprocess
import sys
import tempfile
import termios
import threading
import unicodedata

from common import PROGRAM, TOP, checked, skipped, tested
from shells import renders
from show_lines import (ANSWER, ANSWER_HEADLESS, ANSWER_TABLE, COMMANDS, DIFF, DIFF_TABLE, FILES, HOLDERS, HOLDERS_TABLE, LINT, MATRIX, MATRIX_80,
                        MATRIX_TABLE, OF_COUNTS, OF_ROW, OPS_WORDS, OPS_WORDS_44, PATHS, POWERS, ROWS, RULES, SHOP_WORDS, UNUSED, WAYS, WHY, WHY_TABLE,
                        WORDS, tabs)
from written import contents, same
from written import steps as steps_of_behaviour

SHOW = os.path.join(TOP, 'plugin', 'rbacaudit-show')
EXAMPLES = os.path.join(TOP, 'examples')
MEMORY = 60_000  # kilobytes that a million lines may take
EXPECTED = ('no command of rbacaudit prints this: expected lines of can-i, who-can, rules, matrix, lint, powers, paths, diff or unused; '
            'rbacaudit-show --help lists their fields')


# ---- the filter

class Filter:
    """rbacaudit-show as its tests call it."""

    def environment(self, **more):
        mine = {name: value for name, value in os.environ.items() if name != 'COLUMNS'}
        return {**mine, 'LC_ALL': 'C.UTF-8', 'TERM': 'xterm', 'NO_COLOR': '1', **more}

    def run(self, given, *words, **how):
        """Status, output and error over lines."""
        given = given if isinstance(given, bytes) else given.encode()
        ended = subprocess.run([SHOW, *words], input=given, stdout=subprocess.PIPE, stderr=subprocess.PIPE,
                               timeout=300, env=self.environment(), **how)
        return ended.returncode, ended.stdout, ended.stderr.decode()

    def on_terminal(self, given, columns, *words, **more):
        """What a terminal of so many columns gets, and status and error."""
        ours, theirs = pty.openpty()
        fcntl.ioctl(theirs, termios.TIOCSWINSZ, struct.pack('HHHH', 50, columns, 0, 0))
        process = subprocess.Popen([SHOW, *words], stdin=subprocess.PIPE, stdout=theirs, stderr=subprocess.PIPE,
                                   env=self.environment(**more))
        os.close(theirs)
        out = []
        reader = threading.Thread(target=lambda: out.append(all_of(ours)))
        reader.start()
        err = process.communicate(given if isinstance(given, bytes) else given.encode(), timeout=300)[1]
        reader.join()
        os.close(ours)
        return process.returncode, out[0].replace(b'\r\n', b'\n').decode(), err.decode()

    def same(self, name, got, wanted):
        same(name, got, wanted)

    def checked(self, name, well, got=None):
        checked(name, well, 'got %.2000r' % (got,))


def all_of(terminal):
    out = b''
    with contextlib.suppress(OSError):
        while chunk := os.read(terminal, 65536):
            out += chunk
    return out


def objects_in(out):
    return [json.loads(line) for line in out.decode().splitlines()]


def commands(it):
    """Each command's lines in each format, through a pipe and on a terminal."""
    for name, (lines, table, narrow, wanted, names) in COMMANDS.items():
        for words in ([], ['-o', 'table'], ['-owide']):
            it.same('%s: a pipe %s' % (name, words), it.run(lines, *words), (0, table.encode(), ''))
        it.same('%s: 80 columns' % name, it.on_terminal(lines, 80), (0, narrow, ''))
        it.same('%s: 200 columns' % name, it.on_terminal(lines, 200), (0, table, ''))
        it.same('%s: wide, in 80 columns' % name, it.on_terminal(lines, 80, '-o', 'wide'), (0, table, ''))
        status, out, err = it.run(lines, '-o', 'json')
        it.same('%s: JSON' % name, (status, objects_in(out), err), (0, wanted, ''))
        it.same('%s: the order of keys' % name, [list(line) for line in objects_in(out)], [list(line) for line in wanted])
        it.same('%s: JSON on a terminal' % name, it.on_terminal(lines, 80, '--output=json'), (0, out.decode(), ''))
        it.same('%s: names' % name, it.run(lines, '--output', 'name'), (0, ''.join(it + '\n' for it in names).encode(), ''))
    it.same('$COLUMNS counts', it.on_terminal(MATRIX, 200, COLUMNS='80'), (0, MATRIX_80, ''))
    for columns in ('', '0', 'x'):
        it.same('COLUMNS=%s does not' % columns, it.on_terminal(MATRIX, 80, COLUMNS=columns), (0, MATRIX_80, ''))
    it.same('a terminal that does not know', it.on_terminal(MATRIX, 0), (0, MATRIX_80, ''))
    tiny = it.on_terminal(MATRIX, 10)
    it.same('a terminal that is too narrow', tiny, (0, 'WHO  NA…  VE…  GR…  RE…  NA…  BI…\ng:…  -    get  -    /m…  -    Cl…\n'
                                                    'u:…  dev  up…  -    co…  app  Ro…\nu:…  dev  pa…  ap…  de…  -    Ro…\nend\n', ''))


# Commands whose rows have colors: the codes of each row.
COLORS = {'can-i --why': ['', ''], 'who-can': ['', ''], 'rules': ['', ''], 'lint': [''] * 5, 'powers': [''] * 3, 'paths': [''] * 5, 'who-can --indirect': [''] * 7,
          'diff': ['1;32', '1;31', '31'], 'matrix': ['', '', '1', ''], 'diff --summary': ['1;32', '31', '1', '1'],
          'unused': ['', '', '', '', '1', '']}


def colored(table, codes):
    head, *rows = table.splitlines()
    return ''.join('\x1b[%sm%s\x1b[0m\n' % (code, row) if code else row + '\n' for code, row in zip(['', *codes], [head, *rows]))


def colors(it):
    """Colors where they are asked for, or a terminal has them; they are no columns of a row."""
    for name, codes in COLORS.items():
        lines, table, narrow, _, _ = COMMANDS[name]
        wanted = colored(table, codes)
        it.same('%s: colors in a pipe' % name, it.run(lines, '--color', 'always', '-o', 'wide'), (0, wanted.encode(), ''))
        it.same('%s: colors on a terminal' % name, it.on_terminal(lines, 80, NO_COLOR=''), (0, colored(narrow, codes), ''))
    painted = colored(DIFF_TABLE, COLORS['diff'])
    for words, more, wanted in (([], {}, DIFF_TABLE), ([], {'NO_COLOR': '', 'TERM': 'dumb'}, DIFF_TABLE), ([], {'NO_COLOR': '', 'TERM': ''}, DIFF_TABLE),
                                (['--color=always'], {'TERM': 'dumb'}, painted), (['--color', 'never'], {'NO_COLOR': ''}, DIFF_TABLE),
                                (['--color=auto'], {'NO_COLOR': ''}, painted)):
        it.same('colors: %s %s' % (words, more), it.on_terminal(DIFF, 200, *words, **more), (0, wanted, ''))
    for format_ in ('json', 'name'):
        it.same('colors: none in %s' % format_, it.run(DIFF, '-o', format_, '--color', 'always'), it.run(DIFF, '-o', format_))
    powers = [('- create - pods -', '1'), ('dev create - pods -', '1'), ('dev create - pods p', ''), ('dev create apps pods -', ''),
              ('dev create - serviceaccounts/token x', '1'), ('- impersonate - users kim', '1'), ('dev impersonate - users -', ''),
              ('dev escalate rbac.authorization.k8s.io clusterroles -', ''), ('- escalate rbac.authorization.k8s.io clusterroles x', '1'),
              ('dev get - nodes/proxy -', ''), ('- get - nodes/proxy -', '1'), ('- get - /pods/exec -', ''), ('dev get - pods/exec -', '1'),
              ('dev get - secrets x', '1'), ('dev patch apps deployments web', '1'), ('dev delete - secrets -', '1'), ('dev create - secrets -', ''),
              ('kube-system create - secrets -', '1'), ('kube-system create - secrets x', ''), ('- create - secrets -', '1'), ('- create - persistentvolumes -', '1'),
              ('dev create - persistentvolumes -', ''), ('dev update - namespaces dev', '1'), ('dev create - namespaces -', ''), ('dev deletecollection - secrets x', '')]
    for row, code in powers:
        line = tabs('u:a %s RoleBinding/b/c' % row)
        it.same('a power in a matrix: %s' % row, it.run(line, '--color=always')[1].count(b'\x1b[1m'), len(code))
    rule = '%s\tClusterRole/x\tClusterRole/x\t1\t1\t[%s]\t[%s]\t[%s]\t[%s]\t[]\n'
    for binding, *words, code in (
            ('RoleBinding/a/b', 'get,create', '-', 'pods,services', '', 1), ('RoleBinding/a/b', 'create', 'apps,batch', 'jobs', '', 1),
            ('RoleBinding/a/b', 'create', 'apps', 'jobs', '', 0), ('RoleBinding/a/b', '*', '*', '*', '', 1), ('RoleBinding/a/b', '*', '*', '*', 'x', 1),
            ('RoleBinding/a/b', 'get', '-', 'secrets', 'x', 1), ('RoleBinding/a/b', 'create', '-', 'pods', 'x,-', 1), ('RoleBinding/a/b', 'create', '-', 'pods', 'x', 0),
            ('RoleBinding/a/b', 'get', '-', 'secrets', '*', 1), ('RoleBinding/a/b', 'create', '-', 'secrets', '', 0), ('RoleBinding/kube-system/b', 'create', '-', 'secrets', '', 1),
            ('RoleBinding/a/b', 'deletecollection', '-', 'secrets', 'x', 0), ('ClusterRoleBinding/b', 'create', 'certificates.k8s.io', '*/nodeclient', '', 1),
            ('ClusterRoleBinding/b', 'create', 'certificates.k8s.io', '*/nodeclient', 'x', 0), ('ClusterRoleBinding/b', 'patch', 'apiregistration.k8s.io', 'apiservices', 'x', 1),
            ('RoleBinding/a/b', 'get', '-', '*/exec', '', 1), ('RoleBinding/a/b', 'get', '-', '*/proxy', '', 0), ('ClusterRoleBinding/b', 'get', '-', '*/proxy', '', 1),
            ('ClusterRoleBinding/b', 'get', '-', 'pods/*', '', 0), ('RoleBinding/a/b', 'get', '-', 'a\\x2csecrets', '', 0)):
        it.same('a power in rules: %s %s' % (binding, words), it.run(rule % (binding, *words), '--color=always')[1].count(b'\x1b[1m'), code)
    for binding, words, code in (
            ('RoleBinding/a/b', 'get - secrets *', 1), ('RoleBinding/a/b', 'get - secrets x', 1), ('RoleBinding/a/b', 'create - pods *', 1), ('RoleBinding/a/b', 'create - pods x', 0),
            ('RoleBinding/a/b', '* * * *', 1), ('RoleBinding/a/b', 'get - nodes/proxy *', 0), ('ClusterRoleBinding/b', 'get - nodes/proxy *', 1),
            ('RoleBinding/kube-system/b', 'create - secrets *', 1), ('RoleBinding/a/b', 'create - secrets *', 0), ('ClusterRoleBinding/b', 'get - /secrets -', 0),
            ('ClusterRoleBinding/b', 'get - * -', 0), ('ClusterRoleBinding/b', '* - ** -', 0), ('ClusterRoleBinding/b', 'get - * *', 1),
            ('RoleBinding/a/b', 'create - pods -', 1), ('ClusterRoleBinding/b', 'impersonate - users kim', 1), ('RoleBinding/a/b', 'impersonate - users *', 0), ('ClusterRoleBinding/b', 'create - pods \\x2a', 0)):
        line = tabs('permission %s ClusterRole/r ClusterRole/r 1 - %s' % (binding, words))
        it.same('a power in unused: %s %s' % (binding, words), it.run(line, '--color=always')[1].count(b'\x1b[1m'), code)


def headless(it):
    """Tables without their heads, whose columns are as wide as their fields."""
    for words in (['--no-headers'], ['--no-headers', '-o', 'wide']):
        it.same('no head %s' % words, it.run(ANSWER + ANSWER, *words)[1].decode(), ('yes\n' + ANSWER_HEADLESS) * 2)
    # (16 and 32 columns: the second gives 16, and then each gives two)
    it.same('no head on a terminal', it.on_terminal(HOLDERS, 30, '--no-headers')[1], 'g:system:mast…  ClusterRoleBi…\nu:kim           RoleBinding/s…\n')
    for format_ in ('json', 'name'):
        it.same('no head in %s' % format_, it.run(HOLDERS, '-o', format_, '--no-headers'), it.run(HOLDERS, '-o', format_))


def words_below(it):
    """The words of the rules below the lines of --why, in tables alone."""
    with tempfile.TemporaryDirectory() as room:
        path = os.path.join(room, 'a=b')
        with open(path, 'w', encoding='utf-8') as file:
            file.write(WORDS)
        for given, wanted in ((ANSWER, ANSWER_TABLE + SHOP_WORDS), (WHY + WHY, WHY_TABLE + OPS_WORDS + WHY_TABLE.splitlines(True)[1] + OPS_WORDS)):
            it.same('words: wide', it.run(given, '--rules', path, '-o', 'wide'), (0, wanted.encode(), ''))
        it.same('words: by a name in the folder', it.run(ANSWER, '--rules=a=b', cwd=room), (0, (ANSWER_TABLE + SHOP_WORDS).encode(), ''))
        it.same('words: on a terminal', it.on_terminal(WHY, 44, '--rules', path)[1].splitlines()[2:], OPS_WORDS_44.splitlines())
        it.same('words: of another rule', it.run(WHY.replace('\t3\t', '\t4\t'), '--rules', path)[1].decode(), WHY_TABLE.replace('  3  ', '  4  '))
        it.same('words: of other lines', it.run(RULES, '--rules', path), it.run(RULES))
        it.same('words: none in JSON', it.run(WHY, '--rules', path, '-ojson'), it.run(WHY, '-ojson'))
        it.same('words: no file', it.run(WHY, '--rules', room), (2, b'', "rbacaudit-show: can't read %s\n" % room))


def remarks(it):
    """Answers of can-i and the last lines of pages, before and between rows."""
    it.same('an empty matrix', it.run('end\n'), (0, b'end\n', ''))
    it.same('an empty matrix, as JSON', it.run('end\n', '-o', 'json'), (0, b'{"end":true}\n', ''))
    page = ROWS + 'next\tMQl1OmFsaWNl_-\n'
    it.same('a page', it.run(page), (0, MATRIX_TABLE.replace('end', 'next\tMQl1OmFsaWNl_-').encode(), ''))
    it.same('a page, as JSON', objects_in(it.run(page, '-o', 'json')[1])[3:], [{'next': 'MQl1OmFsaWNl_-'}])
    it.same('a page, as names', it.run(page, '-o', 'name')[1], b'g:devs\nu:ann\nu:system:serviceaccount:dev:ci\n')
    it.same('a summary of nothing', objects_in(it.run(tabs('total - - 0 0 [] []'), '-o', 'json')[1]),
            [{'total': True, 'gained': 0, 'lost': 0, 'powers_gained': [], 'powers_lost': []}])
    it.same('a matrix without its last line', it.run(ROWS), (0, MATRIX_TABLE[:-4].encode(), ''))
    it.same('two pages', it.run(page + ROWS + 'end\n'),
            (0, (MATRIX_TABLE.replace('end', 'next\tMQl1OmFsaWNl_-') + MATRIX_TABLE).encode(), ''))
    it.same('several answers', it.run('no\n' + ANSWER + 'yes\n'), (0, ('no\n' + ANSWER_TABLE + 'yes\n').encode(), ''))
    for words in ([], ['-o', 'json'], ['-o', 'wide'], ['-o', 'name']):
        it.same('nothing %s' % words, it.run('', *words), (0, b'', ''))
        it.same('nothing on a terminal %s' % words, it.on_terminal('', 80, *words), (0, '', ''))
    it.same('no newline at the end', it.run(HOLDERS[:-1]), (0, HOLDERS_TABLE.encode(), ''))


# ---- names of strangers

NAMES = ['', '-', '--', '-kim', '*', '\\', '\\x2a', 'a\tb', 'a\nb\r', '"', '"}{"', "'", ' ', ' a ', 'a  b', 'a   b', 'a,b', ',',
         '[a]', 'end', 'yes', '\u2800', '\u202ekim\u2066', '\u200e\u200f', '\u200b', '\x7f', '\x01\x1f', 'é', 'e\u0301', '中文', '한글', '👍',
         '\x9b2J', '\u2028', '\U000e0041', '\ufffd', '\ufeff', '\u0085', '😀' * 300, 'é' * 1030, 'x' * 1020 + '\u202e"\\' * 20, '\U0010ffff']


def field_of(text):
    """A text as a field, by FORMATS."""
    if text in ('', '-'):
        return text and '\\x2d' or '-'
    return re.sub(r'[\x00-\x1f\x7f]', lambda found: '\\x%02x' % ord(found[0]), text.replace('\\', '\\\\'))


def list_of(texts):
    return '[%s]' % ','.join(field_of(text).replace(',', '\\x2c') for text in texts)


def strangers():
    """Lines with each name in each field that may have it, and their objects."""
    for name in NAMES:
        yield '\t'.join(['g:' + field_of(name + 'x')] + [field_of(name)] * 5 + ['RoleBinding/a/' + field_of(name + 'y')]), dict(
            zip(OF_ROW.split(), ['g:%sx' % name, name, name, name, name, name, 'RoleBinding/a/%sy' % name]))


def power_of(name):
    """A line of powers with this name wherever one can stand. As a place, * is the whole cluster."""
    place = '\\x2a' if name == '*' else field_of(name)
    return '\t'.join(('bind', field_of('g:' + name), place, *(field_of(text % name) for text in ('RoleBinding/%s/b', 'Role/%s/r', 'ClusterRole/%s')), '1', '2')) + '\n'


def path_of(name):
    """The same of a line of paths, from a role of a namespace to everything in it."""
    place = '\\x2a' if name == '*' else field_of(name)
    source, role = field_of('Role/%s/s' % name), field_of('Role/%s/r' % name)
    return '\t'.join(('2', '*', place, role, place, 'escalate', '-', role, source, '3', '-')) + '\n'


def ways_of(name):
    """Lines of who-can --indirect with it: of a role of a namespace, and of one that binds everything there."""
    place = '\\x2a' if name == '*' else field_of(name)
    role, other = field_of('Role/%s/r' % name), field_of('Role/%s/s' % name)
    return ''.join('\t'.join(fields) + '\n' for fields in (('0', role, place, '-', '-', '-', '-', role, role, '3', '-'),
                                                           ('1', other, place, '*', place, 'bind', '-', other, role, '2', '-')))


def texts(it):
    """Names of strangers come back from JSON as they were, and their objects are ASCII but for what is to be seen."""
    lines, wanted = zip(*strangers())
    given = '\n'.join(lines) + '\n'
    status, out, err = it.run(given, '-o', 'json')
    it.same('names of strangers', (status, objects_in(out), err), (0, list(wanted), ''))
    unseen = {one for one in out.decode() if unicodedata.category(one) in ('Cc', 'Cf', 'Zl', 'Zp') and one != '\n'}
    it.same('none hides', unseen, set())
    it.same('the same on a terminal', it.on_terminal(given, 80, '-o', 'json'), (0, out.decode(), ''))
    escaped = re.sub('[\x80-\U0010ffff]', lambda found: ''.join('\\x%02x' % byte for byte in found[0].encode()), given)
    it.same('what the plugin escaped comes back', objects_in(it.run(escaped, '-o', 'json')[1]), list(wanted))
    rule = 'RoleBinding/a/b\tRole/a/b\tRole/a/b\t1\t1\t%s\t[]\t%s\t[]\t[]\n'
    given = ''.join(rule % (list_of(NAMES), list_of([name])) for name in NAMES)
    found = objects_in(it.run(given, '-o', 'json')[1])
    it.same('in lists', [(line['verbs'], line['api_groups'], line['resources']) for line in found], [(NAMES, [], [name]) for name in NAMES])
    change = '+\tu:a\t%s\tget\t-\tpods\t%s\tRoleBinding/a/b\n'
    given = ''.join(change % it for it in (('*', '*'), ('\\x2a', '\\x2a'), ('-', '-'), ('\\x2d', 'a*')))
    it.same('stars', [(line['namespace'], line['name']) for line in objects_in(it.run(given, '-o', 'json')[1])],
            [(None, None), ('*', '*'), ('', ''), ('-', 'a*')])
    given = ''.join(power_of(name) for name in NAMES if name)
    it.same('in powers', [tuple(line.values()) for line in objects_in(it.run(given, '-o', 'json')[1])], [
        ('bind', 'g:' + name, name, 'RoleBinding/%s/b' % name, 'Role/%s/r' % name, 'ClusterRole/' + name, 1, 2) for name in NAMES if name])
    it.same('in powers, as names', it.run(given, '-o', 'name')[1].decode(), ''.join(field_of('g:' + name) + '\n' for name in NAMES if name))
    given = ''.join(path_of(name) for name in NAMES if name)
    it.same('in paths', [tuple(line.values()) for line in objects_in(it.run(given, '-o', 'json')[1])], [
        (2, '*', name, 'Role/%s/r' % name, name, 'escalate', '', 'Role/%s/r' % name, 'Role/%s/s' % name, 3, None) for name in NAMES if name])
    given = ''.join(ways_of(name) for name in NAMES if name)
    it.same('in ways', [tuple(line.values()) for line in objects_in(it.run(given, '-o', 'json')[1])], [
        line for name in NAMES if name for role, other in [('Role/%s/r' % name, 'Role/%s/s' % name)] for line in (
            (0, role, name, '', '', '', '', role, role, 3, None), (1, other, name, '*', name, 'bind', '', other, role, 2, None))])
    it.same('every byte as an escape', objects_in(it.run(''.join(
        'u:\\x%02x\tClusterRoleBinding/b\n' % at for at in range(128)), '-o', 'json')[1]),
            [{'who': 'u:' + chr(at), 'binding': 'ClusterRoleBinding/b'} for at in range(128)])


def random_texts(it):
    """Random names, of the characters that escapes are made of."""
    chosen = random.Random(1)
    letters = '\\x2daf09-*,[] "\t\n\x7f\u00e9\u202e\u4e2d\U0001f600\u0301'
    names = [''.join(chosen.choices(letters, k=chosen.randrange(1, 9))) for _ in range(3000)]
    given = ''.join('u:%s\tClusterRoleBinding/%s\n' % (field_of('x' + name)[1:] or 'y', field_of('b' + name)) for name in names)
    found = objects_in(it.run(given, '-o', 'json')[1])
    it.same('random names', [line['binding'] for line in found], ['ClusterRoleBinding/b' + name for name in names])


def recovered(texts_):
    return [base64.b64decode(text) for text in texts_]


def no_utf8(it):
    """Bytes that are no UTF-8: U+FFFD stands for each, and the bytes stand beside."""
    for given, text in ((b'a\xffb', 'a\ufffdb'), (b'\xe2\x80', '\ufffd\ufffd'), (b'\xed\xa0\x80', '\ufffd' * 3), (b'\xc3', '\ufffd'),
                        (b'\xc0\x80"\xc3\xa9', '\ufffd\ufffd"é'), (b'\xf4\x90\x80\x80', '\ufffd' * 4), (b'\xff\xfe\xfd', '\ufffd' * 3)):
        escaped = b''.join(b'\\x%02x' % byte if byte > 127 else bytes([byte]) for byte in given)
        for field in (given, escaped, given + b'\\\\\\x00\\x0a'):
            more = field != given and field != escaped
            raw, said = (given + b'\\\0\n', text + '\\\0\n') if more else (given, text)
            [line] = objects_in(it.run(b'u:' + field + b'\tClusterRoleBinding/b\n', '-o', 'json')[1])
            it.same('no UTF-8: %r' % field, (line.pop('who'), base64.b64decode(line.pop('who_bytes')), line),
                    ('u:' + said, b'u:' + raw, {'binding': 'ClusterRoleBinding/b'}))
    line = b'RoleBinding/a/b\tRole/a/b\tRole/a/b\t1\t1\t[get,a\xff,-]\t[]\t[]\t[]\t[]\n'
    [found] = objects_in(it.run(line, '-o', 'json')[1])
    it.same('no UTF-8 in a list', (found['verbs'], recovered(found['verbs_bytes']), list(found).index('verbs_bytes')),
            (['get', 'a\ufffd', ''], [b'get', b'a\xff', b''], 6))


def columns_of(line):
    """How many columns of a terminal a line takes."""
    return sum(0 if unicodedata.combining(one) else 2 if one < '\U0010ffff' and unicodedata.east_asian_width(one) in 'WF' else 1 for one in line)


def seen(it):
    """Names of strangers in a table: what a terminal obeys or hides is escaped there, columns stand below each other, and no
    name looks like two."""
    lines, _ = zip(*strangers())
    given = '\n'.join(lines) + '\n'
    for columns in (40, 80, 200):
        status, out, err = got = it.on_terminal(given, columns)
        rows = out.splitlines()
        it.checked('%d columns: all rows' % columns, (status, len(rows), err) == (0, len(NAMES) + 1, ''), got)
        it.checked('%d columns: none is longer' % columns, max(map(columns_of, rows)) <= columns, max(rows, key=columns_of))
        hidden = {one for one in out if unicodedata.category(one) in ('Cc', 'Cf', 'Zl', 'Zp') and one != '\n'}
        it.same('%d columns: none hides' % columns, hidden, set())
    table = it.on_terminal(tabs('''
g:中文 ClusterRoleBinding/x
u:e\u0301ve ClusterRoleBinding/x
u:\u202ekim\u2800 ClusterRoleBinding/x
u:\\x2a ClusterRoleBinding/x''') + 'u: a  b \tClusterRoleBinding/  c\n', 80)[1]
    it.same('how names are shown', table, '''\
WHO                            BINDING
g:中文                         ClusterRoleBinding/x
u:e\u0301ve                          ClusterRoleBinding/x
u:\\xe2\\x80\\xaekim\\xe2\\xa0\\x80  ClusterRoleBinding/x
u:\\x2a                         ClusterRoleBinding/x
u: a \\x20b\\x20                 ClusterRoleBinding/ \\x20c
''')
    it.same('where wide characters are cut', it.on_terminal('u:aa中文中文中文\tRoleBinding/a/b\n', 23)[1], '''\
WHO         BINDING
u:aa中文…   RoleBindin…
''')
    it.same('a pipe gets the bytes', it.run('u:\u202ekim\tRoleBinding/a/b\n')[1].decode(),
            'WHO     BINDING\nu:\u202ekim  RoleBinding/a/b\n')
    it.same('names on a terminal', it.on_terminal('u:\u202ekim\tRoleBinding/a/b\n', 80, '-o', 'name')[1], 'u:\\xe2\\x80\\xaekim\n')
    it.same('names through a pipe', it.run('u:\u202ekim\tRoleBinding/a/b\n', '-o', 'name')[1].decode(), 'u:\u202ekim\n')
    blanks = 'u:a\tRoleBinding/a/%s\n' % (' ' * 2050 + 'b')
    it.same('many blanks', it.run(blanks)[1].decode(), 'WHO  BINDING\nu:a  RoleBinding/a/ %sb\n' % ('\\x20' * 2049))


def look_ahead(it):
    """The first 500 rows tell the widths; what is longer later moves its row in a pipe, and is cut on a terminal."""
    first = ''.join('u:a\tRoleBinding/a/b\n' for _ in range(500))
    later = 'u:alexander\tRoleBinding/a/bcd\n'
    head = 'WHO  BINDING\n' + 'u:a  RoleBinding/a/b\n' * 500
    it.same('later rows in a pipe', it.run(first + later)[1].decode(), head + 'u:alexander  RoleBinding/a/bcd\n')
    it.same('later rows on a terminal', it.on_terminal(first + later, 40)[1], head + 'u:…  RoleBinding/a/bcd\n')
    it.same('the 500th row counts', it.run(first[:-20] + later)[1].decode().splitlines()[:2], ['WHO          BINDING', 'u:a          RoleBinding/a/b'])
    long = 'u:%s\tRoleBinding/a/b\nu:b\tRoleBinding/a/b\n' % ('m' * 1000)
    it.same('a very long name', it.run(long)[1].decode().splitlines(),
            ['WHO' + ' ' * 399 + 'BINDING', 'u:%s  RoleBinding/a/b' % ('m' * 1000), 'u:b' + ' ' * 399 + 'RoleBinding/a/b'])


# ---- which of two commands

GRANT = 'ClusterRoleBinding/b ClusterRole/r ClusterRole/r 1 1'
CI, BOT = 'u:system:serviceaccount:dev:ci', 'u:system:serviceaccount:dev:bot'
# Lines that only one of the two can print.
OF_PATHS = ['1 %s - u:kim - run %s' % (CI, GRANT), '1 %s - ClusterRole/r * token - ClusterRole/r ClusterRole/r 1 -' % CI, '2 %s - * dev exec - - - - -' % CI,
            '1 ClusterRole/s dev ClusterRole/r dev bind - ClusterRole/r ClusterRole/r 1 -', '1 * dev u:kim - escalate ' + GRANT, '3 * * u:kim - webhooks ' + GRANT]
OF_WAYS = ['1 u:kim - %s - run %s' % (CI, GRANT), '1 ClusterRole/r * %s - token - ClusterRole/r ClusterRole/r 1 -' % CI, '2 * dev %s - exec - - - - -' % CI,
           '1 ClusterRole/r dev ClusterRole/s dev bind - ClusterRole/r ClusterRole/r 1 -', '1 u:kim - * dev escalate ' + GRANT, '3 u:kim - * * webhooks ' + GRANT,
           '0 u:kim - - - - ' + GRANT, '0 * * - - - - - - - -']
# What each step takes over, and where; these take over nobody.
OVER = {**dict.fromkeys(('token', 'run', 'exec', 'secrets', 'nodes'), [CI + ' -']), **dict.fromkeys(('webhooks', 'apiservices'), ['* *']), 'escalate': ['* *', '* dev'],
        'certificates': ['* *', CI + ' -'], 'impersonate': ['g:ops -'], 'bind': ['ClusterRole/s dev', 'Role/dev/s dev', '* dev'],
        'bootstrap': ['g:system:bootstrappers -', 'g:system:bootstrappers:kubeadm:default-node-token -']}
POWERS_ALONE = ('volumes', 'namespaces')
# Lines that both can.
OF_BOTH = ['1 u:kim - g:ops - impersonate ' + GRANT, '1 %s - %s - secrets %s' % (CI, BOT, GRANT)]


def no_parts():
    """Lines that look like one of unused, and are none."""
    whole, subject, rule, permission = (line for line in UNUSED.splitlines() if '\t/metrics' not in line and 'deployments' not in line)
    for name, line, old, new in (
            ('another part', whole, 'binding', 'role'), ('a head', whole, 'binding', 'LINE'), ('a binding with a rule', whole, '\t-\t-', '\tClusterRole/m\t1'),
            ('a binding with a name', whole + '*', '-*', '*'), ('a binding with a verb', whole, '-\t-\t-\t-\t-', '-\t-\t-\t-\tget'),
            ('a subject of no place', subject, '12', '-'), ('a subject that is nobody', subject, 'u:', ''), ('a subject without a name', subject, 'u:system:serviceaccount:shop:ci', '-'),
            ('a subject with a rule', subject, '-\t-\t12', 'Role/shop/ci\t1\t12'), ('a rule of no place', rule, '10', '-'), ('a rule of no role', rule, 'Role/shop/ci\t10', '-\t10'),
            ('a rule with a subject', rule, '10\t-', '10\t1'), ('a rule with a verb', rule, '10\t-\t-', '10\t-\tget'), ('a permission of no rule', permission, '2', '-'),
            ('a permission with a subject', permission, '2\t-', '2\t1'), ('a permission of no binding', permission, 'ClusterRoleBinding', 'ClusterRole')):
        yield name, line.replace(old, new, 1)


def no_ways():
    """Lines that look like one of who-can --indirect, and are none."""
    by_itself, taker = '0 u:kim - - - - ' + GRANT, '1 u:kim - * dev bind ' + GRANT
    for name, line, old, new in (
            ('somebody by no binding', by_itself, 'ClusterRoleBinding/b', '-'), ('somebody by no rule', by_itself, 'r 1', 'r -'), ('0 with a step', by_itself, '- Cluster', 'run Cluster'),
            ('0 with a node after it', by_itself, '- - - -', '- u:max - -'), ('0 with a place after it', by_itself, '- - - -', '- - * -'), ('nobody', by_itself, 'u:kim', '-'),
            ('somebody in a namespace', by_itself, 'u:kim -', 'u:kim dev'), ('a number with a zero', taker, '1 u', '01 u'), ('no node after it', taker, '* dev', '- -'),
            ('everything nowhere', taker, '* dev', '* -'), ('somebody who is bound', taker, '* dev', 'u:max -'), ('no step', taker, 'bind', '-'), ('another step', taker, 'bind', 'run'),
            ('a token of everything', taker, 'bind', 'token'), ('a role that is escalated', taker, '* dev bind', 'ClusterRole/r dev escalate'),
            ('a role by a binding', taker, 'u:kim -', 'ClusterRole/r dev'), ('everything by a role', '0 * dev - - - - - - - -', '- - - - -', '- - - - ClusterRole/r'),
            ('a role by another', '0 ClusterRole/r * - - - - ClusterRole/r ClusterRole/r 1 -', 'ClusterRole/r ClusterRole/r', 'ClusterRole/s ClusterRole/r'),
            ('a token of a user', '1 u:kim - %s - token %s' % (CI, GRANT), CI, 'u:ci'), ('a webhook of a namespace', taker, 'bind', 'webhooks'),
            ('a certificate of a namespace', taker, 'bind', 'certificates'), ('a bootstrap token of everything', taker, 'bind', 'bootstrap'),
            ('a bootstrap token of another group', '1 u:kim - g:system:bootstrapper - bootstrap ' + GRANT, 'bootstrapper ', 'bootstrappersx '),
            *(('a power alone, %s of %s' % (step, over), taker, '* dev bind', '%s %s' % (over, step)) for step in POWERS_ALONE for of in OVER.values() for over in of)):
        yield 'a way: ' + name, line.replace(old, new, 1).replace(' ', '\t')


def told_apart(it):
    """Lines of paths and of who-can --indirect have as many fields: who takes over whom tells them apart, and where both fit an option does."""
    heads = {'paths': 'STEPS TO WHERE FROM WHERE STEP', 'who-can --indirect': 'STEPS WHO WHERE TO WHERE STEP'}
    it.same('what each step takes over', {*OVER, *POWERS_ALONE}, {line[0] for line in steps_of_behaviour()})
    for lines, command, words in ((['1 %s u:kim - %s %s' % (over, step, GRANT) for step, of in OVER.items() for over in of], 'paths', []),
                                  (['1 u:kim - %s %s %s' % (over, step, GRANT) for step, of in OVER.items() for over in of], 'who-can --indirect', ['--indirect']),
                                  (OF_PATHS, 'paths', []), (OF_WAYS, 'who-can --indirect', []), (OF_WAYS, 'who-can --indirect', ['--indirect']),
                                  (OF_BOTH, 'paths', []), (OF_BOTH, 'who-can --indirect', ['--indirect'])):
        for line in lines:
            status, out, err = it.run(tabs(line), *words)
            it.same('%s is of %s %s' % (line, command, words), (status, out.decode().split()[:6], err), (0, heads[command].split(), ''))
    for before, line, command in ((OF_WAYS[-2], OF_PATHS[0], 'who-can --indirect'), (OF_BOTH[0], OF_WAYS[0], 'paths'), (OF_PATHS[0], OF_WAYS[-1], 'paths')):
        said = 'rbacaudit-show: standard input line 2: no line of %s as before: expected 11 fields: %s BINDING ROLE SOURCE RULE SUBJECT\n' % (command, heads[command])
        it.same('%s after %s' % (line, before), it.run(tabs(before + '\n' + line), '-o', 'json')[::2], (2, said))
    for lines, command in ((WAYS, 'who-can --indirect'), (ROWS, 'matrix'), (HOLDERS, 'who-can')):
        it.same('%s with --indirect' % command, it.run(lines, '--indirect'), it.run(lines))
    it.same('paths alone with --indirect', it.run(tabs(OF_PATHS[0]), '--indirect'), (2, b'', 'rbacaudit-show: standard input line 1: %s\n' % EXPECTED))


# ---- what is refused

def refusals(it):
    """Lines that no command prints, or another command than the lines before."""
    row, holder = ROWS.splitlines()[1], 'u:kim\tRoleBinding/shop/kim'
    for name, line in (('an empty line', ''), ('a word', 'maybe'), ('yes with a blank', 'yes '), ('three fields', 'a\tb\tc'),
                       ('a row with an empty field', row.replace('update', '')), ('a row of six fields', row.rpartition('\t')[0]),
                       ('a row of eight', row + '\t-'), ('a row of nobody', 'x' + row[1:]), ('a principal without a name', 'u:\tRoleBinding/a/b'),
                       ('a role in the place of a binding', row.replace('RoleBinding', 'Role')), ('a binding without a name', 'u:kim\tRoleBinding/a/'),
                       ('a bad escape', row.replace('update', '\\q')), ('an escape in capitals', row.replace('update', '\\x0A')),
                       ('half an escape', row.replace('update', '\\\\\\')), ('a control byte', row.replace('update', 'u\x1b')),
                       ('a line of Windows', holder + '\r'), ('a tab at the end', holder + '\t'), ('a tab at the beginning', '\t' + holder),
                       ('a rule without a number', WHY.rstrip().replace('\t3\t', '\t03\t')), ('a place that is a word', 'L3\tx\tRole/a/b\tz\t1'),
                       ('no list', RULES.splitlines()[0].replace('[get,list]', 'get')), ('a list with an empty word', RULES.splitlines()[0].replace('[get,list]', '[get,,list]')),
                       ('no sign', DIFF.splitlines()[0].replace('+', '=')), ('no step', POWERS.splitlines()[0].replace('exec', 'exe', 1)), ('no step, but a head', POWERS.splitlines()[0].replace('exec', 'STEP', 1)),
                       ('a step of nobody', POWERS.splitlines()[0].replace('g:devs', 'devs')), ('a step by no binding', POWERS.splitlines()[0].replace('RoleBinding', 'Role')),
                       ('a path of no step', PATHS.replace('1', '0', 1).splitlines()[0]), ('a path to nobody', PATHS.splitlines()[1].replace('ClusterRole/edit', 'edit')),
                       ('a path to all but one', PATHS.splitlines()[0].replace('*', '**', 1)), ('a path from nobody', PATHS.splitlines()[0].replace('g:devs', 'devs')),
                       ('a path by no step', PATHS.splitlines()[0].replace('bind', '-', 1)), ('a path by no role', PATHS.splitlines()[0].replace('Role/*/lead', 'Role/lead', 1)),
                       ('a path to a Role without a namespace', PATHS.splitlines()[1].replace('ClusterRole/edit', 'Role/edit')),
                       ('a path by more than no role', PATHS.splitlines()[2].replace('-\t-\t-', '-\t-x\t-', 1)),
                       ('a path by a binding without a name', PATHS.splitlines()[1].replace('Binding/devs', 'Binding/')), ('a path by half a rule', PATHS.splitlines()[0][:-1] + '--'),
                       *no_ways(), *no_parts(), ('no token', 'next\ta b'), ('next without a token', 'next')):
        for words in ([], ['-o', 'json'], ['-o', 'name']):
            it.same('refused %s: %s' % (words, name), it.run(line + '\n', *words), (2, b'', 'rbacaudit-show: standard input line 1: %s\n' % EXPECTED))
    it.same('refused: a NUL', it.run('u:k\0\tRoleBinding/a/b\x01\n')[::2], (2, 'rbacaudit-show: standard input line 1: %s\n' % EXPECTED))
    it.same('refused: JSON', it.run('{\n'), (2, b'', 'rbacaudit-show: standard input line 1: this is JSON, as universe prints it: expected lines of another command\n'))
    matrix = 'no line of matrix as before: expected 7 fields: WHO NAMESPACE VERB GROUP RESOURCE NAME BINDING, or end, or next and a token'
    for name, before, line, said in (
            ('a finding among rows', ROWS, LINT, matrix), ('a holder after a matrix', 'end\n', HOLDERS, matrix), ('yes among rows', ROWS, 'yes\n', matrix),
            ('end among holders', HOLDERS, 'end\n', 'no line of who-can as before: expected 2 fields: WHO BINDING'),
            ('a reason among holders', HOLDERS, WHY, 'no line of who-can as before: expected 2 fields: WHO BINDING'),
            ('a power among changes', DIFF, POWERS, 'no line of diff as before: expected 8 fields: CHANGE WHO NAMESPACE VERB GROUP RESOURCE NAME BINDING'),
            ('a change among powers', POWERS, DIFF, 'no line of powers as before: expected 8 fields: STEP WHO WHERE BINDING ROLE SOURCE RULE SUBJECT'),
            ('a power among paths', PATHS, POWERS,
             'no line of paths as before: expected 11 fields: STEPS TO WHERE FROM WHERE STEP BINDING ROLE SOURCE RULE SUBJECT'),
            ('a path among rules', RULES, PATHS, 'no line of rules as before: expected 10 fields: BINDING ROLE SOURCE RULE SUBJECT VERBS GROUPS RESOURCES NAMES URLS'),
            ('a file among findings', LINT, FILES, 'no line of lint as before: expected 5 fields: CODE NAME OBJECT PLACE DETAIL'),
            ('a rule among unused ones', UNUSED, RULES,
             'no line of unused as before: expected 10 fields: LINE BINDING ROLE SOURCE RULE SUBJECT WHO/VERB GROUP RESOURCE NAME'),
            ('a finding after yes', 'yes\n', LINT, 'no line of can-i as before: expected yes, no, or 5 fields: BINDING ROLE SOURCE RULE SUBJECT')):
        status, out, err = it.run(before + line, '-o', 'json')
        at = before.count('\n') + 1
        it.same('refused: %s' % name, (status, out.count(b'\n'), err), (2, at - 1, 'rbacaudit-show: standard input line %d: %s\n' % (at, said)))
    it.same('the rows before are shown', it.run(HOLDERS + 'x\n')[:2], (2, HOLDERS_TABLE.encode()))
    for words, said in ((['-o', 'yaml'], 'there is no format yaml: -o takes table, wide, json or name'), (['-o'], '-o needs a format: table, wide, json or name'),
                        (['--output='], 'there is no format : -o takes table, wide, json or name'), (['--of', 'x'], 'there is no option --of; rbacaudit-show --help lists them'),
                        (['--color', 'red'], 'there is no color red: --color takes auto, always or never'), (['--color'], '--color needs a value'),
                        (['--rules'], '--rules needs a value'), (['--rules=/gone'], "can't read /gone"),
                        (['rows'], 'there is no word rows in this command: rbacaudit-show reads from a pipe, or from a file as in rbacaudit-show < FILE')):
        it.same('refused: %s' % words, it.run(ROWS, *words), (2, b'', 'rbacaudit-show: %s\n' % said))


# ---- many lines, and pipes

def many():
    """A million rows, ten thousand at a time."""
    for at in range(100):
        yield ''.join('u:system:serviceaccount:team-%02d:ci-%03d\tns-%d\tget\tapps\tdeployments\t-\tRoleBinding/ns-%d/b\n' % (at, each // 10, each % 10, each % 10)
                      for each in range(10_000)).encode()
    yield b'end\n'


def counted(words):
    """Status, error, kilobytes and lines of a run over a million rows."""
    process = subprocess.Popen([SHOW, *words], stdin=subprocess.PIPE, stdout=subprocess.PIPE, stderr=subprocess.PIPE)
    lines = []
    reader = threading.Thread(target=lambda: lines.append(sum(chunk.count(b'\n') for chunk in iter(lambda: process.stdout.read1(1 << 20), b''))))
    reader.start()
    for chunk in many():
        process.stdin.write(chunk)
    process.stdin.close()
    reader.join()
    _, status, used = os.wait4(process.pid, 0)
    process.returncode = os.waitstatus_to_exitcode(status)
    return process.returncode, process.stderr.read(), used.ru_maxrss, lines[0]


def million():
    """A million rows in each format: all of them, in a few megabytes."""
    for words, wanted in (([], 1_000_002), (['-o', 'json'], 1_000_001), (['-o', 'name'], 100_000)):
        status, err, memory, lines = counted(words)
        same('a million rows %s' % words, (status, err, lines), (0, b'', wanted))
        checked('a million rows %s: memory' % words, memory < MEMORY, '%d kB' % memory)


def write_rows(pipe):
    """Rows without an end, until nobody reads them."""
    with contextlib.suppress(BrokenPipeError):
        while True:
            pipe.write(ROWS.encode() * 1000)


def pipes(it):
    """Rows are shown before their end comes, a pipe that is closed ends it, and a full disk is no success."""
    for words in ([], ['-o', 'json']):
        process = subprocess.Popen([SHOW, *words], stdin=subprocess.PIPE, stdout=subprocess.PIPE, stderr=subprocess.PIPE, env=it.environment())
        writer = threading.Thread(target=write_rows, args=(process.stdin,))
        writer.start()
        it.checked('%s: shown before the end' % words, process.stdout.read(1) in (b'W', b'{') and writer.is_alive())
        process.stdout.close()
        it.same('%s: a closed pipe ends it quietly' % words, (process.wait(60) != 0, process.stderr.read()), (True, b''))
        writer.join()
    ended = subprocess.run(['bash', '-c', 'yes "$1" | "$0" | head -n 2', SHOW, 'u:kim\tRoleBinding/a/b'], stdout=subprocess.PIPE, stderr=subprocess.PIPE,
                           env=it.environment(), timeout=60)
    it.same('head', (ended.returncode, ended.stdout, ended.stderr), (0, b'WHO    BINDING\nu:kim  RoleBinding/a/b\n', b''))
    for many_ in (1, 1000):
        with open('/dev/full', 'wb') as full:
            ended = subprocess.run([SHOW], input=ROWS.encode() * many_, stdout=full, stderr=subprocess.PIPE, env=it.environment(), timeout=60)
        it.checked('a full disk', ended.returncode and ended.stderr, ended)


# ---- lines of the built program

SHOP = ['shop.json']
ASKED = ([*'can-i --as kim@example.com --groups shop-developers -n shop --why list pods'.split(), *SHOP], [*'can-i --as kim get pods'.split(), *SHOP],
         [*'who-can -n shop update deployments.apps'.split(), *SHOP], [*'who-can -n shop --any-name --why update configmaps'.split(), *SHOP],
         ['rules', 'u:system:serviceaccount:shop:ci', *SHOP], ['matrix', *SHOP, 'shop-universe.json'], ['matrix', '--limit', '3', *SHOP, 'shop-universe.json'],
         ['lint', 'lint.json'], ['powers', *SHOP], ['paths', 'u:dana@example.com', *SHOP],
         [*'who-can --indirect -n shop update deployments.apps'.split(), *SHOP], ['diff', '--before', *SHOP, '--after', *SHOP, 'shop-change.json'])


def text_of(field):
    """The text of a field, by FORMATS."""
    text = '' if field == '-' else re.sub(r'\\(\\|x(..))', lambda it: chr(int(it[2], 16)) if it[2] else '\\', field)
    return text


def value_of(field):
    """What a field may be as a value of JSON: a list, or a text or number."""
    if re.fullmatch(r'\[.*\]', field):
        return [[text_of(word) for word in field[1:-1].split(',')] if field != '[]' else []]
    return [text_of(field), *([int(field)] if field.isdecimal() else []), *([None] if field in '*-' else []), *([field] if field in '+-' else [])]


def is_same(lines, found):
    """Whether there are as many objects as lines, with the values of their fields."""
    fields = [line.split('\t') for line in lines]
    return len(found) == len(fields) and all(
        len(line) == len(values) and all(value in value_of(field) for field, value in zip(line, values.values()))
        for line, values in zip(fields, found) if len(line) > 1 and line[0] not in ('next', 'total'))


def as_objects(lines):
    return objects_in(subprocess.run([SHOW, '-o', 'json'], input=lines, stdout=subprocess.PIPE, timeout=60, check=True).stdout)


def answers():
    """Lines of the built program: an object for each, and a table with all of them."""
    for words in ASKED:
        lines = subprocess.run([PROGRAM, *words], cwd=EXAMPLES, stdout=subprocess.PIPE, timeout=60).stdout
        found = as_objects(lines)
        checked('the program: %s, as JSON' % ' '.join(words), is_same(lines.decode().splitlines(), found), 'got %.2000r of %.2000r' % (found, lines))
        table = subprocess.run([SHOW], input=lines, stdout=subprocess.PIPE, timeout=60, check=True).stdout.decode().splitlines()
        rows = [re.split(' {2,}|\t', line) for line in table if not line.isupper()]
        checked('the program: %s, as a table' % ' '.join(words), rows == [line.split('\t') for line in lines.decode().splitlines()],
                'got %.2000r' % table)


def worked():
    """The lines of the worked examples (rows.json and rows_paths.json)."""
    with open(os.path.join(TOP, 'tests', 'rows.json'), encoding='utf-8') as file:
        groups = json.load(file)
    with open(os.path.join(TOP, 'tests', 'rows_paths.json'), encoding='utf-8') as file:
        groups['paths'] = [example for group in json.load(file).values() for example in group]
    wrong, count = [], 0
    for example in (example for group in groups.values() for example in group):
        asks = [(it[0], it[2]) for it in example.get('asks', ()) if len(it) == 3 and not it[0].startswith('universe')]
        pages = [('matrix ' + words, lines) for words, lines in example.get('pages', ())]
        for words, lines in asks + pages:
            count += 1
            if not is_same(lines, as_objects(''.join(line + '\n' for line in lines).encode())):
                wrong.append((words, lines))
    checked('lines of worked examples', count > 300 and not wrong, '%d, not so: %.2000r' % (count, wrong))


# ---- help, and what is installed

def told(*words, **how):
    ended = subprocess.run(words, stdin=subprocess.DEVNULL, stdout=subprocess.PIPE, stderr=subprocess.STDOUT, timeout=60, **how)
    return ended.returncode, ended.stdout.decode()


OPTIONS = ['-o', '--output', '--no-headers', '--color', '--rules', '--indirect', '-h', '--help', '-V', '--version']


def helped():
    """Help, the man page and the completions have the same options, formats and fields."""
    status, text = told(SHOW, '--help')
    same('help', (status, told(SHOW, '-h'), sorted(set(re.findall(r'(?<![\w-])--?[a-zA-Z][a-zA-Z-]*', text)) - {'--why', '--why-not', '--summary'})), (0, (0, text), sorted(OPTIONS)))
    checked('help fits a screen', max(map(len, text.splitlines())) <= 80, text)
    for words in (['--version'], ['-V']):
        same('the version: %s' % words, told(SHOW, *words), (0, 'rbacaudit-show 0.1.0\n'))
    man = contents('man', 'rbacaudit-show.1')
    renders(os.path.join(TOP, 'man', 'rbacaudit-show.1'), OPTIONS)
    checked('man: the version', '"rbacaudit 0.1.0"' in man)
    for word in ('table', 'wide', 'json', 'name'):
        checked('man: %s' % word, re.search(r'^\.B %s$' % word, man, re.M))
    fish, zsh = contents('completions', 'rbacaudit-show.fish'), contents('completions', '_rbacaudit-show')
    same('fish: the options', re.findall(r"-s (\w) -l (\w+) .*?-d '(.*)'$", fish, re.M),
         [('o', 'output', 'how lines are shown'), ('h', 'help', 'print help'), ('V', 'version', 'print version')])
    same('zsh: the options', re.findall(r"\{(-\w),(--\w+)=?\}'\[(.*?)\]", zsh),
         [('-h', '--help', 'print help'), ('-V', '--version', 'print version'), ('-o', '--output', 'how lines are shown')])
    same('fish: the long options', re.findall(r"-l (\S+)", fish), ['output', 'no-headers', 'color', 'rules', 'indirect', 'help', 'version'])
    same('zsh: the long options', re.findall(r"'(--[\w-]+)=?\[", zsh), ['--no-headers', '--color', '--rules', '--indirect'])
    same('fish: the formats', re.findall(r"-a '(.*?)'", fish), ['table wide json name', 'auto always never'])
    same('zsh: the formats', re.findall(r'[A-Z]:\((.*?)\)', zsh), ['table wide json name', 'auto always never'])
    path = os.path.join(TOP, 'completions', 'rbacaudit-show.bash')
    for line, wanted in (('rbacaudit-show -', '-o --output --no-headers --color --rules --indirect -h --help -V --version'),
                         ('rbacaudit-show --o', '--output'), ('rbacaudit-show --color a', 'auto always'), ('rbacaudit-show -o j', 'json'),
                         ('rbacaudit-show --output -', ''), ('rbacaudit-show --output t', 'table')):
        script = '. "$0"; COMP_WORDS=(%s); COMP_CWORD=%d; _rbacaudit_show; echo ${COMPREPLY[*]}' % (line, line.count(' '))
        same('bash: %s' % line, told('bash', '-c', script, path), (0, wanted + '\n'))
    for shell, name in (('zsh', '_rbacaudit-show'), ('fish', 'rbacaudit-show.fish')):
        if shutil.which(shell):
            same('%s reads its file' % shell, told(shell, '-n', os.path.join(TOP, 'completions', name)), (0, ''))
        else:
            skipped(shell, 'completions of rbacaudit-show')


def keys_in_document():
    """docs/FORMATS.md has the head and the key of each field, in their order."""
    part = contents('docs', 'FORMATS.md').partition('## For machines: rbacaudit-show -o json')[2].partition('\n## ')[0]
    said = {re.sub('`', '', line.split('|')[1]).strip(): re.findall('`(.*?)`', line.split('|')[2]) for line in part.splitlines() if re.match(r'\| `[a-z]', line)}
    wanted = {name: list(lines[3][-1]) for name, lines in COMMANDS.items() if name not in ('can-i', 'matrix', 'diff --summary')}
    wanted = {**wanted, 'can-i': ['allowed'], 'matrix': OF_ROW.split(), 'diff --summary': ['who', 'namespace', 'binding', *OF_COUNTS.split()]}
    same('docs/FORMATS.md: the keys', {name: said.get(name) for name in wanted}, wanted)


def installed():
    """`make install` puts it where it is looked for; a link leads to it, and without the plugin's parts it says so."""
    with tempfile.TemporaryDirectory() as room:
        # (the program is built, and isn't to be proved once more)
        subprocess.run(['make', '-s', '-o', 'build', 'install', 'PREFIX=' + room], cwd=TOP, check=True, timeout=60)
        os.symlink('bin/rbacaudit-show', os.path.join(room, 'link'))
        for name in ('bin/rbacaudit-show', 'link'):
            ended = subprocess.run([os.path.join(room, name)], input=HOLDERS.encode(), stdout=subprocess.PIPE, timeout=60)
            same('installed, called as %s' % name, (ended.returncode, ended.stdout.decode()), (0, HOLDERS_TABLE))
        ended = subprocess.run(['sh', 'rbacaudit-show'], cwd=os.path.join(room, 'bin'), input=HOLDERS.encode(), stdout=subprocess.PIPE, timeout=60)
        same('installed, as a script of sh', (ended.returncode, ended.stdout.decode()), (0, HOLDERS_TABLE))
        for name in ('share/man/man1/rbacaudit-show.1', 'share/bash-completion/completions/rbacaudit-show', 'share/zsh/site-functions/_rbacaudit-show',
                     'share/fish/vendor_completions.d/rbacaudit-show.fish'):
            checked('installed: %s' % name, os.path.isfile(os.path.join(room, name)))
        shutil.rmtree(os.path.join(room, 'lib'))
        same("without the plugin's parts", told(os.path.join(room, 'link')),
             (2, "rbacaudit-show: the parts of the plugin aren't there: make install puts them into lib/rbacaudit\n"))


def typed():
    """Nobody types lines."""
    ours, theirs = pty.openpty()
    ended = subprocess.run([SHOW], stdin=theirs, stdout=subprocess.PIPE, stderr=subprocess.PIPE, timeout=60)
    os.close(ours)
    os.close(theirs)
    same('a terminal as standard input', (ended.returncode, ended.stdout, ended.stderr),
         (2, b'', b'rbacaudit-show: lines come from a pipe or a file: rbacaudit rules u:kim *.json | rbacaudit-show\n'))


def formats():
    for part in commands, colors, headless, words_below, remarks, texts, random_texts, no_utf8, seen, look_ahead, told_apart, refusals, pipes:
        part(Filter())


if __name__ == '__main__':
    sys.exit(tested(formats, million, typed, answers, worked, helped, keys_in_document, installed))
