"""Which wrong bodies `make wrong-bodies` and the gate try, which of them together, and what it takes for one to be refused: in small
repositories, with stand-ins for rt and for the prover. Needs no built program.

The last line is `N passed, M failed`.
"""

import contextlib
import os
import re
import shutil
import subprocess
import sys
import tempfile

from common import TOP, checked, counted

# `rt ci` refuses each edit that lies in must-fail/ of a crate, and leaves libraries that tell the functions of each.
RT = '''#!/usr/bin/env python3
import glob, json, os, re, sys
if sys.argv[1] == 'doc':
    print(os.path.join(os.path.dirname(os.path.abspath(__file__)), 'START-HERE.md'))
    sys.exit()
for crate in [line.split(':')[0] for line in open('crates.txt')]:
    names = []
    for file in sorted(glob.glob('crates/%s/src/*.rt' % crate)):
        module = os.path.basename(file)[:-3]
        names += ['::'.join([crate, *[module] * (module != 'lib'), name]) for name in re.findall(r'fn (\\w+)', open(file).read())]
    at = 'crates/%s/out/rlib/%s.rlib/toolchain' % (crate, crate)
    os.makedirs(at)
    json.dump([[name, {}] for name in names], open(at + '/mir.json', 'w'))
for edit in sorted(glob.glob('crates/*/must-fail/*.edit')):
    print('rt: must-fail %s/%s: refused, as it must be' % (edit.split('/')[1], edit.split('/')[3]))
'''
# The prover finds a goal open in each function that has the word WRONG, finds an answer stale for the word STALE and a goal gone for GONE, can't
# read a crate with the word SPOILED, and looks only at the functions that it is asked about; the proofs of all others have to be open, and their
# bodies gone. A body that is put in front of the right one has no answers but the edit's own. The search of an answer finds nothing if it says so,
# or if the body has the word MISSED.
PROVER = '''#!/usr/bin/env python3
import glob, os, re, sys
asked = {word for at, word in enumerate(sys.argv) if sys.argv[at - 1] == '--only'}
crate = sys.argv[sys.argv.index('--crate-name') + 1]
texts = {file: open(file).read() for file in sorted(glob.glob('src/*.rt'))}
if any('SPOILED' in text for text in texts.values()):
    sys.exit('error[unknown-name]: SPOILED')
for file, text in texts.items():
    module = os.path.basename(file)[:-3]
    for name, body in re.findall(r'fn (\\w+)(.*?(?:\\n\\}|\\}(?= fn )))', text, re.S):
        path = '::'.join([crate, *[module] * (module != 'lib'), name])
        proofs = '/'.join(['proofs', *path.split('::')[1:]])
        if path not in asked:
            assert 'unreachable!()' in body and '%s_spec = ?' % name in open(proofs + '/Proof.antt').read()
            assert not os.path.exists(proofs + '/Answers.antt')
            continue
        answers = open(proofs + '/Answers.antt').read() if os.path.exists(proofs + '/Answers.antt') else ''
        assert name + '_itself' not in text or 'answer\\n' not in answers
        assert 'search rules' not in answers or re.search('{rules}.*as goal.*pub returns : goal.returns\\nreturns c = ', answers, re.S)
        if 'search nothing' in answers or 'MISSED' in body and 'search' in answers:
            body += 'UNFOUND'
        for word, fault in (('STALE', '`returns`: as printed, the two types differ only where one has `1`'),
                            ('GONE', '`goal`: module `Goals` has no `returns`'), ('UNFOUND', '`returns`: `search`: no proof of `1`')):
            if word in body:
                print('./%s/Answers.antt:3:4: error: %s' % (proofs, fault))
        if 'WRONG' in body:
            print('note: %s:1:1: it is not proved that what the function ensures holds when it returns (`returns`)' % file)
        print('fn %s: %s' % (path, 'not proved' if re.search('WRONG|STALE|GONE|UNFOUND', body) else 'no holes'))
print('only=%d holes=0' % len(asked))
'''
BODY = '''fn %s() {
    %s
}
'''
FILES = {
    '.gitignore': 'out/\n', 'crates.txt': 'low:\nhigh: low\n', 'HANDLES': 'Handles allowed: none.\n',
    'crates/low/src/lib.rt': 'mod a;\nmod b;\n', 'crates/low/src/a.rt': BODY % ('one', 'first'), 'crates/low/src/b.rt': BODY % ('two', 'second'),
    'crates/low/specs/S.antt': 's\n', 'crates/low/proofs/a/one/Answers.antt': 'answer\n', 'crates/low/proofs/b/two/Answers.antt': 'answer\n',
    'crates/low/wrong-bodies/of_a.edit': 'file: src/a.rt\nold: first\nnew: WRONG\n',
    'crates/low/wrong-bodies/of_both.edit': 'file: src/a.rt\nold: first\nnew: WRONG\nfile: src/b.rt\nold: second\nnew: x\n',
    'crates/high/src/lib.rt': BODY % ('over', 'third'), 'crates/high/specs/S.antt': 's\n',
    'crates/high/must-fail/of_high.edit': 'file: src/lib.rt\nold: third\nnew: UNFOUND\n'}


def written(folder, files):
    for name, text in files.items():
        path = os.path.join(folder, name)
        os.makedirs(os.path.dirname(path), exist_ok=True)
        with open(path, 'w', encoding='utf-8') as file:
            file.write(text)


def text_at(folder, name):
    with open(os.path.join(folder, name), encoding='utf-8') as file:
        return file.read()


def git(folder, *asked):
    subprocess.run(['git', '-c', 'user.name=t', '-c', 'user.email=t', *asked], cwd=folder, check=True, stdout=subprocess.DEVNULL)


def edit_of(old, new, file='src/a.rt'):
    return 'file: %s\nold: %s\nnew: %s\n' % (file, old, new)


@contextlib.contextmanager
def repository(files):
    """The folder of a repository that has these files, the tools and the stand-ins."""
    with tempfile.TemporaryDirectory() as folder:
        written(folder, {**files, 'out/rt': RT, 'out/bin/rattle': PROVER})
        for name in ('out/rt', 'out/bin/rattle'):
            os.chmod(os.path.join(folder, name), 0o755)
        os.mkdir(os.path.join(folder, 'tools'))
        for name in ('wrong_bodies.py', 'copies.py', 'together.py', 'edit.py'):
            shutil.copy(os.path.join(TOP, 'tools', name), os.path.join(folder, 'tools'))
        shutil.copy(os.path.join(TOP, 'Makefile'), folder)
        yield folder


def tried(folder, *asked):
    """What is said, and what became of each edit."""
    environ = dict(os.environ, PATH='%s:%s' % (os.path.join(folder, 'out'), os.environ['PATH']))
    ended = subprocess.run(asked or ['make', '-s', 'wrong-bodies'], cwd=folder, env=environ, stdout=subprocess.PIPE,
                           stderr=subprocess.STDOUT, text=True, timeout=60, check=False)
    return ended.stdout, dict(re.findall(r'^(\S+)\.edit: (\w+)', ended.stdout, re.M))


def made(*asked):
    return ['make', '-s', 'wrong-bodies', *asked]


def chosen():
    """An edit is tried if it has changed itself, or a file that it edits, or a definition of its crate; also in files that git doesn't know."""
    low, high = ['low/of_a', 'low/of_both'], ['high/of_high']
    with repository(FILES) as folder:
        for asked in (['init', '-q'], ['add', '-A'], ['commit', '-qm', 'base']):
            git(folder, *asked)
        said, found = tried(folder)
        checked('all are tried without CHANGED', found == dict.fromkeys(low + high, 'refused'), said)
        said, found = tried(folder, *made('CHANGED=HEAD'))
        checked('nothing has changed', not found and '0 are tried; 3 are left out' in said and 'there are none' in said, said)
        for what, files, wanted in (
                ('a file that one edits', {'crates/low/src/b.rt': BODY % ('two', 'second + 1')}, ['low/of_both']),
                ('a file that two edit', {'crates/low/src/a.rt': BODY % ('one', 'first + 1')}, low),
                ('a file that none edits', {'crates/low/src/lib.rt': 'mod a;\n'}, []),
                ('a definition', {'crates/high/specs/S.antt': 's2\n'}, high),
                ('a definition that is new', {'crates/low/specs/T.antt': 't\n'}, low),
                ('an edit', {'crates/low/wrong-bodies/of_a.edit': FILES['crates/low/wrong-bodies/of_a.edit'] + '\n'}, ['low/of_a']),
                ('an edit that is new', {'crates/high/wrong-bodies/new.edit': edit_of('third', 'WRONG', 'src/lib.rt')}, ['high/new']),
                ('files of both crates', {'crates/low/src/b.rt': BODY % ('two', 'second + 1'), 'crates/high/src/lib.rt': BODY % ('over', 'third + 1')},
                 ['high/of_high', 'low/of_both'])):
            written(folder, files)
            said, found = tried(folder, *made('CHANGED=HEAD'))
            checked('changed: ' + what, sorted(found) == wanted and (not wanted or '%d passed, 0 failed' % len(wanted) in said), said)
            git(folder, 'stash', '-uq')
        written(folder, {'crates/low/src/a.rt': BODY % ('one', 'first + 1'), 'crates/high/src/lib.rt': BODY % ('over', 'third + 1')})
        git(folder, 'commit', '-qam', 'later')
        checked('since an earlier commit', sorted(tried(folder, *made('CHANGED=HEAD~1'))[1]) == sorted(high + low))
        checked('of one crate', sorted(tried(folder, *made('CHANGED=HEAD~1', 'CRATE=low'))[1]) == low)
        said, found = tried(folder, *made('CHANGED=nothing'))
        checked('a commit that is not there', not found and 'there is no commit nothing' in said, said)


def taken():
    """Libraries that `rt ci` left at the top are taken as they are, but not once something has changed since."""
    sources = {it: text for it, text in FILES.items() if not it.endswith('.edit')}
    edit = {'crates/high/wrong-bodies/of_high.edit': FILES['crates/high/must-fail/of_high.edit']}
    with repository({**sources, **edit}) as folder:
        subprocess.run([os.path.join(folder, 'out', 'rt'), 'ci'], cwd=folder, check=True)
        written(folder, {'out/rt': RT.replace("for crate in", "sys.exit('rt ci')\nfor crate in", 1)})
        said, found = tried(folder)
        checked('libraries are taken from the top', found == {'high/of_high': 'refused'} and '1 passed, 0 failed' in said, said)
        for what, changed in (('a source', 'crates/low/src/a.rt'), ('a definition', 'crates/low/specs/S.antt'),
                              ('a proof that is gone', 'crates/low/proofs/a/one/'), ('a library below', 'crates/low/out/rlib/low.rlib/toolchain/mir.json')):
            path = os.path.join(folder, changed)
            before = os.stat(path)
            os.utime(path)
            said, found = tried(folder)
            checked('%s has changed since: rt ci is asked' % what, not found and 'a crate is not proved, so nothing is tried' in said, said)
            os.utime(path, ns=(before.st_atime_ns, before.st_mtime_ns))
        checked('as before, they are taken', tried(folder)[1] == {'high/of_high': 'refused'})


UNDECIDED = '# undecided: only a stored answer refuses it\n'

# What becomes of each edit, and a body with more than one line that it can be made in.
KINDS = {
    'goal': ('WRONG', 'refused'), 'answer_that_searches': ('UNFOUND', 'refused'), 'goal_beside_a_stale_answer': ('WRONG STALE', 'refused'),
    'stale_answer': ('STALE', 'undecided'), 'goal_without_its_answer': ('WRONG GONE', 'undecided'), 'answer_whose_goal_is_gone': ('GONE', 'undecided'),
    'as_good': ('first + 0', 'NOT'), 'spoiled': ('SPOILED', 'not')}


def kinds():
    """An edit is refused by a goal that isn't proved, and undecided where only a stored answer no longer fits; the gate takes no undecided one."""
    edits = {name: edit_of('first', new) for name, (new, _) in KINDS.items()}
    edits.update(of_a_const=edit_of('= 1;', '= 2;'), of_a_contract=edit_of('result', 'most'))
    in_front = {'in_front': ('WRONG', 'refused'), 'as_good_in_front': ('one_itself()', 'NOT')}
    edits.update({name: edit_of('fn one() {', 'fn one() { %s } fn one_itself() {' % new) for name, (new, _) in in_front.items()})
    source = 'const LEAST: usize = 1;\n\n' + BODY % ('one', 'first') + '\nfn three()\n    ensures { result }\n{\n    third\n}\n'
    files = {**FILES, 'crates/low/src/a.rt': source, 'crates/high/must-fail/of_high.edit': edit_of('third', 'STALE', 'src/lib.rt')}
    files.update({'crates/low/wrong-bodies/%s.edit' % name: text for name, text in edits.items()})
    with repository(files) as folder:
        said, found = tried(folder)
        wanted = {'low/' + name: kind for name, (_, kind) in {**KINDS, **in_front}.items()}
        checked('each kind', all(found.get(name) == kind for name, kind in wanted.items()), said)
        checked('what is in no body is tried by itself', found.get('low/of_a_const') == found.get('low/of_a_contract') == 'refused', said)
        checked('undecided ones are counted by crate, and fail', 'undecided: high 1, low 3\n' in said and '8 passed, 7 failed' in said and
                'FAIL high/of_high.edit: undecided' in said and 'FAIL low/stale_answer.edit: undecided' in said, said)
        said, found = tried(folder, sys.executable, 'tools/wrong_bodies.py', '--mark')
        marked = sorted(name for name in edits if UNDECIDED in text_at(folder, 'crates/low/wrong-bodies/%s.edit' % name))
        checked('--mark has those of wrong-bodies/ say so', marked == sorted(it for it, (_, kind) in KINDS.items() if kind == 'undecided'), said)
        checked('one that says so fails in must-fail/ alone', 'undecided: high 1, low 3\n' in said and '8 passed, 4 failed' in said, said)
        written(folder, {'crates/low/wrong-bodies/goal.edit': UNDECIDED + edits['goal']})
        said, found = tried(folder)
        checked('one that says so, and that a goal refuses, fails', "FAIL low/goal.edit: a goal refuses it" in said and '7 passed, 5 failed' in said, said)
        tried(folder, sys.executable, 'tools/wrong_bodies.py', '--mark')
        checked('--mark takes the line away', text_at(folder, 'crates/low/wrong-bodies/goal.edit') == edits['goal'])
        for name in ('goal', 'stale_answer'):
            written(folder, {'crates/low/wrong-bodies/%s.edit' % name: '# tried by the gate\n' + edits[name]})
        said, found = tried(folder, sys.executable, 'tools/wrong_bodies.py', '--chosen')
        checked('the gate tries those that are marked', found == {'low/goal': 'refused', 'low/stale_answer': 'undecided'}, said)
        checked('the gate takes none that is undecided', 'FAIL low/stale_answer.edit' in said and '1 passed, 1 failed' in said, said)


def answers():
    """An edit may have answers of its own, which have to prove the right body."""
    answer = 'answer: a::one: returns c = search '
    in_front = edit_of('fn one() {', 'fn one() { MISSED } fn one_itself() {')
    edits = {'answered': edit_of('first', 'MISSED') + answer + 'rules\n', 'not_answered': edit_of('first', 'MISSED'),
             'answered_in_front': in_front + answer + 'rules\n', 'right_not_proved': edit_of('first', 'MISSED') + answer + 'nothing\n'}
    files = {it: FILES[it] for it in FILES if not it.endswith('.edit')}
    files.update({'crates/low/wrong-bodies/%s.edit' % name: text for name, text in edits.items()})
    with repository(files) as folder:
        said, found = tried(folder)
        wanted = {'low/' + name: 'NOT' if name == 'not_answered' else 'refused' for name in edits}
        checked('a search of an answer of its own refuses an edit', found == wanted, said)
        said, found = tried(folder, sys.executable, 'tools/wrong_bodies.py', '--right')
        checked('the right body has to be proved with the answers', '2 passed, 1 failed' in said and
                re.findall('FAIL (.*?):', said) == ['low/right_not_proved.edit'], said)


def logged():
    """With --log each edit is tried once, in however many runs, and what each came to is listed and counted."""
    with repository(FILES) as folder:
        log = os.path.join(folder, 'log')
        asked = sys.executable, 'tools/wrong_bodies.py', '--jobs', '1', '--log', log
        first, second, third = tried(folder, *asked, 'low'), tried(folder, *asked), tried(folder, *asked)
        told = [sorted(it[1]) for it in (first, second, third)]
        checked('what the log has is not tried again', told == [['low/of_a', 'low/of_both'], ['high/of_high'], []], first[0] + second[0] + third[0])
        wanted = ['%s.edit: refused, as it must be\n' % it for it in ('high/of_high', 'low/of_a', 'low/of_both')]
        with open(log, encoding='utf-8') as file:
            checked('the log has a line of each', sorted(file) == wanted)
        said = 'high: 1 edits: 1 refused\nlow: 2 edits: 2 refused\n'
        checked('kinds are counted by crate', said in third[0] and '3 passed, 0 failed' in third[0], third[0])


if __name__ == '__main__':
    sys.exit(counted(chosen, taken, kinds, answers, logged))
