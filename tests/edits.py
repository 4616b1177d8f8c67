"""Every wrong body still fits the text that it edits, in must-fail/ and in wrong-bodies/ of each crate, and the gate tries one of each public
function.

An edit is a file of lines `file: PATH`, `old: TEXT` and `new: TEXT`. Each old text stands in its file exactly once,
after the pairs before it. Proves nothing: `rt ci` tries the edits of must-fail/, of which there are at most 40, since each is a check by
itself; `tools/wrong_bodies.py --chosen` tries those of wrong-bodies/ with the line `# tried by the gate`, those of a crate by one check,
and `make wrong-bodies` all. One that no goal refuses says so by a line, and isn't one of the gate's. The last line is `N passed, M failed`, and
the line above says how many don't count, by crate.
"""

import os
import re
import sys

from common import TOP

sys.path.insert(0, os.path.join(TOP, 'tools'))
from edit import ANSWER, TIERS, edits_of, public_functions  # noqa: E402
from together import MOST, batches  # noqa: E402

PARTS = ('src/', 'specs/', 'proofs/')
MOST_ALONE = 40


def fault_of(path):
    """Why the edit can't be applied, or None."""
    tier, name = os.path.split(path)
    crate, tier = os.path.split(tier)
    if tier not in TIERS or os.path.dirname(crate) != os.path.join(TOP, 'crates'):
        return 'an edit stands in crates/NAME/must-fail or crates/NAME/wrong-bodies'
    if not re.fullmatch(r'[A-Za-z0-9_-][A-Za-z0-9_.-]*\.edit', name):
        return 'its name is of letters, digits, _, - and . and ends in .edit'
    if any(os.path.isfile(os.path.join(crate, other, name)) for other in TIERS if other != tier):
        return 'both folders have an edit of this name'
    with open(path, encoding='utf-8') as file:
        text = file.read()
    if any(line.startswith('answer:') and not ANSWER.fullmatch(line) for line in text.split('\n')):
        return "an 'answer:' line has no function, goal and term"
    return fault_in(text, crate)


def fault_in(text, crate):
    """Why the edit of this text can't be applied to the crate, or None. Later pairs apply to what earlier ones made."""
    path, old, texts = '', None, {}
    for line in text.split('\n'):
        word, _, rest = line.partition(':')
        if word == 'file' and rest.startswith(' '):
            path = rest.strip()
            if os.path.normpath(path) != path or not path.startswith(PARTS):
                return "a 'file:' line names no file below src/, specs/ or proofs/"
        elif word == 'old' and rest.startswith(' '):
            old = rest[1:]
        elif word == 'new':
            new = rest[1:] if rest.startswith(' ') else rest
            if not path or not old:
                return "a 'new:' line stands before any 'file:' or 'old:' line"
            fault = put(texts, crate, path, old, new)
            if fault:
                return fault
            old = None
    if old is not None:
        return "an 'old:' line has no 'new:' line"
    return None if texts else "it has no 'old:' and 'new:' pair"


def put(texts, crate, path, old, new):
    """Replaces the old text, or says why it can't be."""
    if path not in texts:
        try:
            with open(os.path.join(crate, path), encoding='utf-8') as file:
                texts[path] = file.read()
        except OSError:
            return 'there is no file %s' % path
    found = texts[path].count(old)
    if found != 1:
        return "an 'old:' text is in %s %d times, and not once" % (path, found)
    if old == new:
        return 'it changes nothing'
    if is_within_a_word(texts[path], old):
        return "an 'old:' text begins or ends within a word of %s, so it was meant for another place" % path
    texts[path] = texts[path].replace(old, new)
    return None


def is_within_a_word(text, old):
    """Whether the one place of the old text begins or ends in the middle of a word."""
    start = text.index(old)
    ends = (start, start + len(old))
    return any(re.match(r'\w\w', text[max(end - 1, 0):end + 1]) for end in ends)


def edits():
    """Each file of the two folders, but .md files, and each edit that lies elsewhere."""
    for folder, folders, names in sorted(os.walk(os.path.join(TOP, 'crates'))):
        folders[:] = [name for name in folders if name != 'out']
        for name in sorted(names):
            in_tier = os.path.basename(folder) in TIERS and not name.endswith('.md')
            if in_tier or name.endswith('.edit'):
                yield os.path.join(folder, name)


def faults():
    """Each edit, each public function, and the count of must-fail/, with what is wrong with it, or nothing."""
    paths = [*edits()]
    for path in paths:
        yield os.path.relpath(path, TOP), fault_of(path)
    alone = sum(os.path.basename(os.path.dirname(path)) == TIERS[0] for path in paths)
    yield 'must-fail/', alone > MOST_ALONE and 'it has %d edits in all, and at most %d are wanted' % (alone, MOST_ALONE)
    for name in sorted(os.listdir(os.path.join(TOP, 'crates'))):
        crate = os.path.join(TOP, 'crates', name)
        texts, tried = texts_of(crate), [edit for edit in edits_of(crate) if edit.is_tried_by_the_gate()]
        for edit in tried:
            yield edit.name, edit.is_undecided and 'the gate tries it, so a goal has to refuse it'
        functions = {function for edit in tried for function in edit.functions_in(texts)}
        for function in public_functions(crate):
            yield '%s::%s' % (name, function), function not in functions and 'the gate tries no wrong body of it'
        together = [edit for edit in tried if edit.is_marked]
        most = max(MOST, len(together))
        apart = [edit.name for batch in [*batches(together, texts, most)][1:] for edit, _ in batch]
        yield name, apart and 'one check more is taken by %s: another edit changes the same function, or what it looks for' % ', '.join(apart)


def texts_of(crate):
    """The texts of a crate that an edit of the gate can change, by file."""
    texts = {}
    for part in ('src', 'proofs'):
        for at, _, names in os.walk(os.path.join(crate, part)):
            for name in names:
                with open(os.path.join(at, name), encoding='utf-8') as file:
                    texts[os.path.relpath(os.path.join(at, name), crate)] = file.read()
    return texts


def undecided():
    """How many edits of each crate no goal refuses, as they say themselves, of how many."""
    for name in sorted(os.listdir(os.path.join(TOP, 'crates'))):
        them = [edit.is_undecided for edit in edits_of(os.path.join(TOP, 'crates', name))]
        if any(them):
            yield '%s %d of %d' % (name, sum(them), len(them))


def main():
    passed = failed = 0
    for what, fault in faults():
        if fault:
            print('FAIL %s: %s' % (what, fault))
        passed, failed = passed + (not fault), failed + bool(fault)
    print('undecided: %s' % (', '.join(undecided()) or 'none'))
    print('%d passed, %d failed' % (passed, failed))
    return 1 if failed else 0


sys.exit(main())
