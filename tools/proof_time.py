"""Tells where the time of a crate's proof went, by function.

    rm -r crates/NAME/out; (cd crates/NAME && rt check --jobs 1)
    python3 tools/proof_time.py crates/NAME [COUNT]

A check keeps what it proved in out/incremental, a file for each part of a proof. With one job it writes them one after another, so
a part took the time since the file before it. Figures after a check of more than one job, or of what changed alone, say nothing.
What is printed: the seconds in all, those of each kind of part (`Lts` is the walk over a function's blocks with all that it owns,
`Proof` the search for its goals), and the functions and lemma files that took longest (COUNT of them, or 30).
"""

import collections
import os
import re
import sys

# The parts that rattle makes of a function, each named for the function and its kind.
PARTS = {'Answers', 'Code', 'Given', 'Goals', 'Invariants', 'Kinds', 'Layout', 'Lts', 'Met', 'Mir', 'Named', 'Proof', 'Reads', 'Statement', 'Tie', 'View'}
PART = re.compile(r'Rattle-\w+-(?:proofs|specs)\.(.*?)(?:\.decls)?\.oantt')


def kept(folder):
    """The name of each part that was kept and when, in order of time."""
    for at, _, names in os.walk(os.path.join(folder, 'out', 'incremental')):
        for name in names:
            if name.endswith('.oantt'):
                yield os.stat(os.path.join(at, name)).st_mtime, name


def split(name):
    """The function or lemma file that a part belongs to, and the part's kind."""
    found = PART.fullmatch(name)
    if not found:
        return 'the libraries below', 'other'
    words = found[1].split('.')
    if words[-1] not in PARTS or len(words) < 2:
        return found[1], 'other'
    while words[-1] in PARTS and len(words) > 1:
        kind = words.pop()
    return '.'.join(words), kind


def main(folder, count=30):
    by_function, by_kind, before = collections.Counter(), collections.Counter(), None
    for time, name in sorted(kept(folder)):
        function, kind = split(name)
        took = time - (time if before is None else before)
        by_function[function] += took
        by_kind[kind] += took
        before = time
    if not by_kind:
        sys.exit('proof_time.py: nothing is kept in %s: rt check --jobs 1 there first' % os.path.join(folder, 'out', 'incremental'))
    print('%8.1f in all' % sum(by_kind.values()))
    for names, most in ((by_kind, 6), (by_function, int(count))):
        print()
        for name, took in names.most_common(most):
            print('%8.1f %s' % (took, name))


if __name__ == '__main__':
    if not 2 <= len(sys.argv) <= 3:
        sys.exit(__doc__)
    main(*sys.argv[1:])
