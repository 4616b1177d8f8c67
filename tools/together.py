"""Wrong bodies that are tried together, by one check of a crate.

Each function is proved by itself, from the contracts of those that it calls, and a check takes as long to read the libraries as to refuse
several edits. So edits of different functions are made at once, and the check is asked about these functions alone. `rt ci` has proved every
other one: its proof is left open, and its body taken out, since the prover also looks at all that a body calls. What this can't tell, such
as an edit of a constant, is left to be tried by itself.

An edit may also put a short wrong body in front of a long right one, which gets another name and is then such a function: so nothing long is
proved anew.

An edit is refused if the prover reports a goal of its function that isn't proved. Where it only says that a stored answer no longer fits,
or that a name is gone, the edit is undecided: that says nothing of the contract.
"""

import enum
import json
import os
import re
import subprocess
import tempfile
import threading

from copies import with_below
from edit import in_cycles, path_of, without_bodies

# Each check reads all libraries. With too many edits at once, one that doesn't compile spoils too much.
MOST = 60
# What the prover says of a goal that has no answer in a proof file, above the line of its function; of one whose answer is a search that
# finds nothing; and of an answer whose goal is there no more. Whatever else it says of an answer is that this doesn't fit.
NOT_PROVED = re.compile(r'(?:note: )?(?:\./)?src/\w+\.rt:\d+:\d+: it is not proved that')
OF_FUNCTION = re.compile(r'fn (\S+): ')
# (a function that calls itself without end has no measure)
NO_END = re.compile(r'expected a measure in \S*/\+')
OF_PROOFS = re.compile(r'(?:\./)?proofs/(\S+)/\w+\.antt:\d+:\d+: error: (.*)')
NO_PROOF = re.compile(r'`[^`]*`: (?:`(?:search|grind|cc|arith|omega)`|list the missing equation)')
IS_GONE = re.compile(r'has no `|has no field|is not in scope')
WAITS = re.compile(r'note: `search` has not tried the goals of `([^`]+)`')
# A proof file that leaves the proof of a function open.
OPEN = 'use Rattle.%s.proofs.%s.Statement.{statement}\n\npub %s_spec : {M : Type 1} → statement M\n%s_spec = ?\n'
# What a file of answers needs for a goal's answer, and the names that an answer of an edit's may have without a `use` line of that file.
GOALS = 'use Rattle.%s.proofs.%s.Goals as goal\n'
COMMON = 'use Rattle.std.proofs.Common.{%s}\n'
COMMON_NAMES = re.compile(r'\b(?:rules|arith|common_steps|tests)\b')
LEMMAS = re.compile(r'proofs/(?:\w+/)*(?!Answers|Invariants|Lib\b)[A-Z]\w*\.antt')
LEMMA = re.compile(r'(?:pub )?(\S+) : ')
ENDED = re.compile(r'^only=\d+ ', re.M)


class Kind(enum.Enum):
    """What a try of an edit came to."""

    REFUSED = 'refused, as it must be'
    UNDECIDED = 'undecided: only a stored answer no longer fits'
    PROVED = 'NOT REFUSED: its function is still proved'
    UNREAD = "not read: it can't be applied, or doesn't compile"


def batches(edits, texts, most):
    """The edits in batches, each a list of edits with their functions: no two change one function."""
    waiting = list(edits)
    while waiting:
        batch, now, taken, later = [], texts, set(), []
        for edit in waiting:
            functions, made = edit.functions_in(texts), edit.made_in(now)
            if made and len(batch) < most and not functions & taken:
                now, taken = made, taken | functions
                batch.append((edit, functions))
            else:
                later.append(edit)
        yield batch
        waiting = later


def without_proofs(text):
    """A file of lemmas in which the proof of each is one hole. What can be unfolded (`abbrev`) stays as it is."""
    kept, is_open = [], False
    for paragraph in text.split('\n\n'):
        lines = paragraph.split('\n')
        # (what a proof defines for itself goes on behind an empty line)
        if is_open and paragraph.startswith(' '):
            continue
        found = next((it for it in map(LEMMA.match, lines) if it), None)
        begin = found and next((it for it, line in enumerate(lines) if line.split(' ')[0] == found[1] and not LEMMA.match(line)), None)
        is_open = bool(begin)
        kept.append('\n'.join([*lines[:begin], found[1] + ' = ?']) if is_open else paragraph)
    return '\n\n'.join(kept) + '\n' * (text.endswith('\n') and not kept[-1].endswith('\n'))


def with_answer(text, crate, function, answer):
    """A file of answers of this function, or the empty text, with one more answer: a goal's name, and what comes behind it."""
    goal, term = answer
    names = sorted(set(COMMON_NAMES.findall(term)) - set(re.findall(r'[\w◌]+', ' '.join(re.findall(r'(?m)^use .*', text)))))
    begin = COMMON % ', '.join(names) if names else ''
    begin += '' if ' as goal\n' in text else GOALS % (crate, function.replace('::', '.'))
    return '%s%s\npub %s : goal.%s\n%s%s\n' % (begin, text, goal, goal, goal, term)


class Kit:
    """The prover and the libraries of the kit whose rt is on the PATH."""

    def __init__(self):
        page = subprocess.run(['rt', 'doc'], stdout=subprocess.PIPE, check=True, text=True).stdout.strip()
        self.folder = os.path.dirname(page)
        self.prover = self.path('bin', 'rattle')

    def path(self, *names):
        return os.path.join(self.folder, *names)

    def words(self, copy, name):
        """The words by which the prover checks a crate of a copy over the libraries that `rt ci` has built there."""
        def library(crate):
            return copy.path('crates', crate, 'out', 'rlib')
        below = with_below([name])
        uses = below[name].split(':')[1].split()
        links = [(it, os.path.join(library(it), it + '.rlib')) if it in below else (it, self.path('rlibs', it + '.rlib')) for it in ['std', *uses]]
        root = 'src/lib.rt' if os.path.isfile(copy.path('crates', name, 'src', 'lib.rt')) else 'src/main.rt'
        return [self.prover, 'check', '--crate-name', name, root, *(word for link in links for word in ('--extern', '%s=%s' % link)),
                *(word for it in below if it != name for word in ('-L', 'dependency=' + library(it))),
                '-L', 'dependency=' + self.path('rlibs'), '--antt-project', self.path('rattle', 'logic', 'antt-project.json'),
                '--logic-built', self.path('logic_built'), '--jobs', '1', '--allow-holes']


class Crate:
    """A crate in a copy of the repository, over built libraries."""

    def __init__(self, kit, copy, name):
        self.name, self.folder = name, copy.path('crates', name)
        self.words = [*kit.words(copy, name), '--incremental', tempfile.mkdtemp(dir=copy.room)]
        files = (os.path.join(at, it) for part in ('src', 'proofs') for at, _, names in os.walk(os.path.join(self.folder, part)) for it in names)
        self.texts = {file: self.text(file) for file in (os.path.relpath(it, self.folder) for it in files)}
        with open(os.path.join(self.folder, 'out', 'rlib', name + '.rlib', 'toolchain', 'mir.json'), encoding='utf-8') as file:
            self.functions = {it[0].removeprefix(name + '::') for it in json.load(file)}
        # (functions that call one another have one proof of their own)
        self.in_cycles = {self.named(function) for file, text in self.texts.items() if file.startswith('src/') for function in in_cycles(file, text)}
        self.lock, self.running, self.has_ended = threading.Lock(), None, False

    def text(self, file):
        with open(os.path.join(self.folder, file), encoding='utf-8') as it:
            return it.read()

    def write(self, texts):
        """Writes these files, and removes those without a text."""
        for file, text in texts.items():
            path = os.path.join(self.folder, file)
            if text is None:
                os.remove(path)
                continue
            os.makedirs(os.path.dirname(path), exist_ok=True)
            with open(path, 'w', encoding='utf-8') as it:
                it.write(text)

    def named(self, function):
        """The function as the prover has it: a type's module may be another than that of the file with its methods."""
        if function in self.functions:
            return function
        owner = function.split('::')[-2:]
        found = [it for it in self.functions if [part.split('+')[0] for part in it.split('::')[-2:]] == owner]
        return found[0] if len(found) == 1 else None

    def of(self, path):
        """The function that a name of the prover's belongs to: that of a closure is the function around it."""
        parts = [it for it in path.split('::') if it != 'fn']
        return next((name for end in range(len(parts), 0, -1) for name in ['::'.join(parts[:end])] if name in self.functions), None)

    def left_open(self, functions, moved):
        """The files by which the proofs of all functions but these are left open, and those of lemmas, each with its text, or without
        one if it goes. Where a body has moved to another function, its answers aren't about the body that was put in its place."""
        texts = {file: without_proofs(text) for file, text in self.texts.items() if LEMMAS.fullmatch(file)}
        texts.update({file: None for name in moved for file in self.answers_of(name)})
        for name in self.others(functions) | set(moved.values()):
            parts = name.split('::')
            texts.update({file: None for file in self.answers_of(name)})
            texts['/'.join(['proofs', *parts, 'Proof.antt'])] = OPEN % (self.name, '.'.join(parts), parts[-1], parts[-1])
        return texts

    def others(self, functions):
        """All functions but these whose proofs can be left open."""
        return {it for it in self.functions - functions - self.in_cycles if re.fullmatch(r'\w+(::\w+)*', it)}

    def without_bodies(self, texts, functions, moved):
        """The sources in which all functions but these stop at once, and so call nothing that the prover would look at. Where a body has
        moved to another function, it is this one that stops."""
        others = self.others(functions) | moved.keys()
        for file, text in texts.items():
            if file.startswith('src/'):
                yield file, without_bodies(text, lambda lines, start, file=file: self.named(path_of(file, lines, start)) in others)

    def moved_by(self, edit):
        """The functions whose bodies an edit moves to other functions, each with that function."""
        moved = {self.named(it): name for it, name in edit.moved_in(self.texts).items()}
        return {it: '::'.join([*it.split('::')[:-1], name]) for it, name in moved.items()}

    def answers_of(self, function):
        """The files with the answers and the invariants of a function, as far as it has any."""
        files = ('/'.join(['proofs', *function.split('::'), it]) for it in ('Answers.antt', 'Invariants.antt'))
        return [file for file in files if file in self.texts]

    def answered(self, texts, moved, answers):
        """The files of answers with those of edits, each the function and its answer. A body of an edit's own has no others."""
        made = {}
        for function, answer in answers:
            file = '/'.join(['proofs', *function.split('::'), 'Answers.antt'])
            text = made.get(file, '' if function in moved else texts.get(file, ''))
            made[file] = with_answer(text, self.name, function, answer)
        return made

    def said_of(self, texts, functions, moved, answers=()):
        """What the prover says of these functions, with these texts and answers; nothing once this was ended."""
        texts = {**texts, **dict(self.without_bodies(texts, functions, moved))}
        changes = {file: text for file, text in texts.items() if text != self.texts[file]}
        changes.update(self.left_open(functions, moved))
        changes.update(self.answered(texts, moved, answers))
        self.write(changes)
        try:
            with self.lock:
                if self.has_ended:
                    return ''
                asked = [word for it in sorted(functions) for word in ('--only', self.name + '::' + it)]
                self.running = subprocess.Popen([*self.words, *asked], cwd=self.folder, stdin=subprocess.DEVNULL, stdout=subprocess.PIPE,
                                                stderr=subprocess.STDOUT, text=True, errors='replace')
            return self.running.communicate()[0]
        finally:
            self.write({file: self.texts.get(file) for file in changes})

    def end(self):
        """Ends the check that is running, and begins no other."""
        with self.lock:
            self.has_ended = True
            if self.running:
                self.running.terminate()

    def faults(self, said):
        """What the prover finds wrong: the functions with a goal that isn't proved, and those with an answer that doesn't fit."""
        goals, answers, gone, is_open = set(), set(), set(), False
        for line in said.split('\n'):
            function, proofs = OF_FUNCTION.match(line), OF_PROOFS.match(line)
            is_open = is_open or bool(NOT_PROVED.match(line))
            if function:
                is_open = is_open or bool(NO_END.search(line))
                goals |= {(self.of(function[1].removeprefix(self.name + '::')), False)} if is_open else set()
                is_open = False
            elif proofs:
                name = self.of(proofs[1].replace('/', '::'))
                goals |= {(name, True)} if NO_PROOF.match(proofs[2]) else set()
                answers.add(name)
                gone |= {name} if IS_GONE.search(proofs[2]) else set()
        # (a goal without an answer may be one whose name the edit has changed, if another's answer has lost its goal)
        return {name for name, has_answer in goals if has_answer or name not in gone}, answers | {name for name, _ in goals}

    def tried(self, batch):
        """What each edit of a batch came to, and whether that may change without the others. Where the prover reads none of them, since
        one doesn't compile, each half is tried."""
        texts, moved = self.texts, {}
        for edit, _ in batch:
            texts = edit.made_in(texts)
            moved.update(self.moved_by(edit))
        answers = [(self.named(function) or function, answer) for edit, _ in batch for function, answer in edit.answers]
        said = self.said_of(texts, {self.named(it) for _, functions in batch for it in functions}, moved, answers)
        if not ENDED.search(said):
            half = len(batch) // 2
            return {**self.tried(batch[:half]), **self.tried(batch[half:])} if half else {batch[0][0]: (Kind.UNREAD, False)}
        goals, wrong = self.faults(said)
        waiting = {self.of(it.removeprefix(self.name + '::')) for it in WAITS.findall(said)}
        return {edit: self.kind({self.named(it) for it in functions}, goals, wrong, waiting) for edit, functions in batch}

    @staticmethod
    def kind(functions, goals, wrong, waiting):
        if functions & goals:
            return Kind.REFUSED, False
        return Kind.UNDECIDED if functions & wrong else Kind.PROVED, bool(functions & waiting)

    def try_together(self, edits, tell):
        """Tells what each edit came to, and returns those that have to be tried by themselves. One that may be refused without the
        others of its batch is tried again, in the end alone."""
        waiting = [it for it in edits if self.is_known(it)]
        for most in (MOST, MOST, 1):
            again = []
            for batch in batches(waiting, self.texts, most):
                for edit, (kind, may_change) in self.tried(batch).items():
                    if len(batch) > 1 and not edit.is_right and (may_change or kind is Kind.PROVED):
                        again.append(edit)
                    else:
                        tell(edit, kind)
            waiting = again
        return [it for it in edits if not self.is_known(it)]

    def is_known(self, edit):
        """Whether it can be told which functions the edit changes, and what the prover says of each by itself."""
        functions = {self.named(it) for it in edit.functions_in(self.texts)}
        return bool(functions) and edit.made_in(self.texts) is not None and not functions & {None, *self.in_cycles}
