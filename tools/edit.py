"""The edits of must-fail/ and wrong-bodies/, and the functions that they change.

An edit is a file of lines `file: PATH`, `old: TEXT` and `new: TEXT`. Each old text stands in its file exactly once, after the pairs
before it. A line MARK says that the gate tries the edit, and a line UNDECIDED that no goal refuses it.

A line `answer: FUNCTION: GOAL ARGUMENTS = TERM` has a goal of the function answered by this term, as in a proof file. A goal without an
answer is searched by all that the prover has, and once more to print it, which is most of what an edit costs; a search that has to fail
is over soon. The term has to prove the goal of the right body: wrong_bodies.py --right tries that.
"""

import os
import re

TIERS = ('must-fail', 'wrong-bodies')
MARK = '# tried by the gate'
UNDECIDED = '# undecided: only a stored answer refuses it'
# As rt fmt lays a function out: how far it is indented, and its name.
FUNCTION = re.compile(r'( *)(pub )?(?:pub\([a-z]+\) )?(?:const |unsafe )*fn (\w+)')
IMPL = re.compile(r'impl\b')
NAME = re.compile(r'\bfn (\w+)')
ANSWER = re.compile(r'answer: (\S+): (\S+)( .*=.*)')


class Edit:
    """An edit of a crate: pairs of texts, each with the file that has it."""

    is_right = False

    def __init__(self, path):
        self.path = path
        self.crate = os.path.basename(os.path.dirname(os.path.dirname(path)))
        self.name = '%s/%s' % (self.crate, os.path.basename(path))
        self.pairs, self.answers = [], []
        file = old = None
        with open(path, encoding='utf-8') as edit:
            lines = edit.read().split('\n')
        self.is_marked, self.is_undecided = MARK in lines, UNDECIDED in lines
        for line in lines:
            if line.startswith('file: '):
                file = line[len('file: '):].strip()
            elif line.startswith('old: '):
                old = line[len('old: '):]
            elif line.startswith('new:'):
                self.pairs.append((file, old, line[len('new:'):].removeprefix(' ')))
            elif ANSWER.match(line):
                function, goal, term = ANSWER.match(line).groups()
                self.answers.append((function, (goal, term)))

    def is_tried_by_the_gate(self):
        return self.is_marked or os.path.basename(os.path.dirname(self.path)) == TIERS[0]

    def mark_undecided(self, is_undecided):
        """Puts the line UNDECIDED in front of all others, or takes it away."""
        with open(self.path, encoding='utf-8') as file:
            lines = [line for line in file.read().split('\n') if line != UNDECIDED]
        with open(self.path, 'w', encoding='utf-8') as file:
            file.write('\n'.join([UNDECIDED] * is_undecided + lines))
        self.is_undecided = is_undecided

    def made_in(self, texts):
        """The texts with this edit, by file; None where an old text isn't there once."""
        texts = dict(texts)
        for file, old, new in self.pairs:
            if texts.get(file, '').count(old) != 1:
                return None
            texts[file] = texts[file].replace(old, new)
        return texts

    def functions_in(self, texts):
        """The functions whose bodies it changes in these texts, by file; none if one of its places in src/ is outside of all bodies."""
        functions = set()
        for file, old, new in self.pairs:
            if file.startswith('src/'):
                text = texts.get(file, '')
                at = text[:text.find(old)].count('\n')
                functions.add(function_at(file, text.split('\n'), at, new.startswith(old)) if text.count(old) == 1 else None)
        return set() if None in functions else functions

    def moved_in(self, texts):
        """The functions that get a body of the edit's own in front of the one that they have, each with the name of the function that
        has that one now."""
        moved = {}
        for file, old, new in self.pairs:
            names = NAME.findall(new)
            if file.startswith('src/') and new.startswith(old) and len(names) > 1:
                text = texts[file]
                moved[path_of(file, text.split('\n'), text[:text.find(old)].count('\n'))] = names[-1]
        return moved


class Right:
    """An edit with its answers, and with the right body in place of the wrong one: where the wrong one stands in front, a call of the right one."""

    is_right = True

    def __init__(self, edit):
        self.edit, self.crate, self.name, self.answers = edit, edit.crate, edit.name, edit.answers
        self.functions_in, self.moved_in = edit.functions_in, edit.moved_in

    def made_in(self, texts):
        texts = dict(texts)
        for file, old, new in self.edit.pairs:
            if texts.get(file, '').count(old) != 1:
                return None
            names = NAME.findall(new)
            if not file.startswith('src/'):
                texts[file] = texts[file].replace(old, new)
            elif new.startswith(old) and len(names) > 1:
                owner = 'Self::' if texts[file].partition(old)[0].endswith(' ') else ''
                texts[file] = texts[file].replace(old, with_call(new, names, owner))
        return texts


def with_call(text, names, owner):
    """A function with its body, and the beginning of the next one: the same, where the first calls the other with what it is given itself."""
    behind = text.rindex(' fn ' + names[-1])
    begin = next(at for at in range(behind, 0, -1) if text[at] == '{' and text[at:behind].count('{') == text[at:behind].count('}'))
    head = text[text.index('fn ' + names[0]):begin]
    given = parts_of(head[head.index('('):])
    is_method = bool(given) and given[0].split()[-1].lstrip('&') == 'self'
    passed = ', '.join(it.split(':')[0].removeprefix('mut ') for it in given[is_method:])
    call = '%s%s(%s)' % ('self.' if is_method else owner, names[-1], passed)
    return '%s{ %s }%s' % (text[:begin], call, text[behind:])


def parts_of(text):
    """What stands between the parenthesis that a text begins with and its end, cut at the commas outside of further brackets."""
    parts, depth = [''], 0
    for letter in text.replace('->', '  '):
        depth += (letter in '(<[') - (letter in ')>]')
        if not depth:
            break
        if letter == ',' and depth == 1:
            parts.append('')
        elif letter != '(' or depth > 1:
            parts[-1] += letter
    return [it.strip() for it in parts if it.strip()]


def edits_of(crate, *tiers):
    """The edits in the folder of a crate, by name."""
    for tier in tiers or TIERS:
        folder = os.path.join(crate, tier)
        for name in sorted(os.listdir(folder)) if os.path.isdir(folder) else []:
            if name.endswith('.edit'):
                yield Edit(os.path.join(folder, name))


def body_of(lines, start, indent):
    """The lines between which the body of the function stands that begins at a line: those of its braces."""
    end = next((it for it in range(start, len(lines)) if lines[it] == indent + '}'), start)
    opened = (it for it in range(start, end) if lines[it] == indent + '{' or re.match(indent + r'(\S.*)? \{$', lines[it]))
    return next(opened, end), end


def without_bodies(text, is_stub):
    """The text in which each function that begins at a line of which this is so stops at once."""
    lines, kept, at = text.split('\n'), [], 0
    for start, line in enumerate(lines):
        found = FUNCTION.match(line)
        if found and start >= at and is_stub(lines, start):
            begins, ends = body_of(lines, start, found[1])
            if begins < ends and not any(FUNCTION.match(it) for it in lines[start + 1:ends]):
                kept += [*lines[at:begins + 1], found[1] + '    unreachable!()']
                at = ends
    return '\n'.join(kept + lines[at:])


def function_at(file, lines, at, has_own_body):
    """The function in whose body the line is, as the prover names it below its crate; None outside of all bodies. An edit that puts
    a body of its own behind a function's first line is in that function."""
    start = start_of(lines, at)
    if start is None:
        return None
    begins, ends = body_of(lines, start, FUNCTION.match(lines[start])[1])
    return path_of(file, lines, start) if begins < at < ends or has_own_body and at == start else None


def start_of(lines, at):
    """Where the last function begins that does so at or above a line."""
    return next((it for it in range(at, -1, -1) if FUNCTION.match(lines[it])), None)


def path_of(file, lines, start):
    """What the prover calls the function that begins at a line: its module, its type if it is a method, with the trait's name, and its own."""
    found, module = FUNCTION.match(lines[start]), os.path.basename(file)[:-len('.rt')]
    parts = [] if module in ('lib', 'main') else [module]
    if found[1]:
        parts.append(owner_of(lines, start))
    return '::'.join([*parts, found[3]])


def owner_of(lines, start):
    """The type of the impl block around a line, and behind it the trait."""
    first = next((it for it in range(start, -1, -1) if IMPL.match(lines[it])), start)
    head = without_generics(' '.join(lines[first:start]).partition('{')[0])
    trait, between, kind = head.removeprefix('impl').partition(' for ')
    names = [kind, trait] if between else [trait]
    return ''.join(it.split(' where ')[0].strip().lstrip('&').split('::')[-1] for it in names)


def without_generics(text):
    while True:
        less = re.sub(r'<[^<>]*>', '', text.replace('->', ''))
        if less == text:
            return text
        text = less


def in_cycles(file, text):
    """The functions of a file that call one another, which their attribute tells."""
    lines = text.split('\n')
    for at, line in enumerate(lines):
        if re.match(r' *#\[cycle\(', line):
            yield path_of(file, lines, next(it for it in range(at, len(lines)) if FUNCTION.match(lines[it])))


def public_functions(folder):
    """The public functions of a crate, each as the prover names it. A law (src/laws.rt) has no body that could be wrong, so it isn't one of them."""
    for name in sorted(os.listdir(os.path.join(folder, 'src'))):
        if name == 'laws.rt':
            continue
        with open(os.path.join(folder, 'src', name), encoding='utf-8') as file:
            lines = file.read().split('\n')
        for start, line in enumerate(lines):
            found = FUNCTION.match(line)
            if found and found[2]:
                yield path_of(name, lines, start)
