"""-o dot: what paths lists as a graph in Graphviz' language (docs/FORMATS.md)."""

from __future__ import annotations

from collections.abc import Iterable, Sequence

from .escapes import escaped
from .fields import in_key

SHAPES = {'u': 'box', 'g': 'folder', '*': 'doubleoctagon'}  # (a role is a note)


def graph_of(who: str, rows: Iterable[Sequence[str]]) -> str:
    """A graph that begins at WHO: a node for each that paths leads to, and an edge for the step by which it is taken over."""
    numbers, edges = {(who[:2] + in_key(who[2:]), '-'): 0}, list[str]()
    for _, to, to_where, taker, taker_where, step, binding, _, source, rule, _ in rows:
        begin, end = (numbers.setdefault(node, len(numbers)) for node in ((taker, taker_where), (to, to_where)))
        # (a role has no binding, and everything needs no rule)
        why = [*[binding] * (binding != '-'), *['rule %s of %s' % (rule, source)] * (source != '-')]
        edges.append('  n%d -> n%d [label=%s, tooltip=%s];\n' % (begin, end, quoted(step), quoted(', '.join(why))))
    nodes = ['  n%d [label=%s, shape=%s];\n' % (number, label_of(*node), SHAPES.get(node[0][0], 'note')) for node, number in numbers.items()]
    return ''.join(['digraph paths {\n  rankdir=LR;\n', *nodes, *edges, '}\n'])


def label_of(node: str, where: str) -> str:
    """Who or what a node is and, of a role and of everything, where."""
    place = '' if where == '-' else '\\nin ' + ('the whole cluster' if where == '*' else quoted(where)[1:-1])
    return quoted('everything' if node == '*' else node)[:-1] + place + '"'


def quoted(text: str) -> str:
    """A string of the language that shows this text: Graphviz would obey backslashes and references such as &lt; within it."""
    return '"%s"' % escaped(text).replace('\\', '\\\\').replace('"', '\\"').replace('&', '&amp;')
