#!/usr/bin/env python3
"""Writes the automata of the workloads into a folder: the same bytes each time, on every machine.

Usage: workloads.py FOLDER
"""
import os
import random
import sys

# Only random() gives the same numbers in every version of Python.
source = random.Random(20)


def below(count):
    return int(source.random() * count)


def pick(items):
    return items[below(len(items))]


def automaton(states, names, acceptance, edges, name=None, starts=(0,)):
    """The canonical text; edges is a list of (from, label, to, marks), sorted by from."""
    lines = ['HOA: v1']
    if name:
        lines.append('name: "%s"' % name)
    lines.append('States: %d' % states)
    lines += ['Start: %d' % start for start in starts]
    lines += [' '.join(['AP: %d' % len(names)] + ['"%s"' % n for n in names]),
              'Acceptance: ' + acceptance, 'properties: trans-labels explicit-labels trans-acc', '--BODY--']
    place = 0
    for state in range(states):
        lines.append('State: %d' % state)
        while place < len(edges) and edges[place][0] == state:
            _, label, to, marks = edges[place]
            braces = ' {%s}' % ' '.join(map(str, marks)) if marks else ''
            lines.append('[%s] %d%s' % (label, to, braces))
            place += 1
    lines.append('--END--')
    return '\n'.join(lines) + '\n'


def names(count):
    return ['p%d' % k for k in range(count)]


def marks(sets, odds):
    return [s for s in range(sets) if source.random() < odds]


def cube(count):
    """A conjunction of some of so many literals, or t."""
    parts = [pick(['', '!']) + str(k) for k in range(count) if below(2)]
    return '&'.join(parts) or 't'


def canonical(number):
    """Ten states and three names, with an edge at every other state."""
    edges = [(state, cube(3), below(10), marks(1, 0.3)) for state in range(0, 10, 2)]
    return automaton(10, ['a', 'b', 'c'], '1 Inf(0)', edges)


def small(number):
    return automaton(1, ['a'], '1 Inf(0)', [(0, '0', 0, [0]), (0, '!0', 0, [])], 'n%d' % number)


def loops(count):
    return automaton(1, ['a'], '0 t', [(0, 't', 0, [])] * count)


def literals(conditions, sets, odds):
    """Ten states with two or three edges each, over three names."""
    edges = []
    for state in range(10):
        for _ in range(2 + below(2)):
            edges.append((state, cube(3), below(10), marks(sets, odds)))
    return automaton(10, ['a', 'b', 'c'], '%d %s' % (sets, pick(conditions)), edges)


EMERSON_LEI = [
    'Fin(0) & Fin(1) & Inf(2) & Inf(3)',
    '(Fin(0) & Inf(2)) | (Fin(1) & Inf(3))',
    '(Fin(0) | Inf(2)) & (Fin(1) | Inf(3))',
    'Fin(0) & (Inf(2) | (Fin(1) & Inf(3)))',
]

FOUR_SETS = EMERSON_LEI + ['Inf(0) & Inf(1) & Inf(2) & Inf(3)', '(Inf(0) & Inf(1)) | (Inf(2) & Fin(3))']


def implicit(count):
    """One state with an edge for each letter over so many names, and no label written."""
    text = automaton(1, names(count), '0 t', []).replace('trans-labels explicit-labels', 'trans-labels implicit-labels')
    return text.replace('State: 0\n', 'State: 0\n' + '0\n' * 2 ** count)


def line(states):
    return automaton(states, ['a'], '1 Inf(0)', [(q, '0', q + 1, []) for q in range(states - 1)])


def ring(states, label, acceptance, marked, starts=(0,)):
    edges = [(q, label, (q + 1) % states, marked(q)) for q in range(states)]
    return automaton(states, ['a'], acceptance, edges, starts=starts)


def wide_labels():
    """A conjunction, a disjunction and a disjunction of conjunctions, of the same eight of twenty names."""
    part = sorted(sorted(range(20), key=lambda _: source.random())[:8])
    literals = [pick(['', '!']) + str(k) for k in part]
    pairs = ['%s & %s' % (literals[k], literals[k + 1]) for k in range(0, 6, 2)]
    return [' & '.join(literals), ' | '.join(literals), ' | '.join('(%s)' % pair for pair in pairs)]


def wide(number):
    """One state with twelve labels over twenty names."""
    edges = []
    for _ in range(4):
        edges += [(0, label, 0, marks) for label, marks in zip(wide_labels(), [[0], [], [0]])]
    return automaton(1, names(20), '1 Inf(0)', edges)


def few_labels(states, leaving):
    """So many edges from each state, under 201 labels over twenty names."""
    labels = [label for _ in range(67) for label in wide_labels()]
    edges = [(q, pick(labels), below(states), marks(1, 0.3)) for q in range(states) for _ in range(leaving)]
    return automaton(states, names(20), '1 Inf(0)', edges)


def classes(number):
    """Three states, each left by thirty edges under conjunctions of some of ten names."""
    edges = [(q, cube(10), below(3), marks(1, 0.3)) for q in range(3) for _ in range(30)]
    return automaton(3, names(10), '1 Inf(0)', edges)


def shift(bits):
    """A letter with `a`, one with `a` so many steps later, and `b` from then on: a set of states tells where `a` was."""
    edges = [(0, 't', 0, []), (0, '0', 1, [])] + [(q, 't', q + 1, []) for q in range(1, bits)]
    edges += [(bits, '0', bits + 1, []), (bits + 1, '1', bits + 1, [0])]
    return automaton(bits + 2, ['a', 'b'], '1 Inf(0)', edges)


def chain(states):
    """A line with a loop at its end, where alone words are accepted."""
    edges = [(q, '0', q + 1, []) for q in range(states - 1)] + [(states - 1, 't', states - 1, [0])]
    return automaton(states, ['a'], '1 Inf(0)', edges)


def phases(states):
    """A ring with each state a start, under `a` once a round: a word tells where a run began."""
    edges = [(q, '!0' if q else '0', (q + 1) % states, []) for q in range(states)]
    return automaton(states, ['a'], '0 t', edges, starts=range(states))


def deep_chain(states):
    """A line at each state of which a run may stay under `a`, and from its end back to its start: trees as deep as that."""
    edges = []
    for q in range(states - 1):
        edges += [(q, '0', q, []), (q, '0', q + 1, [0])]
    edges += [(states - 1, '0', states - 1, []), (states - 1, '!0', 0, [])]
    return automaton(states, ['a'], '1 Inf(0)', edges)


def six_states(number):
    """Six states with two or three edges each, over two names."""
    edges = [(q, cube(2), below(6), marks(1, 0.3)) for q in range(6) for _ in range(2 + below(2))]
    return automaton(6, ['a', 'b'], '1 Inf(0)', edges)


def operand():
    """Ten states with two or three edges each, under `t` or one literal. With this seed its complement has 65 states."""
    source.seed(335)
    labels = ['t', '0', '!0', '1', '!1', '2', '!2'] + ['t'] * 5
    edges = []
    for state in range(10):
        for _ in range(2 + below(2)):
            edges.append((state, pick(labels), below(10), marks(1, 0.5)))
    return automaton(10, ['a', 'b', 'c'], '1 Inf(0)', edges)


def write(folder, file, texts):
    with open(os.path.join(folder, file), 'w', newline='\n') as out:
        out.writelines(texts)


def main():
    folder = sys.argv[1]
    os.makedirs(folder, exist_ok=True)
    write(folder, 'canonical.hoa', map(canonical, range(300)))
    write(folder, 'small.hoa', map(small, range(3000)))
    write(folder, 'loops.hoa', [loops(100000)])
    write(folder, 'implicit.hoa', [implicit(19)])
    emerson_lei = [literals(EMERSON_LEI, 4, 0.15) for _ in range(20000)]
    write(folder, 'emerson-lei.hoa', emerson_lei)
    write(folder, 'emerson-lei-2000.hoa', emerson_lei[:2000])
    write(folder, 'line.hoa', [line(100000)])
    write(folder, 'ring-64.hoa', [ring(64, 't', '1 Inf(0)', lambda q: [0] if q == 0 else [])])
    write(folder, 'ring-15625.hoa', [ring(15625, 't', '1 Inf(0)', lambda q: [0] if q == 0 else [])])
    write(folder, 'four-sets.hoa', (literals(FOUR_SETS, 4, 0.3) for _ in range(3000)))
    write(folder, 'ring-2048.hoa', [ring(2048, 't', '2 Inf(0) & Inf(1)', lambda q: [0, 1] if q == 0 else [])])
    write(folder, 'wide.hoa', map(wide, range(300)))
    write(folder, 'few-labels.hoa', [few_labels(100, 1000)])
    write(folder, 'classes.hoa', map(classes, range(20)))
    for bits in [10, 13, 16]:
        write(folder, 'shift-%d.hoa' % bits, [shift(bits)])
    write(folder, 'chain.hoa', [chain(4000)])
    write(folder, 'idle-ring.hoa', [ring(1000, 't', '1 Inf(0)', lambda q: [], starts=range(1000))])
    write(folder, 'phases.hoa', [phases(1000)])
    write(folder, 'deep-chain.hoa', [deep_chain(100)])
    write(folder, 'six-states.hoa', map(six_states, range(3000)))
    write(folder, 'operand.hoa', [operand()])
    write(folder, 'many.hoa', map(canonical, range(10000)))


main()
