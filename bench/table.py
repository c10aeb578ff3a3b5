#!/usr/bin/env python3
"""Runs two programs on the workloads, compares what they print, and writes a table of what they took.

Usage: table.py AUTFILT PLAIN FOLDER [--quick] [--only WORD].. [--steps STEPS PLAIN]
--steps gives the two programs that step trees.
"""
import argparse
import collections
import contextlib
import os
import re
import shutil
import subprocess
import sys
import tempfile

# What it is, the words for the program, and the files that it reads.
WORKLOADS = [
    ('print 300 automata of ten states', [], ['canonical.hoa']),
    ('print 3,000 one-state automata', [], ['small.hoa']),
    ('print 100,000 edges of one state', [], ['loops.hoa']),
    ('print 3,600 labels over 20 names', [], ['wide.hoa']),
    ('count 300 automata of ten states', ['-c'], ['canonical.hoa']),
    ('count 3,000 one-state automata', ['-c'], ['small.hoa']),
    ('count 100,000 edges of one state', ['-c'], ['loops.hoa']),
    ('count 524,288 implicit edges, 19 names', ['-c'], ['implicit.hoa']),
    ('count 64 files of 300 automata', ['-c'] + 63 * ['canonical.hoa'], 64 * ['canonical.hoa']),
    ('emptiness of 20,000, two Fin and two Inf', ['-c', '--is-empty'], ['emerson-lei.hoa']),
    ('emptiness of a line of 100,000 states', ['-c', '--is-empty'], ['line.hoa']),
    ('reached states of that line', ['--stats=%s'], ['line.hoa']),
    ('product of 1,000,000 pairs', ['--product=ring-64.hoa', '--stats=%s'], ['ring-15625.hoa', 'ring-64.hoa']),
    ('Büchi form of 3,000, four sets', ['--buchi'], ['four-sets.hoa']),
    ('Büchi form of a ring of 2,048 states', ['--buchi', '--stats=%s'], ['ring-2048.hoa']),
    ('hide one of 20 names, 100,000 edges', ['--remove-ap=p7'], ['few-labels.hoa']),
    ('monitors of 20, ten names', ['-M', '--stats=%s'], ['classes.hoa']),
    ('print these monitors', ['-M'], ['classes.hoa']),
    ('print a monitor of 2,048 sets', ['-M'], ['shift-10.hoa']),
    ('monitor of 16,384 sets', ['-M', '--stats=%s'], ['shift-13.hoa']),
    ('monitor that passes the limit of sets', ['-M', '--stats=%s'], ['shift-16.hoa']),
    ('monitor of a chain of 4,000 states', ['-M', '--stats=%s'], ['chain.hoa']),
    ('unambiguity, 1,000,000 pairs in cycles', ['-c', '--is-unambiguous'], ['idle-ring.hoa']),
    ('unambiguity, 1,000,000 pairs in paths', ['-c', '--is-unambiguous'], ['phases.hoa']),
    ('parity automaton, trees of 100 nodes', ['--parity'], ['deep-chain.hoa']),
    ('print a parity automaton of 2,560 trees', ['--parity'], ['shift-10.hoa']),
    ('parity that passes the limit of trees', ['--parity', '--stats=%s'], ['shift-16.hoa']),
    ('parity automata of 3,000, six states', ['--parity'], ['six-states.hoa']),
    ('complements of 3,000, six states', ['--complement'], ['six-states.hoa']),
    ('deterministic forms of 3,000, six states', ['-D'], ['six-states.hoa']),
    ('intersection of 20,000 with one', ['-c', '--intersect=operand.hoa'], ['emerson-lei.hoa', 'operand.hoa']),
    ('inclusion of 2,000 in one', ['-c', '--included-in=operand.hoa'], ['emerson-lei-2000.hoa', 'operand.hoa']),
    ('inclusion of 2,000 in it as -D gives it', ['-c', '--included-in=operand-d.hoa'],
     ['emerson-lei-2000.hoa', 'operand-d.hoa']),
    ('inclusion of 20,000 in one', ['-c', '--included-in=operand.hoa'], ['emerson-lei.hoa', 'operand.hoa']),
]

# The same of what is read from standard input, a pipe.
PIPED = [
    ('count 10,000 of ten states through a pipe', ['-c', '-'], 'many.hoa'),
    ('print these through a pipe', ['-'], 'many.hoa'),
]

# What it is, and the words for the two programs that step trees, the last of them how many steps.
STEPS = ('100,000 steps of trees of 10 to 40 nodes', ['1', '100000'])

RUNS = 5
# Seconds: a program is stopped after the first, and its instructions are counted only where a run took less than the second.
LONGEST = 600
LONGEST_COUNTED = 5


# A command in a folder, with the file there that comes through a pipe, or None.
Command = collections.namedtuple('Command', 'words folder piped')


@contextlib.contextmanager
def started(command, words, **streams):
    """The process of these words, with the standard input of the command."""
    if command.piped is None:
        with subprocess.Popen(words, cwd=command.folder, stdin=subprocess.DEVNULL, **streams) as run:
            yield run
        return
    with subprocess.Popen(['cat', command.piped], cwd=command.folder, stdout=subprocess.PIPE) as source:
        with subprocess.Popen(words, cwd=command.folder, stdin=source.stdout, **streams) as run:
            source.stdout.close()
            yield run


def outcome(command):
    """What a run prints, and its status."""
    with started(command, command.words, stdout=subprocess.PIPE, stderr=subprocess.PIPE) as run:
        try:
            return run.communicate(timeout=LONGEST)[0], run.returncode
        finally:
            run.kill()


def processor_seconds(command):
    """Seconds of the processor, in the program and in the system for it."""
    with started(command, command.words, stdout=subprocess.DEVNULL, stderr=subprocess.DEVNULL) as run:
        _, status, usage = os.wait4(run.pid, 0)
        run.returncode = os.waitstatus_to_exitcode(status)
    return usage.ru_utime + usage.ru_stime


def megabytes(command):
    """The most memory that was in use. A child of this process would count what this one holds, so `time` is its parent."""
    if not os.access('/usr/bin/time', os.X_OK):
        return None
    with tempfile.NamedTemporaryFile('r') as told:
        words = ['/usr/bin/time', '-q', '-o', told.name, '-f', '%M'] + command.words
        with started(command, words, stdout=subprocess.DEVNULL, stderr=subprocess.DEVNULL) as run:
            run.wait()
        return int(told.read().split()[-1]) / 1024


def instructions(command):
    words = ['valgrind', '--tool=callgrind', '--callgrind-out-file=/dev/null'] + command.words
    with started(command, words, stdout=subprocess.DEVNULL, stderr=subprocess.PIPE, text=True) as run:
        found = re.search(r'Collected : (\d+)', run.communicate()[1])
    return int(found.group(1)) if found else None


def measure(command, size, counts):
    """Instructions a byte, seconds, megabytes; None for what isn't measured."""
    seconds = min(processor_seconds(command) for _ in range(RUNS))
    counted = None
    if counts and seconds < LONGEST_COUNTED:
        counted = instructions(command)
    return counted and counted / size, seconds, megabytes(command)


def columns(value, other, form):
    """Both values and how many times the second the first is."""
    if value is None or other is None:
        return ['-' if v is None else form % v for v in (value, other)] + ['-']
    return [form % value, form % other, '%.1f' % (value / other) if other else '-']


def row(name, commands, size, counts):
    """What the two commands took, by this size; and whether they did the same."""
    try:
        first, second = (outcome(command) for command in commands)
    except subprocess.TimeoutExpired as late:
        return [name, '%d' % size, 'more than %d seconds: %s' % (LONGEST, late.cmd[0])], False
    if first != second:
        return [name, '%d' % size, 'THE OUTPUTS DIFFER, or the statuses: %d and %d' % (first[1], second[1])], False
    taken = [measure(command, size, counts) for command in commands]
    cells = [name, '%d' % size]
    for place, form in enumerate(['%.0f', '%.3f', '%.1f']):
        cells += columns(taken[0][place], taken[1][place], form)
    return cells, True


def works(asked):
    """Each workload: its name, the two commands, and the size to count by."""
    def size(files):
        return sum(os.path.getsize(os.path.join(asked.folder, file)) for file in files)
    for name, words, files in WORKLOADS:
        yield name, [Command([it] + words + files[:1], asked.folder, None) for it in (asked.autfilt, asked.plain)], size(files)
    for name, words, file in PIPED:
        yield name, [Command([it] + words, asked.folder, file) for it in (asked.autfilt, asked.plain)], size([file])
    if asked.steps:
        name, words = STEPS
        yield name, [Command([it] + words, asked.folder, None) for it in asked.steps], int(words[-1])


def rows(asked, counts):
    """Each workload that is asked for."""
    for name, commands, size in works(asked):
        if not asked.only or any(word in name for word in asked.only):
            yield row(name, commands, size, counts)


def main():
    words = argparse.ArgumentParser()
    words.add_argument('autfilt')
    words.add_argument('plain')
    words.add_argument('folder')
    words.add_argument('--quick', action='store_true')
    words.add_argument('--only', action='append')
    words.add_argument('--steps', nargs=2, metavar=('STEPS', 'PLAIN'))
    asked = words.parse_args()
    counts = not asked.quick and shutil.which('valgrind') is not None

    head = ['workload', 'bytes', 'instr/byte', 'plain', 'ratio', 'seconds', 'plain', 'ratio', 'MB', 'plain', 'ratio']
    widths = [41, 9, 11, 7, 6, 9, 7, 6, 7, 7, 6]
    def line(cells):
        return ' '.join(cell.ljust(width) if place == 0 else cell.rjust(width)
                        for place, (cell, width) in enumerate(zip(cells, widths)))
    print(line(head))
    all_equal = True
    for cells, equal in rows(asked, counts):
        all_equal &= equal
        print(line(cells), flush=True)
    sys.exit(0 if all_equal else 1)


main()
