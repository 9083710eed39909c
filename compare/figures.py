#!/usr/bin/env python3
"""Holds figures of crates/definition/specs/RunFigures.antt against the Rust's own text: plays `report-figure`, `two-steps` and `once-rejected` to the oracle.

usage, once compare/run has built the oracle:  python3 compare/figures.py
It prints a line for each and exits 0 only where all agree.
"""
import os, re, struct, subprocess, sys

here = os.path.dirname(os.path.abspath(__file__))
oracle = os.path.join(here, 'target', 'release', 'oracle')
if sys.argv[1:] in (['-h'], ['--help']):
    print(__doc__)
    sys.exit()
if sys.argv[1:]:
    sys.exit(f'{sys.argv[0]}: takes no argument but --help')
if not os.access(oracle, os.X_OK):
    sys.exit(f'{sys.argv[0]}: the oracle is missing; compare/run builds it, e.g. compare/run 2000 --oracle')
figures = open(os.path.join(here, '..', 'crates', 'definition', 'specs', 'RunFigures.antt'), encoding='utf-8').read()


def bits(x):
    return f'{struct.unpack(">Q", struct.pack(">d", x))[0]:016x}'


def double(s):
    return struct.unpack('>d', bytes.fromhex(s))[0]


def play(request, solver):
    """The last line, and how many questions came before it."""
    run = subprocess.Popen([oracle], stdin=subprocess.PIPE, stdout=subprocess.PIPE, text=True)
    run.stdin.write('\n'.join(request) + '\n')
    run.stdin.flush()
    asked = 0
    while True:
        line = run.stdout.readline().strip()
        question = re.match(r'\(question (\w+) (\w+) (\w+)\)$', line)
        if not question:
            run.kill()
            return line, asked
        asked += 1
        drops = solver(question[1], double(question[2]), double(question[3]), asked)
        run.stdin.write('(drops ' + ' '.join(bits(x) for x in drops) + ')\n')
        run.stdin.flush()


def linear(which, mv, bc, asked):
    u, v = (mv - 2000) * (1 / 128), (bc - 0.5) * 8
    return [u, v + 0.25 * u]


def linear_three(which, mv, bc, asked):
    return linear(which, mv, bc, asked) + ([(bc - 0.5) * 8] if which == 'shots' else [])


def request(shots, more=()):
    return [f'(entered {bits(2000.0)} {bits(0.5)})'] + [f'(shot {bits(a)} {bits(b)} {bits(c)})' for a, b, c in shots] + list(more) + ['(open plain)']


def patterns(text):
    return [p.replace('_', '') for p in re.findall(r'ofBits binary64 0x([0-9a-f_]+)', text)]


def in_order(wanted, line):
    """Each pattern stands in the line after the one before it."""
    at = 0
    for pattern in wanted:
        at = line.find(pattern, at)
        if at < 0:
            return False
        at += len(pattern)
    return True


failed = False


def say(name, right):
    global failed
    failed |= not right
    print(name, 'agrees' if right else 'DIFFERS')


# every number of one report; the baseline's chi-square, the last of the figure, stands earlier in the line
start = figures.index('expectedNumbers =\n')
expected = patterns(figures[start:figures.index('\n\n', start)])
priors = [f'(prior speed {bits(2450.0)} {bits(2.0)})', f'(prior coefficient {bits(0.7)} {bits(1 / 16)})']
distances = [f'(distance {bits(150.0)} {bits(0.5)})', f'(distance {bits(350.0)} none)']
line, asked = play(request([(100.0, 4.0, 1 / 8), (200.0, 2.0, 1 / 8), (300.0, 2.0, 1 / 4)], priors + distances), linear_three)
say('report-figure', len(expected) > 50 and in_order(expected[:2], line) and in_order(expected[:-1], line) and expected[-1] in line)

# the fitted points of two short runs, with their counts; the second has its seventh reply spoiled
fine = request([(100.0, 4.0, 1 / 128), (200.0, 2.0, 1 / 128)])
for name, solver in (('two-steps', linear), ('once-rejected', lambda w, m, b, n: [100.0, 100.0] if n == 7 else linear(w, m, b, n))):
    at = figures.index(f'pub {name} :')
    text = figures[at:at + 400].split('\n  pub ')[0] if name != 'once-rejected' else figures[at:at + 300]
    count = int(re.search(r'reported (\d+)', text)[1])
    line, asked = play(fine, solver)
    say(name, asked == count and f'(report 1 {" ".join(patterns(text)[:2])} ' in line)

sys.exit(1 if failed else 0)
