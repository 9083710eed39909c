#!/usr/bin/env python3
"""A host of the program `truing`: holds a conversation over two pipes, with a toy formula in place of a flight solver.

usage: examples/host.py [PROGRAM]        (PROGRAM: target/bin/truing, which `scripts/build truing` makes)

It fits five shots, prints the speed and the coefficient with their intervals and the warnings, then
asks for a band more (an edit that is taken) and for one at a place that there is not (a refusal).
"""
import os
import struct
import subprocess
import sys


def double(x):
    """A double as the protocol writes it: the 16 hexadecimal digits of its bits."""
    return struct.pack(">d", x).hex()


def number(word):
    return struct.unpack(">d", bytes.fromhex(word))[0]


def parsed(line):
    """A line as nested lists of words: `(a (b c))` is ['a', ['b', 'c']]."""
    stack = [[]]
    for word in line.replace("(", " ( ").replace(")", " ) ").split():
        if word == "(":
            stack.append([])
        elif word == ")":
            done = stack.pop()
            stack[-1].append(done)
        else:
            stack[-1].append(word)
    return stack[0][0]


def drop(speed, coefficient, distance):
    """Inches below the line of bore at so many yards: no more than a stand-in for a solver."""
    time = 3.0 * distance * (1.0 + distance / (5000.0 * coefficient)) / speed
    return 193.0 * time * time


class Truing:
    """The program, and a solver for its questions."""

    def __init__(self, program, shots, distances):
        self.pipe = subprocess.Popen([program], stdin=subprocess.PIPE, stdout=subprocess.PIPE, text=True)
        self.shots, self.distances = shots, distances

    def say(self, line):
        self.pipe.stdin.write(line + "\n")
        self.pipe.stdin.flush()

    def answer(self, new=None):
        """Replies to questions until something else is answered, and gives that."""
        while True:
            line = self.pipe.stdout.readline()
            if not line.startswith("("):
                sys.exit("the program does not answer with a line of the protocol, but with %r" % line)
            said = parsed(line)
            if said[0] != "question":
                return said
            _, about, speed, coefficient = said
            ranges = {"shots": self.shots, "distances": self.distances, "new": [new]}[about]
            drops = [drop(number(speed), number(coefficient), r) for r in ranges]
            self.say("(drops %s)" % " ".join(map(double, drops)))


def show_interval(name, interval):
    if interval == "none":
        print("%s: no interval" % name)
    else:
        estimate, deviation, lower, upper, _level = map(number, interval)
        print("%s: %.4f, from %.4f to %.4f" % (name, estimate, lower, upper))


def show(report):
    speed, coefficient, approximation, bands, warnings = report[2], report[3], report[10], report[11], report[12]
    if approximation[0] == "Available":
        show_interval("speed, fps", approximation[2])
        show_interval("coefficient", approximation[3])
    else:
        print("speed %.4f fps, coefficient %.4f; no interval: %s" % (number(speed), number(coefficient), approximation[1]))
    for distance, predicted, latent, _future in bands:
        show_interval("drop at %.0f yards" % number(distance), latent)
    print("warnings: %s" % (", ".join(w[0] for w in warnings) or "none"))


def main():
    if sys.argv[1:] in (["-h"], ["--help"]):
        print(__doc__)
        return
    if len(sys.argv) > 2:
        sys.exit("%s: takes one program; --help says more" % sys.argv[0])
    program = sys.argv[1] if len(sys.argv) > 1 else "target/bin/truing"
    if not os.access(program, os.X_OK) or os.path.isdir(program):
        sys.exit("%s is missing: 'scripts/build truing' makes target/bin/truing" % program)
    shots = [100.0, 200.0, 300.0, 400.0, 500.0]
    truing = Truing(program, shots, [350.0])
    truing.say("(entered %s %s)" % (double(2500.0), double(0.4)))
    for k, r in enumerate(shots):
        # what the screens stored: the drops at 2600 fps and 0.35, each a little off
        measured = drop(2600.0, 0.35, r) + 0.05 * (-1) ** k
        truing.say("(shot %s %s %s)" % (double(r), double(measured), double(0.1)))
    truing.say("(distance %s none)" % double(350.0))
    truing.say("(open plain)")
    said = truing.answer()
    if said[0] != "report":
        sys.exit("the run was refused: %s" % " ".join(said))
    show(said)

    print("with a band at 450 yards:")
    truing.say("(put-in 2 %s none)" % double(450.0))
    show(truing.answer(new=450.0))

    truing.say("(take-out 9)")
    said = truing.answer()
    print("taking out the ninth: refused by %s, and the report stays" % said[1])

    truing.say("(asked)")
    print("questions of the run: %s" % truing.answer()[1])


if __name__ == "__main__":
    try:
        main()
    except BrokenPipeError:
        sys.exit("the program ended before the conversation did")
