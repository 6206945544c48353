#!/usr/bin/env python3
"""A bench in Python: it starts the script program, sends it a line and waits for the answer before it chooses the next.
So it has what a script has not: loops, choices, a name for a core's work. Each core adds 1 to word 8, again and again;
which core moves next is chosen by a seed. The script that this makes is written out: the program answers it, without
this bench, as it did here.

    examples/driver.py [OPTION..] PROGRAM [ARGUMENT..]

    PROGRAM            ./malthobre, crates/script/out/script, or another that answers as docs/RULES.md says, 8
    ARGUMENT           for PROGRAM, as `archive FILE`
    --loop add|lock    add: by a load-link and a store-conditional; lock: by a load and a store under a spinlock (add)
    --cores N          how many cores, 1 to 8 (4)
    --times N          how many additions by each core (25)
    --seed N           of the order in which the cores move (1)
    --script FILE      where the script goes (standard output)
    --answers FILE     where its answers go (nowhere)

It ends with 1 where an addition was lost, and where the program refuses a line or stops."""
import argparse, os, random, subprocess, sys

LOCK, COUNT = 0, 8    # the addresses of the lock and of the word that is counted in


class Trouble(Exception):
    pass


class Bench:
    """The program at work, with the script so far and its answers, line by line."""

    def __init__(self, program):
        self.script, self.answers = [], []
        self.program = subprocess.Popen(program, stdin=subprocess.PIPE, stdout=subprocess.PIPE, encoding="ascii")

    def ask(self, line):
        """The words of a line's answer. The program answers what it has read before it waits for more, so all that has to
        be seen to is that the line leaves this process: os.write goes past Python's buffer, in which it would stay. With
        one line on its way at a time, neither pipe fills."""
        try:
            os.write(self.program.stdin.fileno(), (line + "\n").encode())
        except BrokenPipeError:
            raise Trouble("the program stopped before line %d: %s" % (len(self.script) + 1, line))
        answer = self.program.stdout.readline()
        self.script.append(line + "\n")
        self.answers.append(answer)
        begin = "%d 0 " % len(self.script)
        if not (answer.startswith(begin) and answer.endswith("\n")):
            raise Trouble("line %d, %s, is answered %r" % (len(self.script), line, answer))
        return answer[len(begin):-1]

    def give(self, core, operation):
        self.ask("give %d %s" % (core, " ".join(map(str, operation))))

    def whole(self, core, *operation):
        """Runs one operation of a core whole; what it answers. No other core may hold its entry's lock."""
        self.give(core, operation)
        while (words := self.ask("step %d" % core)) == "moved":
            pass
        if words == "waits":
            raise Trouble("core %d waits, and nobody else moves" % core)
        return value_of(words)

    def together(self, loops, choose):
        """Runs a loop on each core, all at once, a micro-step of the core that `choose` takes at a time. A loop is a
        generator: it yields an operation, and is sent what that answers. What each loop returned, by core."""
        returned = {}
        for core, loop in loops.items():
            self.give(core, next(loop))
        while going := [core for core in loops if core not in returned]:
            core = choose(going)
            words = self.ask("step %d" % core)
            if words in ("moved", "waits"):
                continue
            try:
                self.give(core, loops[core].send(value_of(words)))
            except StopIteration as end:
                returned[core] = end.value
        return returned

    def end(self):
        """The end of the session: an archive is then whole. The program's exit status must be 0."""
        self.program.stdin.close()
        more = self.program.stdout.read()
        if more or self.program.wait() != 0:
            raise Trouble("the program ended with %d, and still said %r" % (self.program.wait(), more))


def value_of(words):
    """`load 7`, `ll 7`, `sc 0`: the number; `store` has none."""
    return int(words.split()[1]) if " " in words else None


def add(times):
    """Adds 1 by a load-link and a store-conditional, and tries again from the load-link on where that fails. Returns how
    often it failed."""
    failed = 0
    for _ in range(times):
        while True:
            count = yield "ll", COUNT
            if (yield "sc", COUNT, count + 1) == 0:
                break
            failed += 1
    return failed


def lock(times):
    """Adds 1 by a load and a store while it holds the lock. Returns how often the lock's store-conditional failed."""
    failed = 0
    for _ in range(times):
        while True:
            if (yield "ll", LOCK) == 0:
                if (yield "sc", LOCK, 1) == 0:
                    break
                failed += 1
        count = yield "load", COUNT
        yield "store", COUNT, count + 1
        yield "store", LOCK, 0
    return failed


def by_seed(seed):
    """Takes one of a list. Of Python's random numbers, random() alone is the same for a seed in every version."""
    numbers = random.Random(seed)
    return lambda going: going[int(numbers.random() * len(going))]


def play(bench, options):
    """The whole session; what it came to, in a line."""
    bench.ask("new %d 64" % options.cores)
    loop = {"add": add, "lock": lock}[options.loop]
    failed = bench.together({core: loop(options.times) for core in range(options.cores)}, by_seed(options.seed))
    count = bench.whole(0, "load", COUNT)
    bench.end()
    if count != options.cores * options.times:
        raise Trouble("word %d is %d, after %d additions" % (COUNT, count, options.cores * options.times))
    waited = sum(answer.endswith(" waits\n") for answer in bench.answers)
    return "word %d is %d: %d additions by each of %d cores; %d store-conditionals failed, %d steps waited, %d lines" % (
        COUNT, count, options.times, options.cores, sum(failed.values()), waited, len(bench.script))


def main():
    parser = argparse.ArgumentParser(usage=__doc__, add_help=False)
    parser.add_argument("--loop", choices=("add", "lock"), default="add")
    parser.add_argument("--cores", type=int, choices=range(1, 9), default=4)
    parser.add_argument("--times", type=int, default=25)
    parser.add_argument("--seed", type=int, default=1)
    parser.add_argument("--script")
    parser.add_argument("--answers")
    parser.add_argument("program", nargs=argparse.REMAINDER)
    options = parser.parse_args()
    if not options.program or options.times < 1:
        parser.error("a PROGRAM is needed, and at least 1 addition")
    try:
        bench = Bench(options.program)
    except OSError as error:
        sys.exit("driver: %s: %s" % (options.program[0], error.strerror))
    came = trouble = None
    try:
        came = play(bench, options)
    except Trouble as error:
        trouble = "driver: %s" % error
    # also of a session that went wrong: it is then the script to look at
    with open(options.script, "w") if options.script else sys.stdout as file:
        file.writelines(bench.script)
    if options.answers:
        with open(options.answers, "w") as file:
            file.writelines(bench.answers)
    if trouble:
        sys.exit(trouble)
    print(came, file=sys.stdout if options.script else sys.stderr)


if __name__ == "__main__":
    main()
