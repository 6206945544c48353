#!/usr/bin/env python3
"""What the two example benches must print, from the text of docs/RULES.md: each run's operations one after another,
memory as words, and a store-conditional judged from the history of accesses by the written rule."""

RUNS = """0 ll 8, 0 sc 8 5
0 ll 8, 1 store 8 7, 1 store 8 0, 0 sc 8 5
0 ll 8, 1 store 8 7, 0 store 24 9, 0 sc 8 5
0 ll 8, 1 ll 24, 0 sc 8 5, 1 sc 24 4
0 ll 8, 0 store 8 3, 0 sc 8 5
0 ll 8, 0 sc 12 5, 0 sc 8 5
0 ll 8, 1 store 12 1, 0 sc 8 5
0 ll 8, 1 sc 24 4, 0 sc 8 5
0 ll 8, poke 8 9, 0 sc 8 5""".split("\n")


def succeeds(core, address, history):
    """RULES 5.3 to 5.6, from the latest access back: the core's latest ll is at the address, with no sc of the core and
    no ll, store or successful sc of another at the entry after it. The history's latest access is its last."""
    for other, kind, at, _ in reversed(history):
        if other == core and kind in (2, 4, 5):
            return kind == 2 and at == address
        if other != core and kind in (2, 3, 4) and at // 4 % 4 == address // 4 % 4:
            return False
    return False


records = []
for number, run in enumerate(RUNS, 1):
    memory, history = {}, []
    for line in run.split(", ") + ["2 load 8"]:
        words = line.split()
        if words[0] == "poke":
            address, value = int(words[1]), int(words[2])
            memory[address] = value
            history.append((255, 6, address, value))
            print(f"P{number}: {line}: poked")
            continue
        core, what, address = int(words[0]), words[1], int(words[2])
        value = int(words[3]) if len(words) > 3 else memory.get(address, 0)
        if what == "sc":
            passed = succeeds(core, address, history)
            kind, said = (4, " 0") if passed else (5, " 1")
        else:
            kind = {"load": 1, "ll": 2, "store": 3}[what]
            said = "" if what == "store" else f" {value}"
        if kind in (3, 4):
            memory[address] = value
        history.append((core, kind, address, value))
        print(f"P{number}: {line}:{'' if what == 'load' else ' moved' * 3} {what}{said}")
    records += history

print(f"archive: {(len(records) + 30) // 31 * 512} bytes, {len(records)} records")
for n, (core, kind, address, value) in enumerate(records):
    print(f"{n}: core {core} kind {kind} address {address} value {value}")
# 12: the check is the first test of a block that fails (RULES 6.13); and which block decided (RULES 7.40a)
print("a bit of block 1 turned: refused 12, by block 1")
