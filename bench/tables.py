"""Prints the tables of docs/BENCH.md from what callgrind counted: python3 bench/tables.py DIR"""
import re
import sys

OUT = sys.argv[1]
CALLS = "fresh open vote take withdraw store begin end trim safe lose fix roll sheet restart".split()


COPY = 55320


def counts(cards, states, kind):
    """Of each measured function its instructions, how many cabinets it copies, and the instructions of its copies."""
    found, name = {}, None
    for line in open(f"{OUT}/counts.{cards}.{states}.{kind}"):
        match = re.match(r"\s*([\d,]+) \(.*?\)\s+([*>])\s+\S*?:(.*?) ", line)
        if not match:
            continue
        number, what = int(match.group(1).replace(",", "")), match.group(3)
        if match.group(2) == "*":
            measured = re.match(r"(?:port::bench::)?((?:bench|port|lent)_\w+)$", what)
            name = measured.group(1) if measured else None
            if name:
                found[name] = [number, 0, 0]
        elif name and "memcpy" in what:
            found[name][1] += round(number / COPY)
            found[name][2] += number
    return found


def cost(found, who, call):
    """A call's instructions outside copies of the cabinet, and its copies, less the making of its cabinet."""
    if f"{who}_{call}" not in found:
        return None
    number, copies, copied = found[f"{who}_{call}"]
    if call in ("fresh", "restart"):
        return number, 0, number
    made = found["bench_nothing" if who == "bench" else "port_nothing"]
    whole = number - made[0]
    # the port's copy is made below the measured function, in the method itself
    if who == "port":
        return whole - COPY, 1, whole
    # a copy of the frames alone, where the call writes the rest anew, is a little shorter than one of the cabinet
    copies -= made[1]
    return whole - min(copied - made[2], copies * COPY), copies, whole


def told(number):
    return "-" if number is None else f"{number:,}"


def work(pair):
    return None if pair is None else pair[0]


def whole_of(pair):
    return None if pair is None else pair[2]


def ratio(a, b):
    return "-" if a is None or not b else f"{a / b:.2f}"


def table(head, rows):
    print("| " + " | ".join(head) + " |")
    print("|" + "---|" * len(head))
    for row in rows:
        print("| " + " | ".join(row) + " |")
    print()


def call_table(title, found):
    print(f"\n{title}\n")
    rows = []
    for call in CALLS:
        engine, port, lent = (cost(found, who, call) for who in ("bench", "port", "lent"))
        copies = "-" if engine is None or call in ("fresh", "restart") else f"{engine[1]}, {port[1]}"
        row = [call, told(work(engine)), told(work(port)), ratio(work(engine), work(port)), copies]
        row += [ratio(whole_of(engine), whole_of(port)), told(work(lent)), ratio(whole_of(port), whole_of(lent))]
        rows.append(row)
    head = ["call", "engine", "port", "engine / port", "copies: engine, port", "with copies", "port by &mut"]
    table(head + ["by value / &mut"], rows)


def growth(title, runs):
    print(f"\n{title}\n")
    rows = []
    for call in CALLS:
        row = [call]
        for found in runs.values():
            engine, port = work(cost(found, "bench", call)), work(cost(found, "port", call))
            row.append(f"{told(engine)} ({ratio(engine, port)})")
        rows.append(row)
    table(["call"] + list(runs), rows)


full = counts(16, 48, "reads")
call_table("16 cards, empty; the change writes every card", counts(16, 0, "writes"))
call_table("16 cards, 48 states in hand on each; the change reads every card", full)
growth("By cards, 48 states in hand on each, outside copies: engine (engine / port)", {str(n): counts(n, 48, "reads") for n in (1, 2, 4, 8, 16)})
growth("By states in hand, 16 cards, outside copies: engine (engine / port)", {str(n): counts(16, n, "reads") for n in (0, 12, 24, 48)})
print("\nParts by themselves, 16 cards, 48 states in hand on each: engine\n")
sheet = 25 + 48 * 81
parts = [("read the largest read-out and restart from it", "restart", 16 * sheet)]
parts += [("write the largest sheet, of a ring lent", "write_sheet", sheet)]
rows = [[name, told(full["bench_" + key][0]), f"{full['bench_' + key][0] / size:.2f}"] for name, key, size in parts]
table(["part", "instructions", "a byte"], rows)
whole = [line.split() for line in open(f"{OUT}/whole")]
print("\nWhole programs, all instructions\n")
rows = []
for engine, port in zip(whole[0::2], whole[1::2]):
    name = f"replay of {int(engine[1]):,} calls" if engine[0] == "replay" else f"line of a read-out of {int(engine[1]):,} bytes"
    a, b = int(engine[2]), int(port[2])
    rows.append([name, told(a), told(b), ratio(a, b)])
table(["program", "engine", "port", "engine / port"], rows)
