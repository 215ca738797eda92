#!/usr/bin/env python3
"""Measures single loops of the built program: bench/loops.py [--rounds N] [--cpu C] [--names A,B] [PROGRAM]

Each line is a form, and what the program takes for a row of its loop, or a turn of it, in nanoseconds: the best of N rounds less
the best of a program that only reads the same data, on one processor and with one worker. Without a program it takes
crates/weld/out/weld. It asserts nothing."""
import os
import random
import subprocess
import sys
import tempfile
import time

TOP = os.path.dirname(os.path.dirname(os.path.abspath(__file__)))
V, W, VW = "v: vec[i64]", "w: vec[i64]", "v: vec[i64], w: vec[i64]"
SUM = "result(for(v, merger[i64,+], |b, i, x| merge(b, x * x + 1L)))"
LOOK = "result(for(v, merger[i64,+], |b, i, x| merge(b, lookup(w, x % 1024L))))"


def lets(count):
    """A body that merges so many times, each time into the builder that the one before made."""
    names = ["b"] + [f"b{i}" for i in range(1, count + 1)]
    steps = "".join(f"let {names[i + 1]} = merge({names[i]}, x + {i}L); " for i in range(count))
    return f"|{V}| result(for(v, merger[i64,+], |b, i, x| {steps}{names[-1]}))"


# the name, the program, the rows of its data, the turns of all its loops for each row
FORMS = [
    ("squares", f"|{V}| {SUM}", 4000000, 1),
    ("guarded", f"|{V}| result(for(v, merger[i64,+], |b, i, x| if(x > 3L, merge(b, x), b)))", 4000000, 1),
    ("histogram", f"|{VW}| result(for(v, vecmerger[i64,+](w), |b, i, x| merge(b, {{x % 1024L, 1L}})))", 2000000, 1),
    ("dot", f"|{VW}| result(for(zip(v, w), merger[i64,+], |b, i, x| merge(b, x.$0 * x.$1)))", 2000000, 1),
    ("within", f"|{VW}| result(for(v, merger[i64,+], |b, i, x| merge(b, result(for(w, merger[i64,+], |c, j, y| merge(c, x * y + j))))))", 50000, 2000),
    ("iterate", f"|{V}| result(for(v, merger[i64,+], |b, i, x| merge(b, iterate({{x % 10000L * 2L + 1L, 0L}}, |s| if(s.$0 == 1L, {{s, false}}, {{{{if(s.$0 % 2L == 0L, s.$0 / 2L, s.$0 * 3L + 1L), s.$1 + 1L}}, true}})).$1)))", 20000, 0),
    ("top in iterate", f"|{V}| iterate({{0L, 0L}}, |s| {{{{s.$0 + {SUM}, s.$1 + 1L}}, s.$1 < 3L}}).$0", 2000000, 4),
    ("top in lookup", f"|{VW}| lookup(w, {SUM} % 1024L)", 2000000, 1),
    ("top in select", f"|{V}| select({SUM} > 3L, 1L, {SUM})", 2000000, 2),
    ("top in slice", f"|{VW}| len(slice(w, {SUM} % 1024L, 5L))", 2000000, 1),
    ("top in a struct", f"|{V}| {{{SUM}, 3L}}.$0", 2000000, 1),
    ("renamed", f"|{V}| result(for(v, merger[i64,+], |b, i, x| let c = b; merge(c, x * x + 1L)))", 4000000, 1),
    ("two builders", f"|{V}| let r = for(v, {{merger[i64,+], merger[i64,*]}}, |b, i, x| {{merge(b.$0, x), merge(b.$1, x)}}); result(r.$0) + result(r.$1)", 2000000, 1),
    ("lets 10", lets(10), 200000, 10),
    ("lets 100", lets(100), 20000, 100),
    ("lets 800", lets(800), 2000, 800),
    ("if of numbers", f"|{V}| result(for(v, merger[i64,+], |b, i, x| merge(b, if(x > 3L, x * 2L, x - 1L))))", 4000000, 1),
    ("select", f"|{V}| result(for(v, merger[i64,+], |b, i, x| merge(b, select(x > 3L, x * 2L, x - 1L))))", 4000000, 1),
    ("lookup", f"|{VW}| {LOOK}", 2000000, 1),
    ("len", f"|m: vec[vec[i64]]| result(for(m, merger[i64,+], |b, i, x| merge(b, len(x))))", 500000, 1),
    ("field outside", f"|{V}| let o = {{3L, 4L}}; result(for(v, merger[i64,+], |b, i, x| merge(b, x * o.$1)))", 4000000, 1),
    ("row to list", f"|{VW}| len(result(for(zip(v, w), vecbuilder[{{i64,i64}}], |b, i, x| merge(b, x))))", 2000000, 1),
    ("row to totals", f"|{VW}| result(for(zip(v, w), merger[{{i64,i64}},+], |b, i, x| merge(b, x))).$0", 2000000, 1),
    ("three to totals", f"|{VW}| result(for(zip(v, w), merger[{{i64,i64,i64}},+], |b, i, x| merge(b, {{x.$0, x.$1, 1L}}))).$0", 2000000, 1),
    ("guarded to totals", f"|{VW}| result(for(zip(v, w), merger[{{i64,i64}},+], |b, i, x| if(x.$0 > 3L, merge(b, x), b))).$0", 2000000, 1),
    ("row to dictionary", f"|{VW}| lookup(result(for(zip(v, w), dictmerger[i64,i64,+], |b, i, x| merge(b, {{x.$0 % 1024L, x.$1}}))), 5L)", 2000000, 1),
    ("vector a row", f"|{V}| len(result(for(v, vecbuilder[vec[i64]], |b, i, x| merge(b, [x, x + 1L]))))", 1000000, 1),
    ("string a row", f"|{V}| len(result(for(v, vecbuilder[vec[i8]], |b, i, x| merge(b, \"abcdef\"))))", 1000000, 1),
    ("struct a row", f"|{V}| len(result(for(v, vecbuilder[{{i64,i64}}], |b, i, x| merge(b, {{x, x + i}}))))", 2000000, 1),
]


def block(values):
    return "%value\n[" + ",".join(values) + "]\n"


def data(text, rows):
    """The blocks of the program's parameters: a small number for each row, and of a second vector as many where it is the other leg of
    a `zip`, else 2,000."""
    draw = random.Random(1)
    if "m: vec[vec[i64]]" in text:
        return block(f"[{draw.randrange(9)},{draw.randrange(9)}]" for _ in range(rows))
    made = block(str(draw.randrange(100000)) for _ in range(rows))
    if W in text:
        many = rows if "zip" in text else 2000
        made += block(str(draw.randrange(100000)) for _ in range(many))
    return made


def halvings(given):
    """How many turns the `iterate` takes for all rows."""
    count = 0
    for number in map(int, given[8:-2].split(",")):
        x = number % 10000 * 2 + 1
        count += 1
        while x != 1:
            x = x // 2 if x % 2 == 0 else x * 3 + 1
            count += 1
    return count


def best(program, job, rounds, cpu):
    least = None
    for _ in range(rounds):
        with open(job, "rb") as given:
            begun = time.perf_counter()
            ended = subprocess.run(["taskset", "-c", cpu, program, "run", "--workers", "1"], stdin=given, capture_output=True)
            took = time.perf_counter() - begun
        if ended.returncode:
            sys.exit(f"{job}: {ended.stdout[:200]}")
        least = took if least is None else min(least, took)
    return least


def main(words):
    rounds, cpu, names, program = 5, "0", None, f"{TOP}/crates/weld/out/weld"
    while words:
        word = words.pop(0)
        if word == "--rounds":
            rounds = int(words.pop(0))
        elif word == "--cpu":
            cpu = words.pop(0)
        elif word == "--names":
            names = words.pop(0).split(",")
        else:
            program = word
    with tempfile.TemporaryDirectory() as room:
        for name, text, rows, turns in FORMS:
            if names and name not in names:
                continue
            given = data(text, rows)
            head = text[: text.index("|", 1) + 1]
            for file, made in (("loop", text), ("read", f"{head} len({head[1]})")):
                with open(f"{room}/{file}.job", "w", encoding="ascii") as it:
                    it.write(f"{made}\n%%\n{given}")
            if not turns:
                turns = halvings(given) / rows
            took = best(program, f"{room}/loop.job", rounds, cpu) - best(program, f"{room}/read.job", rounds, cpu)
            print(f"{name:18} {took / rows / turns * 1e9:8.1f}", flush=True)


main(sys.argv[1:])
