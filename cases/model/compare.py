#!/usr/bin/env python3
"""Changes the texts of the cases at random, and compares what the program and the model answer to them.

    cases/model/compare.py WELD SEED COUNT      WELD is the built program, as crates/weld/out/weld

A text is changed token by token: left out, doubled, moved, or taken from another text. Jobs that the model can't
read (data that don't fit, which it doesn't know) are counted and left out. The gate doesn't run this.
"""
import glob
import os
import random
import re
import subprocess
import sys

import weld_model

TOKEN = re.compile(rb'[A-Za-z_][A-Za-z_0-9]*|[0-9]+L?|\$[0-9]+|"[^"]*"|\|\||&&|==|!=|<=|>=|\s+|.', re.S)
LINE = b"\n%%"


def jobs():
    here = os.path.dirname(os.path.abspath(__file__))
    found = []
    for file in sorted(glob.glob(f"{here}/../*/*.job") + glob.glob(f"{here}/../../examples/*.job")):
        with open(file, "rb") as opened:
            found.append(opened.read())
    for file in sorted(glob.glob(f"{here}/../*.cases")):
        with open(file, "rb") as opened:
            rows = re.split(rb"(?m)^### (?!answer$)\w+\n", opened.read())
        rows = [it.partition(b"### answer")[0] for it in rows if not re.search(rb"(?m)^### words: (session|soak)", it)]
        found += [re.sub(rb"(?m)^### .*\n", b"", it) for it in rows]
    return [it for it in found if len(it) < 1500]


def changed(pick, job, texts, pool):
    text, line, data = job.partition(LINE)
    tokens = TOKEN.findall(text)
    for _ in range(pick.choice([0, 1, 1, 1, 2, 3])):
        if not tokens:
            break
        at, how = pick.randrange(len(tokens)), pick.randrange(7)
        if how == 0:
            del tokens[at]
        elif how == 1:
            tokens.insert(at, pick.choice(pool))
        elif how == 2:
            tokens[at] = pick.choice(pool)
        elif how == 3:
            other = pick.randrange(len(tokens))
            tokens[at], tokens[other] = tokens[other], tokens[at]
        elif how == 4:
            tokens[at] = pick.choice(tokens)
        elif how == 5:
            tokens.insert(at, tokens[at])
        else:
            more = TOKEN.findall(pick.choice(texts))
            if more:
                start = pick.randrange(len(more))
                tokens[at:at + 1] = more[start:start + pick.randrange(1, 12)]
    return b"".join(tokens) + line + data


def main(weld, seed, count):
    pick = random.Random(int(seed))
    all_jobs = list(jobs())
    texts = [job.partition(LINE)[0] for job in all_jobs]
    pool = [token for text in texts for token in TOKEN.findall(text) if not token.isspace()]
    differ = left_out = 0
    for _ in range(int(count)):
        job, word = changed(pick, pick.choice(all_jobs), texts, pool), pick.choice(["run", "check"])
        try:
            wanted = weld_model.answer(job, word).encode("latin-1") + b"\n"
        except Exception:
            left_out += 1
            continue
        ran = subprocess.run([weld, word], input=job, capture_output=True, timeout=60)
        if ran.stdout != wanted and ran.returncode != 4:
            differ += 1
            print("differ:", word, job, ran.returncode, ran.stdout, wanted)
    print(f"{count} jobs, {differ} differ, {left_out} left out")
    return differ


if __name__ == "__main__":
    sys.setrecursionlimit(100000)
    sys.exit(main(*sys.argv[1:]) != 0)
