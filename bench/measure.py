#!/usr/bin/env python3
"""Measures the built program beside plain programs that do the same: bench/measure.py [--names A,B] [--rounds N] [--cpus 0,1] [LABEL=PROGRAM]..

Without a program it takes crates/weld/out/weld. rustc -O builds bench/plain.rs, which makes the jobs (50 to 60 MB each, in a
temporary folder or where BENCH says) and is itself the plain program of each. For every job it tells wall, user and system
seconds and the most resident memory of the best of N rounds, and whether all programs wrote the same. WORDS holds further words
for the programs, as '--workers 1'. It asserts nothing."""
import os
import subprocess
import sys
import tempfile
import time

TOP = os.path.dirname(os.path.dirname(os.path.abspath(__file__)))


def run(command, job, cpus):
    begun = time.time()
    with open(job) as given:
        on = (lambda: os.sched_setaffinity(0, cpus)) if cpus else None
        program = subprocess.Popen(command, stdin=given, stdout=subprocess.PIPE, preexec_fn=on)
        wrote = program.stdout.read()
        _, status, used = os.wait4(program.pid, 0)
    return time.time() - begun, used.ru_utime, used.ru_stime, used.ru_maxrss // 1024, (wrote, status)


def main(words):
    names, rounds, cpus, programs = None, 3, None, []
    while words:
        word = words.pop(0)
        if word == "--names":
            names = words.pop(0).split(",")
        elif word == "--rounds":
            rounds = int(words.pop(0))
        elif word == "--cpus":
            cpus = {int(it) for it in words.pop(0).split(",")}
        else:
            programs.append(word.split("=", 1))
    with tempfile.TemporaryDirectory() as room:
        jobs = os.environ.get("BENCH") or room
        plain = f"{room}/plain"
        subprocess.run(["rustc", "-O", f"{TOP}/bench/plain.rs", "-o", plain], check=True)
        names = names or subprocess.run([plain, "names"], check=True, capture_output=True, text=True).stdout.split()
        for name in names:
            job = f"{jobs}/{name}.job"
            if not os.path.exists(job):
                with open(job, "wb") as it:
                    subprocess.run([plain, "make", name], check=True, stdout=it)
            told, wrote, base = [], [], None
            more = os.environ.get("WORDS", "").split()
            for label, program in [("plain", plain), *(programs or [("weld", f"{TOP}/crates/weld/out/weld")])]:
                command = [plain, "run", name] if label == "plain" else [program, "run", *more]
                best = min((run(command, job, cpus) for _ in range(rounds)), key=lambda it: it[0])
                base = base or best[0]
                wrote.append(best[4])
                told.append(f"{label} {best[0]:.2f} wall {best[1]:.2f} user {best[2]:.2f} system {best[3]} MB (x{best[0] / base:.2f})")
            print(f"{name:9} {' | '.join(told)}{'' if all(it == wrote[0] for it in wrote) else ': THEY WROTE DIFFERENT ANSWERS'}", flush=True)
            if jobs == room:
                os.remove(job)


main(sys.argv[1:])
