#!/usr/bin/env python3
"""Lanes and workers under load: bench/turns.py PROGRAM [SECONDS]
Runs the program ct_counter with 1 to 16 lanes and 0 to 16 workers until the seconds are over, 60 without a number. Some
runs get no threads, some not all that they ask for; that needs cc and glibc. Each run has 60 seconds, and its journal
must be a merge of the lanes: the lines of each come in order, each line once, and each ends once, after it came. The
status is 1 where one isn't."""
import os
import random
import subprocess
import sys
import tempfile
import time

LIMIT = 60
SHIM = r"""
#define _GNU_SOURCE
#include <dlfcn.h>
#include <errno.h>
#include <pthread.h>
#include <stdlib.h>

static long calls;

/* Of every so many threads that are asked for one is made, and none at 0. */
int pthread_create(pthread_t *made, const pthread_attr_t *how, void *(*start)(void *), void *with) {
    static int (*create)(pthread_t *, const pthread_attr_t *, void *(*)(void *), void *);
    long every = atol(getenv("EVERY"));
    if (every == 0 || __atomic_add_fetch(&calls, 1, __ATOMIC_SEQ_CST) % every != 0) return EAGAIN;
    if (!create) create = dlsym(RTLD_NEXT, "pthread_create");
    return create(made, how, start, with);
}
"""


def fault(text, lanes, lines):
    """What is wrong with a journal, or None."""
    came, ended = [0] * lanes, set()
    for number, event in enumerate(text.splitlines(), 1):
        words = event.split()
        if words[0] == "came":
            lane, line = int(words[1]), int(words[2])
            if line != lane * lines + came[lane]:
                return f"event {number}: line {line} comes out of order"
            came[lane] += 1
        elif words[0] == "ended":
            line = int(words[1])
            if line in ended or line % lines >= came[line // lines]:
                return f"event {number}: line {line} ends twice, or before it came"
            ended.add(line)
        else:
            return f"event {number}: {event}"
    if came != [lines] * lanes or len(ended) != lanes * lines:
        return f"{sum(came)} lines came and {len(ended)} ended, of {lanes * lines}"
    return None


def run(program, lanes, workers, lines, env):
    """Runs the program, and judges its journal."""
    words = [program, str(lanes), str(workers), str(lines)]
    try:
        ended = subprocess.run(words, capture_output=True, text=True, env=env, check=False, timeout=LIMIT)
    except subprocess.TimeoutExpired:
        return f"not ended after {LIMIT} seconds"
    if ended.returncode != 0:
        return f"status {ended.returncode}"
    return fault(ended.stdout, lanes, lines)


def threads(folder):
    """The ways in which a run gets threads, with a name for each."""
    ways = [("all threads", {})]
    source, shim = os.path.join(folder, "few.c"), os.path.join(folder, "few.so")
    with open(source, "w", encoding="ascii") as file:
        file.write(SHIM)
    built = subprocess.run(["cc", "-shared", "-fPIC", "-o", shim, source, "-ldl"], check=False)
    if built.returncode == 0:
        ways.append(("no threads", {"LD_PRELOAD": shim, "EVERY": "0"}))
        ways.append(("every third thread", {"LD_PRELOAD": shim, "EVERY": "3"}))
    return ways


def main():
    program, seconds = sys.argv[1], float(sys.argv[2]) if len(sys.argv) > 2 else 60
    chance, until, runs, events, wrong = random.Random(1), time.monotonic() + seconds, {}, 0, 0
    with tempfile.TemporaryDirectory() as folder:
        ways = threads(folder)
        while time.monotonic() < until:
            name, env = chance.choice(ways)
            lanes, workers = chance.randint(1, 16), chance.choice([0, 1, 4, 16])
            lines = chance.choice([1, 8, 64, 512])
            found = run(program, lanes, workers, lines, env)
            if found:
                wrong += 1
                print(f"WRONG with {name}, {lanes} lanes, {workers} workers, {lines} lines: {found}")
            runs[name] = runs.get(name, 0) + 1
            events += 2 * lanes * lines
    for name, count in sorted(runs.items()):
        print(f"{name}: {count} runs")
    print(f"{events} events, {wrong} wrong journals")
    sys.exit(1 if wrong else 0)


if __name__ == "__main__":
    main()
