#!/usr/bin/env python3
"""Measures a program beside the plain one: bench/measure.py [--plain PROGRAM] FOLDER PROGRAM WORD ..
First the two must end alike on each input of the folder: the same bytes on standard output, the same status. Then a
line for each input has, of both, the least processor time of five runs, the most memory and the instructions, where
perf or valgrind counts them, with their ratios. `most` is the memory that the sizes of the input allow: script,
data-out, data-in, disk and report, and a quarter. Last comes what twice the work costs, where an input is there with
half its number.
With no --plain, bench/plain.rs is built by rustc -O."""
import os
import re
import resource
import shutil
import subprocess
import sys
import tempfile

RUNS = 5


def ended(words, script):
    """What a program writes on standard output, and its status."""
    with open(script, "rb") as file:
        run = subprocess.run(words, stdin=file, stdout=subprocess.PIPE, stderr=subprocess.DEVNULL, check=False)
    return run.stdout, run.returncode


def measured(words, script):
    """Processor seconds and kilobytes of memory of one run, by a process whose only child it is."""
    reader, writer = os.pipe()
    child = os.fork()
    if child == 0:
        with open(script, "rb") as file:
            subprocess.run(words, stdin=file, stdout=subprocess.DEVNULL, stderr=subprocess.DEVNULL, check=False)
        used = resource.getrusage(resource.RUSAGE_CHILDREN)
        os.write(writer, f"{used.ru_utime + used.ru_stime} {used.ru_maxrss}".encode())
        os._exit(0)
    os.close(writer)
    os.waitpid(child, 0)
    seconds, kilobytes = os.read(reader, 100).split()
    os.close(reader)
    return float(seconds), int(kilobytes)


PERF = ["perf", "stat", "-x", ",", "-e", "instructions:u"]
VALGRIND = ["valgrind", "--tool=callgrind", "--callgrind-out-file=/dev/null"]


def instructions(words, script):
    """The instructions of a run, or None where nothing counts them."""
    for tool, count in ((PERF, rb"^(\d+),,instructions"), (VALGRIND, rb"Collected : (\d+)")):
        if shutil.which(tool[0]):
            with open(script, "rb") as file:
                run = subprocess.run(
                    tool + words, stdin=file, stdout=subprocess.DEVNULL, stderr=subprocess.PIPE, check=False)
            found = re.search(count, run.stderr, re.MULTILINE)
            if found:
                return int(found[1])
    return None


def data_in(report):
    """The bytes of data-in that a report prints."""
    end = report.find(b"\ndisk ") if b"\ndisk " in report else len(report)
    repeats = sum(int(count[1]) - 1 for count in re.compile(rb"\*(\d+)").finditer(report, 0, end))
    return report.count(b" data ", 0, end) + report.count(b".", 0, end) + repeats


def allowed_memory(script, report_and_data):
    """Script, data-out, disk, report and data-in in kilobytes, and a quarter of it."""
    with open(script, "rb") as file:
        text = file.read()
    data = re.findall(rb"^cmd(?: \S+){6} (\S+)$", text, re.MULTILINE)
    digits = sum(len(re.sub(rb"\*\d+|\.", b"", piece)) for piece in data)
    repeats = sum(int(count) - 1 for piece in data for count in re.findall(rb"\*(\d+)", piece))
    blocks = re.match(rb"lun 0 blocks (\d+)", text)
    disk = 512 * int(blocks[1]) if blocks else 0
    return (len(text) + digits // 2 + repeats + disk + report_and_data) * 5 // 4 // 1024


def figures(words, script):
    runs = [measured(words, script) for _ in range(RUNS)]
    return min(seconds for seconds, _ in runs), max(kilobytes for _, kilobytes in runs), instructions(words, script)


def in_millions(count):
    return "-" if count is None else f"{count / 1e6:.1f}"


def ratio(one, other):
    return f"{one / other:.2f}" if one and other else "-"


def measure(folder, program, plain):
    scripts = [os.path.join(folder, name) for name in sorted(os.listdir(folder))]
    lengths, data = {}, {}
    for script in scripts:
        report, status = ended(program, script)
        if (report, status) != ended(plain, script):
            sys.exit(f"{script}: the two programs end differently")
        # (a report that is kept would count in the memory of each later run)
        lengths[script], data[script] = len(report), data_in(report)
        del report
    print(f"{len(scripts)} inputs: the two programs end alike on each")
    row = "{:16} {:>9} {:>9} {:>7} {:>7} {:>5} {:>7} {:>7} {:>7} {:>8} {:>8} {:>5}"
    print(row.format(
        "input", "script", "report", "s", "plain", "ratio", "kB", "plain", "most", "M instr", "plain", "ratio"))
    measured_at = {}
    for script in scripts:
        name = os.path.basename(script).removesuffix(".script")
        seconds, kilobytes, count = figures(program, script)
        plain_seconds, plain_kilobytes, plain_count = figures(plain, script)
        measured_at[name] = seconds, count
        print(row.format(
            name, os.path.getsize(script), lengths[script], f"{seconds:.3f}", f"{plain_seconds:.3f}",
            ratio(seconds, plain_seconds), kilobytes, plain_kilobytes,
            allowed_memory(script, lengths[script] + data[script]), in_millions(count), in_millions(plain_count),
            ratio(count, plain_count)), flush=True)
    print_doubled(measured_at)


def print_doubled(measured_at):
    """How many times the time and the instructions of half the work an input takes."""
    print("{:16} {:>7} {:>7}".format("twice the work", "s", "instr"))
    for name, (seconds, count) in measured_at.items():
        kind, _, number = name.rpartition("-")
        half = f"{kind}-{int(number) // 2}" if number.isdigit() else ""
        if half in measured_at:
            print("{:16} {:>7} {:>7}".format(
                name, ratio(seconds, measured_at[half][0]), ratio(count, measured_at[half][1])), flush=True)


def main():
    words = sys.argv[1:]
    given = words[:1] == ["--plain"]
    if len(words) < 2 + 2 * given:
        sys.exit(__doc__)
    if given:
        return measure(words[2], words[3:], [words[1]])
    with tempfile.TemporaryDirectory() as room:
        plain = os.path.join(room, "plain")
        source = os.path.join(os.path.dirname(os.path.abspath(__file__)), "plain.rs")
        subprocess.run(["rustc", "-O", "-o", plain, source], check=True)
        measure(words[0], words[1:], [plain])


main()
