#!/usr/bin/env python3
"""Writes the inputs that docs/ARCHITECTURE.md has figures of into a folder: bench/inputs.py FOLDER
The number in a name counts what the input has most of. Each but `noise` is there with half of it, too."""
import os
import random
import sys

# standard data, and each VPD page
INQUIRIES = ["120000002400"] + [f"1201{page}00ff00" for page in ("00", "80", "83", "b0", "b2")]
HOSTS = 4
BLOCK = 512
MOST_COMMANDS = 16_384
# the limits of a unit: 256 commands at once, and 16 transfers of 256 blocks
DEPTH, POOL = 256, 4_096
# each host first takes its unit attention
HEAD = [f"lun 0 blocks 65536 depth {DEPTH} pool {POOL}", "port 0 a"]
HEAD += [f"map {host} 0 0 0" for host in range(HOSTS)]
HEAD += [f"cmd {host} 0 0 0 simple 000000000000" for host in range(HOSTS)] + ["sync"]


WRITES = {6: 0x0A, 10: 0x2A, 12: 0xAA, 16: 0x8A}
READS = {6: 0x08, 10: 0x28, 12: 0xA8, 16: 0x88}


def transfer(codes, size, lba, count):
    """The CDB of `size` bytes of a READ or WRITE of 1 to 256 blocks."""
    code = f"{codes[size]:02x}"
    if size == 6:
        return f"{code}{lba:06x}{count % 256:02x}00"
    if size == 10:
        return f"{code}00{lba:08x}00{count:04x}00"
    if size == 12:
        return f"{code}00{lba:08x}{count:08x}0000"
    return f"{code}00{lba:016x}{count:08x}0000"


def line(tag, cdb, data=None, attribute="simple"):
    words = f"cmd {tag % HOSTS} 0 0 {tag} {attribute} {cdb}"
    return words if data is None else f"{words} {data}"


def write(number, blocks, data, size=10):
    """A WRITE of its own 256 blocks; the 257th has those of the first."""
    return line(number, transfer(WRITES, size, number % 256 * 256, blocks), data)


def read_back(number, blocks, size=10):
    """A READ of what `write` wrote, with a tag of its own."""
    return line(number + MOST_COMMANDS, transfer(READS, size, number % 256 * 256, blocks))


def counted(blocks):
    """DATA of `blocks` blocks as one piece with a count."""
    return f"a5*{BLOCK * blocks}"


def random_pairs(blocks, between):
    return between.join(f"{random.randrange(256):02x}" for _ in range(BLOCK * blocks))


def drained(lines, every):
    """The lines with a drain behind every so many."""
    for at in range(0, len(lines), every):
        yield from lines[at:at + every]
        yield "drain 0"


def script(lines):
    return ("\n".join([*HEAD, *lines]) + "\n").encode()


def unmap(tag, ranges):
    """An UNMAP of these ranges, each an LBA and a count below 256."""
    descriptors = "".join(f".00*4.{lba:08x}.00*3.{count:02x}.00*4" for lba, count in ranges)
    length = 16 * len(ranges)
    return line(tag, f"42000000000000{length + 8:04x}00", f"{length + 6:04x}{length:04x}00000000{descriptors}")


def mixed(tag):
    """A command on few blocks of a small part of the disk, of any kind that moves blocks."""
    lba, count, byte = random.randrange(40), random.randrange(1, 9), random.choice(("00", "a5"))
    kind = random.choice(("read", "write", "write and verify", "look", "compare", "compare and write", "same", "unmap"))
    if kind == "unmap":
        return unmap(tag, [(16 * k + lba // 3, random.randrange(4)) for k in random.sample(range(3), 3)])
    if kind == "compare and write":
        return line(tag, f"8900{lba:016x}000000{count:02x}0000", f"{byte}*{BLOCK * count}.5a*{BLOCK * count}")
    code, data = {
        "read": ("2800", None),
        "write": ("2a00", f"{byte}*{BLOCK * count}"),
        "write and verify": ("2e00", f"{byte}*{BLOCK * count}"),
        "look": ("2f00", None),
        "compare": ("2f02", f"{byte}*{BLOCK * count}"),
        "same": ("4100", f"{byte}*{BLOCK}"),
    }[kind]
    return line(tag, f"{code}{lba:08x}00{count:04x}00", data, random.choice(("simple",) * 8 + ("ordered", "head")))


def mixed_script(commands):
    """Commands of all kinds that move blocks, and steps of them in between."""
    lines = []
    for k in range(commands):
        lines.append(mixed(k))
        came = k + 1 + HOSTS
        lines += [f"step 0 {random.randrange(max(1, came - 32), came + 1)} {random.randrange(1, 5)}" for _ in range(2)]
        if k % 32 == 31:
            lines.append("drain 0")
    return script(lines)


def stepped(steps):
    """Writes that move a block a step: 16 at once, in turn."""
    lines, came = [], HOSTS
    for batch in range(steps // POOL):
        lines += [write(16 * batch + k, 256, counted(256)) for k in range(16)]
        lines += [f"step 0 {came + 1 + k % 16} 1" for k in range(POOL)]
        came += 16
    return script(lines)


def reads_as_text(reads):
    """Blocks of random bytes, and READs of 256 of them: three characters a byte are printed."""
    same = [line(k, f"4100{k * 256:08x}00{256:04x}00", random_pairs(1, "")) for k in range(4)]
    return script(same + ["sync"] + list(drained([read_back(k % 4, 256) for k in range(reads)], 4)))


def inputs():
    random.seed(1)
    yield "noise", random.randbytes(8 << 20)
    # all of the data-out that a script may have
    for commands in (512, 1_024):
        yield f"counted-{commands}", script(drained([write(k, 256, counted(256)) for k in range(commands)], 16))
    for commands in (15, 30):
        yield f"pairs-{commands}", script(drained([write(k, 256, random_pairs(256, "")) for k in range(commands)], 15))
    for commands in (10, 20):
        writes = [write(k, 256, random_pairs(256, ".")) for k in range(commands)]
        yield f"pieces-{commands}", script(drained(writes, 10))
    for commands in (15, 30):
        writes = [write(k, 256, random_pairs(256, "")) for k in range(commands)]
        yield f"reads-{commands}", script(drained(writes + [read_back(k, 256) for k in range(commands)], 15))
    for commands in (15, 30):
        sizes = [(6, 10, 12, 16)[k % 4] for k in range(commands)]
        writes = [write(k, 256, random_pairs(256, ""), size) for k, size in enumerate(sizes)]
        reads = [read_back(k, 256, size) for k, size in enumerate(sizes)]
        yield f"forms-{commands}", script(drained(writes + reads, 15))
    # all of the data-in that a script may have
    for reads in (510, 1_020):
        yield f"texts-{reads}", reads_as_text(reads)
    for commands in (8_190, 16_380):
        asked = [line(k, INQUIRIES[k % len(INQUIRIES)]) for k in range(commands)]
        yield f"inquiries-{commands}", script(drained(asked, DEPTH))
    for commands in (8_190, 16_380):
        reads = [line(k, transfer(READS, 10, 7 * k % 65_536, 1)) for k in range(commands)]
        yield f"single-{commands}", script(drained(reads, DEPTH))
    # each waits for the one before it
    for commands in (2_048, 4_096):
        writes = [line(k, transfer(WRITES, 10, 8, 1), counted(1)) for k in range(commands)]
        yield f"chain-{commands}", script(drained(writes, DEPTH))
    # each goes ahead of all that wait
    for commands in (2_048, 4_096):
        heads = [line(k, transfer(WRITES, 10, 8, 1), counted(1), "head") for k in range(commands)]
        yield f"heads-{commands}", script(drained(heads, DEPTH))
    for steps in (16_384, 32_768, 61_440):
        yield f"steps-{steps}", stepped(steps)
    # all wait in one task set: their ranges lie between one another, and no two share a block
    for commands in (64, 2_048, 4_096):
        unmaps = [unmap(k, [(256 * j + k % DEPTH, 1) for j in range(64)]) for k in range(commands)]
        yield f"unmaps-{commands}", script(drained(unmaps, DEPTH))
    for commands in (8_000, 16_000):
        yield f"mixed-{commands}", mixed_script(commands)


def main():
    folder = sys.argv[1]
    os.makedirs(folder, exist_ok=True)
    for name, content in inputs():
        with open(os.path.join(folder, name + ".script"), "wb") as file:
            file.write(content)


main()
