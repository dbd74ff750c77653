#!/usr/bin/env python3
"""Plays random scripts with a program and with the plain one, and compares reports, statuses and what they say:
bench/random_scripts.py [--plain PROGRAM] [--without WORD,..] N SEED [PROGRAM WORD ..]
The N scripts are those of the numbers SEED, SEED + 1, .. . A script on which the two differ is made shorter, line by
line, as long as they differ, and is printed. With no --plain, bench/plain.rs is built by rustc -O. With no PROGRAM, it
is the one that the gate leaves. WORD of --without is what a program can't do yet: attributes, limits, modifier."""
import argparse
import os
import random
import subprocess
import sys
import tempfile

BENCH = os.path.dirname(os.path.abspath(__file__))
GATE = os.path.join(BENCH, "..", "crates", "ctltarget", "out", "ctltarget")
BLOCK = 512


def chance(one_in):
    return random.randrange(one_in) == 0


def big_endian(value, size):
    return value.to_bytes(size, "big")


def byte_text(data):
    """The bytes as a byte text, in one of its forms."""
    form = random.randrange(8)
    if len(data) <= 40 and form == 0:
        return data.hex().upper()
    if len(data) <= 40 and form == 1:
        return data.hex()
    pieces, at = [], 0
    while at < len(data):
        end = at + 1
        while end < len(data) and data[end] == data[at]:
            end += 1
        pieces.append(f"{data[at]:02x}" if end == at + 1 else f"{data[at]:02x}*{end - at}")
        at = end
    return ".".join(pieces)


class Maker:
    """Makes one script: a disk, hosts, and how often what comes."""

    def __init__(self, without):
        self.without = without
        self.blocks = random.choice((1, 2, 5, 16, 16, 40, 40, 40, 64, 300, 65_536))
        self.hosts = random.sample(range(16), random.choice((1, 2, 2, 3, 4)))
        # (without limits of its own a unit never is busy)
        self.largest = random.choice((2, 4, 8, 8) if "limits" in without else (2, 4, 8, 8, 20, 256))
        self.bytes = random.choice((b"\x00", b"\x00\xa5", b"\x00\x01\x02"))
        self.attributes = ["simple"] if "attributes" in without else random.choice(
            (["simple"], ["simple"] * 6 + ["ordered", "head"], ["simple", "ordered", "head"]))
        self.tags = random.choice((12, 100, 4_294_967_296, 4_294_967_296))
        self.kinds = random.choice((
            [(self.transfer, 10), (self.unmap, 2), (self.inquiry, 1)],
            [(self.transfer, 6), (self.unmap, 1), (self.mode, 3), (self.still, 2)],
            [(self.transfer, 4), (self.reserve, 6), (self.still, 1), (self.mode, 1)],
            [(self.transfer, 6), (self.unmap, 2), (self.mode, 1), (self.reserve, 2), (self.still, 2)],
            [(self.unmap, 4), (self.transfer, 3), (self.mode, 1)],
        ))
        self.came = 0
        self.depth = 64 if "limits" in without or chance(4) else random.choice((1, 2, 3, 5, 8, 64, 256))
        self.pool = random.choice((1, 2, 4, 9, 20, 64, 1_024, 4_096))
        # how fast what came is done
        self.steps, self.drains = random.choice(((1, 30), (3, 40), (2, 200), (0, 12), (4, 400)))
        self.drains = min(self.drains, 2 * self.depth)
        self.functions = 1 << 30 if "functions" in without else random.choice((4, 10, 30, 1 << 30))

        self.kind = random.choice((1, 3, 5, 6, 7, 8))
        self.host = self.hosts[0]

    def block(self):
        return bytes([random.choice(self.bytes)]) * BLOCK

    def data(self, blocks):
        """Data-out of so many blocks: like ones, different ones, or one byte of them different."""
        data = self.block() * blocks if chance(2) else b"".join(self.block() for _ in range(blocks))
        if data and chance(6):
            at = random.randrange(len(data))
            data = data[:at] + b"\x77" + data[at + 1:]
        return data

    def place(self, most):
        """An LBA and a count, mostly on the disk."""
        count = random.randrange(min(self.largest, most, self.blocks) + 1)
        last = self.blocks - count
        if chance(12):
            return last + (chance(3)), count
        lba = random.randrange(min(last, 64) + 1)
        return lba, count

    def transfer(self):
        code = random.choice((
            0x08, 0x28, 0xA8, 0x88, 0x28, 0x0A, 0x2A, 0xAA, 0x8A, 0x2A, 0x2E, 0x8E, 0x2F, 0xAF, 0x8F, 0x89, 0x89, 0x41,
            0x93))
        flags, compares = random.choice((0, 0, 0, 0x10, 0x08)), False
        most = {0x89: 128}.get(code, 256)
        lba, count = self.place(most)
        if code in (0x2F, 0xAF, 0x8F):
            compares = chance(2)
            flags |= 2 if compares else 0
        if code in (0x41, 0x93):
            count, flags = max(1, count), flags & 0x08
        if chance(40):
            count = random.choice((0, most + 1, 65_535) if "limits" in self.without else (0, most, most + 1, 65_535))
        if code in (0x08, 0x0A):
            count = count % 256 or ("limits" in self.without) or 256
            cdb = bytes([code]) + big_endian(lba % (1 << 21), 3) + bytes([count % 256, 0])
        elif code == 0x89:
            cdb = bytes([code, flags]) + big_endian(lba, 8) + bytes([0, 0, 0, count % 256, 0, 0])
            count = count % 256
        elif code >> 5 in (1, 2):
            cdb = bytes([code, flags]) + big_endian(lba, 4) + b"\x00" + big_endian(count, 2) + b"\x00"
        elif code >> 5 == 5:
            cdb = bytes([code, flags]) + big_endian(lba, 4) + big_endian(count, 4) + b"\x00\x00"
        else:
            if chance(60):
                lba = random.choice((1 << 32, (1 << 64) - 1, (1 << 63) + 1))
            cdb = bytes([code, flags]) + big_endian(lba, 8) + big_endian(count, 4) + b"\x00\x00"
        if code in (0x41, 0x93):
            return cdb, self.block()
        if code in (0x0A, 0x2A, 0xAA, 0x8A, 0x2E, 0x8E) or compares:
            return cdb, self.data(min(count, 256))
        if code == 0x89:
            return cdb, self.data(min(count, 128)) + self.data(min(count, 128))
        return cdb, None

    def unmap(self):
        ranges, lba = [], random.randrange(min(self.blocks, 30) + 1)
        for _ in range(random.choice((0, 1, 1, 2, 3, 5, 64))):
            count = random.randrange(random.choice((2, 4, 9)))
            if lba + count > self.blocks and not chance(30):
                break
            ranges.append((lba, count))
            # behind it, right behind it or, rarely, on it
            lba += count + random.choice((0, 0, 1, 2)) if not chance(25) else 0
        random.shuffle(ranges)
        descriptors = b"".join(big_endian(first, 8) + big_endian(count, 4) + bytes(4) for first, count in ranges)
        length = len(descriptors)
        if chance(15):
            length = random.choice((0, max(0, length - 1), max(0, length - 16), length + 16, 1_024, 1_025))
        header = big_endian(length + 6 if not chance(30) else length, 2) + big_endian(length, 2) + bytes(4)
        data = header + descriptors
        asked = len(data)
        if chance(15):
            asked = random.choice((0, 4, 7, 8, max(0, asked - 1), max(0, asked - 16), asked + 1))
        if chance(20):
            data += bytes(random.randrange(40))
        return b"\x42" + bytes([chance(60)]) + bytes(5) + big_endian(asked, 2) + b"\x00", data

    def mode(self):
        if chance(3):
            page, subpage = random.choice(((8, 0), (0x0A, 0), (0x3F, 0), (0x3F, 0xFF), (0x0A, 0), (8, 0xFF), (0x1C, 0)))
            controls = (0, 0, 2, 3) if "modifier" in self.without else (0, 0, 1, 2, 3)
            page |= random.choice(controls) << 6
            allocation = random.choice((255, 255, 4, 0, random.randrange(70)))
            if chance(2):
                return bytes([0x1A, 8 * chance(3), page, subpage, allocation, 0]), None
            return bytes([0x5A, 8 * chance(3), page, subpage, 0, 0, 0, 0, allocation, 0]), None
        pages = []
        if chance(3):
            pages.append(bytes([0x08, 0x12, random.choice((0, 4))]) + bytes(17))
        if not chance(4):
            modifiers = (0,) if "modifier" in self.without else (0, 0x10)
            pages.append(bytes([0x0A, 0x0A, random.choice((0, 0, 4)), random.choice(modifiers),
                                random.choice((0, 0, 0, 8)), random.choice((0, 0x40))]) + bytes(6))
        random.shuffle(pages)
        if chance(25):
            pages += pages[:1]
        long = chance(2)
        descriptor = b"" if chance(2) else big_endian(random.choice((0, self.blocks)), 4) + big_endian(BLOCK, 4)
        head = bytes(6) + big_endian(len(descriptor), 2) if long else bytes([0, 0, 0, len(descriptor)])
        data = bytearray(head + descriptor + b"".join(pages))
        if data and chance(15):
            # (not the modifier, where it isn't there)
            keeps = "modifier" in self.without
            allowed = [at for at in range(len(data)) if not keeps or data[at - 3:at - 1] != b"\x0a\x0a"]
            if allowed:
                data[random.choice(allowed)] ^= 1 << random.randrange(8)
        asked = len(data)
        if chance(12):
            asked = random.randrange(len(data) + 2)
        flags = 0x10 | chance(60)
        if long:
            return bytes([0x55, flags, 0, 0, 0, 0, 0]) + big_endian(asked, 2) + b"\x00", bytes(data)
        return bytes([0x15, flags, 0, 0, asked, 0]), bytes(data)

    def reserve(self):
        if chance(4):
            action = random.choice((0, 1, 2, 3, 3, 4))
            allocation = random.choice((65_535, 65_535, random.randrange(60)))
            return bytes([0x5E, action, 0, 0, 0, 0, 0]) + big_endian(allocation, 2) + b"\x00", None
        action = random.choice((0, 0, 0, 6, 6, 6, 1, 2, 2, 3, 4, 5, 5, 5, 7 if chance(20) else 0))
        kind = self.kind if chance(2) else random.choice((1, 3, 5, 6, 7, 8))
        if chance(40):
            kind = random.randrange(256)
        # (a host mostly has one key, that others may have too)
        key = random.randrange(3) if chance(4) else self.host % 2 + 1
        service_key = random.randrange(3) if action in (4, 5) or chance(8) else self.host % 2 + 1
        if action == 0 and chance(2):
            key = 0
        data = bytearray(big_endian(key, 8) + big_endian(service_key, 8) + bytes(8))
        asked = 24
        if chance(40):
            data[random.choice((20, 16, 23))] = 1
        if chance(40):
            asked = random.choice((0, 23, 25, 8))
        return bytes([0x5F, action, kind, 0, 0]) + big_endian(asked, 4) + b"\x00", bytes(data)

    def still(self):
        """What moves no blocks: ready, sense, capacity, cache, start and stop, and bytes that are no command."""
        kind = random.randrange(9)
        if kind == 0:
            return bytes([0x1B, 0, 0, 0, random.choice((0, 1, 1, 1, 2)), 0]), None
        if kind == 1:
            return bytes([0x03, random.randrange(2), 0, 0, random.choice((252, 18, 8, 3, 0)), 0]), None
        if kind == 2:
            return bytes([0x25]) + bytes(9), None
        if kind == 3:
            action = random.choice((0x10, 0x10, 0x10, 0x11))
            return bytes([0x9E, action]) + bytes(8) + big_endian(random.choice((32, 12, 0, 255)), 4) + bytes(2), None
        lba, count = self.place(256)
        if kind == 4:
            return bytes([0x35, 0]) + big_endian(lba, 4) + b"\x00" + big_endian(count, 2) + b"\x00", None
        if kind == 5:
            return bytes([0x91, 0]) + big_endian(lba, 8) + big_endian(count, 4) + bytes(2), None
        if kind == 6 and chance(3):
            return bytes(random.randrange(256) for _ in range(random.choice((1, 6, 10, 12, 16, 32)))), None
        return bytes(6), None

    def inquiry(self):
        allocation = random.choice((255, 36, 5, 0))
        if chance(4):
            return bytes([0xA0, 0, random.choice((0, 1, 2, 3)), 0, 0, 0]) + big_endian(allocation, 4) + bytes(2), None
        page = random.choice((0x00, 0x80, 0x83, 0xB0, 0xB2, 0x81))
        if chance(2):
            return bytes([0x12, 1, page]) + big_endian(allocation, 2) + b"\x00", None
        return bytes([0x12, 0, page if chance(9) else 0]) + big_endian(allocation, 2) + b"\x00", None

    def command(self):
        self.host = random.choice(self.hosts)
        makers, weights = zip(*self.kinds)
        cdb, data = random.choices(makers, weights)[0]()
        cdb = bytearray(cdb)
        if chance(40):
            cdb[random.randrange(1, len(cdb)) if len(cdb) > 1 else 0] ^= 1 << random.randrange(8)
        if chance(100):
            cdb = cdb[:-1] if len(cdb) > 1 and chance(2) else cdb + b"\x00"
        if data is not None and chance(25):
            data = data[:random.randrange(len(data) + 1)] if chance(2) else data + bytes(random.randrange(1_000))
        self.came += 1
        attribute = random.choice(self.attributes)
        words = f"cmd {self.host} 0 0 {random.randrange(self.tags)} {attribute} {byte_text(bytes(cdb))}"
        return f"{words} {byte_text(data)}" if data else words

    def task(self):
        host, tag = random.choice(self.hosts), random.randrange(self.tags)
        self.came += 1
        name = random.choice((
            f"abort-task {tag}", f"abort-task {tag}", f"query-task {tag}", "abort-task-set", "clear-task-set",
            "clear-task-set", "lun-reset", "nexus-reset", "query-task-set", "clear-aca"))
        return f"task {host} 0 0 {name}"

    def step(self):
        number = random.randrange(max(0, self.came - random.choice((3, 10, 100))), self.came + 2)
        return f"step 0 {number} {random.choice((1, 1, 2, 3, 5, 100))}"

    def declaration(self):
        words = f"lun 0 blocks {self.blocks}"
        if "limits" in self.without or self.depth == 64 and chance(2):
            return words
        return f"{words} depth {self.depth} pool {self.pool}"

    def script(self):
        lines = [self.declaration(), "port 0 a"] + [f"map {host} 0 0 0" for host in self.hosts]
        if not chance(5):
            self.came += len(self.hosts)
            for host in self.hosts:
                lines += [f"cmd {host} 0 0 0 simple 000000000000"] + ["sync"] * (self.depth < 4)
            lines.append("sync")
        most = random.choice((5, 20, 50) if "limits" in self.without else (5, 20, 50, 100, 300))
        while self.came < most:
            lines.append(self.task() if chance(self.functions) else self.command())
            while random.randrange(1 + self.steps):
                lines.append(self.step())
            if chance(self.drains):
                lines.append(random.choice(("drain 0", "sync")))
        text = "".join(line + "\n" for line in lines)
        return damaged(text) if chance(20) else text.encode()


def damaged(text):
    """The script with a line changed: mostly one that no grammar has, or that stands at a wrong place."""
    lines = text.encode().split(b"\n")
    at = random.randrange(len(lines))
    line = bytearray(lines[at])
    kind = random.randrange(6)
    if kind == 0 and line:
        line[random.randrange(len(line))] = random.choice(b" 09*.azx\xff\r")
    elif kind == 1:
        line[random.randrange(len(line) + 1):0] = random.choice((b" ", b"0", b"*", b".", b"00*0", b"-", b"\r", b"#"))
    elif kind == 2 and line:
        del line[random.randrange(len(line))]
    elif kind == 3:
        line = random.choice((
            b"", b"lun 0 blocks 0", b"lun 0 blocks 65537", b"lun 0 blocks 16", b"port 0 a", b"port 0 b", b"map 0 0 0 0",
            b"lun 0 blocks 16 depth 257 pool 1", b"lun 0 blocks 16 depth 1 pool 4097", b"lun 0 blocks 16 depth 2",
            b"sync 0", b"map 16 0 0 0", b"drain 1", b"drain 0", b"step 0 1 0", b"step 0 1 65537",
            b"step 0 4294967296 1", b"task 0 0 0 abort-task", b"task 0 0 0 lun-reset 1", b"task 9 0 0 clear-aca",
            b"task 0 0 0 target-reset", b"task 0 0 0 query-task 4294967296", b"task 0 0 1 lun-reset",
            b"cmd 0 0 0 1 simple", b"cmd 0 0 0 1 aca 00*6", b"cmd 0 0 0 1 simple 00*33",
            b"cmd 0 0 0 1 simple 00*6 00*131073", b"cmd 0 0 0 1 simple 00*6 00*99999999999999999999",
            b"cmd 15 0 0 01 simple 00*6", b"cmd 0 0 0 1 simple 00*6 00*131072.00", b"cmd 0 0 0 1 simple 00*6 "))
    elif kind == 4:
        lines.insert(random.randrange(len(lines)), lines[at])
    else:
        return b"\n".join(lines)[:-1]
    lines[at] = bytes(line)
    return b"\n".join(lines)


def ended(words, script):
    """What a program writes, and how it ends."""
    try:
        run = subprocess.run(
            words, input=script, stdout=subprocess.PIPE, stderr=subprocess.PIPE, timeout=60, check=False)
    except subprocess.TimeoutExpired:
        return "it didn't end in 60 seconds"
    return run.stdout, run.stderr, run.returncode


def shorter(script, differs):
    """The script without the lines that it needs not, so that it differs still."""
    lines = script.splitlines(keepends=True)
    size = max(1, len(lines) // 2)
    while True:
        at, dropped = 0, False
        while at < len(lines):
            left = lines[:at] + lines[at + size:]
            if differs(b"".join(left)):
                lines, dropped = left, True
            else:
                at += size
        if size == 1 and not dropped:
            return b"".join(lines)
        size = max(1, size // 2)


def show(words, end):
    print(f"-- {' '.join(words)}")
    if isinstance(end, str):
        print(end)
    else:
        print(end[0].decode(errors="replace") + end[1].decode(errors="replace") + f"status {end[2]}")


def tried(count, seed, program, plain, without):
    differing = 0
    for number in range(seed, seed + count):
        random.seed(number)
        script = Maker(without).script()
        differs = lambda text: ended(program, text) != ended(plain, text)
        if differs(script):
            differing += 1
            least = shorter(script, differs)
            print(f"== script {number}: they differ on")
            print(least.decode(errors="replace"))
            show(program, ended(program, least))
            show(plain, ended(plain, least))
            sys.stdout.flush()
    print(f"{count} scripts from {seed} on: the two differ on {differing}")
    return differing


def main():
    words = argparse.ArgumentParser(usage=__doc__)
    words.add_argument("--plain")
    words.add_argument("--without", default="", type=lambda text: text.split(","))
    words.add_argument("count", type=int)
    words.add_argument("seed", type=int)
    words.add_argument("program", nargs=argparse.REMAINDER)
    given = words.parse_args()
    program = given.program or [GATE, "play"]
    with tempfile.TemporaryDirectory() as room:
        plain = given.plain
        if not plain:
            plain = os.path.join(room, "plain")
            subprocess.run(["rustc", "-O", "-o", plain, os.path.join(BENCH, "plain.rs")], check=True)
        sys.exit(1 if tried(given.count, given.seed, program, [plain], given.without) else 0)


main()
