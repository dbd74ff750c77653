#!/usr/bin/env python3
"""Has sg3-utils and sdparm read what a target tells a host: bench/decode.py PROGRAM WORD ..
The program plays a script that asks for INQUIRY data, capacities, the list of logical units, mode pages and sense data.
sg_inq, sg_vpd, sg_luns, sdparm and sg_decode_sense decode the bytes of its report, and each decoded field is compared
with what is meant. The fields of READ CAPACITY and of mode parameter headers, which no tool of Debian 12 reads from a
file, are taken out here. A message of a tool on standard error fails, as a length that isn't that of its data. With no
sg_inq or no sdparm nothing is done."""
import os
import re
import shutil
import struct
import subprocess
import sys
import tempfile

BLOCKS = 2048
SERIAL = "CTL-LUN-00000000"

STANDARD = {
    "PQual": "0", "PDT": "0", "RMB": "0", "version": "0x06", "NormACA": "0", "HiSUP": "1", "Resp_data_format": "2",
    "TPGS": "0", "Protect": "0", "MultiP": "0", "CmdQue": "1", "length": "36", "Peripheral device type": "disk",
    "Vendor identification": "FREEBSD", "Product identification": "CTLDISK", "Product revision level": "0001",
}
DEVICE = {
    "designator type": "T10 vendor identification,  code set: ASCII", "vendor id": "FREEBSD",
    "vendor specific": SERIAL,
}
LIMITS = {
    "Write same non-zero (WSNZ)": "1", "Maximum compare and write length": "128 blocks",
    "Optimal transfer length granularity": "0 blocks [not reported]", "Maximum transfer length": "256 blocks",
    "Optimal transfer length": "0 blocks [not reported]", "Maximum prefetch transfer length": "0 blocks [ignored]",
    "Maximum unmap LBA count": "65536", "Maximum unmap block descriptor count": "64",
    "Optimal unmap granularity": "0 blocks [not reported]", "Unmap granularity alignment valid": "false",
    "Maximum write same length": "0x100 blocks",
}
PROVISIONING = {
    "Unmap command supported (LBPU)": "1", "Write same (16) with unmap bit supported (LBPWS)": "1",
    "Write same (10) with unmap bit supported (LBPWS10)": "0", "Logical block provisioning read zeros (LBPRZ)": "1",
    "Anchored LBAs supported (ANC_SUP)": "0", "Threshold exponent": "0 [threshold sets not supported]",
    "Descriptor present (DP)": "0", "Provisioning type": "2 (thin provisioned)",
}
PAGES = ["sv", "sn", "di", "bl", "lbpv"]
CAPACITY = {"last LBA": BLOCKS - 1, "block length": 512}
LONG_CAPACITY = {**CAPACITY, "P_TYPE, PROT_EN": 0, "exponents": 0, "LBPME": 1, "LBPRZ": 1, "lowest aligned LBA": 0}

HEADER = {"MEDIUM TYPE": 0, "device-specific parameter": 0x10, "block descriptors": 8, "blocks": BLOCKS,
          "block length": 512}
PAGES_AT_FIRST = {**HEADER, "WCE": "1", "RCD": "0", "TST": "0", "D_SENSE": "0", "QAM": "0", "SWP": "0", "TAS": "0"}
CHANGEABLE = {**HEADER, "WCE": "1", "RCD": "0", "TST": "0", "D_SENSE": "1", "QAM": "0", "SWP": "1", "TAS": "1"}
CHANGED = {**HEADER, "device-specific parameter": 0x90, "WCE": "1", "D_SENSE": "1", "SWP": "1", "TAS": "0"}

DESCRIPTORS = {
    "Descriptor format, current; Sense key": "No Sense", "Additional sense": "No additional sense information",
}


def sense(key, code, form="Fixed"):
    return {f"{form} format, current; Sense key": key, "Additional sense": code}


def tool(*words, text=None):
    """What a tool writes of bytes, and whether it was content with them."""
    run = subprocess.run(words, input=text, stdout=subprocess.PIPE, stderr=subprocess.PIPE, text=True, check=False)
    complaints = run.stderr.strip()
    if run.returncode:
        complaints += f" (status {run.returncode})"
    if "only fetched" in run.stdout:
        complaints += " (the data are shorter than they say)"
    return run.stdout, complaints.strip()


def hexadecimal(held):
    return " ".join(f"{byte:02x}" for byte in held)


def from_file(name, held, folder):
    path = os.path.join(folder, "held")
    with open(path, "w", encoding="ascii") as file:
        file.write(hexadecimal(held) + "\n")
    return tool(name, f"--inhex={path}")


def fields(text):
    """The fields of a text in lines 'name: value' and words 'name=value'."""
    found = dict(re.findall(r"([A-Za-z]\w*)=(\w+)", text))
    found.update((name, value.strip()) for name, value in re.findall(r"([^\s:=]+(?: [^\s:=]+)*): (.*)", text))
    return found


def length_told(held, at, width, behind):
    """That a length field counts the bytes behind it."""
    told = int.from_bytes(held[at:at + width], "big")
    return "" if told == len(held) - behind else f"the length {told} of {len(held) - behind} bytes"


def standard(held, folder):
    text, complaints = from_file("sg_inq", held, folder)
    return fields(text), complaints or length_told(held, 4, 1, 5)


def page(held, folder):
    text, complaints = from_file("sg_vpd", held, folder)
    return fields(text), complaints or length_told(held, 2, 2, 4)


def page_names(held, folder):
    text, complaints = from_file("sg_vpd", held, folder)
    return {"pages": re.findall(r"\[(\w+)\]", text)}, complaints or length_told(held, 2, 2, 4)


def capacity(held, _folder):
    if len(held) != 8:
        return {}, f"{len(held)} bytes"
    return dict(zip(CAPACITY, struct.unpack(">II", held))), ""


def long_capacity(held, _folder):
    if len(held) != 32 or any(held[16:]):
        return {}, f"{len(held)} bytes, or reserved ones that aren't 0"
    last, size, protection, exponents, lowest = struct.unpack(">QIBBH", held[:16])
    return dict(zip(LONG_CAPACITY, (last, size, protection, exponents, lowest >> 15, lowest >> 14 & 1,
                                    lowest & 0x3fff))), ""


def luns(held, _folder):
    listed = []
    for at in range(8, len(held), 8):
        text, complaints = tool("sg_luns", f"--test={held[at:at + 8].hex()}")
        listed.append(text.split("\n")[1].strip())
        if complaints:
            return {}, complaints
    return {"luns": listed}, length_told(held, 0, 4, 8)


def mode_pages(held, folder, words, told, header):
    """The fields of the pages behind a header, of which some words are given; its length field tells so many bytes."""
    path = os.path.join(folder, "held")
    with open(path, "w", encoding="ascii") as file:
        file.write(hexadecimal(held) + "\n")
    text, complaints = tool("sdparm", f"--inhex={path}", "--all", *words)
    found = dict(re.findall(r"^ +(\w+) +(-?\d+)", text, re.MULTILINE))
    blocks, size = struct.unpack(">II", held[len(header):len(header) + 8])
    found.update(zip(HEADER, (*header[-3:], blocks, size)))
    return found, complaints or ("" if told else "the length isn't that of the data")


def short_mode_pages(held, folder):
    length, *header = held[:4]
    return mode_pages(held, folder, ["--six"], length == len(held) - 1, (length, *header))


def long_mode_pages(held, folder):
    length, medium, device, _, descriptors = struct.unpack(">HBBHH", held[:8])
    return mode_pages(held, folder, [], length == len(held) - 2, (length, 0, 0, 0, 0, medium, device, descriptors))


def sense_data(held, _folder):
    text, complaints = tool("sg_decode_sense", "--file=-", text=hexadecimal(held) + "\n")
    return fields(text), complaints


SELECT = "151000001000 00*4.0a.0a.04.00.08.00*7"

# name, CDB and perhaps data-out, who decodes the data or the sense data, what is meant; or a command that returns none
COMMANDS = [
    ("power on", "00.00*5", sense_data, sense("Unit Attention", "Power on occurred")),
    ("standard INQUIRY", "120000002400", standard, STANDARD),
    ("VPD page 00", "12010000ff00", page_names, {"pages": PAGES}),
    ("VPD page 80", "12018000ff00", page, {"Unit serial number": SERIAL}),
    ("VPD page 83", "12018300ff00", page, DEVICE),
    ("VPD page B0", "1201b000ff00", page, LIMITS),
    ("VPD page B2", "1201b200ff00", page, PROVISIONING),
    ("REPORT LUNS", "a0.00*7.01.00*3", luns, {"luns": ["Peripheral device addressing: lun=0"]}),
    ("REPORT LUNS, well known", "a000.01.00*5.01.00*3", luns, {"luns": []}),
    ("REQUEST SENSE", "030000001200", sense_data, sense("No Sense", "No additional sense information")),
    ("REQUEST SENSE, descriptor form", "030100001200", sense_data, DESCRIPTORS),
    ("READ CAPACITY (10)", "25.00*9", capacity, CAPACITY),
    ("READ CAPACITY (16)", "9e10.00*11.20.00*2", long_capacity, LONG_CAPACITY),
    ("an unknown command", "c0.00*5", sense_data, sense("Illegal Request", "Invalid command operation code")),
    ("an unknown page", "12018100ff00", sense_data, sense("Illegal Request", "Invalid field in cdb")),
    ("a read past the end", "28000000080000000100", sense_data,
     sense("Illegal Request", "Logical block address out of range")),
    ("MODE SENSE (6)", "1a003f00ff00", short_mode_pages, PAGES_AT_FIRST),
    ("MODE SENSE (10)", "5a003f000000.00.00ff00", long_mode_pages, PAGES_AT_FIRST),
    ("MODE SENSE (6), changeable", "1a007f00ff00", short_mode_pages, CHANGEABLE),
    ("MODE SENSE (6), default", "1a00bf00ff00", short_mode_pages, PAGES_AT_FIRST),
    ("saved mode pages", "1a00ff00ff00", sense_data, sense("Illegal Request", "Saving parameters not supported")),
    ("a list that is too short", "151000001000 00*15", sense_data,
     sense("Illegal Request", "Parameter list length error")),
    ("a list that is in fault", "151000001000 00*16", sense_data,
     sense("Illegal Request", "Invalid field in parameter list")),
    ("stop", "1b0000000000", None, None),
    ("a stopped unit", "000000000000", sense_data,
     sense("Not Ready", "Logical unit not ready, initializing command required")),
    ("start", "1b0000000100", None, None),
    ("MODE SELECT (6)", SELECT, None, None),
    ("MODE SENSE (10), changed", "5a003f000000.00.00ff00", long_mode_pages, CHANGED),
    ("a protected write", "2a000000000000000100 01*512", sense_data,
     sense("Data Protect", "Write protected", "Descriptor")),
]


def script():
    lines = [f"lun 0 blocks {BLOCKS}", "port 0 a", "map 0 0 0 0"]
    for number, (_, command, _, _) in enumerate(COMMANDS, 1):
        lines += [f"cmd 0 0 0 {number} simple {command}", "sync"]
    return "".join(line + "\n" for line in lines)


def unpacked(text):
    """The bytes of a byte text: pieces of digits, or a pair with a count."""
    held = b""
    for piece in text.split("."):
        digits, _, count = piece.partition("*")
        held += bytes.fromhex(digits) * int(count or 1)
    return held


def answers(report):
    """The data or sense data of each command that ended, by its number."""
    found = re.findall(r"^ended (\d+) (?:GOOD data|CHECK CONDITION sense) (\S+)$", report, re.MULTILINE)
    return {int(number): unpacked(text) for number, text in found}


def wrong_fields(held, decoder, meant, folder):
    if held is None:
        return ["no data in the report"]
    found, complaints = decoder(held, folder)
    wrong = [f"{name}: {found.get(name)!r} where {value!r} is meant" for name, value in meant.items()
             if found.get(name) != value]
    return wrong + ([complaints] if complaints else [])


def main():
    if len(sys.argv) < 2:
        sys.exit(__doc__)
    if not (shutil.which("sg_inq") and shutil.which("sdparm")):
        print("skipped: there is no sg_inq, or no sdparm (Debian: apt-get install sg3-utils sdparm)")
        return
    run = subprocess.run(sys.argv[1:], input=script(), stdout=subprocess.PIPE, text=True, check=False)
    if run.returncode:
        sys.exit(f"the program ended with status {run.returncode}")
    told = answers(run.stdout)
    faults = 0
    with tempfile.TemporaryDirectory() as folder:
        asking = [(number, *rest) for number, rest in enumerate(COMMANDS, 1) if rest[2]]
        for number, name, _, decoder, meant in asking:
            wrong = wrong_fields(told.get(number), decoder, meant, folder)
            print(f"{name}: " + ("; ".join(wrong) if wrong else f"as meant, {len(meant)} compared"))
            faults += bool(wrong)
    if faults:
        sys.exit(f"{faults} of {len(asking)} aren't as meant")


main()
