"""Compares what the calls say in words with the lines of the program: findings, remarks and faults with those of `explain`, of each
example; logs with those of `enumerate --log`; troubles with the reasons in its help. What is not there has a named answer, and a
buffer that is too short stays as it was.

    .ci/playing/words.py PROGRAM    with NOZZLEGORSE_LIBRARY and PYTHONPATH=python
"""
import ctypes
import glob
import os
import re
import subprocess
import sys

import nozzlegorse as usb
from nozzlegorse import _library as c

EXAMPLES = os.path.join(os.path.dirname(os.path.abspath(__file__)), "../../testdata")
INPUTS = sorted(it for end in ("bin", "file", "descriptors") for it in glob.glob(f"{EXAMPLES}/*/*.{end}"))
FATES = ("", "d", "nnuda", "....a", "ddddddddd", "n" * 20)
SET = bytes([9, 2, 25, 0, 1, 1, 0, 0x80, 50, 9, 4, 0, 0, 1, 255, 0, 0, 0, 7, 5, 0x81, 3, 4, 0, 10])
DEVICE = bytes([18, 1, 16, 1, 0, 0, 0, 8, 1, 2, 3, 4, 0, 1, 0, 0, 0, 1])
HEADER, NAMING = SET[:9], DEVICE[:14] + b"\1" + DEVICE[15:]
# Bytes with each fault: as a set alone, as a file, and as a file whose set is at fault.
OF_SETS = {1: b"\x08" + SET[1:], 3: SET[:2] + b"\x08\0" + SET[4:], 4: SET[:18] + b"\1" + SET[19:], 5: SET[:18] + b"\x08" + SET[19:],
           6: SET[:2] + b"\x22\0" + SET[4:] + HEADER, 7: SET[:2] + b"\x18\0" + SET[4:18] + b"\x06" + SET[19:24],
           8: HEADER[:2] + b"\x10\0" + HEADER[4:] + SET[18:], 9: SET[:20]}
OF_FILES = {1: b"\x12\3" + DEVICE[2:], 3: DEVICE + b"\x09\7" + SET[2:], 4: DEVICE + SET + b"\x09\6" + bytes(8), 5: NAMING + SET + bytes(4),
            6: DEVICE[:9], 7: DEVICE + SET + bytes(4)}
WITHIN = {**{number: DEVICE + data for number, data in OF_SETS.items() if number != 9}, 2: DEVICE + b"\x09\3" + SET[2:]}


def fail(why):
    sys.exit(f"words: {why}")


def program(words, data):
    return subprocess.run([sys.argv[1], *words], input=data, capture_output=True).stdout.decode()


def lines_of(text, mark):
    """What the lines with this mark say, in order."""
    return [it[1] for it in re.findall(rf"^( *{mark} )(.*)$", text, re.M)]


def findings_and_remarks(data):
    """How they differ from the program, or how many there are."""
    count = 0
    for speed in (None, "full", "high"):
        text = program(["explain", "--brief", *(["--speed", speed] if speed else [])], data)
        found, remarked = usb.check(data), usb.remarks(data, speed)
        said = [f"V{it.rule} {it.message}" for it in found], [it.message for it in remarked]
        if said != (lines_of(text, "!"), lines_of(text, r"\?")):
            fail(f"{data.hex()}: {said} and not {text}")
        for name, it, number in [*(("finding", it, it.rule) for it in found), *(("remark", it, it.number) for it in remarked)]:
            answers(name, data, it.place, number)
        count += len(found) + len(remarked)
    return count


def answers(name, data, place, number):
    """Another place or number is none, and of no room the length is wanted."""
    call, at = getattr(c.lib, f"nzg_{name}_text"), {"finding": "rule", "remark": "number"}[name]
    before = [*c.lend(data), *([0] if name == "remark" else [])]
    for where, of in ((place + 1, number), (place, 255), (2**64 - 1, number), (place, 0)):
        none_there(call, *before, c.structs[name](place=where, **{at: of}))
    in_any_room(call, *before, c.structs[name](place=place, **{at: number}))


def none_there(call, *before):
    out = (ctypes.c_char * 512)(*b"\xa5" * 512)
    answer = call(*before, out, 512)
    if (c.STATUSES[answer.status], answer.number, bytes(out)) != ("bad_argument", 13, b"\xa5" * 512):
        fail(f"{call.__name__}: {c.STATUSES[answer.status]} {answer.number} of what isn't there")


def in_any_room(call, *before):
    whole, text = c.into(call, *before)
    if c.STATUSES[whole.status] != "done":
        return
    for room in {0, 1, len(text) - 1} - {len(text)}:
        out = (ctypes.c_char * 512)(*b"\xa5" * 512)
        answer = call(*before, out, room)
        if (c.STATUSES[answer.status], answer.length, bytes(out)) != ("no_room", len(text), b"\xa5" * 512):
            fail(f"{call.__name__}: {c.STATUSES[answer.status]} {answer.length} in {room} bytes")


def fault(data, kind, number, inner):
    """The fault of these bytes is this one, and is said as the program says it."""
    try:
        usb.judge(data)
    except usb.Fault as it:
        said = re.sub(r" \(\w+\)", "", str(it))
        if (it.kind, it.number, it.inner) != (kind, number, inner) or said not in lines_of(program(["explain"], data), "!"):
            fail(f"{data.hex()}: {it} {it.inner}, and not {kind} {number} {inner} of {program(['explain'], data)}")
        in_any_room(c.lib.nzg_fault_text, *c.lend(data))
        return
    fail(f"{data.hex()}: no fault")


def faults():
    cases = [*((data, "set_fault", number, 0) for number, data in OF_SETS.items()), *((data, "file_fault", number, 0) for number, data in OF_FILES.items()),
             *((data, "file_fault", 2, number) for number, data in WITHIN.items()), (SET + b"\0", "trailing", 0, 0)]
    for case in cases:
        fault(*case)
    return len(cases)


def logs():
    count = 0
    for name in sorted(glob.glob(f"{EXAMPLES}/files/*.file")):
        data = open(name, "rb").read()
        for words in ([speed, fates] for speed in c.SPEEDS[:3] for fates in FATES):
            options = ["enumerate", "--speed", words[0], "--fates", words[1]]
            plain = program(options, data)
            try:
                log = usb.enumerate_log(data, words[0], fates=words[1])
            except usb.Fault as it:
                log = "" if it.kind == "description_fault" and plain.startswith("refused") else str(it)
            if log + plain != program([*options, "--log"], data):
                fail(f"{name}: the log at {words}")
            count += 1
    return count


def troubles():
    reasons = dict(re.findall(r"^  ([1-7])  (.*)$", program(["enumerate", "--help"], b"").partition("\nTrouble, ")[2].partition("\n\n")[0], re.M))
    steps = ("first", "address", "device", "header 3", "set 3", "qualifier", "other_header 3", "other_set 3", "languages", "text 0409 03", "configure")
    for why in range(256):
        for step in range(256):
            it = c.structs["trouble"](why, step, 3, 0x409)
            if str(why) not in reasons or not 0 < step <= len(steps):
                if step < 16 or why < 16:
                    none_there(c.lib.nzg_trouble_text, it)
                continue
            text = c.into(c.lib.nzg_trouble_text, it)[1].decode()
            if text != f"{reasons[str(why)]}, at step {steps[step - 1]}":
                fail(f"trouble {why} {step}: {text}")
            in_any_room(c.lib.nzg_trouble_text, it)
    return len(reasons) * len(steps)


def main():
    said = whole = 0
    for data in (open(name, "rb").read() for name in INPUTS):
        try:
            usb.judge(data)
        except usb.Fault as it:
            fault(data, it.kind, it.number, it.inner)
            continue
        none_there(c.lib.nzg_fault_text, *c.lend(data))
        said, whole = said + findings_and_remarks(data), whole + 1
    print(f"words: {said} findings and remarks of {whole} inputs, {faults()} faults, {logs()} logs and {troubles()} troubles as the program says them")


if __name__ == "__main__":
    main()
