"""The recordings of testdata by the package for npm: what readings/recorded.py reads there, whole and in pieces, of those that are cut and of
those that are none; and the descriptors of their devices, which are those of the program. The module for them is loaded by the first."""

import json
import re
import subprocess
import sys

from playing.built import ROOT

sys.path.append(ROOT)
from playing.recorded_again import FILES, bad, data_of, read_again  # noqa: E402
from readings import recorded  # noqa: E402

PLACE = f"{ROOT}/.ci/processors"
FIRST, SECOND = "nozzlegorse.wasm", "recordings.wasm"
OF_PACKETS = [*recorded.DAMAGES.values(), *recorded.TRANSACTIONS.values()]
# The names of the findings, by their words.
NAMES = {words: name for name, words in recorded.FINDINGS.items()} | {words: f"P{number}" for number, words in enumerate(OF_PACKETS, 1)}
BAD = list(bad())


def inputs():
    """Each recording, whole and cut, and those that are none, with the lengths of their pieces."""
    for data in map(data_of, FILES):
        yield from ((data, length) for length in (len(data) + 1, 1, 64))
        yield from ((part, length) for part in (data[: len(data) // 2], data[:-1], data[:20]) for length in (len(part) + 1, 7))
    for data in BAD:
        yield from ((data, length) for length in (len(data) + 1, 7))


def asked(all_):
    return json.dumps([(data.hex(), length) for data, length in all_])


def file_of(program, data, device):
    """The descriptors of a device that the program writes, what kind of fault it has, or nothing where there is no device."""
    if not device:
        return None
    ran = subprocess.run([program, "capture", "--file", "{}.{}".format(*device)], input=data, capture_output=True, check=False)
    return "lacking" if ran.returncode == 3 else ran.stdout.hex()


def wanted(program, data):
    """What comes of a recording by the second reading, with the files of the program; of one that is none the fault that the program says."""
    if data in BAD:
        said = subprocess.run([program, "capture"], input=data, capture_output=True, check=False).stderr.decode()
        return re.sub(r"[:\n].*", "", said.removeprefix("usbdesc: "), flags=re.S)
    over, devices, cut = read_again(data)
    return over, devices, cut, [file_of(program, data, device) for device, _ in devices]


def words_of(it):
    """What a finding says, under its own name."""
    words = f"{it['message']} ({it['section']})"
    return words if it["name"] == NAMES.get(words) else f"{it['name']} {words}"


def number(it):
    return None if it is None else int(it)


def device_of(it):
    return it and (it["bus"], it["device"])


def came_over(it):
    """A request or a finding of the package, as the second reading has it."""
    if it["kind"] == "finding":
        return number(it["time"]), device_of(it["device"]), it["frame"], words_of(it)
    return (number(it["time"]), device_of(it["device"]), *(bytes.fromhex(it[name]) for name in ("setup", "data")), it["length"], it["ending"], it["status"],
            it["isCut"], tuple(map(words_of, it["findings"])))


def came(data, it):
    """What the package gives, as it is wanted."""
    if data in BAD or "fault" in it:
        return it.get("fault", "")
    devices = [(device_of(one["device"]), one["findings"]) for one in it["devices"]]
    return [*map(came_over, it["over"])], devices, it["cut"] and (it["cut"]["place"], it["cut"]["length"]), it["files"]


def differing(program, all_, found):
    """The inputs of which something else comes."""
    known = {data: wanted(program, data) for data in {data for data, _ in all_}}
    for (data, length), it in zip(all_, found, strict=True):
        if came(data, it) != known[data]:
            yield f"{len(data)} bytes, {data[:24].hex()}.., by {length}: {str(came(data, it))[:300]} in place of {str(known[data])[:300]}"


def is_same(program, all_, found, where, said):
    faults = list(differing(program, all_, found))
    for it in faults[:5]:
        said(f"npm: {where}: a recording of {it}")
    said(f"npm: {where}: {len(all_) - len(faults)} readings of {len(FILES)} recordings and {len(BAD)} that are none as they must be, {len(faults)} others")
    return not faults


def in_node(package, program, said):
    all_ = list(inputs())
    ended = subprocess.run(["node", f"{PLACE}/recordings_in_node.mjs", package], input=asked(all_), capture_output=True, text=True, check=False)
    if ended.returncode:
        said(f"npm: recordings: {ended.stderr[-600:]}")
        return False
    told = json.loads(ended.stdout)
    is_late = told["failed"] and told["before"] == [FIRST, "none.wasm"] and told["loaded"] == [*told["before"], SECOND]
    said(f"npm: in node: {SECOND} is loaded {'once, by the first recording' if is_late else 'as ' + str(told['loaded'])}, and takes {told['pages']} pages of memory")
    if not told["same"]:
        said("npm: in node: recordings read again, or by modules that are given, are not the same, or take more memory")
    return is_same(program, all_, told["found"], "in node", said) and is_late and told["same"]


def in_chromium(page, requests, program, said):
    """In a page that has the package as `usb`, over the paths that it has asked for."""
    all_ = list(inputs())[::3]
    before = requests.count(f"/{SECOND}")
    page.value("import('/recordings_as_told.mjs').then(it => { window.readings = it.readings; return true })")
    found = json.loads(page.value(f"readings(usb, {asked(all_)})"))
    after = requests.count(f"/{SECOND}")
    if (before, after) != (0, 1):
        said(f"npm: in Chromium: {SECOND} is loaded {before} times before a recording, and {after} times then")
    return is_same(program, all_, found, "in Chromium", said) and (before, after) == (0, 1)
