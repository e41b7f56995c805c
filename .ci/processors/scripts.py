"""The scripts of crates/test_ends/data in bytes, as callers/targets/scripts.c plays them: of devices, of hosts, and of transfers and writes.
What has no meaning there is left out: steps that are none, files of answers, and talks, which are of the bus in Rattle."""

import glob

from playing.built import ROOT

PLACE = f"{ROOT}/crates/test_ends/data"
SPEEDS = ("low", "full", "high")
REPLIES = {"ack": 0, "nak": 1, "stall": 2, "data0": 3, "data1": 3, "silence": 4}
STRINGS = ("needed", "wanted", "skipped")
# What asks or tells a device without more words.
PLAIN = {"acked": "K", "reset": "R", "refused": "F", "accept": "C", "written": "W", "refuse": "N", "carried": "D"}
# An address that no device has: of transactions for another endpoint.
NOBODY = 255


def step(kind, *more):
    data = b"".join(more)
    return kind.encode() + len(data).to_bytes(2, "little") + data


def number(word, width=1):
    return int(word).to_bytes(width, "little")


def digits(words):
    """The bytes of a word, or none."""
    return bytes.fromhex(words[0].replace("-", "")) if words else b""


class Device:
    """The steps of a device: transactions go to an address, and to endpoint zero or another one."""

    def __init__(self):
        self.file, self.address, self.endpoint = b"", 0, 0

    def transaction(self, stage, toggle, words, data):
        where = NOBODY if self.endpoint else self.address
        return step("T", bytes([where, stage, toggle, "busy" not in words]), data)

    def read(self, word):
        """A file by its name or its digits."""
        for place in (f"{PLACE}/files/{word}", f"{ROOT}/testdata/files/{word}"):
            if word.endswith(".file"):
                with open(place, "rb") as it:
                    return it.read()
        return bytes.fromhex(word)

    def step(self, verb, words):
        if verb == "file":
            self.file = self.read(words[0])
        elif verb == "speed":
            return step("O", bytes([1 + SPEEDS.index(words[0])]), self.file)
        elif verb == "address":
            self.address = int(words[0])
        elif verb == "endpoint":
            self.endpoint = int(words[0])
        elif verb == "setup":
            return self.transaction(0, 0, words, bytes.fromhex(words[0]))
        elif verb == "in":
            return self.transaction(1, 0, words, b"")
        elif verb == "out":
            return self.transaction(2, int(words[0][4:]), words, digits(words[1:2]))
        elif verb == "answer":
            return step("A", digits(words))
        elif verb in PLAIN:
            return step(PLAIN[verb])
        return b""


class Host:
    """The steps of a host that enumerates."""

    def step(self, verb, words):
        if verb == "host":
            given = dict(zip(words[1::2], words[2::2]))
            choice = [STRINGS.index(given.get("strings", "needed")), given.get("other_speed", "yes") == "yes"]
            numbers = number(given["address"]), number(given["naks"], 2), number(given["attempts"])
            return step("h", *numbers, bytes([1 + SPEEDS.index(words[0]), len(given) > 3, *choice]))
        if verb == "reset_done":
            return step("d")
        return step("r", bytes([REPLIES[verb], verb == "data1"]), digits(words)) if verb in REPLIES else b""


class Transfer:
    """The steps of a transfer or a write."""

    def __init__(self):
        self.is_write = False

    def step(self, verb, words):
        if verb == "transfer":
            address, packet, naks, setup, *data = words
            self.is_write = bool(data)
            return step("w" if data else "t", number(address), number(packet), number(naks, 2), bytes.fromhex(setup).ljust(8, b"\0")[:8], digits(data))
        kind = "y" if self.is_write else "x"
        return step(kind, bytes([REPLIES[verb], verb == "data1"]), digits(words)) if verb in REPLIES else b""


def steps_of(path, player):
    with open(path, encoding="utf-8") as it:
        for line in it:
            verb, *words = line.partition(" -> ")[0].partition("#")[0].split() or [""]
            try:
                yield player.step(verb, words)
            except (ValueError, IndexError, KeyError, OSError, OverflowError):
                continue


def of_all():
    """All of them, one after another."""
    found = b""
    for pattern, kind in (("scripts/*.script", Device), ("hosts/*.script", Host), ("transfers/*.transfer", Transfer)):
        for path in sorted(glob.glob(f"{PLACE}/{pattern}")):
            found += b"".join(steps_of(path, kind()))
    return found
