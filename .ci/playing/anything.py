"""Gives the Python package anything, in any order, also by four threads that share their handles. A call may raise TypeError or
ValueError, and of a descriptor's field KeyError; nothing ends the interpreter.

    .ci/playing/anything.py CALLS    with NOZZLEGORSE_LIBRARY and PYTHONPATH=python
"""
import collections
import copy
import random
import sys
import threading

import nozzlegorse as usb
from nozzlegorse import ends, packets

FILE = usb.build("device 0110 00 00 00 08 1234 5678 0100 00 00 00 01\nconfiguration 01 01 00 80 32 -\ninterface 00 00 00 ff 00 00 00 -\n")


class Odd(int):
    """A number that says of itself what isn't so."""

    def __index__(self):
        return 1 << 80

    def __le__(self, other):
        return True

    __ge__ = __le__


REPORT = bytes.fromhex("2109000200000100")
SOME = [REPORT, None, True, 5, -1, 128, 256, 257, 65536, 1 << 70, 1.5, float("nan"), "", "full", "super", "in", "duan", "ä\ud800", b"", b"\x09\x02", FILE, FILE[18:], bytes(8), bytes(300), bytearray(b"\x12\x01"),
        memoryview(b"abcdefgh"), memoryview(bytes(64))[::3], [], [9, 2], {}, (), object(), Odd(3), len, usb.Device, ends.ACK, ends.NAK, ends.Reply("data", 1, bytes(100)),
        ends.Transaction(0, "in"), ends.Transaction(0, "out", toggle=1), ends.Transaction.setup(0, bytes.fromhex("8006000100001200"))]
MAKES = [usb.Decoder, ends.Device, ends.Host, ends.Transfer, ends.Write]
CALLS = [getattr(usb, name) for name in ("read", "walk", "check", "remarks", "judge", "show", "build", "explain", "enumerate", "enumerate_log", "from_text", "with_strings", "message")]
CALLS += [ends.Transaction, ends.Transaction.setup, ends.Reply, packets.Packet, packets.parse, packets.crc5, packets.crc16, *MAKES]
raised = collections.Counter()


def names_of(it):
    return [name for name in dir(it) if not name.startswith("_") or name in ("__copy__", "__repr__", "__enter__", "__exit__", "__init__")]


class Player:
    """Calls of one thread. What is held is shared."""

    def __init__(self, start, held):
        self.rng, self.held = random.Random(start), held

    def words(self):
        return [self.rng.choice(SOME) for _ in range(self.rng.choice((0, 1, 1, 2, 3, 4)))]

    def one(self):
        what = self.rng.randrange(4)
        if what == 0:
            made = self.rng.choice(CALLS)(*self.words())
            repr(made), str(made), list(made) if hasattr(made, "__next__") else None
        elif what == 1:
            at = self.rng.randrange(len(MAKES))
            self.held[at] = MAKES[at](*self.rng.choice((self.words(), [], [FILE], [bytes(8)], [REPORT])))
        elif what == 2 and self.rng.random() < .3:
            self.of_descriptor(self.rng.choice(list(usb.walk(self.rng.choice((FILE, FILE[18:], bytes(300))))) or [None]))
        else:
            it = self.rng.choice(self.held)
            member = getattr(it, self.rng.choice(names_of(it)))
            member(*self.rng.choice((self.words(), [], [self.rng.choice(SOME)]))) if callable(member) else None

    def of_descriptor(self, it):
        copy.deepcopy(it), repr(it), it and it.fields, it and it[self.rng.choice(("bDescriptorType", "bDeviceClass", "ä\ud800", b"bInterval", 5))]

    def play(self, count):
        for _ in range(count):
            try:
                self.one()
            except (TypeError, ValueError, KeyError) as why:
                raised[type(why).__name__] += 1


def main(count):
    held = [usb.Decoder(), ends.Device(FILE), ends.Host(), ends.Transfer(bytes(8)), ends.Write(REPORT)]
    Player(0, held).play(count)
    wrong = []
    threading.excepthook = wrong.append
    threads = [threading.Thread(target=Player(start, held).play, args=(count // 4,)) for start in range(1, 5)]
    for it in threads:
        it.start()
    for it in threads:
        it.join()
    if wrong:
        sys.exit(f"anything: {wrong[0].exc_type.__name__}: {wrong[0].exc_value}")
    print(f"anything: {count} calls, and as many by four threads, of which {sum(raised.values())} are refused: {dict(raised)}")


main(int(sys.argv[1]))
