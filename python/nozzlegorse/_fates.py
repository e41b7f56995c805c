"""What the benches of devices and hosts have in common: the fates of their runs, and what no run can try."""
from __future__ import annotations

import itertools
from collections.abc import Iterator

from ._talk import Request
from .descriptors import read

LETTERS = "duan"
# What a difference is of that is of no request.
WHOLE = Request(b"", "the whole of it")


def fates(losses: int, within: int, letters: str = LETTERS) -> Iterator[dict[int, str]]:
    """Every way to put at most so many losses on the first transactions, those with fewer first."""
    for count in range(losses + 1):
        for places in itertools.combinations(range(within), count):
            for chosen in itertools.product(letters, repeat=count):
                yield dict(zip(places, chosen))


class Different(Exception):
    """A transaction differs."""


def unmet_by(file: bytes) -> list[str]:
    """Of what packets carry, what these descriptors give no run to try."""
    all_ = read(file)
    packet = all_.device.max_packet_size
    lengths = [len(it.data) for it in all_.strings] + [it["wTotalLength"] for it in all_.configurations]
    unmet = []
    if all(it % packet for it in lengths):
        unmet.append(f"the empty packet after whole ones; no set or string has a multiple of {packet} bytes")
    if max(lengths, default=0) <= packet:
        unmet.append(f"a second packet; no set or string has more than {packet} bytes")
    return unmet
