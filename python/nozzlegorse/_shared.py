"""A device in C, as a shared library."""
from __future__ import annotations

import ctypes

from . import _bench_in_c, _library as c
from .ends import KINDS, Reply, Transaction


class Shared:
    """A device in C, as a shared library: `void PREFIXreset(void *)`, `void PREFIXtransaction(void *, const struct nzg_transaction *,
    const uint8_t *, size_t, bool, struct nzg_packet *)` and `void PREFIXacked(void *)`, the calls of `struct nzg_bench_device`. The
    first pointer is null.

    >>> bench.try_device(bench.Shared("./device.so", "controller_"), file)
    """

    def __init__(self, path: str, prefix: str = ""):
        library = ctypes.CDLL(path)
        self._reset, self._transaction, self._acked = (getattr(library, prefix + it) for it in ("reset", "transaction", "acked"))
        for it in (self._reset, self._transaction, self._acked):
            it.restype = None
        self._reset.argtypes = self._acked.argtypes = [ctypes.c_void_p]
        self._transaction.argtypes = [ctypes.c_void_p, ctypes.POINTER(c.structs["transaction"]), ctypes.c_char_p, ctypes.c_size_t, ctypes.c_bool,
                                      ctypes.POINTER(c.structs["packet"])]

    def in_c(self) -> _bench_in_c.Device:
        """Its calls, which C makes itself."""
        kinds = _bench_in_c.RESET, _bench_in_c.TRANSACTION, _bench_in_c.RESET
        return _bench_in_c.Device(None, *(ctypes.cast(it, kind) for it, kind in zip((self._reset, self._transaction, self._acked), kinds)))

    def reset(self) -> None:
        self._reset(None)

    def transaction(self, transaction: Transaction, ready: bool) -> Reply:
        packet = c.structs["packet"](KINDS.index("silence"))
        self._transaction(None, transaction._numbers(), *c.lend(transaction.data), ready, packet)
        if packet.reply >= len(KINDS) or packet.toggle > 1 or packet.length > 64:
            raise ValueError(f"no answer: reply {packet.reply}, toggle {packet.toggle}, {packet.length} bytes")
        return Reply(KINDS[packet.reply], packet.toggle, bytes(packet.data)[: packet.length])

    def acked(self) -> None:
        self._acked(None)
