"""The calls of nozzlegorse_bench.h by ctypes: the runs of a bench are made in C."""
from __future__ import annotations

import ctypes
import functools
from ctypes import CFUNCTYPE, POINTER, Structure, c_bool, c_char, c_char_p, c_int, c_size_t, c_uint, c_uint8, c_uint16, c_ulong, c_void_p

from ._library import load, structs

# NZG_BENCH_LOSSES, NZG_BENCH_TALK, the bytes of a packet, and enum nzg_bench_state
LOSSES, TALK, PACKET_BYTES = 8, 1024, 1027
STATES = ("enumeration", "Default", "Address", "Configured")


class Request(Structure):
    """struct nzg_bench_request"""

    _fields_ = [("setup", c_uint8 * 8), ("cut", c_uint8), ("is_reset", c_bool)]


class Bench(Structure):
    """struct nzg_bench"""

    _fields_ = [("file", c_char_p), ("len", c_size_t), ("speed", c_uint8), ("losses", c_uint), ("within", c_uint), ("damages", c_uint), ("stops_at_first", c_bool), ("talk", POINTER(Request)), ("talk_len", c_size_t),
                ("naks", c_uint16), ("attempts", c_uint8), ("letters", c_char_p), ("is_over", c_bool), ("runs", c_ulong), ("transactions", c_ulong), ("differences", c_ulong)]


RESET = CFUNCTYPE(None, c_void_p)
# The transaction, its data and their length, whether the device is ready, and the packet, all but the numbers as addresses.
TRANSACTION = CFUNCTYPE(None, c_void_p, c_void_p, c_void_p, c_size_t, c_bool, c_void_p)


class Device(Structure):
    """struct nzg_bench_device"""

    _fields_ = [("context", c_void_p), ("reset", RESET), ("transaction", TRANSACTION), ("acked", RESET)]


# The packet and its length, and room for the answer, of which the length comes back.
PACKET = CFUNCTYPE(c_size_t, c_void_p, c_void_p, c_size_t, c_void_p)


class Packets(Structure):
    """struct nzg_bench_packets"""

    _fields_ = [("context", c_void_p), ("reset", RESET), ("packet", PACKET)]


class Work(Structure):
    """struct nzg_bench_work"""

    _fields_ = [("request", Request), ("step", c_uint8), ("index", c_uint8), ("language", c_uint16)]


class Line(Structure):
    """struct nzg_bench_line"""

    _fields_ = [("work", Work), ("is_reset", c_bool), ("fate", c_char), ("sent", structs["transaction"]), ("data", c_void_p), ("len", c_size_t), ("came", structs["packet"]), ("due", structs["packet"])]


class Difference(Structure):
    """struct nzg_bench_difference"""

    _fields_ = [("state", c_uint8), ("is_whole", c_bool), ("work", Work), ("why", c_char_p), ("losses", c_uint), ("at", POINTER(c_uint)), ("fates", POINTER(c_char)),
                ("lines", POINTER(Line)), ("line_count", c_size_t), ("first_line", c_ulong)]


class Undefined(Structure):
    """struct nzg_bench_undefined"""

    _fields_ = [("state", c_uint8), ("trouble", c_uint8), ("request", Request), ("section", c_char_p), ("last", structs["packet"]), ("bytes", c_void_p), ("len", c_size_t)]


ASKS, DIFFERS, UNDEFINED = CFUNCTYPE(None, c_void_p, c_uint8, POINTER(Work)), CFUNCTYPE(None, c_void_p, c_uint, POINTER(Difference)), CFUNCTYPE(None, c_void_p, POINTER(Undefined))


class Report(Structure):
    """struct nzg_bench_report"""

    _fields_ = [("context", c_void_p), ("asks", ASKS), ("differs", DIFFERS), ("undefined", UNDEFINED)]


@functools.cache
def library() -> ctypes.PyDLL:
    """libnozzlegorse_bench, which lies where libnozzlegorse does."""
    it = load("libnozzlegorse_bench")
    it.nzg_bench_talk.restype, it.nzg_bench_talk.argtypes = c_size_t, [c_char_p, c_size_t, POINTER(Request)]
    it.nzg_bench_unspecified.restype, it.nzg_bench_unspecified.argtypes = c_char_p, [c_int, c_char_p]
    for call, device in ((it.nzg_bench_try, Device), (it.nzg_bench_try_packets, Packets)):
        call.restype, call.argtypes = c_bool, [POINTER(Bench), POINTER(device), POINTER(Report)]
    return it


def unspecified(state: str, request: bytes) -> str:
    """The section by which a device's behaviour is not specified, where a request comes in this state; else ''."""
    return (library().nzg_bench_unspecified(STATES.index(state) - 1, request) or b"").decode()
