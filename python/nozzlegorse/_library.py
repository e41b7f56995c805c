"""The calls of nozzlegorse.h by ctypes, and what the other modules share. Nothing outside of this package uses it."""
from __future__ import annotations

import ctypes
import operator
import os

# nozzlegorse.h without its comments, its numbers and the names of parameters.
DECLARATIONS = """
struct nzg_answer { uint32_t status, number; size_t place, length; };
struct nzg_outcome { uint64_t transactions; uint8_t attempts, address, selected, step, index; uint16_t language; };
struct nzg_descriptor { size_t place, languages_place, endpoint_number; uint64_t named[4]; uint16_t language, packet; uint8_t length, type,
    role, owner, depth, part, index, attributes, transactions, interval; size_t next, left, strings, main_sets, other_sets, set, associations, settings, setting, endpoints;
    uint8_t interface_, alternate, class_, subclass, protocol, endpoint, below; bool is_other, has_device, has_languages; };
struct nzg_field { size_t place; uint64_t value; uint8_t width, name_length, name[62]; };
struct nzg_found { size_t place, length, next; uint8_t kind; };
struct nzg_finding { size_t place, set, setting, endpoint; uint8_t rule, part, role; };
struct nzg_remark { size_t place, set, setting, endpoint; uint8_t number, part, role; };
struct nzg_packet_fields { uint32_t split; uint16_t frame, place, length; uint8_t pid, address, endpoint; };
struct nzg_transaction { uint8_t address, stage, toggle, setup[8]; };
struct nzg_packet { uint8_t reply, toggle, length, data[64]; };
struct nzg_setup { uint8_t bytes[8]; };
struct nzg_open_transfer { uint16_t acknowledged, sent; uint8_t last, stage; };
struct nzg_state { uint8_t address, selected, alternates[256]; uint32_t halts; bool wakeup; };
struct nzg_trouble { uint8_t why, step, index; uint16_t language; };
struct nzg_step { uint16_t naks, kept, language; uint8_t step, index, strikes, setup[8]; };
struct nzg_device { uint8_t stage, toggle; bool settled, pending; uint8_t source, own[2], request[8]; size_t place, count, offset;
    struct nzg_state state; };
struct nzg_transfer { uint16_t naks, nak_count, kept; uint8_t address, packet, stage, why, toggle, strikes, setup[8]; };
struct nzg_write { struct nzg_transfer transfer; };
struct nzg_host { void *held; };
struct nzg_decoder { void *held; };
struct nzg_recorded { uint64_t time, begun; size_t count; uint32_t length, status; uint16_t bus, device; uint8_t setup[8], ending, finding;
    bool is_cut, has_time, has_begun, has_device; };
struct nzg_capture { void *held; };
struct nzg_answer nzg_show(const uint8_t *, size_t, bool, uint8_t *, size_t);
struct nzg_answer nzg_check(const uint8_t *, size_t, bool, uint8_t *, size_t);
struct nzg_answer nzg_explain(const uint8_t *, size_t, uint32_t, uint8_t, uint8_t *, size_t);
struct nzg_answer nzg_from_text(const uint8_t *, size_t, uint8_t *, size_t);
struct nzg_answer nzg_build(const uint8_t *, size_t, bool, uint8_t *, size_t);
struct nzg_answer nzg_enumerate(const uint8_t *, size_t, uint8_t, uint16_t, uint8_t, const uint8_t *, size_t, struct nzg_outcome *,
    uint8_t *, size_t);
struct nzg_answer nzg_enumerate_log(const uint8_t *, size_t, uint8_t, uint16_t, uint8_t, const uint8_t *, size_t, uint8_t *, size_t);
bool nzg_next(const uint8_t *, size_t, struct nzg_descriptor *);
bool nzg_field(const uint8_t *, size_t, const struct nzg_descriptor *, size_t, struct nzg_field *);
struct nzg_answer nzg_fields(const uint8_t *, size_t, const struct nzg_descriptor *, struct nzg_field *, size_t);
bool nzg_field_named(const uint8_t *, size_t, const struct nzg_descriptor *, const uint8_t *, size_t, struct nzg_field *);
struct nzg_answer nzg_judge(const uint8_t *, size_t);
struct nzg_answer nzg_findings(const uint8_t *, size_t, struct nzg_finding *, size_t);
struct nzg_answer nzg_remarks(const uint8_t *, size_t, uint8_t, struct nzg_remark *, size_t);
struct nzg_answer nzg_finding_text(const uint8_t *, size_t, const struct nzg_finding *, uint8_t *, size_t);
struct nzg_answer nzg_remark_text(const uint8_t *, size_t, uint8_t, const struct nzg_remark *, uint8_t *, size_t);
struct nzg_answer nzg_fault_text(const uint8_t *, size_t, uint8_t *, size_t);
struct nzg_answer nzg_rule(uint8_t, uint8_t *, size_t);
bool nzg_find(const uint8_t *, size_t, size_t, struct nzg_found *);
size_t nzg_find_all(const uint8_t *, size_t, size_t, struct nzg_found *, size_t);
struct nzg_answer nzg_text(const uint8_t *, size_t, const struct nzg_descriptor *, uint8_t *, size_t);
struct nzg_answer nzg_with_strings(const uint8_t *, size_t, uint8_t *, size_t);
uint8_t nzg_packet_parse(const uint8_t *, size_t, struct nzg_packet_fields *);
struct nzg_answer nzg_packet_write(const struct nzg_packet_fields *, const uint8_t *, size_t, uint8_t *, size_t);
uint8_t nzg_crc5(uint32_t, uint32_t);
uint16_t nzg_crc16(const uint8_t *, size_t);
struct nzg_answer nzg_device_image(const uint8_t *, size_t, uint8_t, uint8_t *, size_t);
void nzg_device_reset(struct nzg_device *);
bool nzg_device_serve(struct nzg_device *, const uint8_t *, size_t, uint8_t *, size_t, const struct nzg_transaction *, const uint8_t *, size_t,
    bool, struct nzg_packet *);
bool nzg_device_acked(struct nzg_device *, const uint8_t *, size_t);
bool nzg_device_refused(const struct nzg_device *, struct nzg_setup *);
struct nzg_answer nzg_device_answer_with(struct nzg_device *, uint8_t *, size_t, const uint8_t *, size_t);
struct nzg_answer nzg_device_accept(struct nzg_device *, size_t);
struct nzg_answer nzg_device_written(const struct nzg_device *, const uint8_t *, size_t, struct nzg_setup *);
bool nzg_device_refuse(struct nzg_device *, const uint8_t *, size_t);
bool nzg_device_carried_out(const struct nzg_device *, struct nzg_setup *);
uint8_t nzg_judge_device(struct nzg_device *, const uint8_t *, size_t, uint8_t *, size_t, struct nzg_open_transfer *, const struct nzg_setup *,
    const struct nzg_transaction *, const uint8_t *, size_t, const struct nzg_packet *, struct nzg_packet *);
void nzg_judge_acked(struct nzg_open_transfer *);
struct nzg_answer nzg_transfer_open(struct nzg_transfer *, uint8_t, uint8_t, uint16_t, const struct nzg_setup *);
bool nzg_transfer_next(const struct nzg_transfer *, struct nzg_transaction *);
struct nzg_answer nzg_transfer_take(struct nzg_transfer *, uint8_t, uint8_t, const uint8_t *, size_t);
struct nzg_answer nzg_write_open(struct nzg_write *, uint8_t, uint8_t, uint16_t, const struct nzg_setup *);
struct nzg_answer nzg_write_next(const struct nzg_write *, const uint8_t *, size_t, struct nzg_transaction *);
struct nzg_answer nzg_write_take(struct nzg_write *, uint8_t, uint8_t, const uint8_t *, size_t);
struct nzg_answer nzg_host_open(struct nzg_host *, uint8_t, uint16_t, uint8_t, uint8_t);
struct nzg_answer nzg_host_open_with(struct nzg_host *, uint8_t, uint16_t, uint8_t, uint8_t, uint8_t, bool);
uint8_t nzg_host_next(struct nzg_host *, struct nzg_transaction *);
bool nzg_host_reset_done(struct nzg_host *);
bool nzg_host_take(struct nzg_host *, uint8_t, uint8_t, const uint8_t *, size_t);
bool nzg_host_step(struct nzg_host *, struct nzg_step *);
uint8_t nzg_host_attempts(struct nzg_host *);
bool nzg_host_forgiven(struct nzg_host *, size_t, struct nzg_trouble *);
struct nzg_answer nzg_host_outcome(struct nzg_host *, struct nzg_trouble *, uint8_t *, size_t);
void nzg_host_close(struct nzg_host *);
struct nzg_answer nzg_trouble_text(const struct nzg_trouble *, uint8_t *, size_t);
struct nzg_answer nzg_decoder_open(struct nzg_decoder *);
struct nzg_answer nzg_decoder_feed(struct nzg_decoder *, const uint8_t *, size_t);
struct nzg_answer nzg_decoder_list(struct nzg_decoder *, uint8_t *, size_t);
void nzg_decoder_close(struct nzg_decoder *);
struct nzg_answer nzg_capture_open(struct nzg_capture *);
struct nzg_answer nzg_capture_feed(struct nzg_capture *, const uint8_t *, size_t);
struct nzg_answer nzg_capture_get(struct nzg_capture *, uint8_t, size_t, struct nzg_recorded *, uint8_t *, size_t);
struct nzg_answer nzg_capture_end(struct nzg_capture *);
struct nzg_answer nzg_capture_file(struct nzg_capture *, uint16_t, uint16_t, uint8_t *, size_t);
void nzg_capture_close(struct nzg_capture *);
"""
STATUSES = ("done", "open", "set_fault", "file_fault", "list_fault", "description_fault", "trailing", "no_room", "no_memory",
            "closed", "bad_argument", "trouble", "unanswered", "no_bytes", "text_fault", "capture_fault", "lacking")
SPEEDS = ("low", "full", "high", "super")
_TYPES = {"void": None, "void *": ctypes.c_void_p, "bool": ctypes.c_bool, "size_t": ctypes.c_size_t, "uint8_t": ctypes.c_uint8,
          "uint16_t": ctypes.c_uint16, "uint32_t": ctypes.c_uint32, "uint64_t": ctypes.c_uint64,
          "const uint8_t *": ctypes.c_char_p, "uint8_t *": ctypes.c_void_p}


# Declarations are read without the module re, and a type is made when it is first asked for: both take much of an import.
*_STRUCTS, _CALLS = " ".join(DECLARATIONS.split()).split("};")
_MEMBERS = dict(it.strip().removeprefix("struct nzg_").split(" {") for it in _STRUCTS)
_SIGNATURES = {head.rpartition(" ")[2]: (head.rpartition(" ")[0], parameters)
               for head, parameters in (it.strip().split("(") for it in _CALLS.split(");")[:-1])}


def _type(kind: str) -> type | None:
    """The type that C writes so. Threads that ask at the same time get the same."""
    if kind not in _TYPES:
        name, pointer, _ = kind.removeprefix("const ").removeprefix("struct nzg_").partition(" *")
        _TYPES.setdefault(kind, ctypes.POINTER(structs[name]) if pointer else structs[name])
    return _TYPES[kind]


def _field(kind: str, declared: str) -> tuple[str, type]:
    name, _, count = declared.rstrip("]").partition("[")
    it = _type(kind + " *" * name.startswith("*"))
    return name.lstrip("*"), it * int(count) if count else it


class _Structs(dict):
    """The structs that are declared, by their names without nzg_."""

    def __missing__(self, name: str) -> type:
        fields = []
        for declared in _MEMBERS[name].split(";")[:-1]:
            first, *others = declared.split(", ")
            kind, _, first = first.strip().rpartition(" ")
            fields += [_field(kind, it) for it in (first, *others)]
        return self.setdefault(name, type(name, (ctypes.Structure,), {"_fields_": fields}))


class _Library(ctypes.PyDLL):
    """The library, whose calls have their types."""

    def __getattr__(self, name: str):
        if name not in _SIGNATURES:
            raise AttributeError(name)
        result, parameters = _SIGNATURES[name]
        call = self[name]
        call.restype, call.argtypes = _type(result), [_type(it) for it in parameters.split(", ")]
        setattr(self, name, call)
        return call


def load(name: str, kind: type = ctypes.PyDLL) -> ctypes.PyDLL:
    """A library of this name in the folder of NOZZLEGORSE_LIBRARY, else beside this file, else in the system. PyDLL keeps one call at
    a time, so that threads may share a handle."""
    given, beside = os.environ.get("NOZZLEGORSE_LIBRARY"), os.path.join(os.path.dirname(os.path.abspath(__file__)), f"{name}.so")
    if given:
        return kind(given if name == "libnozzlegorse" else os.path.join(os.path.dirname(given), f"{name}.so"))
    return kind(beside if os.path.exists(beside) else f"{name}.so.0")


lib, structs = load("libnozzlegorse", _Library), _Structs()


def number(value: int, least: int, most: int, name: str) -> int:
    """A number in its range, and no other: ctypes would cut it."""
    value = operator.index(value)
    if not least <= value <= most:
        raise ValueError(f"{name} is from {least} to {most}, not {value}")
    return value


def speed_number(speed: str | None, known: tuple = SPEEDS[:3]) -> int:
    """The number of a speed, and 0 of None where that is known."""
    if speed not in known:
        raise ValueError(f"a speed is one of {', '.join(map(repr, known))}, not {speed!r}")
    return SPEEDS.index(speed) + 1 if speed else 0


def lend(data: bytes) -> tuple[bytes, int]:
    """Bytes, or what any buffer holds, and their count; of anything else a TypeError."""
    data = bytes(memoryview(data))
    return data, len(data)


def into(call, *before, of: type = ctypes.c_char, room: int = 4096):
    """Calls with a buffer that grows to what is wanted: the answer, and what was put there."""
    while True:
        out = (of * max(room, 1))()
        answer = call(*before, out, room)
        if STATUSES[answer.status] != "no_room":
            return answer, out[:answer.length]
        room = answer.length
