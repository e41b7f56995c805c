// The exports of nozzlegorse.h over values, one function for each: bytes are lent as a Uint8Array, a struct is an object with its
// fields, and what a call writes into room comes back in its answer. A struct that a call changes is changed in place, and so is what
// a device keeps. A handle is such an object too: begun as {}, and freed by its _close alone.
import { calls as declared, structs } from './declared.mjs';

const NO_ROOM = 7, FIRST_ROOM = 4096, ALIGN = 8;
// These answer once: asked again with more room they have nothing left.
const ROOMS = { nzg_decoder_list: 1 << 20 };
const READ = {
    bool: (view, at) => view.getUint8(at) !== 0,
    uint8_t: (view, at) => view.getUint8(at),
    uint16_t: (view, at) => view.getUint16(at, true),
    uint32_t: (view, at) => view.getUint32(at, true),
    held: (view, at) => view.getUint32(at, true),
    uint64_t: (view, at) => view.getBigUint64(at, true),
    size: (view, at) => Number(view.getBigUint64(at, true)),
};
const WRITE = {
    bool: (view, at, it) => view.setUint8(at, it ? 1 : 0),
    uint8_t: (view, at, it) => view.setUint8(at, it),
    uint16_t: (view, at, it) => view.setUint16(at, it, true),
    uint32_t: (view, at, it) => view.setUint32(at, it, true),
    held: (view, at, it) => view.setBigUint64(at, BigInt(it), true),
    uint64_t: (view, at, it) => view.setBigUint64(at, BigInt(it), true),
    size: (view, at, it) => view.setBigUint64(at, BigInt(it), true),
};
const WIDTHS = { uint8_t: 1, uint16_t: 2, uint32_t: 4, uint64_t: 8 };
const rounded = length => Math.ceil(length / ALIGN) * ALIGN;

function taken(exports, length) {
    const place = exports.nzg_lowered_alloc(BigInt(length + ALIGN), BigInt(ALIGN)) >>> 0;
    if (!place) throw new RangeError('no memory');
    return place;
}

// Bytes, or a struct, that lie in the library's memory until they are freed. They stand for a Uint8Array or an object in any number
// of calls, which copy nothing.
export class Held {
    constructor(exports, bytes) {
        this.exports = exports;
        this.length = bytes.length;
        this.place = taken(exports, bytes.length);
        this.set(bytes);
    }

    // The bytes from this one on, where they lie. The whole frees them.
    from(at) {
        return Object.assign(Object.create(Held.prototype), this, { place: this.place + at, length: this.length - at });
    }

    static struct(exports, kind) {
        return new Held(exports, new Uint8Array(structs[kind].size));
    }

    set(bytes) {
        new Uint8Array(this.exports.memory.buffer).set(bytes, this.place);
    }

    copy() {
        return new Uint8Array(this.exports.memory.buffer, this.place, this.length).slice();
    }

    field(kind, name) {
        const [, type, count, place] = structs[kind].fields.find(([it]) => it === name);
        return fieldAt(new DataView(this.exports.memory.buffer), this.place + place, type, count);
    }

    free() {
        this.exports.rattle_dealloc(this.place);
    }
}

function fieldAt(view, at, kind, count) {
    if (kind in structs) return structAt(view, at, kind);
    if (!count) return READ[kind](view, at);
    const many = Array.from({ length: count }, (_, i) => READ[kind](view, at + i * WIDTHS[kind]));
    return kind === 'uint8_t' ? Uint8Array.from(many) : many;
}

function structAt(view, at, kind) {
    return Object.fromEntries(structs[kind].fields.map(([name, type, count, place]) => [name, fieldAt(view, at + place, type, count)]));
}

function putField(view, at, kind, count, value) {
    if (kind in structs) putStruct(view, at, kind, value);
    else if (!count) WRITE[kind](view, at, value);
    else for (let i = 0; i < Math.min(count, value.length); i++) WRITE[kind](view, at + i * WIDTHS[kind], value[i]);
}

// A field that the object lacks is 0.
function putStruct(view, at, kind, value) {
    for (const [name, type, count, place] of structs[kind].fields)
        if (value[name] !== undefined) putField(view, at + place, type, count, value[name]);
}

// Of bytes: they have a length of their own. Those that are kept change in place.
const isLent = role => role === 'bytes' || role === 'kept';

// How many bytes a parameter takes in the library's memory.
function lengthOf([role, , kind], value, room) {
    if (value instanceof Held) return 0;
    if (isLent(role)) return value.length;
    if (role === 'room') return room * (structs[kind]?.size ?? 1);
    return role === 'number' ? 0 : structs[kind].size;
}

function once(exports, name, { result, parameters }, given, room) {
    const rest = [...given], answer = structs[result];
    const all = parameters.map(it => ({ it, value: it[0] === 'room' ? null : rest.shift() }));
    let total = answer ? rounded(answer.size) : 0;
    for (const part of all) {
        part.length = lengthOf(part.it, part.value, room);
        part.place = total;
        total += rounded(part.length);
    }
    const base = taken(exports, total);
    try {
        const words = lent(exports, all, base, room);
        const came = exports[name](...answer ? [base] : [], ...words);
        return given_back(exports, result, all, base, room, came);
    } finally {
        exports.rattle_dealloc(base);
    }
}

// The words of a call, and what it is lent in its place.
function lent(exports, all, base, room) {
    const view = new DataView(exports.memory.buffer), bytes = new Uint8Array(exports.memory.buffer), words = [];
    for (const { it: [role, , kind], value, length, place } of all) {
        const at = value instanceof Held ? value.place : base + place;
        if (!isLent(role)) bytes.fill(0, at, at + length);
        else if (length) bytes.set(value, at);
        if (role === 'number') words.push(kind === 'size' || kind === 'uint64_t' ? BigInt(value) : Number(value));
        else words.push(at);
        if (isLent(role) || role === 'room') words.push(BigInt(role === 'room' ? room : value.length));
        if ((role === 'struct' || role === 'lent') && !(value instanceof Held)) putStruct(view, at, kind, value);
    }
    return words;
}

// What a call has changed: the structs, what is kept, and its answer with what it wrote.
function given_back(exports, result, all, base, room, came) {
    const view = new DataView(exports.memory.buffer);
    for (const { it: [role, , kind], value, length, place } of all) {
        if (value instanceof Held) continue;
        if (role === 'struct') Object.assign(value, structAt(view, base + place, kind));
        if (role === 'kept') value.set(new Uint8Array(exports.memory.buffer, base + place, length));
    }
    if (!structs[result]) return result === 'bool' ? came !== 0 : result === 'uint8_t' ? came & 0xff : result === 'uint16_t' ? came & 0xffff : came;
    const answer = structAt(view, base, result);
    const length = answer.status === NO_ROOM ? 0 : Math.min(answer.length, room);
    for (const { it: [role, name, kind], place } of all) {
        if (role !== 'room') continue;
        answer[name] = kind === 'uint8_t'
            ? new Uint8Array(exports.memory.buffer, base + place, length).slice()
            : Array.from({ length }, (_, i) => structAt(view, base + place + i * structs[kind].size, kind));
    }
    return answer;
}

function call(exports, name, it, given) {
    const hasRoom = it.parameters.some(([role]) => role === 'room');
    const result = once(exports, name, it, given, hasRoom ? ROOMS[name] ?? FIRST_ROOM : 0);
    return hasRoom && result.status === NO_ROOM ? once(exports, name, it, given, result.length) : result;
}

// The calls that a module has.
export function callsOver(exports) {
    const known = Object.entries(declared).filter(([name]) => name in exports);
    return Object.fromEntries(known.map(([name, it]) => [name, (...given) => call(exports, name, it, given)]));
}
