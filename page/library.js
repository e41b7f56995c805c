// The library's calls that the page makes, over values. What is read lies in the library's memory until other bytes are.
import { callsOver, Held } from '../javascript/calls.mjs';
import { enumerations, structs } from './declared.mjs';
import { linesOf } from './lines.js';

const { NZG_PLACES, NZG_UTF8, NZG_FORMATS } = enumerations.options;
const { NZG_DONE, NZG_NO_MEMORY, NZG_TEXT_FAULT } = enumerations.status;
const EXPLAINED = NZG_PLACES | NZG_UTF8 | NZG_FORMATS;
// A place to come back to in a walk is kept at each so many descriptors.
const KEPT = 64;
// What is kept of each descriptor.
const WALKED = ['place', 'length', 'depth', 'role', 'interface_', 'endpoint'];
const utf8 = new TextDecoder();
const toUtf8 = new TextEncoder();

function inMemory(answer) {
    if (answer.status === NZG_NO_MEMORY) throw new RangeError('no memory');
    return answer;
}

const placeIn = (kind, name) => structs[kind].fields.find(([it]) => it === name)[3];
const PLACE = placeIn('descriptor', 'place'), NEXT = placeIn('descriptor', 'next');
const STATUS = placeIn('answer', 'status'), LENGTH = placeIn('answer', 'length');
const textOf = answer => utf8.decode(inMemory(answer).text);

// Fields of many structs, an array of numbers for each. Of a length the lower half is read: no input is longer.
class Columns {
    constructor(kind, names) {
        this.fields = names.map(name => structs[kind].fields.find(([it]) => it === name));
        this.values = names.map(() => []);
    }

    add(view, at) {
        this.fields.forEach(([, type, , place], i) =>
            this.values[i].push(type === 'uint8_t' ? view.getUint8(at + place) : view.getUint32(at + place, true)));
    }

    arrays() {
        return Object.fromEntries(this.fields.map(([name], i) => [name, Uint32Array.from(this.values[i])]));
    }
}

export class Library {
    constructor(exports) {
        this.exports = exports;
        this.calls = callsOver(exports);
        this.cursor = Held.struct(exports, 'descriptor');
        this.answer = Held.struct(exports, 'answer');
    }

    // The bytes of hexadecimal text, or the line and the column that stop it.
    fromText(text) {
        const answer = inMemory(this.calls.nzg_from_text(text));
        if (answer.status === NZG_TEXT_FAULT) return { line: answer.place, column: answer.length };
        return { bytes: answer.bytes };
    }

    // The explanation of bytes, their descriptors, what is found and remarked of these, and which line of the explanation has what.
    read(bytes, speed) {
        this.hold(bytes);
        this.speed = speed;
        const { text } = inMemory(this.calls.nzg_explain(this.held, EXPLAINED, speed));
        const fault = this.fault(), headings = this.walk(fault ? fault.place : bytes.length);
        const findings = this.list('nzg_findings', 'finding', ['place', 'rule'], !fault);
        const remarks = this.list('nzg_remarks', 'remark', ['place', 'number'], !fault, speed);
        return { text, fault, headings, findings, remarks, lines: linesOf(text, headings, fault, findings) };
    }

    hold(bytes) {
        const before = this.held;
        this.held = null;
        before?.free();
        this.held = new Held(this.exports, bytes);
        this.length = BigInt(bytes.length);
    }

    // Where bytes are neither file, dump nor set, and why; nothing where they are one.
    fault() {
        const { status, number, place } = inMemory(this.calls.nzg_judge(this.held));
        if (status === NZG_DONE) return null;
        const [kind] = Object.entries(enumerations.status).find(([, it]) => it === status);
        return { kind: kind.slice(4).toLowerCase().replaceAll('_', ' '), number, place, text: textOf(this.calls.nzg_fault_text(this.held)) };
    }

    // The descriptors that end at this place or before, with their fields' number; then what is left as one without a role.
    walk(end) {
        const found = new Columns('descriptor', WALKED), view = new DataView(this.exports.memory.buffer), fields = [];
        let after = 0;
        this.kept = [];
        this.rewind();
        while (this.next() && this.number(this.cursor, NEXT) <= end) {
            if (fields.length % KEPT === 0) this.kept.push({ place: this.number(this.cursor, PLACE), cursor: this.cursor.copy() });
            found.add(view, this.cursor.place);
            fields.push(this.countOf('nzg_fields', this.cursor.place));
            after = this.number(this.cursor, NEXT);
        }
        if (after < this.held.length) {
            [after, this.held.length - after, 0, 0, 0, 0].forEach((it, i) => found.values[i].push(it));
            fields.push(1);
        }
        return { ...found.arrays(), fields: Uint8Array.from(fields) };
    }

    // The call itself, since there may be as many descriptors as there are bytes.
    next() {
        return this.exports.nzg_next(this.held.place, this.length, this.cursor.place);
    }

    // A number at a place of a struct in the library's memory, which moves as it grows.
    number({ place }, at) {
        const { buffer } = this.exports.memory;
        if (this.view?.buffer !== buffer) this.view = new DataView(buffer);
        return this.view.getUint32(place + at, true);
    }

    rewind() {
        this.cursor.set(new Uint8Array(this.cursor.length));
    }

    // How many structs a call has to give, which it says where there is no room.
    countOf(call, ...words) {
        return this.filled(call, this.answer.place, 0, ...words);
    }

    filled(call, place, room, ...words) {
        this.exports[call](this.answer.place, this.held.place, this.length, ...words, place, BigInt(room));
        inMemory({ status: this.number(this.answer, STATUS) });
        return this.number(this.answer, LENGTH);
    }

    // Fields of all structs that a call gives, as arrays; of none where it isn't asked.
    list(call, kind, names, isAsked, ...words) {
        const found = new Columns(kind, names), { size } = structs[kind], count = isAsked ? this.countOf(call, ...words) : 0;
        const room = new Held(this.exports, new Uint8Array(count * size));
        if (count) this.filled(call, room.place, count, ...words);
        const view = new DataView(this.exports.memory.buffer);
        for (let i = 0; i < count; i++) found.add(view, room.place + i * size);
        room.free();
        return found.arrays();
    }

    findingText(place, rule) {
        return textOf(this.calls.nzg_finding_text(this.held, { place, rule }));
    }

    remarkText(place, number) {
        return textOf(this.calls.nzg_remark_text(this.held, this.speed, { place, number }));
    }

    // The indices of the strings that the descriptors of other bytes name.
    named(bytes) {
        const cursor = { named: [0n, 0n, 0n, 0n] };
        while (this.calls.nzg_next(bytes, cursor));
        return Array.from({ length: 255 }, (_, i) => i + 1).filter(i => cursor.named[i >> 6] >> BigInt(i & 63) & 1n);
    }

    // The fields of the descriptor at this place; none where there is no descriptor.
    fields(place) {
        const before = this.kept.findLast(it => it.place <= place);
        if (!before) return [];
        this.cursor.set(before.cursor);
        while (this.number(this.cursor, PLACE) < place && this.next());
        if (this.number(this.cursor, PLACE) !== place) return [];
        return this.calls.nzg_fields(this.held, this.cursor).fields.map(({ name, name_length, place: at, width, value }) =>
            ({ name: utf8.decode(name.subarray(0, name_length)), place: at, width, value: Number(value) }));
    }

    // The fields of the descriptors at these places.
    fieldsOf(places) {
        return places.map(it => this.fields(it));
    }

    // What `enumerate --log` writes under these fates; of a dump with the strings of `--with-strings`. Of other bytes what is wrong with
    // them, and of a device that isn't accepted the number with which the program refuses it, and its first finding.
    enumerate(speed, naks, attempts, fates) {
        const { status, file } = inMemory(this.calls.nzg_with_strings(this.held));
        if (status !== NZG_DONE) return { fault: textOf(this.calls.nzg_fault_text(this.held)) };
        const answer = inMemory(this.calls.nzg_enumerate_log(file, speed, naks, attempts, toUtf8.encode(fates)));
        if (answer.status !== NZG_DONE) return { refused: answer.number, why: this.finding(file) };
        return { log: utf8.decode(answer.text) };
    }

    // What the first finding of a file says, in words; nothing where it has none.
    finding(file) {
        const { found } = inMemory(this.calls.nzg_findings(file));
        return found.length ? textOf(this.calls.nzg_finding_text(file, found[0])) : '';
    }
}
