// Nozzlegorse: descriptors of USB 2.0, and both ends of the control pipe. `load` gives the library; what is refused is a Fault.
//
//     import { load } from 'nozzlegorse';
//     const usb = await load();
//     console.log(usb.explain(bytes).text);
import { callsOver } from './calls.mjs';
import { enumerations } from './declared.mjs';
import { done, Fault } from './faults.mjs';
import { recordingsOver } from './recordings.mjs';

export { enumerations, Fault };

const utf8 = new TextDecoder();
const SPEEDS = ['', 'low', 'full', 'high', 'super'];

function speedOf(name) {
    const number = SPEEDS.indexOf(name);
    if (number < 0) throw new TypeError(`no speed ${name}`);
    return number;
}

async function moduleOf(source) {
    if (source instanceof Uint8Array || source instanceof ArrayBuffer) return source;
    if (typeof Response !== 'undefined' && source instanceof Response) return source.arrayBuffer();
    if (source.protocol === 'file:' && typeof process !== 'undefined') return (await import('node:fs/promises')).readFile(source);
    return (await fetch(source)).arrayBuffer();
}

function texts(calls) {
    const text = (bytes) => utf8.decode(bytes);
    const encoded = text => typeof text === 'string' ? new TextEncoder().encode(text) : text;
    return {
        // The text goes as far as the bytes do: then `fault` says where they end.
        explain(bytes, { brief = false, places = true, utf8 = false, formats = false, loose = false, hex = false, speed = '' } = {}) {
            const options = brief | places << 1 | utf8 << 2 | formats << 3 | loose << 4 | hex << 5;
            const answer = calls.nzg_explain(hex ? encoded(bytes) : bytes, options, speedOf(speed));
            const fault = answer.status ? new Fault(answer) : null;
            return { text: fault?.column ? '' : text(answer.text), fault };
        },
        // the bytes of hexadecimal text
        fromText: text => done(calls.nzg_from_text(encoded(text))).bytes,
        show: (bytes, { any = true } = {}) => text(done(calls.nzg_show(bytes, any)).text),
        // the lines of `usbdesc check`
        report: (bytes, { any = true } = {}) => text(done(calls.nzg_check(bytes, any)).text),
        build: (listing, { comments = false } = {}) => done(calls.nzg_build(encoded(listing), comments)).bytes,
        withStrings: dump => done(calls.nzg_with_strings(dump)).file,
        rule: number => text(done(calls.nzg_rule(number)).text),
        // what a finding or a remark of these bytes says, and what is wrong with bytes, in the words of explain
        findingText: (bytes, finding) => text(done(calls.nzg_finding_text(bytes, finding)).text),
        remarkText: (bytes, remark, { speed = '' } = {}) => text(done(calls.nzg_remark_text(bytes, speedOf(speed), remark)).text),
        faultText: bytes => text(done(calls.nzg_fault_text(bytes)).text),
    };
}

function facts(calls) {
    const named = ({ name, name_length, place, width, value }) => ({ name: utf8.decode(name.subarray(0, name_length)), place, width, value });
    const fieldsOf = (bytes, descriptor) => calls.nzg_fields(bytes, descriptor).fields.map(named);
    return {
        // 'set', 'file' or 'dump'
        judge: bytes => ['', 'set', 'file', 'dump'][done(calls.nzg_judge(bytes)).number],
        check: bytes => done(calls.nzg_findings(bytes)).found,
        remarks: (bytes, { speed = '' } = {}) => done(calls.nzg_remarks(bytes, speedOf(speed))).remarks,
        // Each descriptor where it stands, with its bytes and fields, as far as the bytes can be read.
        * walk(bytes) {
            const cursor = {};
            while (calls.nzg_next(bytes, cursor))
                yield { ...cursor, bytes: bytes.subarray(cursor.place, cursor.place + cursor.length), fields: fieldsOf(bytes, cursor) };
        },
        // its first field of a name, as 'wMaxPacketSize', or null
        field(bytes, descriptor, name) {
            const field = {};
            return calls.nzg_field_named(bytes, descriptor, new TextEncoder().encode(name), field) ? named(field) : null;
        },
        // Each whole set and each device descriptor in any bytes, 'set' or 'device', with its place.
        * find(bytes) {
            const found = { next: 0 };
            while (calls.nzg_find(bytes, found.next, found))
                yield { kind: found.kind === 1 ? 'set' : 'device', place: found.place, bytes: bytes.subarray(found.place, found.place + found.length) };
        },
        string: (bytes, descriptor) => utf8.decode(done(calls.nzg_text(bytes, descriptor)).text),
    };
}

// The exports of a module, and how many pages of 64 KB it has taken.
async function opened(source) {
    const { instance: { exports } } = await WebAssembly.instantiate(await moduleOf(source), {});
    return { exports, pages: () => exports.memory.buffer.byteLength >> 16 };
}

// What reads recordings. Its module is loaded when it is first asked for, and after a failure anew.
function recordingsOnce() {
    let loading = null;
    async function loaded(source) {
        const { exports, pages } = await opened(source);
        return { ...recordingsOver(exports), pages };
    }
    return (source = new URL('recordings.wasm', import.meta.url)) => loading ??= loaded(source).catch(failure => {
        loading = null;
        throw failure;
    });
}

export async function load(source = new URL('nozzlegorse.wasm', import.meta.url)) {
    const { exports, pages } = await opened(source), calls = callsOver(exports);
    return { ...texts(calls), ...facts(calls), recordings: recordingsOnce(), calls, pages };
}
