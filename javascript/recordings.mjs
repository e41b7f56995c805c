// Recordings of a bus, as pcap, pcapng or usbmon's text: their calls are in a module of their own.
import { callsOver, Held } from './calls.mjs';
import { enumerations } from './declared.mjs';
import { done, Fault } from './faults.mjs';

const { NZG_REQUEST, NZG_OF_REQUEST, NZG_OF_PACKETS, NZG_UNENDED, NZG_SEEN } = enumerations.kind;
const { NZG_DONE, NZG_OPEN } = enumerations.status;
const ENDINGS = ['no end', 'done', 'stall', 'error', 'refused'];
const WORDS = /^(.*) \((.*)\)$/;
const utf8 = new TextDecoder();

const deviceOf = it => it.has_device ? { bus: it.bus, device: it.device } : null;
const timeOf = it => it.has_time ? it.time : null;

function nameOf(kind, number) {
    if (kind === NZG_OF_PACKETS) return `P${number}`;
    return number === 1 ? 'T1' : `C${number - 1}`;
}

function findingOf(kind, it) {
    const [, message, section] = WORDS.exec(utf8.decode(it.data));
    return { kind: 'finding', name: nameOf(kind, it.finding), message, section, time: timeOf(it), device: deviceOf(it), frame: it.count || null };
}

function requestOf(it, findings) {
    const { bus, device, setup, data, length, status } = it;
    return {
        kind: 'request', time: timeOf(it), begun: it.has_begun ? it.begun : null, device: { bus, device }, setup, data, length,
        ending: ENDINGS[it.ending], status, isCut: it.is_cut, findings,
    };
}

// A recording in pieces. It has memory of the module until it is closed.
class Recording {
    constructor(exports, calls) {
        Object.assign(this, { exports, calls, handle: {} });
        done(calls.nzg_capture_open(this.handle));
    }

    // What is over with the next bytes, in order: requests, and findings in packets. A fault of the recording is thrown once what came
    // before it was given: by the next call, of no bytes at the end of the file.
    feed(piece) {
        const held = new Held(this.exports, piece), over = [];
        try {
            for (let at = 0; ;) {
                const answer = this.calls.nzg_capture_feed(this.handle, held.from(at));
                if (answer.status !== NZG_OPEN && over.length) return over;
                if (answer.status !== NZG_OPEN) throw new Fault(answer);
                over.push(...this.#over());
                at += answer.length;
                if (at === piece.length) return over;
            }
        } finally {
            held.free();
        }
    }

    #over() {
        const requests = this.#all(NZG_REQUEST).map(it => requestOf(it, this.#findings(NZG_OF_REQUEST)));
        return [...requests, ...this.#findings(NZG_OF_PACKETS)];
    }

    // the requests so far whose end didn't come
    unended() {
        return this.#all(NZG_UNENDED).map(it => requestOf(it, []));
    }

    // Where the part begins that isn't whole, and how many bytes of it came, or null where none did: a file that ends here is cut, or not.
    cut() {
        const { place, length } = done(this.calls.nzg_capture_end(this.handle));
        return length ? { place, length } : null;
    }

    // the devices so far, in the order in which they are first seen, each with how many findings it has
    devices() {
        return this.#all(NZG_SEEN).map(it => ({ device: deviceOf(it), findings: it.count }));
    }

    // The descriptors of a device that came, as `usbdesc capture --file` writes them. A Fault of kind 'lacking' says what didn't.
    file({ bus, device }) {
        return done(this.calls.nzg_capture_file(this.handle, bus, device)).bytes;
    }

    close() {
        this.calls.nzg_capture_close(this.handle);
    }

    #findings(kind) {
        return this.#all(kind).map(it => findingOf(kind, it));
    }

    // Each thing of a kind, with its data.
    #all(kind) {
        const found = [];
        for (;;) {
            const recorded = {}, { status, data } = this.calls.nzg_capture_get(this.handle, kind, found.length, recorded);
            if (status !== NZG_DONE) return found;
            found.push({ ...recorded, data });
        }
    }
}

export function recordingsOver(exports) {
    const calls = callsOver(exports);
    return { open: () => new Recording(exports, calls), calls };
}
