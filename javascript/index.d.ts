import type { Calls, Descriptor, Finding, RecordingCalls, Remark } from './declared.mjs';

export type * from './declared.mjs';
export type Speed = '' | 'low' | 'full' | 'high' | 'super';

/** What is wrong: its kind is that of enum nzg_status, as 'set_fault'; number and place are those of usbdesc. Of a 'text_fault' the place
 * is a line, which has a column. */
export class Fault extends Error {
    readonly kind: string;
    readonly number: number;
    readonly place: number;
    readonly column: number;
}

export interface NamedField { name: string; place: number; width: number; value: bigint; }
export interface Walked extends Descriptor { bytes: Uint8Array; fields: NamedField[]; }

export interface DeviceAddress { bus: number; device: number; }

/** What USB 2.0 forbids: T1 in a transfer, C1 to C17 in a device's conversation, P1 to P13 in packets, these with the number of their
 * frame. The time is in nanoseconds. What isn't known is null. */
export interface Forbidden {
    kind: 'finding';
    name: string;
    message: string;
    section: string;
    time: bigint | null;
    device: DeviceAddress | null;
    frame: number | null;
}

/** A control transfer of endpoint zero, with what is found in it. It ended, or began where no end came, at `time`. An 'error' has the status
 * of the host's system, and so has 'refused'. Of the `length` bytes of data that came or went, `data` are in the recording. */
export interface Request {
    kind: 'request';
    time: bigint | null;
    begun: bigint | null;
    device: DeviceAddress;
    setup: Uint8Array;
    data: Uint8Array;
    length: number;
    ending: 'no end' | 'done' | 'stall' | 'error' | 'refused';
    status: number;
    isCut: boolean;
    findings: Forbidden[];
}

/** A recording in pieces: pcap, pcapng or usbmon's text. It has memory of the module until it is closed. */
export interface Recording {
    /** What is over with the next bytes, in order. A fault of the recording is thrown once what came before it was given: by the next call,
     * of no bytes at the end of the file. */
    feed(piece: Uint8Array): (Request | Forbidden)[];
    /** The requests so far whose end didn't come. */
    unended(): Request[];
    /** Where the part begins that isn't whole, and how many bytes of it came, if any did: a file that ends here is cut. */
    cut(): { place: number; length: number } | null;
    /** The devices so far, in the order in which they are first seen, and how many findings each has; null for packets of which no device
     * is known. */
    devices(): { device: DeviceAddress | null; findings: number }[];
    /** The descriptors of a device that came, as usbdesc capture --file writes them. A Fault of kind 'lacking' says what didn't. */
    file(device: DeviceAddress): Uint8Array;
    close(): void;
}

export interface Recordings {
    /** One that has read nothing. */
    open(): Recording;
    /** Each export of nozzlegorse.h for recordings by its name, over values. */
    calls: RecordingCalls;
    /** Pages of 64 KB that the module has taken. */
    pages(): number;
}

/** Where a module is: its bytes, a Response or a URL. */
export type Source = Uint8Array | ArrayBuffer | Response | URL;

export interface Library {
    explain(bytes: Uint8Array | string, options?: { brief?: boolean; places?: boolean; utf8?: boolean; formats?: boolean; loose?: boolean; hex?: boolean; speed?: Speed }): { text: string; fault: Fault | null };
    /** The bytes of hexadecimal text. */
    fromText(text: Uint8Array | string): Uint8Array;
    show(bytes: Uint8Array, options?: { any?: boolean }): string;
    /** The lines of usbdesc check. */
    report(bytes: Uint8Array, options?: { any?: boolean }): string;
    build(listing: string, options?: { comments?: boolean }): Uint8Array;
    withStrings(dump: Uint8Array): Uint8Array;
    /** What breaks a rule, 1 to 13. */
    rule(number: number): string;
    /** What a finding or a remark of these bytes says, and what is wrong with bytes, in the words of explain. */
    findingText(bytes: Uint8Array, finding: Finding): string;
    remarkText(bytes: Uint8Array, remark: Remark, options?: { speed?: Speed }): string;
    faultText(bytes: Uint8Array): string;
    judge(bytes: Uint8Array): 'set' | 'file' | 'dump';
    check(bytes: Uint8Array): Finding[];
    remarks(bytes: Uint8Array, options?: { speed?: Speed }): Remark[];
    walk(bytes: Uint8Array): Generator<Walked>;
    /** Its first field of a name, as 'wMaxPacketSize'. */
    field(bytes: Uint8Array, descriptor: Descriptor, name: string): NamedField | null;
    /** Each whole set and each device descriptor in any bytes. */
    find(bytes: Uint8Array): Generator<{ kind: 'set' | 'device'; place: number; bytes: Uint8Array }>;
    string(bytes: Uint8Array, descriptor: Descriptor): string;
    /** What reads recordings. Its module, recordings.wasm beside this file, or its bytes, a Response or a URL, is loaded when this is first
     * called, and never where it isn't. */
    recordings(source?: Source): Promise<Recordings>;
    /** Each export of nozzlegorse.h by its name, over values: devices, hosts, transfers and writes too. Those for recordings are calls of
     * `recordings`. */
    calls: Calls;
    /** Pages of 64 KB that the library has taken. */
    pages(): number;
}

/** The enumerations of nozzlegorse.h, without nzg_: names and numbers. */
export const enumerations: Record<string, Record<string, number>>;

/** The library, of nozzlegorse.wasm beside this file, or of its bytes, a Response or a URL. */
export function load(source?: Source): Promise<Library>;
