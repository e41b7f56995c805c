// node wasm.mjs PACKAGE USBDESC TESTDATA: each input of testdata by the package and by the program. The same texts, the same bytes?
import { readFileSync, readdirSync, statSync } from 'node:fs';
import { spawnSync } from 'node:child_process';
import { resolve } from 'node:path';

const [folder, usbdesc, testdata] = process.argv.slice(2);
const { load, Fault, enumerations } = await import(`${resolve(folder)}/index.mjs`);
const { calls: declared } = await import(`${resolve(folder)}/declared.mjs`);
const usb = await load();
const SPEEDS = ['', 'low', 'full', 'high', 'super'];
const below = place => readdirSync(place).sort().flatMap(it => statSync(`${place}/${it}`).isDirectory() ? below(`${place}/${it}`) : [`${place}/${it}`]);
const program = (words, input) => spawnSync(usbdesc, words, { input, maxBuffer: 1 << 28 }).stdout;
const MEMORY = ['memory', 'nzg_lowered_alloc', 'rattle_dealloc'];
const told = { texts: 0, others: 0, built: 0, descriptors: 0, fields: 0, findings: 0 };

// Each call is in one module alone, and what all have is for memory.
function exportsAreOnce() {
    const modules = readdirSync(folder).filter(it => it.endsWith('.wasm')).map(it => new WebAssembly.Module(readFileSync(`${folder}/${it}`)));
    const names = modules.map(it => WebAssembly.Module.exports(it).map(({ name }) => name));
    const rest = names.map(it => it.filter(name => !MEMORY.includes(name))), ofHeader = Object.keys(declared);
    const isOnce = names.every(it => MEMORY.every(name => it.includes(name))) && rest.flat().sort().join() === ofHeader.sort().join();
    console.log(`${modules.length} modules of ${rest.map(it => it.length).join(' and ')} calls: ${isOnce ? 'each of the header' : 'NOT each of the header, and'} once`);
    return isOnce;
}

function compare(what, ours, theirs) {
    told[ours === theirs ? 'texts' : 'others']++;
    if (ours !== theirs && told.others < 10) console.error(`wasm: ${what}: ${JSON.stringify(ours).slice(0, 200)} in place of ${JSON.stringify(theirs).slice(0, 200)}`);
}

// What a call gives, or nothing where it is refused: the program writes nothing then.
function given(call) {
    try {
        return call();
    } catch (fault) {
        if (!(fault instanceof Fault)) throw fault;
        return '';
    }
}

function explanations(name, bytes) {
    for (let k = 0; k < 16; k++) {
        const options = { brief: !!(k & 1), places: !!(k & 2), utf8: !!(k & 4), formats: !!(k & 8), speed: SPEEDS[k % 5] };
        const words = ['explain', ...options.brief ? ['--brief'] : [], ...options.places ? [] : ['--no-places'], ...options.utf8 ? ['--utf8'] : [],
                       ...options.formats ? ['--formats'] : [], ...options.speed ? ['--speed', options.speed] : []];
        compare(`${name} ${words.join(' ')}`, usb.explain(bytes, options).text, program(words, bytes).toString());
    }
}

function others(name, bytes) {
    for (const any of [false, true]) {
        const words = any ? ['--any'] : [], shown = given(() => usb.show(bytes, { any }));
        compare(`${name} show ${words}`, shown, program(['show', ...words], bytes).toString());
        compare(`${name} check ${words}`, given(() => usb.report(bytes, { any })), program(['check', ...words], bytes).toString());
        if (!shown || !bytes.length) continue;
        compare(`${name} build`, Buffer.from(given(() => usb.build(shown))).toString('hex'), program(['build'], shown).toString('hex'));
        told.built++;
    }
}

function walked(bytes) {
    for (const it of usb.walk(bytes)) {
        told.descriptors++;
        told.fields += it.fields.length;
    }
    told.findings += given(() => usb.check(bytes)).length;
    given(() => usb.remarks(bytes));
}

// Both ends, transaction by transaction: the host has read the file.
function enumerated(bytes) {
    const { nzg_device_image, nzg_device_reset, nzg_device_serve, nzg_device_acked, ...calls } = usb.calls;
    const device = {}, kept = new Uint8Array(512), host = {}, { NZG_RESET, NZG_SEND } = enumerations.action;
    const { status, image } = nzg_device_image(bytes, 2);
    if (status || calls.nzg_host_open(host, 1, 16, 3, 2).status) return null;
    for (let next = {}, action; (action = calls.nzg_host_next(host, next)) === NZG_SEND || action === NZG_RESET;) {
        if (action === NZG_RESET) {
            nzg_device_reset(device);
            calls.nzg_host_reset_done(host);
            continue;
        }
        const packet = {};
        nzg_device_serve(device, image, kept, next, new Uint8Array(), true, packet);
        if (packet.reply === enumerations.reply.NZG_DATA) nzg_device_acked(device, image);
        calls.nzg_host_take(host, packet.reply, packet.toggle, packet.data.subarray(0, packet.length));
    }
    const outcome = calls.nzg_host_outcome(host, {});
    calls.nzg_host_close(host);
    return outcome.file;
}

function median(run) {
    const times = [];
    for (let i = 0; i < 10; i++) {
        const begun = performance.now();
        run();
        times.push(performance.now() - begun);
    }
    return times.sort((a, b) => a - b)[5].toFixed(2);
}

const inputs = below(testdata).filter(it => /\.(file|bin|descriptors)$/.test(it));
let ends = 0;
for (const name of inputs) {
    const bytes = new Uint8Array(readFileSync(name));
    explanations(name, bytes);
    others(name, bytes);
    walked(bytes);
    const read = name.endsWith('.file') ? enumerated(bytes) : null;
    if (read) compare(`${name} enumerated`, Buffer.from(read).toString('hex'), Buffer.from(bytes).toString('hex'));
    ends += !!read;
}
const keyboard = new Uint8Array(readFileSync(`${testdata}/dumps/holtek-keyboard.descriptors`));
console.log(`${inputs.length} inputs: ${told.texts} texts as of usbdesc, ${told.others} others; ${told.built} built back, ${ends} enumerated; ${told.descriptors} descriptors with ${told.fields} fields; ${usb.pages()} pages of memory`);
console.log(`explain of a keyboard's dump ${median(() => usb.explain(keyboard))} ms`);
process.exit(exportsAreOnce() && !told.others ? 0 : 1);
