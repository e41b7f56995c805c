// The page: bytes in, and what the library in its worker says of them. All that is said of bytes is the library's text.
import { libraryIn } from './asking.js';
import { Bytes } from './bytes.js';
import { devicePicture, drawnOf, PictureView, ROLES } from './device_picture.js';
import { EnumerationView } from './enumeration.js';
import { Box, bytesOfBase64, hexadecimal, linkOf, MOST_BYTES, textOfAddress } from './input.js';
import { KINDS, lastUpTo, lineAt, nthOf } from './lines.js';
import { save, saveSvg } from './svg.js';
import { tabs } from './tabs.js';
import { Text } from './text.js';
import { Tree } from './tree.js';
import { askDevice, canAsk } from './webusb.js';

const at = id => document.getElementById(id);
const box = new Box(at('box'), at('behind'));
const tree = new Tree(at('tree'), (heading, line) => markLine(heading, line), line => saidOf(line));
const text = new Text(at('text'), line => tree.pick(line));
const bytes = new Bytes(at('bytes'), place => pickByte(place));
const picture = new PictureView(at('picture'), place => bytes.pick(place));
// What is shown: the bytes, and what the library reads in them. `turn` numbers what was asked for, since only the last counts.
const state = { bytes: new Uint8Array(), explained: null, turn: 0 };
let ask;

function tell(words) {
    at('told').textContent = words;
}

function failed(error) {
    tell(error.message);
}

// --- bytes in -----------------------------------------------------------------------------------------------------------------

async function readText(given) {
    const turn = ++state.turn, words = new TextEncoder().encode(given);
    if (words.length > 4 * MOST_BYTES) return tell(tooLong(words.length));
    box.mark(null);
    if (!given.trim()) return clear();
    const came = await ask('fromText', words);
    if (turn !== state.turn) return;
    if (came.bytes) return read(came.bytes);
    box.mark(came);
    clear();
    tell(`Line ${came.line}, column ${came.column}: not hexadecimal text`);
}

const tooLong = length => `${length.toLocaleString('en')} bytes are too many: this page reads at most ${MOST_BYTES.toLocaleString('en')}.`;

// Bytes as they are: those of a text in hexadecimal are what it says.
async function readFile(given, name) {
    const turn = ++state.turn;
    if (given.length > MOST_BYTES) return tell(tooLong(given.length));
    const came = await ask('fromText', given);
    if (turn === state.turn) await readWritten(came.bytes ?? given, name);
}

function readWritten(given, name) {
    at('box').value = hexadecimal(given);
    box.mark(null);
    return read(given, name);
}

async function read(given, name = '') {
    const turn = ++state.turn;
    const explained = await ask('read', given, Number(at('speed').value));
    if (turn !== state.turn) return;
    Object.assign(state, { bytes: given, explained: { ...explained, fields: new Map() } });
    showExplained();
    tell(name);
    await drawn();
}

function clear() {
    Object.assign(state, { bytes: new Uint8Array(), explained: null });
    at('found').hidden = true;
    tell('');
}

// --- what is shown ------------------------------------------------------------------------------------------------------------

function showExplained() {
    const { text: said, fault, lines } = state.explained;
    at('found').hidden = false;
    bytes.show(state.bytes);
    tree.show(state.explained);
    at('all-fields').checked = tree.allOpen;
    text.show(said, lines.starts);
    at('summary').textContent = fault ? '' : lineText(lines.kinds.length - 1);
}

// Draws what the tab in front has, where it is a picture.
async function drawn() {
    if (!at('picture-view').hidden) await drawPicture();
    if (!at('ladder-view').hidden) await enumeration.enter(state.bytes);
}

const lineText = line => lineAt(state.explained.text, state.explained.lines.starts, line).trim();

async function drawPicture() {
    const { turn } = state, { isWhole, descriptors } = await described();
    if (turn !== state.turn) return;
    const width = Math.max(300, Math.min(at('picture').clientWidth - 16, 760));
    picture.show(devicePicture(descriptors, width));
    at('picture-told').textContent = isWhole ? '' : 'The first descriptors alone are drawn.';
}

// What is drawn of the descriptors: the heading's words of each, and of an association which interfaces it binds.
async function described() {
    const { headings } = state.explained, { numbers, isWhole } = drawnOf(headings), found = numbers.map(number => ({
        place: headings.place[number], role: headings.role[number], interface_: headings.interface_[number],
        endpoint: headings.endpoint[number], words: tree.headingWords(number),
    }));
    const associations = found.filter(it => it.role === ROLES.ASSOCIATION), fields = await ask('fieldsOf', associations.map(it => it.place));
    associations.forEach((it, i) => {
        const value = name => fields[i].find(field => field.name === name)?.value;
        Object.assign(it, { first: value('bFirstInterface'), count: value('bInterfaceCount') });
    });
    return { descriptors: found, isWhole };
}

// --- what the rows of the tree say --------------------------------------------------------------------------------------------

// The fields of a heading's descriptor. What is left of broken bytes has none.
function fieldsOf(number) {
    const { fields, headings } = state.explained;
    if (!fields.has(number)) fields.set(number, headings.role[number] ? ask('fields', headings.place[number]) : Promise.resolve([]));
    return fields.get(number);
}

// What is found or remarked in a line: its place and its number, by the name of that. Of broken bytes no remarks are listed.
function noteAt(line, notes, name) {
    const { headings, lines } = state.explained, place = headings.place[tree.headingOf(line)];
    const index = lastUpTo(notes.place, place - 1) + 1 + nthOf(lines.kinds, line);
    return notes.place[index] === place ? { place, number: notes[name][index] } : null;
}

const TOLD = {
    [KINDS.FAULT]: async () => {
        const { kind, number, place, text: words } = state.explained.fault;
        return { words: `! ${kind} ${number ? `${number} ` : ''}at ${place}: ${words}` };
    },
    [KINDS.FINDING]: async line => {
        const { place, number } = noteAt(line, state.explained.findings, 'rule');
        return { words: `! V${number} ${await ask('findingText', place, number)}` };
    },
    [KINDS.REMARK]: async line => {
        const note = noteAt(line, state.explained.remarks, 'number');
        return { words: note ? `? ${await ask('remarkText', note.place, note.number)}` : lineText(line) };
    },
    [KINDS.FIELD]: async line => {
        const words = lineText(line), field = (await fieldsOf(tree.headingOf(line)))[nthOf(state.explained.lines.kinds, line)];
        return field ? { name: field.name, words: words.slice(field.name.length).trim() } : { words };
    },
};

async function saidOf(line) {
    return TOLD[state.explained.lines.kinds[line]](line);
}

// --- marks, both ways ---------------------------------------------------------------------------------------------------------

// The bytes of a heading's descriptor; nothing above the first.
function rangeOf(number) {
    const { place, length } = state.explained.headings;
    return number < 0 ? null : { place: place[number], length: length[number] };
}

async function markLine(number, line) {
    const { fault, lines: { kinds } } = state.explained, { turn } = state, range = kinds[line] === KINDS.PLAIN ? null : rangeOf(number);
    bytes.mark(kinds[line] === KINDS.FAULT ? { place: fault.place, length: 1 } : range);
    if (kinds[line] !== KINDS.FIELD) return;
    const field = (await fieldsOf(number))[nthOf(kinds, line)];
    if (field && turn === state.turn && tree.line === line) bytes.mark(range, { place: field.place, length: field.width });
}

async function pickByte(place) {
    const { headings, lines } = state.explained, number = lastUpTo(headings.place, place), range = rangeOf(number), { turn } = state;
    const fields = await fieldsOf(number), index = fields.findIndex(it => place >= it.place && place < it.place + it.width), field = fields[index];
    if (turn !== state.turn) return;
    tree.select(field ? lines.kinds.indexOf(KINDS.FIELD, lines.line[number]) + index : lines.line[number]);
    bytes.mark(range, field && { place: field.place, length: field.width });
}

// --- the page's parts ---------------------------------------------------------------------------------------------------------

const enumeration = new EnumerationView((...given) => ask('enumerate', ...given));

function listen() {
    at('box').addEventListener('input', () => readText(at('box').value).catch(failed));
    at('speed').addEventListener('change', () => state.explained && read(state.bytes).catch(failed));
    at('file').addEventListener('change', () => openFile(at('file').files[0]));
    at('open').addEventListener('click', () => at('file').click());
    at('example').addEventListener('change', openExample);
    at('all-fields').addEventListener('change', () => tree.openAll(at('all-fields').checked));
    at('ask').addEventListener('click', openDevice);
    at('link').addEventListener('click', copyLink);
    at('save-text').addEventListener('click', () => save(state.explained.text, 'text/plain', 'explanation.txt'));
    at('save-picture').addEventListener('click', () => saveSvg(at('picture').firstChild, 'device.svg'));
    addEventListener('dragover', event => event.preventDefault());
    addEventListener('drop', event => {
        event.preventDefault();
        if (event.dataTransfer.files.length) openFile(event.dataTransfer.files[0]);
    });
    addEventListener('hashchange', openAddress);
    new ResizeObserver(redrawn).observe(at('picture'));
    tabs(at('found'), redrawn);
}

function redrawn() {
    if (state.explained) drawn().catch(failed);
}

async function openFile(file) {
    if (!file) return;
    if (file.size > MOST_BYTES) return tell(tooLong(file.size));
    try {
        await readFile(new Uint8Array(await file.arrayBuffer()), file.name);
    } catch (error) {
        failed(error);
    }
}

function openExample() {
    const name = at('example').value;
    if (name) readWritten(bytesOfBase64(JSON.parse(at('examples').textContent)[name])).catch(failed);
}

async function openDevice() {
    if (!canAsk()) return tell('This browser has no WebUSB; Chromium, Chrome and Edge have it.');
    try {
        const { bytes: came, refused } = await askDevice(given => ask('named', given));
        await readWritten(came, refused);
    } catch (error) {
        failed(error);
    }
}

async function copyLink() {
    if (!hexadecimal(state.bytes)) return tell('These bytes are none, or too many for an address.');
    history.replaceState(null, '', linkOf(state.bytes));
    try {
        await navigator.clipboard.writeText(location.href);
        tell('The link is copied.');
    } catch {
        tell('The link is in the address bar.');
    }
}

function openAddress() {
    const given = textOfAddress();
    if (!given) return;
    at('box').value = given;
    readText(given).catch(failed);
}

// Bytes that were put into the file, stand in the address, or were typed before the library was there.
function openGiven() {
    const given = at('given').textContent;
    if (given) readWritten(bytesOfBase64(given), at('given').dataset.name).catch(failed);
    else if (location.hash.length > 1) openAddress();
    else readText(at('box').value).catch(failed);
}

async function start() {
    try {
        ask = await libraryIn(at('worker').textContent, at('module').textContent);
    } catch (error) {
        document.body.dataset.state = 'failed';
        for (const it of document.querySelectorAll('.input :is(button, select, textarea, input)')) it.disabled = true;
        return failed(error);
    }
    listen();
    document.body.dataset.state = 'ready';
    openGiven();
}

start();
