// The descriptors of a device that is plugged in, by GET_DESCRIPTOR, as a host reads them (9.4.3).
const TYPES = { DEVICE: 1, CONFIGURATION: 2, STRING: 3, QUALIFIER: 6, OTHER_SPEED: 7 };
const NAMES = { 1: 'device', 2: 'configuration', 3: 'string', 6: 'qualifier', 7: 'other-speed configuration' };
const GET_DESCRIPTOR = 6, LONGEST_STRING = 255;

export const canAsk = () => 'usb' in navigator;

// What stopped a request, in the words of the log's requests and of WebUSB's statuses.
class Refused extends Error {}

async function descriptor(device, type, index, length, language = 0) {
    const setup = { requestType: 'standard', recipient: 'device', request: GET_DESCRIPTOR, value: type << 8 | index, index: language };
    const request = `GET_DESCRIPTOR ${NAMES[type]} ${index}, ${length} bytes`;
    const { data, status } = await device.controlTransferIn(setup, length).catch(error => {
        throw new Refused(`${request}: ${error.message}`);
    });
    if (status !== 'ok') throw new Refused(`${request}: ${status}`);
    return new Uint8Array(data.buffer, data.byteOffset, data.byteLength);
}

async function sets(device, type, count, parts) {
    for (let index = 0; index < count; index++) {
        const header = await descriptor(device, type, index, 9);
        parts.push(await descriptor(device, type, index, header[2] | header[3] << 8));
    }
}

// The strings of these indices in each language, with the list of languages before them.
async function strings(device, indices, parts) {
    if (!indices.length) return;
    const languages = await descriptor(device, TYPES.STRING, 0, LONGEST_STRING);
    parts.push(languages);
    for (let at = 2; at + 1 < languages.length; at += 2)
        for (const index of indices)
            parts.push(await descriptor(device, TYPES.STRING, index, LONGEST_STRING, languages[at] | languages[at + 1] << 8));
}

const joined = parts => {
    const bytes = new Uint8Array(parts.reduce((sum, it) => sum + it.length, 0));
    parts.reduce((at, it) => (bytes.set(it, at), at + it.length), 0);
    return bytes;
};

// The other speed's descriptors. A device of one speed refuses the qualifier (9.6.2).
async function otherSpeed(device, parts) {
    const qualifier = await descriptor(device, TYPES.QUALIFIER, 0, 10).catch(() => null);
    if (!qualifier) return;
    parts.push(qualifier);
    await sets(device, TYPES.OTHER_SPEED, qualifier[8], parts);
}

// What a device that is open gave: a file, or without what is missing a dump, or its beginning; and the request that was refused.
// `namedBy` gives the indices of the strings that bytes name.
async function read(device, namedBy) {
    const parts = [];
    let kept = 0;
    try {
        parts.push(await descriptor(device, TYPES.DEVICE, 0, 18));
        kept = 1;
        await sets(device, TYPES.CONFIGURATION, parts[0][17], parts);
        kept = parts.length;
        await otherSpeed(device, parts);
        await strings(device, await namedBy(joined(parts)), parts);
        return { bytes: joined(parts), refused: '' };
    } catch (error) {
        if (!(error instanceof Refused)) throw error;
        return { bytes: joined(kept > 1 ? parts.slice(0, kept) : parts), refused: error.message };
    }
}

// Asks which device, and reads it.
export async function askDevice(namedBy) {
    const device = await navigator.usb.requestDevice({ filters: [] });
    await device.open();
    try {
        return await read(device, namedBy);
    } finally {
        await device.close();
    }
}
