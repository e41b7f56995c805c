// What the package for npm reads in recordings, in node and in Chromium, as values that JSON has.
const bytesOf = digits => Uint8Array.from(digits.match(/../g) ?? [], it => parseInt(it, 16));
const digitsOf = bytes => Array.from(bytes, it => it.toString(16).padStart(2, '0')).join('');
const plain = (_, it) => it instanceof Uint8Array ? digitsOf(it) : typeof it === 'bigint' ? `${it}` : it;

// The descriptors of a device that came, or what kind of fault is in their place.
function fileOf(recording, device) {
    try {
        return device && recording.file(device);
    } catch (fault) {
        return fault.kind;
    }
}

// What comes of pieces of a length, and then; or the fault after all that came before it.
function shown(recordings, bytes, length) {
    const recording = recordings.open(), over = [];
    try {
        for (let at = 0; at <= bytes.length; at += length) over.push(...recording.feed(bytes.subarray(at, at + length)));
        over.push(...recording.feed(new Uint8Array()), ...recording.unended());
        const devices = recording.devices();
        return { over, devices, cut: recording.cut(), files: devices.map(({ device }) => fileOf(recording, device)) };
    } catch (fault) {
        return { over, fault: fault.message };
    } finally {
        recording.close();
    }
}

// Of recordings, each its bytes as digits and the length of its pieces. The module is asked for each time.
export async function readings(usb, asked) {
    const found = [];
    for (const [digits, length] of asked) found.push(shown(await usb.recordings(), bytesOf(digits), length));
    return JSON.stringify(found, plain);
}
