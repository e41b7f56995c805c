// node run.mjs PROGRAM.wasm: a program of this folder over the files of the working directory; what it prints goes to standard output.
import { readFileSync, writeSync } from 'node:fs';

let memory;
const bytes = (at, length) => new Uint8Array(memory.buffer, at, length);

function textAt(at) {
    const all = new Uint8Array(memory.buffer);
    return Buffer.from(all.slice(at, all.indexOf(0, at))).toString();
}

const host = {
    put: (at, length) => { for (let done = 0; done < length;) done += writeSync(1, bytes(at + done, length - done)); },
    stop: status => { process.exitCode = status; },
    read_file: (name, to, room) => {
        try {
            const read = readFileSync(textAt(name)).subarray(0, room);
            bytes(to, room).set(read);
            return read.length;
        } catch { return -1; }
    },
};
const { instance } = await WebAssembly.instantiate(readFileSync(process.argv[2]), { host });
memory = instance.exports.memory;
instance.exports.start();
