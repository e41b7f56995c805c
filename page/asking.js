// The library in its worker, as seen from the page: a function that asks for a call and gives its value.
const NO_WEBASSEMBLY = 'This browser has no WebAssembly, or it is switched off: the library in this file cannot run.';
const BROKEN = 'The library in this file is broken: get the file again.';
const NO_WORKER = 'This browser starts no worker for a file: the library in this file cannot run.';

async function unpacked(text) {
    const packed = Uint8Array.from(atob(text), it => it.charCodeAt(0));
    return new Response(new Blob([packed]).stream().pipeThrough(new DecompressionStream('gzip'))).arrayBuffer();
}

function askedOf(worker) {
    const open = new Map();
    let number = 0;
    worker.onmessage = ({ data }) => {
        const { resolve, reject } = open.get(data.number);
        open.delete(data.number);
        if ('error' in data) reject(new Error(data.error));
        else resolve(data.value);
    };
    worker.onerror = () => {
        for (const { reject } of open.values()) reject(new Error(NO_WORKER));
        open.clear();
    };
    return (call, ...given) => new Promise((resolve, reject) => {
        open.set(++number, { resolve, reject });
        worker.postMessage({ number, call, given });
    });
}

// Starts the worker with the module, which is packed in base64.
export async function libraryIn(source, module) {
    if (typeof WebAssembly === 'undefined') throw new Error(NO_WEBASSEMBLY);
    const ask = askedOf(new Worker(URL.createObjectURL(new Blob([source], { type: 'text/javascript' }))));
    const bytes = await unpacked(module).catch(() => null);
    const opened = bytes && ask('open', bytes);
    if (!opened) throw new Error(BROKEN);
    await opened.catch(error => {
        throw error.message === NO_WORKER ? error : new Error(BROKEN);
    });
    return ask;
}
