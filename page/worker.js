// The library in a worker, so that the page never stands still: each message is a call, and is answered by its value or why it failed.
import { Library } from './library.js';

const NO_MEMORY = 'This browser gives the library no more memory.';
let library;

async function opened(module) {
    const { instance } = await WebAssembly.instantiate(module, {});
    library = new Library(instance.exports);
}

// An explanation isn't copied: its memory becomes the page's.
function buffersOf({ text, headings, findings, remarks, lines }) {
    return [text, ...[headings, findings, remarks, lines].flatMap(it => Object.values(it))].map(it => it.buffer);
}

onmessage = async ({ data: { number, call, given } }) => {
    try {
        const value = await (call === 'open' ? opened(...given) : library[call](...given));
        postMessage({ number, value }, call === 'read' ? buffersOf(value) : []);
    } catch (error) {
        postMessage({ number, error: error instanceof RangeError ? NO_MEMORY : String(error) });
    }
};
