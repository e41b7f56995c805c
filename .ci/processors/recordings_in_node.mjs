// node recordings_in_node.mjs PACKAGE < RECORDINGS: what the package reads in them, and which modules it has read before and then.
import { readFileSync } from 'node:fs';
import files from 'node:fs/promises';
import { syncBuiltinESMExports } from 'node:module';
import { basename, resolve } from 'node:path';
import { readings } from './recordings.mjs';

const { readFile } = files, loaded = [];
files.readFile = (place, ...more) => {
    if (`${place}`.endsWith('.wasm')) loaded.push(basename(`${place}`));
    return readFile(place, ...more);
};
syncBuiltinESMExports();
const folder = resolve(process.argv[2]), asked = JSON.parse(readFileSync(0));
const { load } = await import(`${folder}/index.mjs`);
const usb = await load();
const failed = await usb.recordings(new URL('none.wasm', import.meta.url)).then(() => false, () => true);
const before = [...loaded], found = await readings(usb, asked);

// Read again, they are the same and take no more memory; and so by modules that are given by their bytes.
const { pages } = await usb.recordings(), once = pages(), some = asked.slice(0, 27), first = JSON.stringify(JSON.parse(found).slice(0, 27));
const given = await load(readFileSync(`${folder}/nozzlegorse.wasm`));
await given.recordings(readFileSync(`${folder}/recordings.wasm`));
const same = await readings(usb, some) === first && await readings(given, some) === first && pages() === once;
console.log(JSON.stringify({ failed, before, loaded, same, pages: once, found: JSON.parse(found) }));
