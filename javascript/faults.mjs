// What a call refuses, as an error.
import { enumerations } from './declared.mjs';

const KINDS = Object.fromEntries(Object.entries(enumerations.status).map(([name, number]) => [number, name.slice(4).toLowerCase()]));

// What is wrong: its kind is that of enum nzg_status, as 'set_fault'; number and place are those of `usbdesc`. Of a 'text_fault' the
// place is a line, which has a column.
export class Fault extends Error {
    constructor({ status, number, place, length }) {
        const kind = KINDS[status], column = kind === 'text_fault' ? length : 0;
        super(column ? `hexadecimal fault line ${place} column ${column}` : `${kind.replaceAll('_', ' ')} ${number} at ${place}`);
        Object.assign(this, { name: 'Fault', kind, number, place, column });
    }
}

export function done(answer) {
    if (answer.status) throw new Fault(answer);
    return answer;
}
