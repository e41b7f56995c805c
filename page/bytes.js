// The bytes, 16 a row, with those of the picked descriptor and field marked. A byte that is picked is told by its place.
import { List } from './list.js';

const ROW = 16, WHOLE = 128;
const MARKS = ['in-descriptor', 'in-field', 'cursor'];
const hexadecimal = (value, digits) => value.toString(16).padStart(digits, '0');
const isIn = (place, range) => range && place >= range.place && place < range.place + range.length;

export class Bytes {
    constructor(place, picked) {
        this.place = place;
        this.picked = picked;
        this.list = new List(place, row => this.draw(row), WHOLE);
        this.show(new Uint8Array());
        place.addEventListener('click', event => this.clicked(event));
        place.addEventListener('keydown', event => this.pressed(event));
    }

    show(bytes) {
        Object.assign(this, { bytes, cursor: -1, descriptor: null, field: null });
        this.digits = Math.max(4, hexadecimal(Math.max(bytes.length - 1, 0), 1).length);
        this.place.scrollTop = 0;
        this.list.set(Math.ceil(bytes.length / ROW));
    }

    // Marks the bytes of a descriptor and, within it, of a field. Each is a place and a length, or nothing.
    mark(descriptor, field = null) {
        Object.assign(this, { descriptor, field });
        const range = field ?? descriptor;
        if (range && !isIn(this.cursor, range)) this.cursor = range.place;
        this.renew(range ? range.place : this.cursor);
    }

    draw(row) {
        const made = document.createElement('div'), place = document.createElement('span'), letters = document.createElement('span');
        made.className = 'row';
        made.setAttribute('role', 'row');
        place.className = 'place';
        place.textContent = hexadecimal(row * ROW, this.digits);
        letters.className = 'letters';
        letters.setAttribute('aria-hidden', 'true');
        const end = Math.min((row + 1) * ROW, this.bytes.length), cells = [];
        for (let at = row * ROW; at < end; at++) cells.push(this.cell(at));
        letters.textContent = Array.from(this.bytes.subarray(row * ROW, end), it => it > 31 && it < 127 ? String.fromCharCode(it) : '.').join('');
        made.append(place, ...cells, letters);
        return made;
    }

    cell(at) {
        const made = document.createElement('span');
        made.id = `byte-${at}`;
        made.dataset.place = at;
        made.textContent = hexadecimal(this.bytes[at], 2);
        made.setAttribute('role', 'gridcell');
        made.className = ['byte', ...this.marksOf(at)].join(' ');
        return made;
    }

    marksOf(at) {
        return MARKS.filter((_, i) => [isIn(at, this.descriptor), isIn(at, this.field), at === this.cursor][i]);
    }

    // Marks anew what is drawn, with this place in view.
    renew(place) {
        if (place < this.bytes.length) this.list.show(Math.floor(place / ROW));
        for (const it of this.place.querySelectorAll('.byte')) {
            const wanted = ['byte', ...this.marksOf(Number(it.dataset.place))].join(' ');
            if (it.className !== wanted) it.className = wanted;
        }
        this.place.setAttribute('aria-activedescendant', `byte-${this.cursor}`);
    }

    clicked(event) {
        const cell = event.target.closest('.byte');
        if (cell) this.pick(Number(cell.dataset.place));
    }

    pick(place) {
        this.cursor = place;
        this.renew(place);
        this.picked(place);
    }

    pressed(event) {
        const page = Math.max(1, Math.floor(this.list.inView()) - 1) * ROW;
        const ways = { ArrowRight: 1, ArrowLeft: -1, ArrowDown: ROW, ArrowUp: -ROW, PageDown: page, PageUp: -page, Home: -Infinity, End: Infinity };
        if (!(event.key in ways) || !this.bytes.length) return;
        event.preventDefault();
        this.pick(Math.min(Math.max(this.cursor + ways[event.key], 0), this.bytes.length - 1));
    }
}
