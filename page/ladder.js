// The enumeration as a ladder: the host's side left, the device's right, each packet an arrow, and what both have then in the margins.
// All words are those of the log.
import { linesOfLog } from './log.js';
import { svg, texts, wrapped } from './svg.js';

const ARROW = 27, LINE = 14, PAD = 8, LETTER = 6.7, LANE = 8;
const HEIGHTS = { sides: 24, attempt: 34, transfer: 26, end: 20 };
// More is drawn in a text alone.
const MOST = 20_000;
const AROUND = 600;
// Where on its way a lost packet ends: past its name.
const LOST_AFTER = 0.8;

const isNarrow = width => width < 620;

export class Ladder {
    // `picked` is called with the number of a transaction and the fate that loses the packet which was picked.
    constructor(place, picked) {
        this.place = place;
        this.picked = picked;
        this.rows = [];
        this.at = { row: 0, packet: 0 };
        place.addEventListener('click', event => this.clicked(event));
        place.addEventListener('keydown', event => this.pressed(event));
        place.addEventListener('scroll', () => requestAnimationFrame(() => this.redraw()), { passive: true });
        new ResizeObserver(() => this.show()).observe(place);
    }

    // Shows a log; without one, the same again.
    show(log) {
        if (log !== undefined) this.rows = linesOfLog(log);
        if (!this.place.clientWidth) return;
        this.width = Math.max(300, Math.min(this.place.clientWidth - 20, 940));
        this.host = isNarrow(this.width) ? 104 : 210;
        this.device = this.width - (isNarrow(this.width) ? 84 : 190);
        this.lay();
        if (!this.packetAt(this.at)) this.at = { row: this.rows.findIndex(it => it.kind === 'transaction'), packet: 0 };
        this.redraw();
    }

    // Where each row begins.
    lay() {
        let y = PAD;
        this.tops = this.rows.map(row => {
            const top = y;
            y += row.kind === 'transaction' ? this.heightOf(row) : HEIGHTS[row.kind];
            return top;
        });
        this.height = y + PAD;
    }

    heightOf(row) {
        const lines = Math.max(this.hostLines(row).length, this.deviceLines(row).length);
        return Math.max(row.packets.length * ARROW, lines * LINE + 4) + LANE;
    }

    hostLines(row) {
        return wrapped(`${row.number} ${row.host}`, Math.floor((this.host - 2 * PAD) / LETTER));
    }

    deviceLines(row) {
        return wrapped(row.device, Math.floor((this.width - this.device - PAD) / LETTER));
    }

    redraw() {
        if (!this.tops) return;
        const from = this.place.scrollTop - AROUND, to = this.place.scrollTop + this.place.clientHeight + AROUND;
        const isShort = this.rows.length <= 400;
        this.place.replaceChildren(this.drawn(i => isShort || this.tops[i] > from && this.tops[i] < to));
        this.place.setAttribute('aria-activedescendant', `packet-${this.at.row}-${this.at.packet}`);
    }

    // The picture of the rows for which it is asked.
    drawn(isAsked = () => true) {
        const rows = this.rows.slice(0, MOST).flatMap((row, i) => isAsked(i) ? [this.row(row, i)] : []);
        const sides = [this.host, this.device].map(x => svg('line', { x1: x, x2: x, y1: PAD + HEIGHTS.sides, y2: this.height, class: 'side' }));
        return svg('svg', { viewBox: `0 0 ${this.width} ${this.height}`, width: this.width, height: this.height, class: 'picture ladder', role: 'none' }, ...sides, ...rows);
    }

    row(row, i) {
        const y = this.tops[i];
        if (row.kind === 'transaction') return this.transaction(row, i, y);
        const made = svg('g', { class: row.kind });
        if (row.kind === 'sides') {
            made.append(...[this.host, this.device].map((x, k) => svg('text', { x, y: y + 14 }, row.sides[k])));
            return made;
        }
        if (row.kind === 'attempt') made.append(svg('rect', { x: 0, y: y + 4, width: this.width, height: 24, class: 'bar' }));
        const x = row.kind === 'transfer' && !isNarrow(this.width) ? this.host + PAD : PAD;
        made.append(svg('text', { x, y: y + (row.kind === 'attempt' ? 20 : 16), class: 'words' }, row.text));
        return made;
    }

    transaction(row, i, y) {
        const made = svg('g', { class: `transaction fate-${row.fate === '.' ? 'none' : row.fate}`, role: 'none' });
        made.append(...texts(this.hostLines(row), PAD, y + 15, LINE, 'words of-host'));
        made.append(...texts(this.deviceLines(row), this.device + PAD, y + 15, LINE, 'words of-device'));
        row.packets.forEach((packet, k) => made.append(this.packet(row, packet, i, k, y + k * ARROW + 20)));
        return made;
    }

    packet(row, packet, i, k, y) {
        const [from, to] = packet.isOfHost ? [this.host, this.device] : [this.device, this.host];
        const end = packet.isLost ? from + (to - from) * LOST_AFTER : to, way = Math.sign(to - from);
        const isAt = this.at.row === i && this.at.packet === k;
        const made = svg('g', { class: `packet from-${packet.isOfHost ? 'host' : 'device'}${packet.isLost ? ' is-lost' : ''}${isAt ? ' is-at' : ''}`, id: `packet-${i}-${k}`, role: 'option', 'aria-selected': isAt });
        made.dataset.row = i;
        made.dataset.packet = k;
        const low = Math.min(this.host, this.device);
        made.append(svg('rect', { x: low + 3, y: y - 16, width: Math.abs(to - from) - 6, height: ARROW - 4, class: 'hit' }));
        made.append(svg('line', { x1: from, x2: end - way * 2, y1: y, y2: y, class: 'arrow' }));
        made.append(packet.isLost ? cross(end, y) : svg('path', { d: `M${end} ${y}l${-8 * way} -4.5v9z`, class: 'head' }));
        made.append(this.label(packet, y));
        made.append(svg('title', {}, [packet.name, packet.data, ...packet.data ? row.bytes : []].filter(Boolean).join('\n')));
        return made;
    }

    label(packet, y) {
        const words = svg('text', { x: (this.host + this.device) / 2, y: y - 4, class: 'words' }, packet.name);
        if (packet.data && !isNarrow(this.width)) words.append(svg('tspan', { class: 'data', dx: 8 }, packet.data));
        return words;
    }

    packetAt({ row, packet }) {
        return this.rows[row]?.packets?.[packet];
    }

    clicked(event) {
        const packet = event.target.closest('.packet');
        if (!packet) return;
        this.at = { row: Number(packet.dataset.row), packet: Number(packet.dataset.packet) };
        this.pick();
    }

    pick() {
        const packet = this.packetAt(this.at);
        if (packet) this.picked(this.rows[this.at.row].number, packet.loss);
    }

    pressed(event) {
        if (event.key === 'Enter' || event.key === ' ') this.pick();
        else if (event.key === 'ArrowDown' || event.key === 'ArrowRight') this.go(1);
        else if (event.key === 'ArrowUp' || event.key === 'ArrowLeft') this.go(-1);
        else return;
        event.preventDefault();
    }

    // To the next packet, or the one before.
    go(way) {
        let { row, packet } = this.at;
        packet += way;
        while (!this.packetAt({ row, packet })) {
            row += way;
            if (!this.rows[row]) return;
            packet = way > 0 ? 0 : (this.rows[row].packets?.length ?? 0) - 1;
        }
        this.at = { row, packet };
        const top = this.tops[row] - 60, bottom = this.tops[row] + 120 - this.place.clientHeight;
        this.place.scrollTop = Math.max(Math.min(this.place.scrollTop, top), bottom, 0);
        this.redraw();
    }
}

function cross(x, y) {
    return svg('path', { d: `M${x - 5} ${y - 5}l10 10m0 -10l-10 10`, class: 'cross' });
}
