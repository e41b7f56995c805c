// The tree: descriptors with their findings, remarks and fields, which can be folded. What is picked is marked in the bytes. A row is
// known by the explanation's line that says the same.
import { KINDS, lastUpTo, lineAt } from './lines.js';
import { List } from './list.js';

const CLASSES = ['plain', 'heading', 'finding', 'remark', 'finding', 'field'];
// Where there are so few lines, all fields are shown at first.
const FEW_LINES = 400;
const WHOLE = 500;
const STEP = 14;
// So many rows are asked for at once, so that what is picked meanwhile waits for no more.
const AT_ONCE = 16;

function element(name, className, text = '') {
    const made = document.createElement(name);
    made.className = className;
    made.textContent = text;
    return made;
}

function fill(row, { name, words }) {
    if (name) row.append(element('span', 'name', name));
    row.append(element('span', name ? 'value' : 'words', words));
}

export class Tree {
    // `picked` is called with the number of a heading, or -1, and the number of a line. `saidOf` gives the words of a line that is no
    // heading, and of a field its name.
    constructor(place, picked, saidOf) {
        this.place = place;
        this.picked = picked;
        this.saidOf = saidOf;
        this.list = new List(place, row => this.draw(row), WHOLE);
        this.clear();
        place.addEventListener('click', event => this.clicked(event));
        place.addEventListener('keydown', event => this.pressed(event));
    }

    clear() {
        Object.assign(this, { headings: { line: [], depth: [] }, kinds: [], rows: [], line: -1, said: new Map() });
        this.list.set(0);
    }

    show({ text, headings, lines: { starts, kinds, line } }) {
        Object.assign(this, { text, starts, kinds, headings: { ...headings, line }, line: -1, said: new Map() });
        this.folded = new Uint8Array(this.count);
        this.place.scrollTop = 0;
        this.openAll(kinds.length <= FEW_LINES);
    }

    // Shows the fields of all descriptors, or of none.
    openAll(isOpen) {
        this.allOpen = isOpen;
        this.open = new Uint8Array(this.count).fill(isOpen ? 1 : 0);
        this.arrange();
    }

    get count() {
        return this.headings.line.length;
    }

    // The heading that a line stands below, or is; -1 above the first.
    headingOf(line) {
        return lastUpTo(this.headings.line, line);
    }

    // The line after the last one that belongs to a heading alone.
    endLine(number) {
        return number + 1 < this.count ? this.headings.line[number + 1] : this.kinds.length;
    }

    // The number after the last heading that belongs to this one.
    endOf(number) {
        const { depth } = this.headings;
        let end = number + 1;
        while (end < this.count && depth[end] > depth[number]) end++;
        return end;
    }

    hasBelow(number) {
        return this.endOf(number) > number + 1 || this.hasFields(number);
    }

    hasFields(number) {
        return this.headings.fields[number] > 0;
    }

    // Which lines are shown.
    arrange() {
        const { headings, kinds } = this, rows = [];
        for (let line = 0; line < this.endLine(-1); line++) rows.push(line);
        for (let number = 0; number < this.count; number++) {
            const end = this.endLine(number), isOpen = this.open[number] && !this.folded[number];
            for (let line = headings.line[number]; line < end; line++)
                if (kinds[line] < KINDS.FIELD || isOpen) rows.push(line);
            if (this.folded[number]) number = this.endOf(number) - 1;
        }
        this.rows = rows;
        this.list.set(rows.length);
    }

    depthOf(line) {
        const number = this.headingOf(line);
        if (number < 0 || this.kinds[line] === KINDS.PLAIN || this.kinds[line] === KINDS.FAULT) return 0;
        return this.headings.depth[number] + (this.kinds[line] === KINDS.HEADING ? 0 : 1);
    }

    draw(row) {
        const line = this.rows[row], kind = this.kinds[line];
        const made = element('div', `row ${CLASSES[kind]}`);
        made.id = `line-${line}`;
        made.dataset.line = line;
        made.setAttribute('role', 'treeitem');
        made.setAttribute('aria-level', this.depthOf(line) + 1);
        made.setAttribute('aria-selected', line === this.line);
        made.style.paddingLeft = `${this.depthOf(line) * STEP + 20}px`;
        if (kind === KINDS.HEADING) this.drawHeading(made, line);
        else if (kind === KINDS.PLAIN) made.append(element('span', 'words', this.wordsAt(line)));
        else this.say(made, line);
        return made;
    }

    wordsAt(line) {
        return lineAt(this.text, this.starts, line).trim();
    }

    // Where a heading's descriptor is, as its line ends.
    placeOf(number) {
        return `@${this.headings.place[number]}+${this.headings.length[number]}`;
    }

    headingWords(number) {
        return this.wordsAt(this.headings.line[number]).slice(0, -this.placeOf(number).length - 1);
    }

    drawHeading(made, line) {
        const number = this.headingOf(line);
        if (this.hasBelow(number)) {
            const isOpen = !this.folded[number] && (this.open[number] || this.endOf(number) > number + 1);
            const fold = element('span', isOpen ? 'fold is-open' : 'fold');
            fold.setAttribute('aria-hidden', 'true');
            made.setAttribute('aria-expanded', isOpen);
            made.append(fold);
        }
        made.append(element('span', 'words', this.headingWords(number)), element('span', 'place', this.placeOf(number)));
    }

    // What a finding, a remark or a field says is asked for once its row is drawn, since each may be a call over all bytes.
    say(row, line) {
        if (this.said.has(line)) return fill(row, this.said.get(line));
        row.setAttribute('aria-busy', true);
        this.isSaying ||= setTimeout(() => this.sayAll());
    }

    async sayAll() {
        for (let lines; (lines = this.unsaid()).length; ) {
            const { said } = this, all = lines.map(it => this.saidOf(it).catch(error => ({ words: error.message })));
            (await Promise.all(all)).forEach((it, i) => said.set(lines[i], it));
            if (said === this.said) lines.forEach(it => this.fillRow(it));
        }
        this.isSaying = 0;
    }

    // The lines to be said next: those in view before the others.
    unsaid() {
        const lines = Array.from(this.place.querySelectorAll('[aria-busy]'), it => Number(it.dataset.line));
        const first = this.rows[Math.floor(this.list.first())];
        return [...lines.filter(it => it >= first), ...lines.filter(it => it < first)].slice(0, AT_ONCE);
    }

    fillRow(line) {
        const row = document.getElementById(`line-${line}`);
        if (!row?.hasAttribute('aria-busy')) return;
        row.removeAttribute('aria-busy');
        fill(row, this.said.get(line));
    }

    clicked(event) {
        const row = event.target.closest('.row');
        if (!row) return;
        const line = Number(row.dataset.line), number = this.headingOf(line);
        if (event.target.closest('.fold')) this.fold(number);
        else if (this.kinds[line] === KINDS.HEADING && line === this.line) this.toggle(number);
        this.pick(line);
    }

    fold(number) {
        const hasHeadings = this.endOf(number) > number + 1;
        if (hasHeadings) this.folded[number] ^= 1;
        else this.open[number] ^= 1;
        this.arrange();
    }

    toggle(number) {
        this.folded[number] = 0;
        this.open[number] ^= 1;
        this.arrange();
    }

    // Picks a line, and tells so.
    pick(line) {
        this.select(line);
        this.picked(this.headingOf(line), line);
    }

    // Shows a line as the picked one, opened where it is a field.
    select(line) {
        const number = this.headingOf(line);
        if (number >= 0 && this.kinds[line] >= KINDS.FIELD && !this.open[number]) this.open[number] = 1;
        if (number >= 0 && this.uncover(number) || !this.has(line)) this.arrange();
        this.line = line;
        this.list.show(this.rowOf(line));
        for (const it of this.place.querySelectorAll('[aria-selected=true]')) it.setAttribute('aria-selected', false);
        document.getElementById(`line-${line}`)?.setAttribute('aria-selected', true);
        this.place.setAttribute('aria-activedescendant', `line-${line}`);
    }

    // Unfolds what a heading stands in; whether anything was.
    uncover(number) {
        let depth = this.headings.depth[number], was = false;
        for (let at = number - 1; at >= 0 && depth > 0; at--) {
            if (this.headings.depth[at] >= depth) continue;
            depth = this.headings.depth[at];
            was ||= this.folded[at] === 1;
            this.folded[at] = 0;
        }
        return was;
    }

    rowOf(line) {
        let from = 0, to = this.rows.length;
        while (from < to) {
            const middle = from + to >> 1;
            if (this.rows[middle] < line) from = middle + 1;
            else to = middle;
        }
        return from;
    }

    has(line) {
        return this.rows[this.rowOf(line)] === line;
    }

    pressed(event) {
        const row = this.list.rowAfter(event.key, this.line < 0 ? -1 : this.rowOf(this.line));
        if (row !== undefined) this.pick(this.rows[row]);
        else if (!this.turned(event.key)) return;
        event.preventDefault();
    }

    // What keys do that unfold and fold; whether it was one of them.
    turned(key) {
        const number = this.headingOf(this.line), isHeading = this.kinds[this.line] === KINDS.HEADING;
        if (number < 0) return false;
        if (key === 'ArrowRight' && isHeading) this.unfold(number);
        else if (key === 'ArrowLeft') this.foldOrLeave(number, isHeading);
        else if (key === 'Enter' || key === ' ') this.toggle(number);
        else return false;
        this.pick(this.has(this.line) ? this.line : this.headings.line[number]);
        return true;
    }

    unfold(number) {
        if (this.folded[number]) this.folded[number] = 0;
        else this.open[number] = 1;
        this.arrange();
    }

    foldOrLeave(number, isHeading) {
        const isOpen = this.open[number] && this.hasFields(number) && !this.folded[number];
        if (!isHeading) this.line = this.headings.line[number];
        else if (isOpen) this.open[number] = 0;
        else if (!this.folded[number] && this.endOf(number) > number + 1) this.folded[number] = 1;
        else this.line = this.ownerLine(number);
        this.arrange();
    }

    ownerLine(number) {
        const { depth, line } = this.headings;
        let owner = number - 1;
        while (owner >= 0 && depth[owner] >= depth[number]) owner--;
        return line[Math.max(owner, 0)];
    }
}
