// The explanation as a text, line by line.
import { lineAt } from './lines.js';
import { List } from './list.js';

// So many lines a browser finds and copies.
const WHOLE = 3000;

export class Text {
    constructor(place, picked) {
        this.place = place;
        this.picked = picked;
        this.list = new List(place, line => this.draw(line), WHOLE);
        place.addEventListener('click', event => {
            const row = event.target.closest('.row');
            if (row && getSelection().isCollapsed) this.pick(Number(row.dataset.line));
        });
        place.addEventListener('keydown', event => this.pressed(event));
    }

    show(text, starts) {
        Object.assign(this, { text, starts, line: -1 });
        this.place.scrollTop = 0;
        this.list.set(starts.length - 1);
    }

    draw(line) {
        const made = document.createElement('div');
        made.className = 'row';
        made.id = `text-${line}`;
        made.dataset.line = line;
        made.setAttribute('role', 'option');
        made.setAttribute('aria-selected', line === this.line);
        made.textContent = `${lineAt(this.text, this.starts, line)}\n`;
        return made;
    }

    // Picks a line, and tells so.
    pick(line) {
        this.line = line;
        this.list.show(line);
        for (const it of this.place.querySelectorAll('[aria-selected=true]')) it.setAttribute('aria-selected', false);
        document.getElementById(`text-${line}`)?.setAttribute('aria-selected', true);
        this.place.setAttribute('aria-activedescendant', `text-${line}`);
        this.picked(line);
    }

    pressed(event) {
        const line = this.list.rowAfter(event.key, this.line);
        if (line === undefined) return;
        event.preventDefault();
        this.pick(line);
    }
}
