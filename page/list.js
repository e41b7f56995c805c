// A list of which only the rows in view are drawn: of a million lines as fast as of ten.
const TALLEST = 8_000_000; // pixels: browsers draw nothing beyond some thirty million
const AROUND = 10;

export class List {
    // The place is an element that scrolls; `draw` makes the row of a number. All rows are drawn of a list with at most `whole`.
    constructor(place, draw, whole) {
        this.place = place;
        this.draw = draw;
        this.whole = whole;
        this.count = 0;
        this.room = document.createElement('div');
        this.rows = document.createElement('div');
        this.room.className = 'room';
        this.rows.className = 'rows';
        this.rows.setAttribute('role', 'presentation');
        this.room.setAttribute('role', 'presentation');
        this.room.append(this.rows);
        place.replaceChildren(this.room);
        place.addEventListener('scroll', () => this.scrolled(), { passive: true });
        new ResizeObserver(() => this.scrolled()).observe(place);
    }

    get rowHeight() {
        return parseFloat(getComputedStyle(this.place).getPropertyValue('--row')) || 20;
    }

    set(count) {
        this.count = count;
        this.height = Math.min(count * this.rowHeight, TALLEST);
        this.room.style.height = `${this.height}px`;
        this.redraw();
    }

    // The first row in view, with a part of a row.
    first() {
        const whole = this.count * this.rowHeight;
        if (this.height === whole) return this.place.scrollTop / this.rowHeight;
        const way = this.height - this.place.clientHeight;
        return way > 0 ? this.place.scrollTop / way * (this.count - this.inView()) : 0;
    }

    inView() {
        return this.place.clientHeight / this.rowHeight;
    }

    range() {
        if (this.count <= this.whole) return { from: 0, to: this.count };
        const first = Math.floor(this.first());
        return { from: Math.max(0, first - AROUND), to: Math.min(this.count, first + Math.ceil(this.inView()) + AROUND) };
    }

    scrolled() {
        if (this.count <= this.whole || this.isWaiting) return;
        this.isWaiting = true;
        requestAnimationFrame(() => {
            this.isWaiting = false;
            this.redraw();
        });
    }

    redraw() {
        const { from, to } = this.range();
        this.rows.replaceChildren(...Array.from({ length: to - from }, (_, i) => this.draw(from + i)));
        const top = this.count <= this.whole ? 0 : this.place.scrollTop - (this.first() - from) * this.rowHeight;
        this.rows.style.transform = `translateY(${top}px)`;
    }

    // The row to which a key goes from this one; nothing for another key.
    rowAfter(key, row) {
        const page = Math.max(1, Math.floor(this.inView()) - 1);
        const ways = { ArrowDown: row + 1, ArrowUp: row - 1, PageDown: row + page, PageUp: row - page, Home: 0, End: this.count - 1 };
        return key in ways ? Math.min(Math.max(ways[key], 0), this.count - 1) : undefined;
    }

    // Scrolls as little as shows the row.
    show(number) {
        const first = this.first(), view = Math.floor(this.inView()) || 1;
        if (number >= Math.ceil(first) && number < first + view - 1) return;
        const wanted = number < first ? number : Math.max(0, number - view + 2);
        const whole = this.count * this.rowHeight;
        this.place.scrollTop = this.height === whole
            ? wanted * this.rowHeight
            : wanted / Math.max(1, this.count - this.inView()) * (this.height - this.place.clientHeight);
        if (this.count > this.whole) this.redraw();
    }
}
