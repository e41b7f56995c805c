// The device as one draws it on a board: configurations as boxes, interfaces in them with their settings, associations around
// interfaces, endpoints as arrows. All words are those of the explanation's headings.
import { svg, texts, wrapped } from './svg.js';

export const ROLES = { DEVICE: 1, CONFIGURATION: 2, INTERFACE: 3, ENDPOINT: 4, ASSOCIATION: 5, QUALIFIER: 7 };
const ALL_ROLES = Object.values(ROLES);
const LINE = 17, PAD = 10, ARROW = 46, LETTER = 6.4, BOLD = 7.3;
// So many descriptors are drawn.
const MOST = 1500;
const WAYS = { ArrowDown: 1, ArrowRight: 1, ArrowUp: -1, ArrowLeft: -1, Home: -Infinity, End: Infinity };

// The numbers of the descriptors that are drawn, and whether these are all that could be.
export function drawnOf({ role }) {
    const numbers = [];
    for (let number = 0; number < role.length && numbers.length <= MOST; number++)
        if (ALL_ROLES.includes(role[number])) numbers.push(number);
    return { numbers: numbers.slice(0, MOST), isWhole: numbers.length <= MOST };
}

// What can be picked, a box or an arrow, by its words and its place.
function pickable(made, { words, place }) {
    for (const [name, value] of Object.entries({ role: 'button', tabindex: -1, 'aria-label': words, 'data-place': place })) made.setAttribute(name, value);
    return made;
}

// Draws downwards, each box around what is drawn in it.
class Drawing {
    constructor(width) {
        this.width = width;
        this.group = svg('g');
        this.y = PAD;
    }

    // A box with its title, which can be picked, below what is in it.
    box(className, left, right, descriptor, inside) {
        const top = this.y, outer = this.group, frame = svg('rect', { x: left, y: top, width: right - left, rx: 5, class: 'frame' });
        const title = descriptor ? wrapped(descriptor.words, Math.floor((right - left - 2 * PAD) / (className === 'setting' ? LETTER : BOLD))) : [];
        this.y += PAD;
        const part = svg('g', {}, frame, ...texts(title, left + PAD, this.y + 11, LINE, 'title'));
        this.group = svg('g', { class: className }, descriptor ? pickable(part, descriptor) : part);
        if (descriptor) this.y += title.length * LINE + 4;
        inside();
        frame.setAttribute('height', this.y - top);
        outer.append(this.group);
        this.group = outer;
        this.y += PAD;
    }

    endpoint(descriptor, left, right) {
        const lines = wrapped(descriptor.words.replace(/^endpoint /, ''), Math.floor((right - left - ARROW) / LETTER));
        const hit = svg('rect', { x: left - 5, y: this.y - 3, width: right - left + 1, height: lines.length * LINE + 2, rx: 3, class: 'hit' });
        const made = pickable(svg('g', { class: 'endpoint' }, hit, ...texts(lines, left, this.y + 11, LINE, 'words')), descriptor);
        const y = this.y + 7, isIn = descriptor.endpoint & 0x80;
        const from = right - ARROW + 14, to = right + 22;
        made.append(svg('line', { x1: from, y1: y, x2: to, y2: y, class: 'arrow' }), head(isIn ? to : from, y, isIn ? 1 : -1));
        this.group.append(made);
        this.y += lines.length * LINE + 5;
    }
}

function head(x, y, way) {
    return svg('path', { d: `M${x} ${y}l${-9 * way} -5v10z`, class: 'head' });
}

// The devices and qualifiers with their configurations, these with associations and interfaces, these with settings and endpoints.
function grouped(descriptors) {
    const devices = [];
    let set, setting;
    for (const it of descriptors) {
        if (it.role === ROLES.DEVICE || it.role === ROLES.QUALIFIER) devices.push({ head: it, sets: [] });
        else if (it.role === ROLES.CONFIGURATION) {
            if (!devices.length) devices.push({ head: null, sets: [] });
            devices.at(-1).sets.push(set = { head: it, parts: [] });
        } else if (it.role === ROLES.ASSOCIATION) set.parts.push({ head: it, interfaces: [] });
        else if (it.role === ROLES.INTERFACE) setting = addSetting(set.parts, it);
        else if (it.role === ROLES.ENDPOINT) setting.endpoints.push(it);
    }
    return devices;
}

// The setting's interface is in the first association before it that binds it, or by itself.
function addSetting(parts, setting) {
    const number = setting.interface_, added = { head: setting, endpoints: [] };
    const known = parts.flatMap(it => it.interfaces).find(it => it.number === number);
    if (known) known.settings.push(added);
    else {
        let part = parts.find(({ head }) => head && number >= head.first && number < head.first + head.count);
        if (!part) parts.push(part = { interfaces: [] });
        part.interfaces.push({ number, settings: [added] });
    }
    return added;
}

function drawInterface({ settings }, drawing, left, right) {
    const each = (from, to) => settings.forEach(({ head, endpoints }) =>
        drawing.box('setting', from, to, head, () => endpoints.forEach(it => drawing.endpoint(it, from + PAD, to))));
    if (settings.length === 1) return each(left, right - 30);
    drawing.box('interface', left, right, null, () => each(left + PAD, right - 40));
}

function drawSet({ head: configuration, parts }, drawing, left, right) {
    drawing.box('configuration', left, right, configuration, () => {
        for (const { head: association, interfaces } of parts) {
            if (!association) interfaces.forEach(it => drawInterface(it, drawing, left + PAD, right - PAD));
            else drawing.box('association', left + PAD, right - PAD, association, () =>
                interfaces.forEach(it => drawInterface(it, drawing, left + 2 * PAD, right - 2 * PAD)));
        }
    });
}

// The picture in so many pixels of width, of descriptors with the words of their headings.
export function devicePicture(descriptors, width) {
    const drawing = new Drawing(width);
    for (const { head: device, sets } of grouped(descriptors)) {
        const all = (left, right) => sets.forEach(it => drawSet(it, drawing, left, right));
        if (device) drawing.box('device', 2, width - 2, device, () => all(2 + PAD, width - 2 - PAD));
        else all(2, width - 2);
    }
    return svg('svg', { viewBox: `0 0 ${width} ${drawing.y}`, width, height: drawing.y, class: 'picture', role: 'group' }, drawing.group);
}

// The picture's place: a box or an arrow is picked by a click, or by Enter and Space once arrow keys have gone to it.
export class PictureView {
    // `picked` is called with the place of a descriptor.
    constructor(place, picked) {
        this.place = place;
        this.picked = picked;
        this.at = 0;
        place.addEventListener('click', event => this.clicked(event));
        place.addEventListener('keydown', event => this.pressed(event));
    }

    // Another picture, with the same part in focus.
    show(made) {
        const hadFocus = this.place.contains(document.activeElement);
        this.place.replaceChildren(made);
        this.parts = [...made.querySelectorAll('[data-place]')];
        this.go(Math.min(this.at, this.parts.length - 1), hadFocus);
    }

    // One part alone is reached by Tab.
    go(number, isFocused = true) {
        this.parts[this.at]?.setAttribute('tabindex', -1);
        this.at = Math.max(number, 0);
        this.parts[this.at]?.setAttribute('tabindex', 0);
        if (isFocused) this.parts[this.at]?.focus();
    }

    clicked(event) {
        const part = event.target.closest('[data-place]');
        if (!part) return;
        this.go(this.parts.indexOf(part));
        this.pick();
    }

    pick() {
        this.picked(Number(this.parts[this.at].dataset.place));
    }

    pressed(event) {
        if (!this.parts?.length) return;
        if (event.key === 'Enter' || event.key === ' ') this.pick();
        else if (event.key in WAYS) this.go(Math.min(Math.max(this.at + WAYS[event.key], 0), this.parts.length - 1));
        else return;
        event.preventDefault();
    }
}
