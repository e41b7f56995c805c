// Where bytes come from: a text in the box, a file, the address, an example, a device.
// The library's text of so many bytes has up to 150 million characters.
export const MOST_BYTES = 4_194_304;
// So many are written into the box, and into an address.
const MOST_WRITTEN = 16_384;

export const bytesOfBase64 = text => Uint8Array.from(atob(text), it => it.charCodeAt(0));

export function hexadecimal(bytes) {
    if (bytes.length > MOST_WRITTEN) return '';
    const rows = [];
    for (let at = 0; at < bytes.length; at += 16)
        rows.push(Array.from(bytes.subarray(at, at + 16), it => it.toString(16).padStart(2, '0')).join(' '));
    return rows.join('\n');
}

// The page's address with bytes behind the #, which a browser sends to no server.
export const linkOf = bytes => `${location.href.replace(/#.*/, '')}#${hexadecimal(bytes).replace(/\s/g, '')}`;

export function textOfAddress() {
    try {
        return decodeURIComponent(location.hash.slice(1));
    } catch {
        return location.hash.slice(1);
    }
}

// Where a line and a column, of bytes in UTF-8 from 1 on, are in a text.
export function indexOf(text, line, column) {
    let at = 0;
    for (let i = 1; i < line; i++) at = text.indexOf('\n', at) + 1;
    const bytes = new TextEncoder().encode(text.slice(at));
    return at + new TextDecoder().decode(bytes.subarray(0, column - 1)).length;
}

// Shows in the box what stops a text: the character is marked in what lies behind the box.
export class Box {
    constructor(box, behind) {
        this.box = box;
        this.behind = behind;
        box.addEventListener('scroll', () => {
            behind.scrollTop = box.scrollTop;
        });
    }

    mark(fault) {
        this.behind.replaceChildren();
        if (!fault) return;
        const text = this.box.value, at = indexOf(text, fault.line, fault.column), mark = document.createElement('mark');
        mark.textContent = text[at] === '\n' || at >= text.length ? ' ' : text[at];
        this.behind.append(text.slice(0, at), mark, text.slice(at + 1));
        this.behind.scrollTop = this.box.scrollTop;
    }
}
