// What the pictures are drawn with.
const NAMESPACE = 'http://www.w3.org/2000/svg';
// What a saved picture needs of the page's style.
const STYLED = ['fill', 'stroke', 'stroke-width', 'stroke-dasharray', 'font-family', 'font-size', 'font-weight', 'text-anchor'];

export function svg(name, attributes = {}, ...children) {
    const made = document.createElementNS(NAMESPACE, name);
    for (const [key, value] of Object.entries(attributes)) made.setAttribute(key, value);
    made.append(...children);
    return made;
}

// Words in lines of at most so many columns, where they have blanks.
export function wrapped(words, columns) {
    const lines = [''];
    for (const word of words.split(' ')) {
        const last = lines[lines.length - 1];
        if (last && last.length + word.length >= columns) lines.push(word);
        else lines[lines.length - 1] = last ? `${last} ${word}` : word;
    }
    return lines;
}

export function texts(lines, x, y, height, className) {
    return lines.map((line, i) => svg('text', { x, y: y + i * height, class: className }, line));
}

function styledCopy(drawn) {
    const copy = drawn.cloneNode(true), of = [drawn, ...drawn.querySelectorAll('*')], to = [copy, ...copy.querySelectorAll('*')];
    of.forEach((it, i) => {
        const style = getComputedStyle(it);
        for (const name of STYLED) to[i].setAttribute(name, style.getPropertyValue(name));
    });
    const { width, height } = drawn.viewBox.baseVal;
    copy.prepend(svg('rect', { width, height, fill: getComputedStyle(document.body).backgroundColor }));
    return copy;
}

export function save(content, type, name) {
    const link = document.createElement('a');
    link.href = URL.createObjectURL(new Blob([content], { type }));
    link.download = name;
    link.click();
    setTimeout(() => URL.revokeObjectURL(link.href), 60_000);
}

export function saveSvg(drawn, name) {
    save(new XMLSerializer().serializeToString(styledCopy(drawn)), 'image/svg+xml', name);
}
