// Which line of an explanation has what. The lines are found by what the library's calls give, each at its place: nothing is known by
// how a text looks but where a heading ends, in `@place+length`.
export const KINDS = { PLAIN: 0, HEADING: 1, FINDING: 2, REMARK: 3, FAULT: 4, FIELD: 5 };

const LINE_FEED = 10, SPACE = 32, PLUS = 43, AT = 64;
const utf8 = new TextDecoder();
const isDigit = it => it >= 48 && it <= 57;

// The number that ends before `end`, and where it begins.
function numberBefore(text, end) {
    let from = end;
    while (isDigit(text[from - 1])) from--;
    return { from, value: from < end ? Number(String.fromCharCode(...text.subarray(from, end))) : NaN };
}

// Whether a line ends in this place and length. A text in quotes ends in a quote, so it is never taken for one.
function endsIn(text, end, place, length) {
    const of = numberBefore(text, end), at = numberBefore(text, of.from - 1);
    return of.value === length && text[of.from - 1] === PLUS && at.value === place && text[at.from - 1] === AT && text[at.from - 2] === SPACE;
}

function startsOf(text) {
    const found = [0];
    for (let at = text.indexOf(LINE_FEED); at >= 0; at = text.indexOf(LINE_FEED, at + 1)) found.push(at + 1);
    return Uint32Array.from(found);
}

// The line of each descriptor's heading.
function headingLines(text, starts, { place, length }) {
    const found = new Uint32Array(place.length);
    let line = 0;
    for (let number = 0; number < found.length; number++, line++) {
        while (!endsIn(text, starts[line + 1] - 1, place[number], length[number]))
            if (++line >= starts.length - 1) throw new Error(`the explanation has no descriptor at ${place[number]}`);
        found[number] = line;
    }
    return found;
}

// How many of the findings are at each place; both are in the order of the bytes.
function countsAt(places, findings) {
    let next = 0;
    return places.map(place => {
        const from = next;
        while (findings.place[next] === place) next++;
        return next - from;
    });
}

// The line of the fault, from this one on.
function faultLine(text, starts, fault, from) {
    while (from < starts.length - 2 && !lineAt(text, starts, from).endsWith(fault.text)) from++;
    return from;
}

// Where the lines begin, what they are, and the line of each heading. Below it are its findings, its remarks, its fields. All are arrays
// of numbers, which go from the worker to the page as they are.
export function linesOf(text, headings, fault, findings) {
    const starts = startsOf(text), kinds = new Uint8Array(starts.length - 1), line = headingLines(text, starts, headings);
    const last = headings.role.indexOf(0) < 0 ? line.length - 1 : line.length - 2;
    const end = fault ? faultLine(text, starts, fault, (line[last] ?? 0) + 1) : kinds.length - 1;
    countsAt(headings.place, findings).forEach((found, number) => {
        const from = line[number] + 1, to = number === last ? end : line[number + 1] ?? kinds.length, fields = to - headings.fields[number];
        kinds[line[number]] = KINDS.HEADING;
        kinds.fill(KINDS.FINDING, from, from + found).fill(KINDS.REMARK, from + found, fields).fill(KINDS.FIELD, fields, to);
    });
    if (fault) kinds[end] = KINDS.FAULT;
    return { starts, kinds, line };
}

// The number of the last of rising values that is at most this one; -1 before the first.
export function lastUpTo(values, value) {
    let from = 0, to = values.length;
    while (from < to) {
        const middle = from + to >> 1;
        if (values[middle] <= value) from = middle + 1;
        else to = middle;
    }
    return from - 1;
}

// How many lines of its kind are right above a line.
export function nthOf(kinds, line) {
    let nth = 0;
    while (kinds[line - nth - 1] === kinds[line]) nth++;
    return nth;
}

// The line of a text, without its end.
export function lineAt(text, starts, line) {
    return utf8.decode(text.subarray(starts[line], starts[line + 1] - 1));
}
