// The lines of an enumeration's log: transactions with their packets, and what stands between them.
const COLUMNS = /^(\d+) +([.ndua]) (.{15})(.{17})(.{20})(.*)$/;
const DATA = /^ {23}([0-9a-f]+)$/;
// The letters of the fates that lose the packets of a transaction: the host's, the device's, the host's ACK.
const LOSSES = ['d', 'u', 'a'];

function packetsOf(column, data) {
    return column.trim().split(' ').filter(Boolean).map((word, i) => ({
        name: word.replace(/[()]/g, ''),
        isLost: word.startsWith('('),
        isOfHost: i !== 1,
        loss: LOSSES[i],
        data: i === (column.startsWith('SETUP') ? 0 : 1) ? data : '',
    }));
}

function transactionOf([, number, fate, packets, data, host, device], text) {
    return { kind: 'transaction', text, number: Number(number), fate, packets: packetsOf(packets, data.trim()), host: host.trim(), device, bytes: [] };
}

function kindOf(text) {
    if (/^attempt \d+: /.test(text)) return 'attempt';
    return /^[a-z_]+( [^:]*)?: [A-Z_]+ /.test(text) ? 'transfer' : 'end';
}

// The log's lines in their order, the headings of its columns first. Data below a transaction are the transaction's.
export function linesOfLog(log) {
    const found = [];
    for (const text of log.split('\n').filter(Boolean)) {
        const columns = COLUMNS.exec(text), data = DATA.exec(text);
        if (!found.length) found.push({ kind: 'sides', text, sides: text.split(/ +/).slice(-2) });
        else if (data) found.at(-1).bytes.push(data[1]);
        else found.push(columns ? transactionOf(columns, text) : { kind: kindOf(text), text });
    }
    return found;
}

// The fates of what was played, without those at the end that lose nothing.
export function fatesOf(lines) {
    return lines.filter(it => it.kind === 'transaction').map(it => it.fate).join('').replace(/\.+$/, '');
}

// The fates with another one for this transaction, counted from 1: a click on a packet loses it, a second one makes the device busy, a
// third lets it pass.
export function clicked(fates, number, loss) {
    const letters = fates.padEnd(number, '.').split(''), now = letters[number - 1];
    letters[number - 1] = now === loss ? 'n' : now === 'n' ? '.' : loss;
    return letters.join('').replace(/\.+$/, '');
}

// Fates of which so many in a hundred lose a packet, by a seed: xorshift of 32 bits.
export function randomFates(percent, seed, count) {
    let state = (seed >>> 0) * 2654435761 >>> 0 || 1;
    const next = () => {
        state ^= state << 13;
        state ^= state >>> 17;
        state ^= state << 5;
        return state >>> 0;
    };
    return Array.from({ length: count }, () => next() % 10_000 < percent * 100 ? LOSSES[next() % 3] : '.').join('');
}
