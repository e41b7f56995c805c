// The view of the enumeration: fates in, by clicks, a slider or as text, and the ladder of what the library then plays.
import { Ladder } from './ladder.js';
import { clicked, fatesOf, linesOfLog, randomFates } from './log.js';
import { saveSvg } from './svg.js';

const at = id => document.getElementById(id);
// Limits of the host, those of `usbdesc enumerate`.
const NAKS = 16, ATTEMPTS = 3;
const LONGEST_RANDOM = 4096;
// No device of this speed has such descriptors: another is tried.
const OF_ANOTHER_SPEED = 3, HIGH = 3, LOW = 1;

export class EnumerationView {
    constructor(ask) {
        this.ask = ask;
        this.fates = '';
        this.turn = 0;
        this.ladder = new Ladder(at('ladder'), (number, loss) => this.play(clicked(this.fates, number, loss)));
        at('fates').addEventListener('change', () => this.play(at('fates').value.trim()));
        at('bus-speed').addEventListener('change', () => this.play(this.fates));
        at('loss').addEventListener('input', () => this.lose());
        at('seed').addEventListener('change', () => this.lose());
        at('clear-fates').addEventListener('click', () => this.clear());
        at('as-text').addEventListener('change', () => this.turned());
        at('save-ladder').addEventListener('click', () => saveSvg(this.ladder.drawn(), 'enumeration.svg'));
    }

    // Plays the device with these bytes, where they are others than before.
    async enter(bytes) {
        if (bytes === this.bytes) return this.ladder.show();
        this.bytes = bytes;
        at('loss').value = 0;
        at('loss-told').textContent = '0 %';
        await this.play('', [Number(at('bus-speed').value), HIGH, LOW]);
    }

    lose() {
        at('loss-told').textContent = `${at('loss').value} %`;
        this.play(randomFates(Number(at('loss').value), Number(at('seed').value), LONGEST_RANDOM));
    }

    clear() {
        at('loss').value = 0;
        this.lose();
    }

    turned() {
        at('log').hidden = !at('as-text').checked;
        at('ladder').hidden = at('as-text').checked;
        this.ladder.show();
    }

    // Plays anew under these fates, at the first of the speeds that the device can have.
    async play(fates, speeds = [Number(at('bus-speed').value)]) {
        const turn = ++this.turn;
        try {
            const came = await this.played(fates, speeds);
            if (turn === this.turn) this.show(came);
        } catch (error) {
            at('ladder-told').textContent = error.message;
        }
    }

    async played(fates, [speed, ...others]) {
        const came = await this.ask(speed, NAKS, ATTEMPTS, fates);
        if (came.refused === OF_ANOTHER_SPEED && others.length) return this.played(fates, others);
        at('bus-speed').value = speed;
        return came;
    }

    show({ log = '', fault, refused, why }) {
        const lines = linesOfLog(log), last = lines.filter(it => it.kind === 'transaction').at(-1);
        const attempts = lines.filter(it => it.kind === 'attempt').length;
        this.fates = fatesOf(lines);
        at('fates').value = this.fates;
        at('log').textContent = log;
        at('ladder-told').textContent = fault ?? (refused ? `refused ${refused} ${why}` : `attempts ${attempts} transactions ${last.number}; ${lines.at(-1).text}`);
        this.ladder.show(log);
    }
}
