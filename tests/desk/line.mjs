// A line of stored results: what a call is given is taken from it, and what comes of the call held to the rest.
import { isDeepStrictEqual } from 'node:util';

const FILLING = 0xA5;
const RUN = 4; // so many equal octets in a row are written as a run, and no fewer

/** An end to all: a line that isn't understood, or a call that does what no line could tell. */
export class Wrong extends Error {}

const octetsOf = (list) => Buffer.from(list.buffer, list.byteOffset, list.byteLength);
const isFilled = (list) => octetsOf(list).every((octet) => octet === FILLING);

/** What a method gives of memory that it lends itself, filled with 0, where a call was lent this. */
export function fromZeros(list) {
    return isFilled(list) ? list.slice().fill(0) : list;
}

/** A list as a line has it. */
function told(list) {
    const wide = 2 * list.BYTES_PER_ELEMENT;
    if (wide === 2) return octetsOf(list).toString('hex') || '-';
    return Array.from(list, (element) => element.toString(16).padStart(wide, '0')).join('') || '-';
}

/** Octets with their runs as a line has them. */
function toldRuns(octets) {
    let text = '';
    for (let i = 0, same; i < octets.length; i += same) {
        same = 1;
        while (octets[i + same] === octets[i]) same++;
        if (same < RUN) same = 1;
        text += (same > 1 ? `(${same.toString(16)})` : '') + octets[i].toString(16).padStart(2, '0');
    }
    return text || '-';
}

export class Line {
    constructor(where, text) {
        this.where = where;
        this.fields = text.split(' ');
        this.at = 1; // behind the letter
        this.differs = '';
    }

    left() {
        return this.fields.length - this.at;
    }

    end() {
        if (this.left() !== 0 && this.differs === '') throw new Wrong('the line goes on');
    }

    take() {
        if (this.left() === 0) throw new Wrong('the line ends early');
        return this.fields[this.at++];
    }

    /** A number of 64 bits. */
    wide() {
        const field = this.take();
        if (!/^[0-9a-f]{1,16}$/.test(field)) throw new Wrong('no number');
        return BigInt(`0x${field}`);
    }

    /** A number, which is a bigint only where JavaScript's numbers don't hold it. */
    number() {
        const value = this.wide();
        return value <= Number.MAX_SAFE_INTEGER ? Number(value) : value;
    }

    truth() {
        return this.wide() !== 0n;
    }

    /** The elements of a list, of so many digits each. */
    elements(wide) {
        const field = this.take();
        if (field === '-') return [];
        if (field.length % wide !== 0 || !/^[0-9a-f]+$/.test(field)) throw new Wrong('no list');
        return Array.from({ length: field.length / wide }, (_, i) => parseInt(field.slice(i * wide, (i + 1) * wide), 16));
    }

    octets() {
        return Uint8Array.from(this.elements(2));
    }

    points() {
        return Uint16Array.from(this.elements(4));
    }

    /** Octets of which equal ones are written as runs: their count in parentheses, and the octet. */
    runs() {
        const field = this.take();
        if (field === '-') return new Uint8Array(0);
        if (!/^((\([0-9a-f]+\))?[0-9a-f]{2})+$/.test(field)) throw new Wrong('no list');
        const runs = [...field.matchAll(/(?:\(([0-9a-f]+)\))?([0-9a-f]{2})/g)];
        return Uint8Array.from(runs.flatMap(([, many, octet]) => Array(parseInt(many ?? '1', 16)).fill(parseInt(octet, 16))));
    }

    /** Memory of the length that the line tells, filled. */
    lent(kind = Uint8Array) {
        return this.filled(this.number(), kind);
    }

    filled(length, kind = Uint8Array) {
        const list = new kind(length);
        octetsOf(list).fill(FILLING);
        return list;
    }

    differ(what) {
        if (this.differs === '') this.differs = what;
    }

    holdText(got) {
        const stored = this.take();
        if (got !== stored) this.differ(`${got}, stored ${stored}`);
    }

    hold(...numbers) {
        for (const got of numbers) this.holdText(got.toString(16));
    }

    holdList(list) {
        this.holdText(told(list));
    }

    holdRuns(octets) {
        this.holdText(toldRuns(octets));
    }

    /** Octets after a call: = where they are as they were. */
    holdAfter(before, after) {
        this.holdText(isDeepStrictEqual(before, after) ? '=' : told(after));
    }

    holdRunsAfter(before, after) {
        this.holdText(isDeepStrictEqual(before, after) ? '=' : toldRuns(after));
    }

    /** The same of memory that was lent filled. */
    holdLeft(list) {
        this.holdText(isFilled(list) ? '=' : told(list));
    }

    /** Holds what another way of asking gives to what a call gave. */
    agree(got, given) {
        if (!isDeepStrictEqual(got, given)) this.differ('another way of asking gives something else');
    }
}
