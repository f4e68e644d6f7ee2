// The calls with all memory watched that they are lent: what they may not write, and the octets around, stay as they were.
import { readFileSync } from 'node:fs';
import { Wrong } from './line.mjs';

const STACK = 65536; // octets, from 0 on, as .ci/boards has it linked
const BEHIND = 64; // octets that are looked at behind the last list of each call

/** Of each call of the header, for each list that it is given, whether it writes it. */
function writtenLists(header) {
    const code = readFileSync(header, 'utf8').replace(/\/\*.*?\*\//gs, '');
    const prototypes = [...code.matchAll(/^uint(?:32|64)_t (cb_\w+)\(([^)]*)\);/gm)];
    return new Map(prototypes.map(([, name, parameters]) =>
        [name, parameters.split(',').filter((one) => one.includes('*')).map((one) => !one.includes('const'))]));
}

/** What stands in memory that isn't lent, by its place. @type {Uint8Array} */
let guard = new Uint8Array(0);

function guardOf(length) {
    if (guard.length !== length) guard = Uint8Array.from({ length }, (_, at) => at * 37 + 11);
    return guard;
}

const octetsOf = (list) => new Uint8Array(list.buffer, list.byteOffset, list.byteLength);
const isSame = (some, others) => Buffer.compare(some, others) === 0;

export class Watched {
    constructor(calls, header) {
        this.calls = calls;
        this.written = writtenLists(header);
        this.made = new Map([...this.written.keys()].map((name) => [name, 0]));
        calls.memory.grow(16); // no stored result needs more, so memory stays where it is
        calls.reserve(0); // takes the new views
        this.guard = guardOf(calls.octets.length);
        calls.octets.set(this.guard.subarray(calls.free), calls.free);
        this.below = calls.octets.slice(STACK, calls.free);
        this.call = this.call.bind(this);
    }

    /** Makes a call, and holds what it left. */
    call(name, ...given) {
        const lists = given.filter((value) => typeof value === 'object');
        const before = lists.map((list) => octetsOf(list).slice());
        const returned = this.calls.call(name, ...given);
        this.made.set(name, this.made.get(name) + 1);
        this.holdLists(name, lists, before);
        return returned;
    }

    holdLists(name, lists, before) {
        const { octets, laid, free } = this.calls;
        const written = this.written.get(name);
        let end = free;
        lists.forEach((list, i) => {
            this.holdGuard(name, end, laid[i]);
            end = laid[i] + list.byteLength;
            const left = octets.subarray(laid[i], end);
            if (!written[i] && !isSame(left, before[i])) throw new Wrong(`${name} changes what it is given to read`);
            if (!isSame(left, octetsOf(list))) throw new Wrong(`what ${name} writes isn't given back`);
        });
        this.holdGuard(name, end, end + BEHIND);
        octets.set(this.guard.subarray(free, end), free);
    }

    holdGuard(name, from, to) {
        if (!isSame(this.calls.octets.subarray(from, to), this.guard.subarray(from, to))) {
            throw new Wrong(`${name} changes memory that it wasn't lent`);
        }
    }

    /** Holds all memory above the stack, of which nothing is lent now. */
    holdAll() {
        const { octets, free } = this.calls;
        this.holdGuard('a call', free, octets.length);
        if (!isSame(octets.subarray(STACK, free), this.below)) throw new Wrong('the data of the wasm is changed');
    }

    /** Ends where a call of the header was never made. */
    holdMade() {
        const never = [...this.made].filter(([, made]) => made === 0).map(([name]) => name);
        if (never.length > 0) throw new Wrong(`no stored result makes ${never.join(', ')}`);
    }
}
