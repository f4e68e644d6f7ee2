// The calls of include/csobvarit.h for JavaScript, made of the wasm that is compiled from what was proved of them.
import { CB } from './words.js';

/**
 * Each call by its prototype in the header, without the lengths: there each pointer is followed by the length of what it
 * points to. A pointer that isn't const is to memory that the call writes.
 */
export const SIGNATURES = Object.freeze({
    cb_start: 'uint32_t (uint8_t *state)',
    cb_intake: 'uint32_t (uint8_t *state, const uint8_t *piece, uint8_t *output)',
    cb_write_text: 'uint32_t (uint16_t serial, uint16_t identifier, uint8_t scheme, uint8_t parameter, ' +
        'const uint16_t *text, uint8_t *page)',
    cb_read_text: 'uint32_t (const uint8_t *page, cb_length received, uint16_t *text)',
    cb_content: 'uint32_t (const uint8_t *page, cb_length received)',
    cb_read_header: 'uint64_t (const uint8_t *page)',
    cb_start_collector: 'uint32_t (uint8_t *collector)',
    cb_collect: 'uint32_t (uint8_t *collector, const uint8_t *page, cb_length received, uint8_t *output)',
    cb_write_blocks: 'uint32_t (const uint8_t *message, bool schedule, cb_length used, uint8_t *out)',
    cb_read_schedule: 'uint32_t (const uint8_t *message, cb_length received)',
    cb_slots: 'uint32_t (const uint8_t *message, cb_length received, uint32_t *slots)',
    cb_description: 'uint64_t (const uint8_t *message, cb_length received, cb_length place)',
    cb_read_plan: 'uint32_t (const uint8_t *file)',
    cb_write_schedule: 'uint32_t (const uint8_t *current, const uint8_t *previous, cb_length begin, uint8_t *out)',
    cb_check_schedule: 'uint32_t (const uint8_t *current, const uint8_t *previous, const uint8_t *message, ' +
        'cb_length received)',
    cb_check_slots: 'uint32_t (const uint8_t *current, const uint8_t *previous, const uint8_t *message, ' +
        'cb_length received, uint8_t *verdicts)',
    cb_decide: 'uint32_t (bool known, const uint8_t *message, cb_length received, cb_length slot, ' +
        'const uint16_t *wanted, uint64_t held)',
    cb_enter: 'uint64_t (bool known, const uint8_t *message, cb_length received, cb_length slot, uint64_t held)',
});

/** @typedef {Uint8Array | Uint16Array | Uint32Array} List */
/** @typedef {number | bigint | boolean | List} Argument */
/** @typedef {keyof typeof SIGNATURES} Name */
/** @typedef {{ name: string, bits: number, list: boolean, written: boolean }} Parameter */
/** @typedef {{ bits: number, parameters: Parameter[] }} Signature */
/** @typedef {(...words: (number | bigint)[]) => any} Export */

const WASM_PAGE = 65536;
const CALL_BITS = new Map([
    ['bool', 1],
    ['uint8_t', 8],
    ['uint16_t', 16],
    ['uint32_t', 32],
    ['uint64_t', 64],
    ['cb_length', 64],
]);

/** @param {string} type @returns {number} */
function callBits(type) {
    const bits = CALL_BITS.get(type);
    if (bits === undefined) throw new TypeError(`there is no type ${type} in the header`);
    return bits;
}

/** @param {string} text of SIGNATURES @returns {Signature} */
function callSignature(text) {
    const [result, rest] = text.slice(0, -1).split(' (');
    const parameters = rest.split(', ').map((parameter) => {
        const [, constant, type, star, name] = /^(const )?(\w+) (\*?)(\w+)$/.exec(parameter) ?? [];
        return { name, bits: callBits(type), list: star === '*', written: star === '*' && constant === undefined };
    });
    return { bits: callBits(result), parameters };
}

/** @type {Map<string, Signature>} */
const CALL_SIGNATURES = new Map(Object.entries(SIGNATURES).map(([name, text]) => [name, callSignature(text)]));

// Lengths have 64 bits; those that come again and again are made once.
const CALL_LENGTHS = Array.from({ length: 2048 }, (_, length) => BigInt(length));

/** @param {number} length @returns {bigint} */
function callLength(length) {
    return CALL_LENGTHS[length] ?? BigInt(length);
}

/**
 * A number as the wasm takes it. One that its type doesn't hold is an error: the wasm would take its low bits.
 * @param {Parameter} parameter @param {Argument} value @returns {number | bigint}
 */
function callWord({ name, bits }, value) {
    if (typeof value === 'object') throw new TypeError(`${name} is a number`);
    const word = bits < 64 ? Number(value) : typeof value === 'number' ? callLength(value) : BigInt(value);
    const holds = typeof word === 'bigint' ? BigInt.asUintN(64, word) === word : Number.isInteger(word) && word >= 0;
    if (!holds || word >= 2 ** bits) throw new RangeError(`${name} has ${bits} bits, without a sign`);
    return word;
}

/** @param {Parameter} parameter @param {Argument} value @returns {List} */
function callList({ name, bits }, value) {
    const kind = bits === 8 ? Uint8Array : bits === 16 ? Uint16Array : Uint32Array;
    if (!(value instanceof kind)) throw new TypeError(`${name} is a list of numbers of ${bits} bits`);
    return value;
}

/** @param {List} list @returns {Uint8Array} */
function callOctets(list) {
    return list instanceof Uint8Array ? list : new Uint8Array(list.buffer, list.byteOffset, list.byteLength);
}

/**
 * What most calls return, taken apart as CB_NUMBER and CB_COUNT do.
 * @param {number} returned @returns {{ number: number, count: number }}
 */
function callNumbers(returned) {
    return { number: returned & 0xFF, count: returned >>> 8 };
}

/**
 * What the calls of 64 bits return, its low half first.
 * @param {bigint} returned @returns {[number, number]}
 */
function callHalves(returned) {
    return [Number(BigInt.asUintN(32, returned)), Number(returned >> 32n)];
}

export class Calls {
    /** @param {BufferSource} wasm @returns {Promise<Calls>} */
    static async open(wasm) {
        const { instance } = await WebAssembly.instantiate(wasm);
        return new Calls(instance);
    }

    /** @param {WebAssembly.Instance} instance */
    constructor(instance) {
        /**
         * The calls as the wasm has them: with pointers and lengths, and results that have a sign.
         * @type {Record<string, Export>}
         */
        this.exports = /** @type {any} */ (instance.exports);
        /** @type {WebAssembly.Memory} */
        this.memory = /** @type {any} */ (instance.exports.memory);
        /**
         * All of memory, until it grows: taken anew by every call and by reserve.
         * @type {Uint8Array}
         */
        this.octets = new Uint8Array(this.memory.buffer);
        /**
         * Where memory begins that isn't reserved; what a call is given is laid there.
         * @type {number}
         */
        this.free = /** @type {any} */ (instance.exports.__heap_base).value;
        /**
         * Where the lists of the last call were laid, in their order.
         * @type {number[]}
         */
        this.laid = [];
    }

    /**
     * Sets memory aside for good, aligned to 16 octets. Other views of memory may be void after this or a call: it can grow.
     * @param {number} octets @returns {number} where it begins
     */
    reserve(octets) {
        const at = Math.ceil(this.free / 16) * 16;
        this.#grow(at + octets);
        this.free = at + octets;
        return at;
    }

    /**
     * Makes memory reach up to a place.
     * @param {number} end
     */
    #grow(end) {
        const lacking = end - this.memory.buffer.byteLength;
        if (lacking > 0) this.memory.grow(Math.ceil(lacking / WASM_PAGE));
        if (this.octets.buffer !== this.memory.buffer) this.octets = new Uint8Array(this.memory.buffer);
    }

    /**
     * Makes a call: an argument for each parameter of its signature. Lists that the call writes are as it left them.
     * @param {Name} name @param {Argument[]} given
     * @returns {number | bigint} 32 bits as a number, 64 as a bigint, both without a sign
     */
    call(name, ...given) {
        const signature = CALL_SIGNATURES.get(name);
        const made = this.exports[name];
        if (signature === undefined || made === undefined) throw new TypeError(`the wasm has no call ${name}`);
        const { parameters, bits } = signature;
        if (given.length !== parameters.length) throw new TypeError(`${name} takes ${parameters.length} arguments`);
        const returned = made(...this.#lay(parameters, given));
        this.#takeBack(parameters, given);
        return bits === 64 ? BigInt.asUintN(64, returned) : returned >>> 0;
    }

    /**
     * Lays the lists of a call in memory, each aligned and with some octets between them that aren't lent.
     * @param {Parameter[]} parameters @param {Argument[]} given @returns {(number | bigint)[]} what the wasm is given
     */
    #lay(parameters, given) {
        const words = [];
        let end = this.free;
        this.laid = [];
        for (let i = 0; i < parameters.length; i++) {
            if (parameters[i].list) {
                const list = callList(parameters[i], given[i]);
                const at = Math.ceil(end / 8) * 8 + 8;
                this.laid.push(at);
                words.push(at, callLength(list.length));
                end = at + list.byteLength;
            } else {
                words.push(callWord(parameters[i], given[i]));
            }
        }
        this.#grow(end + 8);
        for (let i = 0, n = 0; i < parameters.length; i++) {
            if (parameters[i].list) this.octets.set(callOctets(/** @type {List} */ (given[i])), this.laid[n++]);
        }
        return words;
    }

    /**
     * Copies what a call wrote to the lists that it was given.
     * @param {Parameter[]} parameters @param {Argument[]} given
     */
    #takeBack(parameters, given) {
        for (let i = 0, n = 0; i < parameters.length; i++) {
            if (!parameters[i].list) continue;
            const at = this.laid[n++];
            if (parameters[i].written) {
                const octets = callOctets(/** @type {List} */ (given[i]));
                octets.set(this.octets.subarray(at, at + octets.byteLength));
            }
        }
    }

    /**
     * A call that returns 32 bits.
     * @param {Name} name @param {Argument[]} given @returns {number}
     */
    #short(name, ...given) {
        return /** @type {number} */ (this.call(name, ...given));
    }

    /**
     * A call that returns 64 bits.
     * @param {Name} name @param {Argument[]} given @returns {bigint}
     */
    #long(name, ...given) {
        return /** @type {bigint} */ (this.call(name, ...given));
    }

    // What follows is the calls one by one: what they return taken apart as the header's macros do, and the memory that they
    // write given in the length that the header tells, filled with 0.

    /** @param {Uint8Array} file @returns {{ number: number, count: number }} count: slots, or the entry that 36 and 37 name */
    readPlan(file) {
        return callNumbers(this.#short('cb_read_plan', file));
    }

    /**
     * @param {Uint8Array} current @param {Uint8Array} previous @param {number} begin
     * @returns {{ number: number, count: number, message: Uint8Array }} count: used octets, or the entry that 36 and 37 name
     */
    writeSchedule(current, previous, begin) {
        const message = new Uint8Array(CB.OUTPUT);
        return { ...callNumbers(this.#short('cb_write_schedule', current, previous, begin, message)), message };
    }

    /**
     * @param {Uint8Array} current @param {Uint8Array} previous @param {Uint8Array} message @param {number} received
     * @returns {{ number: number, count: number }} count: the slot that 40 names, or the entry that 36 and 37 name
     */
    checkSchedule(current, previous, message, received) {
        return callNumbers(this.#short('cb_check_schedule', current, previous, message, received));
    }

    /**
     * @param {Uint8Array} current @param {Uint8Array} previous @param {Uint8Array} message @param {number} received
     * @returns {{ number: number, count: number, verdicts: Uint8Array }} verdicts: of slot n in verdicts[n - 1]
     */
    checkSlots(current, previous, message, received) {
        const verdicts = new Uint8Array(CB.SLOTS);
        return { ...callNumbers(this.#short('cb_check_slots', current, previous, message, received, verdicts)), verdicts };
    }

    /**
     * @param {Uint8Array} message @param {boolean} schedule @param {number} used
     * @returns {{ number: number, blocks: Uint8Array }} blocks: four, one behind the other
     */
    writeBlocks(message, schedule, used) {
        const blocks = new Uint8Array(CB.BLOCKS);
        return { number: this.#short('cb_write_blocks', message, schedule, used, blocks) & 0xFF, blocks };
    }

    /**
     * @param {Uint8Array} message @param {number} received
     * @returns {{ number: number, begin: number, end: number }}
     */
    readSchedule(message, received) {
        const returned = this.#short('cb_read_schedule', message, received);
        return { number: returned & 0xFF, begin: returned >>> 8 & 0xFF, end: returned >>> 16 & 0xFF };
    }

    /**
     * @param {Uint8Array} message @param {number} received
     * @returns {{ number: number, begin: number, end: number, slots: { code: number, fresh: boolean }[] }} 48, slot n at n - 1
     */
    slots(message, received) {
        const told = new Uint32Array(CB.SLOTS);
        const returned = this.#short('cb_slots', message, received, told);
        const slots = Array.from(told, (slot) => ({ code: slot & 0xFFFF, fresh: (slot >>> 16 & 0xFF) === 1 }));
        return { number: returned & 0xFF, begin: returned >>> 8 & 0xFF, end: returned >>> 16 & 0xFF, slots };
    }

    /**
     * @param {Uint8Array} message @param {number} received @param {number} place
     * @returns {{ number: number, slot: number, fresh: boolean, code: number }} slot: 0 where there are no more
     */
    description(message, received, place) {
        const [low, code] = callHalves(this.#long('cb_description', message, received, place));
        return { number: low & 0xFF, slot: low >>> 8 & 0xFF, fresh: (low >>> 16 & 0xFF) === 1, code };
    }

    /**
     * @param {number} serial @param {number} identifier @param {number} scheme @param {number} parameter
     * @param {Uint16Array} text
     * @returns {{ number: number, count: number, page: Uint8Array }} count: used octets
     */
    writeText(serial, identifier, scheme, parameter, text) {
        const page = new Uint8Array(CB.OUTPUT);
        return { ...callNumbers(this.#short('cb_write_text', serial, identifier, scheme, parameter, text, page)), page };
    }

    /**
     * @param {Uint8Array} page @param {number} received
     * @returns {{ number: number, count: number, text: Uint16Array }} count: characters; text: all 93 places
     */
    readText(page, received) {
        const text = new Uint16Array(CB.TEXT);
        return { ...callNumbers(this.#short('cb_read_text', page, received, text)), text };
    }

    /** @param {Uint8Array} page @param {number} received @returns {number} */
    content(page, received) {
        return this.#short('cb_content', page, received) & 0xFF;
    }

    /**
     * @param {Uint8Array} page
     * @returns {{ number: number, scheme: number, serial: number, identifier: number, parameter: number }}
     */
    readHeader(page) {
        const [low, high] = callHalves(this.#long('cb_read_header', page));
        return {
            number: low & 0xFF,
            scheme: low >>> 8 & 0xFF,
            serial: low >>> 16,
            identifier: high & 0xFFFF,
            parameter: high >>> 16 & 0xFF,
        };
    }

    /**
     * @param {boolean} known @param {Uint8Array} message @param {number} received @param {number} slot
     * @param {Uint16Array} wanted @param {bigint} held
     * @returns {{ number: number, count: number }} count: 1 read, 0 skip
     */
    decide(known, message, received, slot, wanted, held) {
        return callNumbers(this.#short('cb_decide', known, message, received, slot, wanted, held));
    }

    /**
     * @param {boolean} known @param {Uint8Array} message @param {number} received @param {number} slot @param {bigint} held
     * @returns {bigint} held, with the page got in the slot
     */
    enter(known, message, received, slot, held) {
        return this.#long('cb_enter', known, message, received, slot, held);
    }

    /**
     * A state of its own, started, that takes pieces.
     * @returns {{ take(piece: Uint8Array): { answer: number, received: number, output: Uint8Array } }}
     */
    newIntake() {
        const state = new Uint8Array(CB.STATE);
        this.call('cb_start', state);
        return {
            take: (piece) => {
                const output = new Uint8Array(CB.OUTPUT);
                const { number, count } = callNumbers(this.#short('cb_intake', state, piece, output));
                return { answer: number, received: count, output };
            },
        };
    }

    /**
     * A collector of its own, started, that takes pages.
     * @returns {{ take(page: Uint8Array, received: number): { number: number, count: number, output: Uint8Array } }}
     */
    newCollector() {
        const collector = new Uint8Array(CB.COLLECTOR);
        this.call('cb_start_collector', collector);
        return {
            take: (page, received) => {
                const output = new Uint8Array(CB.COLLECTOR);
                return { ...callNumbers(this.#short('cb_collect', collector, page, received, output)), output };
            },
        };
    }
}
