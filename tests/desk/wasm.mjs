// The decisions in the code of a wasm module: comparisons whose result a jump out of a block takes, and in which function each is.

const EXPORTS = 7;
const CODE = 10;

const [BLOCK, LOOP, IF, END, JUMP_IF, JUMP_BY_TABLE] = [0x02, 0x03, 0x04, 0x0B, 0x0D, 0x0E];
const WITH_A_NUMBER = [BLOCK, LOOP, IF, 0x0C, JUMP_IF, 0x10, 0x20, 0x21, 0x22, 0x23, 0x24, 0x41, 0x42];
const WITH_NOTHING = [0x00, 0x01, 0x05, END, 0x0F, 0x1A, 0x1B];

// Each comparison and the one that says the opposite: eq and ne, lt and ge, gt and le, of 32 and of 64 bits.
const OPPOSITE = new Map([
    [0x46, 0x47], [0x48, 0x4E], [0x49, 0x4F], [0x4A, 0x4C], [0x4B, 0x4D],
    [0x51, 0x52], [0x53, 0x59], [0x54, 0x5A], [0x55, 0x57], [0x56, 0x58],
].flatMap(([one, other]) => [[one, other], [other, one]]));

/** Reads octets from a place on. */
class Reader {
    constructor(octets, at = 0) {
        this.octets = octets;
        this.at = at;
    }

    octet() {
        return this.octets[this.at++];
    }

    /** A number without a sign, or with one where only its octets matter. */
    number() {
        let number = 0;
        for (let shift = 0; ; shift += 7) {
            const octet = this.octet();
            number += (octet & 0x7F) * 2 ** shift;
            if (octet < 0x80) return number;
        }
    }

    numbers(count) {
        for (let i = 0; i < count; i++) this.number();
    }

    text() {
        const length = this.number();
        this.at += length;
        return Buffer.from(this.octets.subarray(this.at - length, this.at)).toString();
    }
}

/** Passes over an instruction, and gives the number behind it where it has one. */
function passOver(reader, instruction) {
    if (WITH_A_NUMBER.includes(instruction)) return reader.number();
    if (instruction >= 0x28 && instruction <= 0x3E) reader.numbers(2); // loads and stores: alignment, offset
    else if (instruction === JUMP_BY_TABLE) reader.numbers(reader.number() + 1);
    else if (instruction === 0xFC) reader.numbers({ 10: 2, 11: 1 }[reader.number()]); // copying and filling memory
    else if (!(instruction >= 0x45 && instruction <= 0xC4) && !WITH_NOTHING.includes(instruction)) {
        throw new Error(`the wasm has instruction ${instruction}`);
    }
    return 0;
}

/** The decisions of a function: where each stands, and the octet that says the opposite. */
function decisionsOf(octets, at, end) {
    const reader = new Reader(octets, at);
    for (let kinds = reader.number(); kinds > 0; kinds--) reader.numbers(2); // its locals
    const decisions = [];
    const within = [BLOCK]; // the blocks and loops around, the innermost last
    let before = 0;
    while (reader.at < end) {
        const place = reader.at;
        const instruction = reader.octet();
        const number = passOver(reader, instruction);
        if ([BLOCK, LOOP, IF].includes(instruction)) within.push(instruction);
        if (instruction === END) within.pop();
        if (instruction === JUMP_IF && within.at(-1 - number) !== LOOP && OPPOSITE.has(before)) {
            decisions.push({ place: place - 1, octet: OPPOSITE.get(before) });
        }
        before = instruction;
    }
    if (reader.at !== end || within.length > 0) throw new Error('the code of the wasm is not understood');
    return decisions;
}

/** The functions of a module: the name of each, which is empty where it isn't exported, and its decisions. */
export function functionsOf(octets) {
    const reader = new Reader(octets, 8);
    const names = new Map();
    const functions = [];
    while (reader.at < octets.length) {
        const section = reader.octet();
        const end = reader.number() + reader.at;
        if (section === EXPORTS) {
            for (let left = reader.number(); left > 0; left--) {
                const name = reader.text();
                const kind = reader.octet();
                const index = reader.number();
                if (kind === 0) names.set(index, name);
            }
        }
        if (section === CODE) {
            for (let left = reader.number(); left > 0; left--) {
                const after = reader.number() + reader.at;
                functions.push({ name: names.get(functions.length) ?? '', decisions: decisionsOf(octets, reader.at, after) });
                reader.at = after;
            }
        }
        reader.at = end;
    }
    return functions;
}
