// Makes every call that the stored results tell by the desk's wasm and desk/calls.js, and holds what comes of it to them:
// node tests/desk/results.mjs [FOLDER [RESULTS]]
//
// FOLDER, target/desk where none is named, has csobvarit.wasm and the modules as desk/join leaves them. RESULTS, crates/trial/data
// where none is named, has the files that tests/second/README.md tells ("Stored results"), and no others; tests/header/results.c
// makes the same calls in C.
// What a call returns and all memory that it was lent must be as the line has it, what it was given to read and the octets around
// as they were, and the methods of Calls must tell the same. What no stored result can tell, layer.mjs tries.
import { readFileSync, readdirSync } from 'node:fs';
import { join, resolve } from 'node:path';
import { fileURLToPath, pathToFileURL } from 'node:url';
import { isDeepStrictEqual } from 'node:util';
import { tryLayer } from './layer.mjs';
import { Line, Wrong, fromZeros } from './line.mjs';
import { Watched } from './watched.mjs';

const TOP = fileURLToPath(new URL('../..', import.meta.url));
const SHOWN = 5; // differences that are printed
const PASSED_OVER = 'XA'; // packing and the alphabet alone, which no call gives

const number = (returned) => returned & 0xFF;
const count = (returned) => returned >>> 8;
const begin = (returned) => returned >>> 8 & 0xFF;
const end = (returned) => returned >>> 16 & 0xFF;
const bits = (returned, from, wide) => Number(BigInt.asUintN(wide, returned >> BigInt(from)));

/** What a line of each letter gives and holds. */
const LETTERS = {
    N(line, { call }) {
        const state = line.octets();
        const before = state.slice();
        line.hold(number(call('cb_start', state)));
        line.holdAfter(before, state);
    },

    I(line, { call }) {
        const [state, piece, output] = [line.octets(), line.octets(), line.lent()];
        const before = state.slice();
        const returned = call('cb_intake', state, piece, output);
        line.hold(number(returned), count(returned));
        line.holdAfter(before, state);
        line.holdLeft(output);
    },

    Q(line, { call, calls, CB }) {
        const state = started('cb_start', CB.STATE, call);
        const intake = calls.newIntake();
        while (line.left() > 1) {
            const piece = line.octets();
            const output = line.filled(CB.OUTPUT);
            const returned = call('cb_intake', state, piece, output);
            line.hold(number(returned), count(returned));
            line.holdLeft(output);
            line.agree(intake.take(piece), { answer: number(returned), received: count(returned), output: fromZeros(output) });
        }
        line.holdList(state);
    },

    V(line, { call, CB }) {
        const state = started('cb_start', CB.STATE, call);
        while (line.left() > 0) {
            const piece = line.octets();
            const output = line.filled(CB.OUTPUT);
            const text = line.filled(CB.TEXT, Uint16Array);
            const returned = call('cb_intake', state, piece, output);
            line.hold(number(returned), count(returned));
            if (number(returned) !== CB.PAGE) {
                line.holdText('-');
                continue;
            }
            line.holdList(text.subarray(0, count(call('cb_read_text', output, count(returned), text))));
        }
    },

    B(line, { call, calls, CB }) {
        const [schedule, used, message, out] = [line.truth(), line.number(), line.octets(), line.lent()];
        const returned = call('cb_write_blocks', message, schedule, used, out);
        line.hold(number(returned));
        line.holdLeft(out);
        if (out.length !== CB.BLOCKS) return;
        line.agree(calls.writeBlocks(message, schedule, used), { number: number(returned), blocks: fromZeros(out) });
    },

    T(line, { call, calls, CB }) {
        const [serial, identifier, scheme, parameter] = [line.number(), line.number(), line.number(), line.number()];
        const [text, page] = [line.points(), line.lent()];
        const returned = call('cb_write_text', serial, identifier, scheme, parameter, text, page);
        line.hold(number(returned), count(returned));
        line.holdLeft(page);
        if (page.length !== CB.OUTPUT) return;
        line.agree(calls.writeText(serial, identifier, scheme, parameter, text),
            { number: number(returned), count: count(returned), page: fromZeros(page) });
        if (number(returned) === 0) {
            line.agree(calls.readHeader(page), { number: 0, scheme, serial, identifier, parameter });
        }
    },

    R(line, { call, calls, CB }) {
        const [page, received, text] = [line.octets(), line.number(), line.lent(Uint16Array)];
        const returned = call('cb_read_text', page, received, text);
        line.hold(number(returned), count(returned));
        line.holdLeft(text);
        if (text.length !== CB.TEXT) return;
        line.agree(calls.readText(page, received),
            { number: number(returned), count: count(returned), text: fromZeros(text) });
    },

    C(line, { call, calls, CB }) {
        const [page, received] = [line.octets(), line.number()];
        const returned = call('cb_content', page, received);
        line.hold(number(returned));
        line.holdList(number(returned) === 0 ? page.subarray(CB.HEADER, received) : page.subarray(0, 0));
        line.agree(calls.content(page, received), number(returned));
    },

    H(line, { call, calls }) {
        const page = line.octets();
        const returned = call('cb_read_header', page);
        const told = {
            number: bits(returned, 0, 8),
            scheme: bits(returned, 8, 8),
            serial: bits(returned, 16, 16),
            identifier: bits(returned, 32, 16),
            parameter: bits(returned, 48, 8),
        };
        line.hold(...Object.values(told));
        line.agree(calls.readHeader(page), told);
    },

    /** A schedule with its descriptions in the message's order, which cb_slots must tell by their slots. */
    S(line, { call, calls, CB }) {
        const [message, received] = [line.octets(), line.number()];
        const slots = line.filled(CB.SLOTS, Uint32Array);
        const returned = call('cb_read_schedule', message, received);
        line.agree(call('cb_slots', message, received, slots), returned);
        line.hold(number(returned), begin(returned), end(returned));
        const told = { number: number(returned), begin: begin(returned), end: end(returned) };
        line.agree(calls.readSchedule(message, received), told);
        for (let place = 0; ; place++) {
            const given = call('cb_description', message, received, place);
            line.agree(bits(given, 0, 8), number(returned));
            const [slot, fresh, code] = [bits(given, 8, 8), bits(given, 16, 8), bits(given, 32, 32)];
            if (slot === 0) break;
            line.hold(slot, fresh, code);
            line.agree(slots[slot - 1], code + 0x10000 * fresh);
        }
    },

    G(line, { call, calls }) {
        const [message, received, place] = [line.octets(), line.number(), line.number()];
        const returned = call('cb_description', message, received, place);
        const [slot, fresh, code] = [bits(returned, 8, 8), bits(returned, 16, 8), bits(returned, 32, 32)];
        line.hold(bits(returned, 0, 8), slot, fresh, code);
        line.agree(calls.description(message, received, place), { number: bits(returned, 0, 8), slot, fresh: fresh === 1, code });
    },

    L(line, { call, calls, CB }) {
        const [message, received, slots] = [line.octets(), line.number(), line.lent(Uint32Array)];
        const returned = call('cb_slots', message, received, slots);
        line.hold(number(returned), begin(returned), end(returned));
        line.holdLeft(slots);
        if (slots.length !== CB.SLOTS) return;
        line.agree(calls.slots(message, received), {
            number: number(returned),
            begin: begin(returned),
            end: end(returned),
            slots: Array.from(fromZeros(slots), (slot) => ({ code: slot % 0x10000, fresh: slot >= 0x10000 })),
        });
    },

    P(line, { call, calls }) {
        const file = line.octets();
        const returned = call('cb_read_plan', file);
        line.hold(number(returned), count(returned));
        line.agree(calls.readPlan(file), { number: number(returned), count: count(returned) });
    },

    W(line, { call, calls, CB }) {
        const [current, previous, from, out] = [line.octets(), line.octets(), line.number(), line.lent()];
        const returned = call('cb_write_schedule', current, previous, from, out);
        line.hold(number(returned), count(returned));
        line.holdLeft(out);
        if (out.length !== CB.OUTPUT) return;
        line.agree(calls.writeSchedule(current, previous, from),
            { number: number(returned), count: count(returned), message: fromZeros(out) });
    },

    K(line, { call, calls }) {
        const [current, previous, message, received] = [line.octets(), line.octets(), line.octets(), line.number()];
        const returned = call('cb_check_schedule', current, previous, message, received);
        line.hold(number(returned), count(returned));
        line.agree(calls.checkSchedule(current, previous, message, received),
            { number: number(returned), count: count(returned) });
    },

    U(line, { call, calls, CB }) {
        const [current, previous, message, received] = [line.octets(), line.octets(), line.octets(), line.number()];
        const verdicts = line.lent();
        const returned = call('cb_check_slots', current, previous, message, received, verdicts);
        line.hold(number(returned), count(returned));
        line.holdLeft(verdicts);
        if (verdicts.length !== CB.SLOTS) return;
        line.agree(calls.checkSlots(current, previous, message, received),
            { number: number(returned), count: count(returned), verdicts: fromZeros(verdicts) });
        line.agree(call('cb_check_schedule', current, previous, message, received), returned);
    },

    D(line, { call, calls }) {
        const [known, message, received, slot] = [line.truth(), line.octets(), line.number(), line.number()];
        const [wanted, held] = [line.points(), line.wide()];
        const returned = call('cb_decide', known, message, received, slot, wanted, held);
        line.hold(number(returned), count(returned));
        line.agree(calls.decide(known, message, received, slot, wanted, held),
            { number: number(returned), count: count(returned) });
    },

    E(line, { call, calls }) {
        const [known, message, received, slot, held] =
            [line.truth(), line.octets(), line.number(), line.number(), line.wide()];
        const returned = call('cb_enter', known, message, received, slot, held);
        line.hold(returned);
        line.agree(calls.enter(known, message, received, slot, held), returned);
    },

    J(line, { call }) {
        const collector = line.runs();
        const before = collector.slice();
        line.hold(number(call('cb_start_collector', collector)));
        line.holdRunsAfter(before, collector);
    },

    M(line, { call }) {
        const [collector, page, received, output] = [line.runs(), line.octets(), line.number(), line.lent()];
        const [before, asLent] = [collector.slice(), output.slice()];
        const returned = call('cb_collect', collector, page, received, output);
        line.hold(number(returned), count(returned));
        line.holdRunsAfter(before, collector);
        line.holdRunsAfter(asLent, output);
    },

    O(line, { call, calls, CB }) {
        const collector = started('cb_start_collector', CB.COLLECTOR, call);
        const collecting = calls.newCollector();
        while (line.left() > 1) {
            const [page, received, output] = [line.octets(), line.number(), line.filled(CB.COLLECTOR)];
            const asLent = output.slice();
            const returned = call('cb_collect', collector, page, received, output);
            line.hold(number(returned), count(returned));
            line.holdRunsAfter(asLent, output);
            line.agree(collecting.take(page, received),
                { number: number(returned), count: count(returned), output: fromZeros(output) });
        }
        line.holdRuns(collector);
    },
};

/** A state or a collector as its call leaves it, of memory that was something else. */
function started(name, length, call) {
    const made = new Uint8Array(length).fill(0xA5);
    if (call(name, made) !== 0) throw new Wrong(`${name} refuses ${length} octets`);
    return made;
}

/** The files that tests/second/README.md tells, each with its letters, or with any. */
export function filesTold() {
    const files = new Map();
    const letters = new Set();
    for (const row of readFileSync(join(TOP, 'tests/second/README.md'), 'utf8').split('\n')) {
        const [, letter, rest] = /^\| `([A-Z])` \|(.*)$/.exec(row) ?? [];
        if (letter !== undefined) letters.add(letter);
        const [, names] = /^ ([a-z_]+(?:, [a-z_]+)*) \|.*\|.*\|$/.exec(rest ?? '') ?? [];
        for (const name of names?.split(', ') ?? []) files.set(`${name}.txt`, (files.get(`${name}.txt`) ?? '') + letter);
        const [, other] = /^\| `(\w+\.txt)` \|/.exec(row) ?? [];
        if (other !== undefined) files.set(other, '');
    }
    for (const [name, its] of files) files.set(name, its || [...letters].join(''));
    return { files, letters };
}

/** Every line of the stored results: where it stands and its text. */
export function storedLines(folder = join(TOP, 'crates/trial/data')) {
    const { files, letters } = filesTold();
    const there = readdirSync(folder).sort();
    if (files.size === 0 || !isDeepStrictEqual(there, [...files.keys()].sort())) {
        throw new Wrong('there are other files of results than tests/second/README.md tells');
    }
    const lines = [];
    for (const name of there) {
        readFileSync(join(folder, name), 'latin1').split('\n').forEach((text, i) => {
            if (text === '' || text[0] === '#') return;
            const known = text[0] in LETTERS || PASSED_OVER.includes(text[0]);
            if (!known || !files.get(name).includes(text[0])) throw new Wrong(`${name}:${i + 1}: a line of no kind`);
            letters.delete(text[0]);
            lines.push({ where: `${name}:${i + 1}`, text });
        });
    }
    if (letters.size > 0) throw new Wrong(`there is no line of ${[...letters].join(', ')}`);
    return lines;
}

/** Makes the calls of all lines, up to so many that differ, and counts. */
export async function tryLines(Calls, CB, wasm, lines, most = Infinity, say = console.error) {
    const watched = new Watched(await Calls.open(wasm), join(TOP, 'include/csobvarit.h'));
    const tools = { call: watched.call, calls: await Calls.open(wasm), CB }; // the methods have memory of their own
    const counts = { results: 0, passedOver: 0, different: 0, calls: 0 };
    for (const { where, text } of lines) {
        if (PASSED_OVER.includes(text[0])) {
            counts.passedOver++;
            continue;
        }
        const line = new Line(where, text);
        try {
            LETTERS[text[0]](line, tools);
            line.end();
        } catch (error) {
            throw new Wrong(`${where}: ${text[0]}: ${error.message}`);
        }
        counts.results++;
        if (line.differs !== '' && counts.different++ < SHOWN) say(`tests/desk: ${where}: ${text[0]}: ${line.differs}`);
        if (counts.different >= most) break;
    }
    watched.holdAll();
    counts.calls = [...watched.made.values()].reduce((sum, made) => sum + made, 0);
    if (counts.different === 0) watched.holdMade();
    return counts;
}

/** All that is tried of a folder: whether it is right. */
async function main(folder = join(TOP, 'target/desk'), results = undefined) {
    const { Calls } = await import(pathToFileURL(join(resolve(folder), 'calls.js')).href);
    const { CB } = await import(pathToFileURL(join(resolve(folder), 'words.js')).href);
    const wasm = readFileSync(join(folder, 'csobvarit.wasm'));
    await tryLayer(Calls, wasm);
    const counts = await tryLines(Calls, CB, wasm, storedLines(results));
    console.log(`tests/desk: ${counts.results} results by ${counts.calls} calls, ${counts.different} differ; ` +
        `${counts.passedOver} of what is no call passed over`);
    return counts.different === 0 && counts.results > 0;
}

if (process.argv[1] === fileURLToPath(import.meta.url)) {
    try {
        process.exitCode = await main(...process.argv.slice(2)) ? 0 : 1;
    } catch (error) {
        console.error(`tests/desk: ${error.message}`);
        process.exitCode = 1;
    }
}
