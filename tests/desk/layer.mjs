// Tries what no stored result can tell of desk/calls.js and the wasm: all 64 bits of a length, lists longer than memory is at
// first, memory set aside, and arguments that a call doesn't take.
import { isDeepStrictEqual } from 'node:util';
import { Wrong } from './line.mjs';

/** A list that says that it is 2^32 elements longer than it is. */
function lying(list) {
    return Object.defineProperty(list.slice(), 'length', { value: list.length + 2 ** 32 });
}

/** What each call is given, and what it returns where its first list lies, its second and so on. */
function lies(calls) {
    const filled = (length, kind = Uint8Array) => new kind(length).fill(0xA5);
    const started = (name, length) => {
        const state = filled(length);
        calls.call(name, state);
        return state;
    };
    const state = started('cb_start', 90);
    const collector = started('cb_start_collector', 1340);
    const piece = new Uint8Array(23);
    const page = new Uint8Array(88);
    page[5] = 0x11;
    const schedule = new Uint8Array(88); // of two slots, the second a repeat of the first
    schedule.set([1, 2, 0, 0, 0, 0, 0, 0, 0x80, 1, 1]);
    const plan = Uint8Array.of(0x43, 0x42, 0x50, 0, 1, 1, 1, 0, 0, 0, 0, 0);
    const wanted = Uint16Array.of(1);
    return {
        cb_start: { given: [state], returned: [8] },
        cb_intake: { given: [state, piece, filled(88)], returned: [8, 2, 15] },
        // each character of a text is looked at, so its length has to be true
        cb_write_text: { given: [0, 0, 0, 0x11, Uint16Array.of(0x41), filled(88)], returned: [null, 15] },
        cb_read_text: { given: [page, 88, filled(93, Uint16Array)], returned: [16, 15] },
        cb_content: { given: [page, 88], returned: [16] },
        cb_read_header: { given: [page], returned: [16n] },
        cb_start_collector: { given: [collector], returned: [8] },
        cb_collect: { given: [collector, page, 88, filled(1340)], returned: [8, 16, 15] },
        cb_write_blocks: { given: [page, false, 88, filled(92)], returned: [16, 15] },
        cb_read_schedule: { given: [schedule, 22], returned: [16] },
        cb_slots: { given: [schedule, 22, filled(48, Uint32Array)], returned: [16, 15] },
        cb_description: { given: [schedule, 22, 0], returned: [16n] },
        cb_read_plan: { given: [plan], returned: [32] },
        cb_write_schedule: { given: [plan, plan, 1, filled(88)], returned: [32, 32, 15] },
        cb_check_schedule: { given: [plan, plan, schedule, 22], returned: [32, 32, 16] },
        cb_check_slots: { given: [plan, plan, schedule, 22, filled(48)], returned: [32, 32, 16, 15] },
        cb_decide: { given: [true, schedule, 22, 2, wanted, 0n], returned: [0x100, 42] },
        cb_enter: { given: [true, schedule, 22, 2, 0n], returned: [2n] },
    };
}

function holdLengths(calls) {
    const all = lies(calls);
    for (const name of Object.keys(calls.exports).filter((name) => name.startsWith('cb_'))) {
        if (all[name] === undefined) throw new Wrong(`${name} is given no length that lies`);
        const { given, returned } = all[name];
        const lists = given.flatMap((value, i) => typeof value === 'object' ? [i] : []);
        lists.forEach((place, n) => {
            if (returned[n] === null) return;
            const words = given.map((value, i) => i === place ? lying(value) : typeof value === 'object' ? value.slice() : value);
            const got = calls.call(name, ...words);
            const kept = lists.every((i) => Buffer.compare(Buffer.from(words[i].buffer), Buffer.from(given[i].buffer)) === 0);
            if (got !== returned[n] || !kept) throw new Wrong(`the upper half of a length has no say in ${name}`);
        });
    }
}

function holdGrowth(calls) {
    const kept = calls.reserve(5);
    calls.octets.set([1, 2, 3, 4, 5], kept);
    const before = calls.memory.buffer.byteLength;
    const empty = Uint8Array.of(0x43, 0x42, 0x50, 0, 1, 0);
    const held = [
        [calls.newIntake().take(new Uint8Array(3 * before)).answer, 2],
        [calls.writeText(0, 0, 0, 0x11, new Uint16Array(3 * before).fill(0x41)).number, 10],
        [calls.readPlan(new Uint8Array(9 * before)).number, 30],
        [calls.readPlan(empty), { number: 0, count: 0 }],
        [calls.memory.buffer.byteLength > 9 * before, true],
        [calls.reserve(10 * before) > kept && calls.reserve(1) % 16, 0],
        [calls.readPlan(empty), { number: 0, count: 0 }],
        [calls.octets.slice(kept, kept + 5), Uint8Array.of(1, 2, 3, 4, 5)],
        [calls.enter(false, new Uint8Array(0), 0, 48, 2n ** 63n), 2n ** 63n + 2n ** 47n],
    ];
    held.forEach(([got, right], i) => {
        if (!isDeepStrictEqual(got, right)) throw new Wrong(`after memory has grown, answer ${i + 1} is another`);
    });
}

function holdRefused(calls) {
    const [page, text] = [new Uint8Array(88), new Uint16Array(93)];
    const refused = [
        ['cb_nothing', page],
        ['cb_start'],
        ['cb_start', page, page],
        ['cb_start', 88],
        ['cb_start', new Uint16Array(90)],
        ['cb_start', new Int8Array(90)],
        ['cb_read_text', page, -1, text],
        ['cb_read_text', page, 1.5, text],
        ['cb_read_text', page, NaN, text],
        ['cb_read_text', page, 2n ** 64n, text],
        ['cb_read_text', page, page, text],
        ['cb_write_text', 65536, 0, 0, 0x11, text, page],
        ['cb_write_text', 0, 0, 256, 0x11, text, page],
        ['cb_write_text', 0, 0, 0, -1, text, page],
        ['cb_write_blocks', page, 2, 88, new Uint8Array(92)],
    ];
    for (const [name, ...given] of refused) {
        try {
            calls.call(name, ...given);
        } catch (error) {
            if (error instanceof TypeError || error instanceof RangeError) continue;
        }
        throw new Wrong(`${name} takes arguments that it hasn't`);
    }
}

/** Ends by Wrong where something isn't so. */
export async function tryLayer(Calls, wasm) {
    holdLengths(await Calls.open(wasm));
    holdGrowth(await Calls.open(wasm));
    holdRefused(await Calls.open(wasm));
}
