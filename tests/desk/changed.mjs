// Changes single octets of the desk's wasm, one at a time, and tells whether the stored results notice; or leaves some wasm so
// changed in a folder: node tests/desk/changed.mjs [FOLDER]
//
// What is changed is decisions: every comparison whose result a jump out of a block takes says the opposite. A change is noticed
// where a result differs, where a call traps or does what it may not, and where it doesn't end. One that isn't noticed is told.
//
// Left out are comparisons that end a loop or choose between two values, because a few of them can be changed without an effect:
// in loops that fill memory of which no more is read than is written after, in loops that look once more at a plan that was found
// good, and in limits that hold anyway.
import { readFileSync, writeFileSync } from 'node:fs';
import { join } from 'node:path';
import { fileURLToPath } from 'node:url';
import { Worker, isMainThread, parentPort, workerData } from 'node:worker_threads';
import { Calls } from '../../target/desk/calls.js';
import { CB } from '../../target/desk/words.js';
import { tryLayer } from './layer.mjs';
import { storedLines, tryLines } from './results.mjs';
import { functionsOf } from './wasm.mjs';

const WASM = readFileSync(new URL('../../target/desk/csobvarit.wasm', import.meta.url));
const ENDS_WITHIN = 5000; // milliseconds, many times what all results take

/** The lines in an order in which the next is of another letter, so that a change is noticed early. */
function mixed(lines) {
    const met = new Map();
    const turns = lines.map(({ text }) => met.set(text[0], (met.get(text[0]) ?? 0) + 1).get(text[0]));
    return lines.map((line, i) => ({ line, turn: turns[i] })).sort((a, b) => a.turn - b.turn).map(({ line }) => line);
}

function changed({ place, octet }) {
    const wasm = Uint8Array.from(WASM);
    wasm[place] = octet;
    return wasm;
}

/** What comes of a wasm. */
async function comesOf(wasm, lines) {
    if (!WebAssembly.validate(wasm)) return 'invalid';
    try {
        await tryLayer(Calls, wasm);
        const { different } = await tryLines(Calls, CB, wasm, lines, 1, () => {});
        return different > 0 ? 'noticed' : 'unnoticed';
    } catch {
        return 'noticed';
    }
}

/** Tries decisions one after the other, up to one that doesn't end. */
function tryOn(decisions, said) {
    return new Promise((resolve, reject) => {
        const worker = new Worker(fileURLToPath(import.meta.url), { workerData: decisions.slice(said.length) });
        const late = () => {
            said.push('noticed');
            worker.terminate();
        };
        let timer = setTimeout(late, ENDS_WITHIN);
        worker.on('message', (what) => {
            said.push(what);
            clearTimeout(timer);
            if (said.length < decisions.length) timer = setTimeout(late, ENDS_WITHIN);
        });
        worker.on('error', reject);
        worker.on('exit', resolve);
    });
}

/** Leaves the first decision changed, one in the middle, and the last. */
function leaveSome(decisions, folder) {
    const some = { first: 0, middle: decisions.length >> 1, last: decisions.length - 1 };
    for (const [name, i] of Object.entries(some)) writeFileSync(join(folder, `${name}.wasm`), changed(decisions[i]));
}

async function main(folder) {
    const functions = functionsOf(WASM);
    const decisions = functions.flatMap(({ name, decisions: its }) => its.map((decision) => ({ ...decision, name })));
    if (folder !== undefined) {
        leaveSome(decisions, folder);
        return true;
    }
    if (await comesOf(WASM, storedLines()) !== 'unnoticed') throw new Error('the wasm as it is does not pass');
    const said = [];
    while (said.length < decisions.length) await tryOn(decisions, said);
    decisions.forEach(({ place, name }, i) => {
        if (said[i] === 'unnoticed') console.error(`tests/desk: nothing notices octet ${place} changed, in ${name || 'no export'}`);
    });
    const count = (what) => said.filter((one) => one === what).length;
    const having = functions.filter(({ decisions: its }) => its.length > 0).length;
    console.log(`tests/desk: ${decisions.length} decisions changed one by one, in ${having} of ${functions.length} functions: ` +
        `${count('noticed')} noticed, ${count('invalid')} invalid, ${count('unnoticed')} unnoticed`);
    return count('unnoticed') === 0 && count('noticed') > 0;
}

if (isMainThread) {
    try {
        process.exitCode = await main(process.argv[2]) ? 0 : 1;
    } catch (error) {
        console.error(`tests/desk: ${error.message}`);
        process.exitCode = 1;
    }
} else {
    const lines = mixed(storedLines());
    for (const decision of workerData) parentPort.postMessage(await comesOf(changed(decision), lines));
}
