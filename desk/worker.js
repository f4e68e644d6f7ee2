// The worker of the part Log: takes a log in piece by piece, in a thread of its own, and hands back what came of it.
import { CB } from './words.js';
import { hexNumber } from './files.js';
import { COLLECTOR_EVERY, inOneLine, pageOfTotal } from './loglines.js';

/** @typedef {{ wasm: Uint8Array, file: File, size: number, want: 'survey' | 'pieces' | 'pages' }} LogTask pages: their list */
/** @typedef {{ done?: number, survey?: Survey, list?: Blob, failed?: string }} LogNews done: octets gone through */
/**
 * @typedef Survey
 * @property {Uint32Array} counts of each answer
 * @property {Uint8Array} answers of piece n in answers[n - 1]
 * @property {Uint32Array} pages the piece that completed each page
 * @property {Uint8Array} pageReceived the octets received of each page
 * @property {Uint8Array} collected the number that cb_collect gave for each page
 * @property {Uint32Array} messages the pages, counted from 0, that completed a message of several
 * @property {Uint8Array} collectors the collector as it was before page 0, COLLECTOR_EVERY, 2 * COLLECTOR_EVERY and so on
 * @property {Uint32Array} schedules the piece that completed each schedule message
 * @property {Uint8Array} scheduleReceived the octets received of each
 */
/** @typedef {(piece: number, answer: number, received: number) => void} Visit what is done at each piece */

/** Octets of the file that are read at a time: whole pieces, so that none lies in two slices. */
const SLICE_OCTETS = CB.PIECE * 131072;
/** Lengths as the wasm takes them, made once. */
const LONG = Object.freeze({
    state: BigInt(CB.STATE), piece: BigInt(CB.PIECE), output: BigInt(CB.OUTPUT), text: BigInt(CB.TEXT),
    collector: BigInt(CB.COLLECTOR),
});

/** Each octet in hex: a log may have millions of pages to be listed so. */
const OCTET_HEX = Array.from({ length: 256 }, (_, octet) => hexNumber(octet, 2));

/** @type {{ postMessage(news: LogNews, handed?: Transferable[]): void, onmessage: (event: MessageEvent) => void }} */
const logPort = /** @type {any} */ (globalThis);

/** @template {Uint8Array | Uint32Array} T */
class Growing {
    /** @param {new (length: number) => T} type */
    constructor(type) {
        this.type = type;
        this.list = new type(1024);
        this.length = 0;
    }

    /** @param {number} value */
    push(value) {
        if (this.length === this.list.length) {
            const wider = new this.type(2 * this.length);
            wider.set(this.list);
            this.list = wider;
        }
        this.list[this.length++] = value;
    }

    /** @returns {T} */
    made() {
        return /** @type {T} */ (this.list.slice(0, this.length));
    }
}

/** The calls as the wasm has them, on memory of its own that is laid out once: nothing is made for each piece. */
class LogCalls {
    /** @param {WebAssembly.Instance} instance */
    constructor(instance) {
        this.calls = /** @type {any} */ (instance.exports);
        this.free = this.calls.__heap_base.value;
        this.state = this.#reserve(CB.STATE);
        this.output = this.#reserve(CB.OUTPUT);
        this.text = this.#reserve(2 * CB.TEXT);
        this.collector = this.#reserve(CB.COLLECTOR);
        this.handedOut = this.#reserve(CB.COLLECTOR);
        this.slice = this.#reserve(SLICE_OCTETS);
        this.calls.memory.grow(Math.ceil(this.free / 65536));
        this.octets = new Uint8Array(this.calls.memory.buffer);
        this.calls.cb_start(this.state, LONG.state);
        this.calls.cb_start_collector(this.collector, LONG.collector);
    }

    /** @param {number} octets @returns {number} where they begin, aligned */
    #reserve(octets) {
        const at = Math.ceil(this.free / 16) * 16;
        this.free = at + octets;
        return at;
    }

    /**
     * Takes the pieces of a slice; a shorter tail is a piece too.
     * @param {Uint8Array} octets @param {number} first the number of its first piece @param {Visit} visit
     */
    take(octets, first, visit) {
        const { state, output, slice } = this;
        const intake = this.calls.cb_intake;
        const whole = Math.floor(octets.length / CB.PIECE);
        this.octets.set(octets, slice);
        for (let before = 0; before < whole; before++) {
            const returned = intake(state, LONG.state, slice + CB.PIECE * before, LONG.piece, output, LONG.output);
            visit(first + before, returned & 0xFF, returned >>> 8);
        }
        const tail = octets.length - CB.PIECE * whole;
        if (tail === 0) return;
        const returned = intake(state, LONG.state, slice + CB.PIECE * whole, BigInt(tail), output, LONG.output);
        visit(first + whole, returned & 0xFF, returned >>> 8);
    }

    /**
     * Goes through a file; the next slice is read while one is taken.
     * @param {LogTask} task @param {Visit} visit @param {() => void} [sliceDone]
     */
    async goThrough({ file, size }, visit, sliceDone) {
        const read = (/** @type {number} */ at) => file.slice(at, at + SLICE_OCTETS).arrayBuffer();
        let next = read(0);
        for (let at = 0; at < size; at += SLICE_OCTETS) {
            const octets = new Uint8Array(await next);
            if (octets.length !== Math.min(SLICE_OCTETS, size - at)) throw new Error('the file is shorter than it was');
            next = read(at + SLICE_OCTETS);
            this.take(octets, at / CB.PIECE + 1, visit);
            sliceDone?.();
            logPort.postMessage({ done: at + octets.length });
        }
    }

    /**
     * The page that was completed last, in a line as cbtext writes it.
     * @param {number} received @returns {string}
     */
    pageLine(received) {
        const { calls, output, text, octets } = this;
        const header = calls.cb_read_header(output, LONG.output);
        const serial = hexNumber(Number(header >> 16n & 0xFFFFn), 4);
        const identifier = hexNumber(Number(header >> 32n & 0xFFFFn), 4);
        const head = `${serial} ${identifier} ${pageOfTotal(Number(header >> 48n & 0xFFn))}`;
        const read = calls.cb_read_text(output, LONG.output, BigInt(received), text, LONG.text);
        if ((read & 0xFF) === 0) return `${head} text ${inOneLine(new Uint16Array(octets.buffer, text, read >>> 8))}`;
        const number = (read & 0xFF) === CB.SCHEME ? calls.cb_content(output, LONG.output, BigInt(received)) : read & 0xFF;
        if (number !== 0) return `${head} refused by ${number}`;
        let content = '';
        for (let at = output + CB.HEADER; at < output + received; at++) content += OCTET_HEX[octets[at]];
        return `${head} hex ${content}`;
    }
}

/** What is kept of each page: its piece, the octets received, and what the collector answered to it. */
class SurveyedPages {
    /** @param {LogCalls} logCalls */
    constructor(logCalls) {
        this.logCalls = logCalls;
        this.pieces = new Growing(Uint32Array);
        this.received = new Growing(Uint8Array);
        this.collected = new Growing(Uint8Array);
        this.messages = new Growing(Uint32Array);
        /** @type {Uint8Array[]} */
        this.collectors = [];
    }

    /** @param {number} piece @param {number} received */
    add(piece, received) {
        const { calls, octets, collector, output, handedOut } = this.logCalls;
        const place = this.pieces.length;
        if (place % COLLECTOR_EVERY === 0) this.collectors.push(octets.slice(collector, collector + CB.COLLECTOR));
        const returned = calls.cb_collect(
            collector, LONG.collector, output, LONG.output, BigInt(received), handedOut, LONG.collector);
        if ((returned & 0xFF) === CB.DONE && returned >>> 8 > 1) this.messages.push(place);
        this.pieces.push(piece);
        this.received.push(received);
        this.collected.push(returned & 0xFF);
    }

    made() {
        const collectors = new Uint8Array(this.collectors.length * CB.COLLECTOR);
        for (const [place, collector] of this.collectors.entries()) collectors.set(collector, place * CB.COLLECTOR);
        return {
            pages: this.pieces.made(), pageReceived: this.received.made(), collected: this.collected.made(),
            messages: this.messages.made(), collectors,
        };
    }
}

/** @param {LogCalls} logCalls @param {LogTask} task @returns {Promise<Survey>} */
async function surveyOf(logCalls, task) {
    const counts = new Uint32Array(256);
    const answers = new Uint8Array(Math.ceil(task.size / CB.PIECE));
    const pages = new SurveyedPages(logCalls);
    const schedules = new Growing(Uint32Array);
    const scheduleReceived = new Growing(Uint8Array);
    await logCalls.goThrough(task, (piece, answer, received) => {
        counts[answer]++;
        answers[piece - 1] = answer;
        if (answer === CB.PAGE) pages.add(piece, received);
        if (answer !== CB.SCHEDULE) return;
        schedules.push(piece);
        scheduleReceived.push(received);
    });
    return { counts, answers, ...pages.made(), schedules: schedules.made(), scheduleReceived: scheduleReceived.made() };
}

/**
 * The list of a log as a text: that of cblist, or that of cbtext.
 * @param {LogCalls} logCalls @param {LogTask} task @returns {Promise<Blob>}
 */
async function listOf(logCalls, task) {
    const ofPages = task.want === 'pages';
    /** @type {Blob[]} */
    const parts = [];
    let lines = ofPages ? '' : 'block answer octets\n';
    await logCalls.goThrough(task, (piece, answer, received) => {
        if (!ofPages) lines += `${piece} ${answer} ${received}\n`;
        else if (answer === CB.PAGE) lines += `${piece} ${logCalls.pageLine(received)}\n`;
    }, () => {
        parts.push(new Blob([lines]));
        lines = '';
    });
    return new Blob(parts);
}

logPort.onmessage = async (event) => {
    const task = /** @type {LogTask} */ (event.data);
    try {
        const logCalls = new LogCalls((await WebAssembly.instantiate(task.wasm)).instance);
        if (task.want === 'survey') {
            const survey = await surveyOf(logCalls, task);
            logPort.postMessage({ survey }, Object.values(survey).map((list) => list.buffer));
        } else {
            logPort.postMessage({ list: await listOf(logCalls, task) });
        }
    } catch (error) {
        const why = error instanceof RangeError ? 'it takes more memory than there is'
            : 'it is a folder, or it changed or is gone';
        logPort.postMessage({ failed: `${why} (${error})` });
    }
};
