// A log that was taken in: the answer of every piece, and its messages, put together again from the file where they are shown.
import { CB } from './words.js';
import { COLLECTOR_EVERY } from './loglines.js';

/** @typedef {import('./calls.js').Calls} Calls */
/** @typedef {import('./worker.js').Survey} Survey */

/** Pieces of the file that are read at a time, and how many such readings are kept. */
const READ_PIECES = 4096;
const READINGS = 32;
/** Where the first page stands in a message that the collector hands out. */
const FIRST_PAGE = CB.COLLECTOR - CB.MOST_PAGES * (1 + CB.OUTPUT);

export class TakenLog {
    /** @param {Calls} calls @param {File} file @param {number} size its octets @param {Survey} survey */
    constructor(calls, file, size, survey) {
        this.calls = calls;
        this.file = file;
        this.size = size; // which the file may lose later
        this.survey = survey;
        /** @type {Uint32Array | undefined} The pieces that are listed, where not all are. */
        this.only = undefined;
        /** @type {Map<number, Promise<Uint8Array>>} */
        this.readings = new Map();
    }

    /** @param {number} place @returns {Promise<Uint8Array>} READ_PIECES pieces, or those up to the end */
    #reading(place) {
        const octets = READ_PIECES * CB.PIECE;
        const reading = this.readings.get(place) ??
            this.file.slice(place * octets, (place + 1) * octets).arrayBuffer().then((read) => new Uint8Array(read));
        // What was asked for last stands last, and so the first is the one to forget.
        this.readings.delete(place);
        this.readings.set(place, reading);
        for (const old of this.readings.keys()) if (this.readings.size > READINGS) this.readings.delete(old);
        return reading;
    }

    /** @param {number} piece from 1 @returns {Promise<Uint8Array>} its octets */
    async piece(piece) {
        const place = Math.floor((piece - 1) / READ_PIECES);
        const at = (piece - 1 - place * READ_PIECES) * CB.PIECE;
        return (await this.#reading(place)).subarray(at, at + CB.PIECE);
    }

    /** @param {number} answer @returns {Uint32Array} the pieces with that answer */
    answered(answer) {
        const { answers, counts } = this.survey;
        const pieces = new Uint32Array(counts[answer]);
        for (let before = 0, n = 0; before < answers.length; before++) if (answers[before] === answer) pieces[n++] = before + 1;
        return pieces;
    }

    /**
     * The message that a piece completed, taken in again from its first block on.
     * @param {number} last @param {number} received @returns {Promise<Uint8Array>}
     */
    async message(last, received) {
        const intake = this.calls.newIntake();
        for (let piece = last - received / (CB.PIECE - 1) + 1; piece < last; piece++) intake.take(await this.piece(piece));
        const taken = intake.take(await this.piece(last));
        if (taken.received !== received) throw new Error('the file is not as it was');
        return taken.output;
    }

    /** @param {number} place of a page, from 0 @returns {Promise<Uint8Array>} */
    page(place) {
        return this.message(this.survey.pages[place], this.survey.pageReceived[place]);
    }

    /**
     * The pages of the message that a page completed. A collector takes them again: from behind the message handed out before,
     * where it was as started, or from the copy that is kept of it.
     * @param {number} place of the page, from 0 @returns {Promise<{ page: Uint8Array, received: number }[]>}
     */
    async wholeMessage(place) {
        const { collected, collectors, pageReceived } = this.survey;
        const copy = Math.floor(place / COLLECTOR_EVERY);
        const collector = collectors.slice(copy * CB.COLLECTOR, (copy + 1) * CB.COLLECTOR);
        const output = new Uint8Array(CB.COLLECTOR);
        const handedOut = collected.subarray(copy * COLLECTOR_EVERY, place).lastIndexOf(CB.DONE);
        if (handedOut >= 0) this.calls.call('cb_start_collector', collector);
        let pages = 0;
        for (let at = copy * COLLECTOR_EVERY + handedOut + 1; at <= place; at++) {
            pages = Number(this.calls.call('cb_collect', collector, await this.page(at), pageReceived[at], output)) >>> 8;
        }
        return Array.from({ length: pages }, (_, before) => {
            const at = FIRST_PAGE + before * (1 + CB.OUTPUT);
            return { received: output[at], page: output.subarray(at + 1, at + 1 + CB.OUTPUT) };
        });
    }
}
