// What the part Log lists of a log: its pieces, its pages, its messages of several pages, and its schedules.
import { CB, WORDS } from './words.js';
import { hex, hexNumber, refusal } from './files.js';
import { counted, grouped, make, makeHead } from './elements.js';
import { inOneLine, pageOfTotal } from './loglines.js';
import { toldWords } from './check.js';

/** @typedef {import('./calls.js').Calls} Calls */
/** @typedef {import('./logtaken.js').TakenLog} TakenLog */
/** @typedef {import('./logrows.js').Column} Column */
/** @typedef {{ serial: string, identifier: string, scheme: string, number: string, kind: string, body: string }} PageWords */
/**
 * @typedef View
 * @property {string} name
 * @property {Column[]} columns
 * @property {(log: TakenLog) => number} count
 * @property {(log: TakenLog, index: number) => number} piece the one listed, or the one that completed what is listed
 * @property {(log: TakenLog, index: number) => Promise<string[]>} row
 * @property {(log: TakenLog, index: number) => Promise<HTMLElement[]>} details
 */

/** The answers that refuse nothing, in the header's words. */
const TAKEN_WORDS = new Map([
    [CB.PAGE, 'a page is complete'],
    [CB.TAKEN, 'the block is taken, and its message goes on'],
    [CB.SCHEDULE, 'a schedule message is complete'],
]);

/** @param {number} answer of the intake @returns {string} */
export function answerWords(answer) {
    return TAKEN_WORDS.get(answer) ?? WORDS.get(answer) ?? '';
}

/** @param {string} name @param {string} [className] @returns {Column} */
function column(name, className = '') {
    return { name, className };
}

/** @param {string} words @param {string} [className] @returns {HTMLElement} */
function paragraph(words, className = '') {
    return make('p', className, words);
}

/** @param {number} last @param {number} received @returns {string} */
function piecesWords(last, received) {
    const first = last - received / (CB.PIECE - 1) + 1;
    return `${received} octets received, in ${first < last ? `pieces ${grouped(first)} to` : 'piece'} ${grouped(last)}`;
}

/**
 * A page in words: its text, or its content in hex where cb_read_text refuses its coding scheme and cb_content hands it on.
 * @param {Calls} calls @param {Uint8Array} page @param {number} received @returns {PageWords}
 */
function pageWords(calls, page, received) {
    const { serial, identifier, scheme, parameter } = calls.readHeader(page);
    const { number, count, text } = calls.readText(page, received);
    const handed = number === CB.SCHEME && calls.content(page, received) === 0;
    return {
        serial: hexNumber(serial, 4),
        identifier: hexNumber(identifier, 4),
        scheme: hexNumber(scheme, 2),
        number: pageOfTotal(parameter),
        kind: number === 0 ? 'text' : handed ? 'hex' : '',
        body: number === 0 ? inOneLine(text.subarray(0, count))
            : handed ? hex(page.subarray(CB.HEADER, received)) : refusal(number),
    };
}

/** @param {TakenLog} log @param {number} index of a message @returns {Promise<PageWords[]>} its pages */
async function messageWords(log, index) {
    const pages = await log.wholeMessage(log.survey.messages[index]);
    return pages.map(({ page, received }) => pageWords(log.calls, page, received));
}

/** @param {{ code: number, fresh: boolean }[]} slots @returns {HTMLElement} */
function slotTable(slots) {
    const rows = slots.map(({ code, fresh }, before) => make('tr', '', makeHead('row', 'rows-number', String(before + 1)),
        make('td', '', make('span', fresh ? 'new' : '', fresh ? 'new' : '')), make('td', '', toldWords(code))));
    const heads = ['Slot', 'New', 'Told as'].map((name) => makeHead('col', '', name));
    return make('table', '', make('thead', '', make('tr', '', ...heads)), make('tbody', '', ...rows));
}

const PIECE_COLUMN = column('Piece', 'rows-number');
const SERIAL_COLUMNS = [column('Serial', 'octets'), column('Identifier', 'octets')];

/** @type {View} */
const PIECES_VIEW = {
    name: 'Pieces',
    columns: [PIECE_COLUMN, column('Octets', 'octets'), column('Answer', 'rows-number'), column('In words')],
    count: (log) => log.only?.length ?? log.survey.answers.length,
    piece: (log, index) => log.only?.[index] ?? index + 1,
    async row(log, index) {
        const piece = this.piece(log, index);
        const answer = log.survey.answers[piece - 1];
        return [grouped(piece), hex(await log.piece(piece), ' '), String(answer), answerWords(answer)];
    },
    async details(log, index) {
        const [piece, octets, answer, words] = await this.row(log, index);
        return [make('h3', '', `Piece ${piece}`), paragraph(octets, 'octets'), paragraph(`Answer ${answer}: ${words}.`)];
    },
};

/** @type {View} */
const PAGES_VIEW = {
    name: 'Pages',
    columns: [PIECE_COLUMN, ...SERIAL_COLUMNS, column('Page'), column(''), column('Text, or content in hex', 'octets')],
    count: (log) => log.survey.pages.length,
    piece: (log, index) => log.survey.pages[index],
    async row(log, index) {
        const words = pageWords(log.calls, await log.page(index), log.survey.pageReceived[index]);
        return [grouped(this.piece(log, index)), words.serial, words.identifier, words.number, words.kind, words.body];
    },
    async details(log, index) {
        const { pageReceived, collected } = log.survey;
        const piece = this.piece(log, index);
        const page = await log.page(index);
        const words = pageWords(log.calls, page, pageReceived[index]);
        return [
            make('h3', '', `Page completed by piece ${grouped(piece)}`),
            paragraph(words.body, 'log-body octets'),
            paragraph(`Serial number ${words.serial}, message identifier ${words.identifier}, coding scheme ${words.scheme}, ` +
                `page ${words.number.replace('/', ' of ')}; ${piecesWords(piece, pageReceived[index])}.`),
            paragraph(collected[index] === CB.DONE ? 'With it the message is whole.'
                : collected[index] === CB.KEPT ? 'The message isn\'t whole with it.' : refusal(collected[index])),
            paragraph(hex(page.subarray(0, pageReceived[index]), ' '), 'octets'),
        ];
    },
};

/** @type {View} */
const MESSAGES_VIEW = {
    name: 'Messages of several pages',
    columns: [
        PIECE_COLUMN, ...SERIAL_COLUMNS, column('Pages', 'rows-number'),
        column('Text, or content in hex, of its pages', 'octets'),
    ],
    count: (log) => log.survey.messages.length,
    piece: (log, index) => log.survey.pages[log.survey.messages[index]],
    async row(log, index) {
        const pages = await messageWords(log, index);
        const [{ serial, identifier }] = pages;
        const bodies = pages.map(({ body }) => body).join(' ');
        return [grouped(this.piece(log, index)), serial, identifier, String(pages.length), bodies];
    },
    async details(log, index) {
        const pages = await messageWords(log, index);
        return [
            make('h3', '', `Message of ${pages.length} pages, whole with piece ${grouped(this.piece(log, index))}`),
            paragraph(`Serial number ${pages[0].serial}, message identifier ${pages[0].identifier}.`),
            make('ol', 'log-body octets', ...pages.map(({ body }) => make('li', '', body))),
        ];
    },
};

/** @type {View} */
const SCHEDULES_VIEW = {
    name: 'Schedules',
    columns: [PIECE_COLUMN, column('Begin', 'rows-number'), column('End', 'rows-number'), column('In words')],
    count: (log) => log.survey.schedules.length,
    piece: (log, index) => log.survey.schedules[index],
    async row(log, index) {
        const received = log.survey.scheduleReceived[index];
        const { number, begin, end, slots } = log.calls.slots(await log.message(this.piece(log, index), received), received);
        const piece = grouped(this.piece(log, index));
        if (number !== 0) return [piece, '', '', refusal(number)];
        const fresh = slots.slice(0, end).filter((slot) => slot.fresh).length;
        return [piece, String(begin), String(end), `${counted(end, 'slot')} told, ${fresh} of them new`];
    },
    async details(log, index) {
        const received = log.survey.scheduleReceived[index];
        const piece = this.piece(log, index);
        const message = await log.message(piece, received);
        const { number, begin, end, slots } = log.calls.slots(message, received);
        return [
            make('h3', '', `Schedule completed by piece ${grouped(piece)}`),
            number === 0 ? paragraph(`Begin ${begin}, End ${end}.`) : paragraph(refusal(number), 'wrong'),
            ...number === 0 ? [slotTable(slots.slice(0, end))] : [],
            paragraph(`${piecesWords(piece, received)}:`),
            paragraph(hex(message.subarray(0, received), ' '), 'octets'),
        ];
    },
};

/** @type {Record<string, View>} */
export const LOG_VIEWS = { pieces: PIECES_VIEW, pages: PAGES_VIEW, messages: MESSAGES_VIEW, schedules: SCHEDULES_VIEW };
