// Rows of a plan from cells that were copied in a spreadsheet.
import { hexNumber } from './files.js';
import { numberOf, PAGE_KIND } from './planfile.js';

/** @typedef {import('./planfile.js').PlanRow} PlanRow */
/** @typedef {{ line: number, slot: number | undefined, row: PlanRow }} PastedRow */
/** @typedef {{ line: number, cells: string[] }} PastedLine */
/** @typedef {{ columns: (string | undefined)[], bases: Map<string, number>, headed: boolean, passed: string[] }} Headings */

const SEPARATORS = ['\t', ';', ','];
const QUOTED = /"(?:[^"]|"")*"/g;

/**
 * Headings by their words; of those that a heading has, the first in this order counts.
 * @type {[string, string[]][]}
 */
const HEADINGS = [
    ['parameter', ['parameter', 'param', 'octet']],
    ['total', ['total', 'pages', 'of']],
    ['serial', ['serial', 'sn']],
    ['identifier', ['identifier', 'ident', 'id', 'mid']],
    ['kind', ['kind', 'type']],
    ['slot', ['slot']],
    ['page', ['page']],
    ['slot', ['no', 'nr', 'number', '#']],
];
const BASES = new Map([['hex', 16], ['hexadecimal', 16], ['dec', 10], ['decimal', 10]]);
const UNHEADED = ['kind', 'serial', 'identifier', 'page', 'total'];
const HEX_COLUMNS = ['serial', 'identifier', 'parameter'];
const MOST = new Map([['serial', 0xFFFF], ['identifier', 0xFFFF], ['page', 15], ['total', 15], ['parameter', 0xFF]]);
const KIND_WORDS = new Map([
    ['page', PAGE_KIND], ['advised', 1], ['reading advised', 1], ['optional', 0], ['reading optional', 0],
]);

/** What is wrong with a paste, and where. */
export class PasteWrong extends Error {
    /** @param {number} line @param {string} why */
    constructor(line, why) {
        super(`Nothing was pasted: line ${line}: ${why}`);
    }
}

/** @param {string} text @returns {boolean} whether it is rows, and not a single cell */
export function isRows(text) {
    const bare = text.trim().replace(QUOTED, '');
    return SEPARATORS.some((separator) => text.replace(QUOTED, '').includes(separator)) || /[\r\n]/.test(bare);
}

/** @param {string} text @returns {PastedLine[]} the lines that aren't blank, cell by cell */
function pastedLines(text) {
    const whole = text.replace(/^\uFEFF/, '').replace(/\r\n?/g, '\n');
    const bare = whole.replace(QUOTED, '');
    const separator = SEPARATORS.find((one) => bare.includes(one)) ?? ',';
    const cell = new RegExp(` *(?:"((?:[^"]|"")*)" *|([^${separator}\\n"]*))(${separator}|\\n|$)`, 'y');
    /** @type {PastedLine[]} */
    const lines = [];
    let open = { line: 1, cells: /** @type {string[]} */ ([]) };
    for (let line = 1; cell.lastIndex < whole.length;) {
        const found = cell.exec(whole);
        if (found === null) throw new PasteWrong(line, 'a quotation mark stands where none belongs, or isn’t closed.');
        open.cells.push((found[1]?.replaceAll('""', '"') ?? found[2]).trim());
        line += found[0].split('\n').length - 1;
        if (found[3] === separator && cell.lastIndex < whole.length) continue;
        lines.push(open);
        open = { line, cells: [] };
    }
    return lines.filter(({ cells }) => cells.some((one) => one !== ''));
}

/** @param {string} cell @returns {{ column: string | undefined, base: number | undefined }} what a heading says */
function headingOf(cell) {
    const words = cell.toLowerCase().match(/[a-z]+|#/g) ?? [];
    const column = HEADINGS.find(([, known]) => words.some((word) => known.includes(word)))?.[0];
    return { column, base: words.map((word) => BASES.get(word)).find((base) => base !== undefined) };
}

/** @param {PastedLine | undefined} line @returns {boolean} page is a heading and a kind, so it alone doesn't tell a heading */
function isHeading(line) {
    if (line === undefined) return false;
    const said = line.cells.filter((cell) => cell !== '').map(headingOf);
    return said.some(({ column }) => column !== undefined && column !== 'page') ||
        (said.length === 1 && said[0].base !== undefined);
}

/**
 * Takes the headings off the lines: one line of them, or two.
 * @param {PastedLine[]} lines @returns {Headings}
 */
function takeHeadings(lines) {
    /** @type {Headings} */
    const headings = { columns: UNHEADED, bases: new Map(), headed: false, passed: [] };
    for (let turn = 0; turn < 2 && isHeading(lines[0]); turn++) {
        const { line, cells } = /** @type {PastedLine} */ (lines.shift());
        const said = cells.map(headingOf);
        if (said.some(({ column }) => column !== undefined)) {
            headings.columns = said.map(({ column }) => column);
            headings.headed = true;
            headings.passed = cells.filter((cell, i) => cell !== '' && !said[i].column && !said[i].base);
            const twice = headings.columns.find((column, i) => column && headings.columns.indexOf(column) !== i);
            if (twice !== undefined) throw new PasteWrong(line, `two columns are headed ${twice}.`);
        }
        for (const { column, base } of said) {
            if (base === undefined) continue;
            for (const name of column === undefined ? HEX_COLUMNS : [column]) {
                if (column !== undefined || !headings.bases.has(name)) headings.bases.set(name, base);
            }
        }
    }
    return headings;
}

/**
 * @param {PastedLine} line @param {Headings} headings
 * @returns {{ texts: Map<string, string>, number: (column: string) => number | undefined }} by columns; undefined where empty
 */
function cellsOf({ line, cells }, { columns, bases, headed }) {
    /** @type {Map<string, string>} */
    const texts = new Map();
    cells.forEach((cell, i) => {
        const column = columns[i];
        if (column !== undefined) texts.set(column, cell);
        else if (cell !== '' && !headed) throw new PasteWrong(line, `without headings there are ${columns.length} columns.`);
    });
    return {
        texts,
        number: (column) => {
            const text = texts.get(column) ?? '';
            if (text === '') return undefined;
            const base = bases.get(column) ?? (HEX_COLUMNS.includes(column) ? 16 : 10);
            const most = MOST.get(column) ?? 999;
            const value = numberOf(text, base);
            if (value <= most) return value;
            const number = `a ${base === 16 ? 'hex' : 'decimal'} number up to ${most.toString(base).toUpperCase()}`;
            throw new PasteWrong(line, `${column}: “${text}” is not ${number}.`);
        },
    };
}

/** @param {number} line @param {string | undefined} text @returns {number} */
function pastedKind(line, text) {
    if (text === undefined) return PAGE_KIND;
    const kind = KIND_WORDS.get(text.toLowerCase()) ?? numberOf(text, 10);
    if (kind <= 0xFF) return kind;
    throw new PasteWrong(line, text === '' ? 'the kind is missing.' : `kind: “${text}” is none of page, advised, optional.`);
}

/** @param {PastedLine} pasted @param {Headings} headings @returns {PastedRow} */
function pastedRow(pasted, headings) {
    const { line } = pasted;
    const { texts, number } = cellsOf(pasted, headings);
    const kind = pastedKind(line, headings.columns.includes('kind') ? texts.get('kind') ?? '' : undefined);
    const parameter = number('parameter');
    let [page, total] = [number('page'), number('total')];
    if (parameter !== undefined) {
        if ((page ?? parameter >> 4) !== parameter >> 4 || (total ?? parameter & 15) !== (parameter & 15)) {
            throw new PasteWrong(line, `parameter ${hexNumber(parameter, 2)} is not the page and the total beside it.`);
        }
        [page, total] = [parameter >> 4, parameter & 15];
    }
    if (kind === PAGE_KIND && page === undefined && total === undefined) [page, total] = [1, 1];
    /** @param {string} name @param {number | undefined} value @param {(value: number) => string} shown */
    const field = (name, value, shown) => {
        if (kind === PAGE_KIND && value === undefined) throw new PasteWrong(line, `${name} is missing.`);
        return kind !== PAGE_KIND && !value ? '' : shown(value ?? 0);
    };
    const slot = number('slot');
    if (slot === undefined && headings.columns.includes('slot')) throw new PasteWrong(line, 'the slot is missing.');
    return {
        line,
        slot,
        row: {
            kind,
            serial: field('the serial number', number('serial'), (value) => hexNumber(value, 4)),
            identifier: field('the identifier', number('identifier'), (value) => hexNumber(value, 4)),
            page: field('the page', page, String),
            total: field('the total', total, String),
        },
    };
}

/**
 * Reads a paste; what is wrong with it is thrown as PasteWrong.
 * @param {string} text @returns {{ rows: PastedRow[], passed: string[] }} passed: the headings of columns passed over
 */
export function rowsOfPaste(text) {
    const lines = pastedLines(text);
    const headings = takeHeadings(lines);
    if (lines.length === 0) throw new PasteWrong(1, 'there are no rows.');
    return { rows: lines.map((line) => pastedRow(line, headings)), passed: headings.passed };
}
