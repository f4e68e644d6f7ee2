// The rows of a plan as they are typed, and the octets of its file.
import { CB } from './words.js';
import { hexNumber } from './files.js';

/** @typedef {'serial' | 'identifier' | 'page' | 'total'} PlanField */
/** @typedef {{ kind: number, serial: string, identifier: string, page: string, total: string }} PlanRow */
/** @typedef {'current' | 'previous'} PlanName */

/** @type {PlanName[]} */
export const PLANS = ['current', 'previous'];

/** The kind of an entry with a page; 1 is advised, 0 optional. */
export const PAGE_KIND = 2;

/** A plan file of no slots: the mark, the version and the count. */
export const NO_SLOTS = Uint8Array.of(0x43, 0x42, 0x50, 0, 1, 0);

/** Octets before the first slot of a plan file, and of each slot. */
const ENTRY = 6;

/** The kind of a row that can't be laid out. It is no kind, so every call refuses the plan and names the row. */
const UNLAID = 0xFF;

/** @type {{ field: PlanField, name: string, base: number, most: number, what: string }[]} */
export const PLAN_FIELDS = [
    { field: 'serial', name: 'Serial number', base: 16, most: 0xFFFF, what: 'one to four hex digits' },
    { field: 'identifier', name: 'Identifier', base: 16, most: 0xFFFF, what: 'one to four hex digits' },
    { field: 'page', name: 'Page', base: 10, most: 15, what: 'a number from 0 to 15' },
    { field: 'total', name: 'Total', base: 10, most: 15, what: 'a number from 0 to 15' },
];

/** @param {number} kind @param {string} number of the page, and total @returns {PlanRow} */
export function emptyRow(kind, number = '') {
    return { kind, serial: '', identifier: '', page: number, total: number };
}

/** @param {string} text @param {number} base @returns {number} the number that the whole text is, or NaN */
export function numberOf(text, base) {
    const digits = base === 16 ? text.replace(/^0x/i, '') : text;
    return (base === 16 ? /^[0-9a-f]{1,8}$/i : /^\d{1,9}$/).test(digits) ? parseInt(digits, base) : NaN;
}

/** @param {string} text of a field @param {PlanField} name @returns {string} the same number with all its digits */
export function allDigits(text, name) {
    const { base, most } = /** @type {typeof PLAN_FIELDS[0]} */ (PLAN_FIELDS.find(({ field }) => field === name));
    const value = numberOf(text.trim(), base);
    if (!(value <= most)) return text;
    return base === 16 ? hexNumber(value, 4) : String(value);
}

/**
 * Lays a row out; a field that isn't a number is named, with a sentence.
 * @param {PlanRow} row @returns {{ octets: number[], field?: PlanField, sentence: string }}
 */
export function layRow(row) {
    const values = [];
    for (const { field, name, base, most, what } of PLAN_FIELDS) {
        const text = row[field].trim();
        const value = text === '' && row.kind !== PAGE_KIND ? 0 : numberOf(text, base);
        if (!(value <= most)) {
            const sentence = `${name}: ${text === '' ? `missing: ${what}` : `“${text}” is not ${what}`}.`;
            return { octets: [UNLAID, 0, 0, 0, 0, 0], field, sentence };
        }
        values.push(value);
    }
    const [serial, identifier, page, total] = values;
    return {
        octets: [row.kind, serial >> 8, serial & 0xFF, identifier >> 8, identifier & 0xFF, page << 4 | total],
        sentence: '',
    };
}

/** @param {PlanRow[]} rows @returns {Uint8Array} a plan file */
export function planOctets(rows) {
    return Uint8Array.from([...NO_SLOTS.subarray(0, ENTRY - 1), rows.length, ...rows.flatMap((row) => layRow(row).octets)]);
}

/**
 * The entry of a slot, from 1 on, of a plan file.
 * @param {Uint8Array} file @param {number} slot
 * @returns {{ kind: number, serial: number, identifier: number, parameter: number }}
 */
export function planEntry(file, slot) {
    const [kind, a, b, c, d, parameter] = file.subarray(ENTRY * slot, ENTRY * slot + ENTRY);
    return { kind, serial: a * 256 + b, identifier: c * 256 + d, parameter };
}

/** @param {Uint8Array} file that has whole entries @returns {PlanRow[]} */
export function planRows(file) {
    const count = Math.min(CB.SLOTS, Math.max(0, Math.floor(file.length / ENTRY) - 1));
    return Array.from({ length: count }, (_, i) => {
        const { kind, serial, identifier, parameter } = planEntry(file, i + 1);
        /** @param {number} value @param {string} text */
        const shown = (value, text) => (value === 0 && kind !== PAGE_KIND ? '' : text);
        return {
            kind,
            serial: shown(serial, hexNumber(serial, 4)),
            identifier: shown(identifier, hexNumber(identifier, 4)),
            page: shown(parameter >> 4, String(parameter >> 4)),
            total: shown(parameter & 15, String(parameter & 15)),
        };
    });
}

/** @param {Record<PlanName, PlanRow[]>} plans @returns {string} for the address: the rows that can't be laid out, as typed */
export function unlaidRows(plans) {
    const kept = PLANS.flatMap((plan) => plans[plan].map((row, i) => ({ plan, i, row })))
        .filter(({ row }) => layRow(row).sentence !== '').map(({ plan, i, row }) => [plan, i, row]);
    return kept.length === 0 ? '' : JSON.stringify(kept);
}

/**
 * Puts rows that can't be laid out where they were.
 * @param {string} kept @param {Record<PlanName, PlanRow[]>} plans
 */
export function putUnlaid(kept, plans) {
    try {
        for (const [plan, i, { kind, serial, identifier, page, total }] of JSON.parse(kept || '[]')) {
            const rows = plans[/** @type {PlanName} */ (plan)];
            const typed = [serial, identifier, page, total].every((text) => typeof text === 'string');
            if (rows[i].kind === UNLAID && typed && [0, 1, PAGE_KIND].includes(kind)) {
                rows[i] = { kind, serial, identifier, page, total };
            }
        }
    } catch {
        // The address was changed by hand: the rows stay as their octets have them.
    }
}
