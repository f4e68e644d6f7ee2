// What the page and the worker of the part Log have in common: how a text stands in a line, and how often a collector is kept.

/** Pages of a log between two copies of its collector, from which a message is put together again. */
export const COLLECTOR_EVERY = 1024;

/** @type {Map<string, string>} */
const LINE_LETTERS = new Map([['\n', '\\n'], ['\r', '\\r'], ['\f', '\\f'], ['\\', '\\\\']]);

/**
 * What would end a line or a page, and the backslash itself, as two characters, as cbtext has it.
 * @param {Uint16Array} points @returns {string}
 */
export function inOneLine(points) {
    const text = String.fromCharCode.apply(null, /** @type {any} */ (points));
    return /[\n\r\f\\]/.test(text) ? text.replace(/[\n\r\f\\]/g, (character) => LINE_LETTERS.get(character) ?? '') : text;
}

/** @param {number} parameter of a page @returns {string} its halves, as 2/3 */
export function pageOfTotal(parameter) {
    return `${parameter >> 4}/${parameter & 0xF}`;
}
