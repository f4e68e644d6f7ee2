// The part Text: a typed text judged character by character, written as a page, and shown as a board reads it back.
import { CB } from './words.js';
import { hex, hexNumber, refusal, saveFile } from './files.js';
import { anElement, counted, elementOf, grouped, make } from './elements.js';

/** @typedef {import('./state.js').Desk} Desk */
/** @typedef {import('./state.js').State} State */
/** @typedef {import('./calls.js').Calls} Calls */
/** @typedef {{ serial: number, identifier: number, scheme: number, parameter: number }} Header */
/** @typedef {{ character: string, at: number, place: number }} Bad at: in UTF-16 units; place: in characters, from 1 */
/**
 * @typedef Judged
 * @property {number} number that refuses the text, or 0
 * @property {Uint8Array} page the text on the trial's page, where the number is 0
 * @property {string[]} characters
 * @property {Bad[]} bad those that can't be written
 * @property {number} fit how many from the start on fit a page, where the bad ones take nothing
 * @property {number} room how many plain ones fit behind them
 */

/**
 * A text is judged by itself on a page that nothing else is wrong with: page 1 of 1, and 0 in the rest.
 * @type {Header}
 */
const TEXT_TRIAL = Object.freeze({ serial: 0, identifier: 0, scheme: 0, parameter: 0x11 });
/** As many of these as a page has septets are accepted, so each takes one: with them the room left is measured. */
const TEXT_PLAIN = 'A';
/** The most UTF-16 units that are taken of a text: it has to be laid out, and to stand in the address. */
const TEXT_MOST = 1000;
/** The most characters that can't be written that are listed one by one. */
const TEXT_LISTED = 30;
/** Characters that a textarea doesn't keep or doesn't show, and the signs that stand for them there, which no page can hold. */
const TEXT_SIGNS = [['\r', '↵'], ['\f', '↡']];
/** What is shown for characters that have no shape. */
const TEXT_NAMES = new Map([['\n', 'LF'], ['\r', 'CR'], ['\f', 'FF']]);
const FOUR_DIGITS = 'One to four hex digits are needed.';

/** @param {string} text @returns {Uint16Array} its UTF-16 units */
function unitsOf(text) {
    const units = new Uint16Array(text.length);
    for (let at = 0; at < units.length; at++) units[at] = text.charCodeAt(at);
    return units;
}

/** @param {Calls} calls @param {string} text @param {Partial<Header>} [header] what differs from the trial's */
function writePage(calls, text, header) {
    const { serial, identifier, scheme, parameter } = { ...TEXT_TRIAL, ...header };
    return calls.writeText(serial, identifier, scheme, parameter, unitsOf(text));
}

/**
 * Whether a character can be written, each asked once.
 * @type {Map<string, boolean>}
 */
const textWritable = new Map();

/**
 * A character alone is refused by 11, or it isn't: CR alone is refused by 12.
 * @param {Calls} calls @param {string} character
 */
function isWritable(calls, character) {
    let known = textWritable.get(character);
    if (known === undefined) {
        known = writePage(calls, character).number !== CB.NOT_IN_ALPHABET;
        textWritable.set(character, known);
    }
    return known;
}

/** The largest number up to a most that is accepted, where 0 is, and with each one all below it. */
function largest(/** @type {number} */ most, /** @type {(n: number) => boolean} */ accepted) {
    let low = 0;
    for (let high = most; low < high;) {
        const middle = Math.ceil((low + high) / 2);
        if (accepted(middle)) low = middle;
        else high = middle - 1;
    }
    return low;
}

/**
 * Judges a text. How many septets a character takes isn't known here: what fits is the longest beginning that isn't refused by
 * 10, and the room left is the most plain characters behind the text that aren't. What can't be written is left out of both,
 * because its refusal, 11, comes before 10. That of a CR at the end, 12, comes after it.
 * @param {Calls} calls @param {string} text @returns {Judged}
 */
function judgeText(calls, text) {
    const characters = [...text];
    /** @type {Bad[]} */
    const bad = [];
    /** @type {number[]} */
    const good = [];
    let at = 0;
    for (const [before, character] of characters.entries()) {
        if (isWritable(calls, character)) good.push(before);
        else bad.push({ character, at, place: before + 1 });
        at += character.length;
    }
    const beginning = (/** @type {number} */ n) => good.slice(0, n).map((before) => characters[before]).join('');
    const fits = (/** @type {string} */ tried) => writePage(calls, tried).number !== CB.TEXT_LENGTH;
    const most = largest(good.length, (n) => fits(beginning(n)));
    const fit = most < good.length ? good[most] : characters.length;
    const room = largest(CB.TEXT, (n) => fits(beginning(most) + TEXT_PLAIN.repeat(n)));
    const { number, page } = writePage(calls, text);
    return { number, page, characters, bad, fit, room };
}

/** @param {Judged} judged @returns {string} */
function roomWords({ characters, bad, fit, room }) {
    const without = bad.length > 0 ? ', without what is marked' : '';
    const over = characters.length - fit;
    if (over > 0) return `The first ${fit} characters fit${without}; ${over} more ${over === 1 ? 'is' : 'are'} over.`;
    if (room === 0) return `The page is full${without}.`;
    return `Room for ${counted(room, 'more plain character')}${without}.`;
}

/** @param {string} character @returns {string} U+ and its code point */
function codePointName(character) {
    return `U+${hexNumber(/** @type {number} */ (character.codePointAt(0)), 4)}`;
}

/**
 * What can be seen of a character: itself, or the name of its code point.
 * @param {string} character
 */
function visible(character) {
    return /[\p{C}\p{Z}\p{M}]/u.test(character) ? codePointName(character) : character;
}

/**
 * The text with what can't be written marked, and apart from it what is over.
 * @param {Judged} judged
 */
function markedText({ characters, bad, fit }) {
    const places = new Set(bad.map(({ place }) => place));
    const parts = [make('span', ''), make('span', 'text-over')];
    for (const [before, character] of characters.entries()) {
        const name = TEXT_NAMES.get(character);
        const shown = places.has(before + 1) ? make('mark', '', visible(character))
            : name ? make('small', '', name) : character;
        parts[before < fit ? 0 : 1].append(shown, character === '\n' ? '\n' : '');
    }
    return parts;
}

/** @param {string} typed @param {number} digits @returns {number} NaN where it isn't hex digits, so many at most */
function hexTyped(typed, digits) {
    const found = /^\s*([0-9A-Fa-f]+)\s*$/.exec(typed);
    return found && found[1].length <= digits ? parseInt(found[1], 16) : NaN;
}

/** @param {string} typed @returns {number} NaN where it isn't a number that half an octet holds */
function halfTyped(typed) {
    return /^\s*\d{1,2}\s*$/.test(typed) && Number(typed) <= 0xF ? Number(typed) : NaN;
}

/**
 * Says something under fields, or nothing.
 * @param {string} id @param {string} sentence @param {boolean} [empty] not typed yet
 */
function sayAtField(id, sentence, empty = false) {
    const said = anElement(`text-${id}-said`);
    said.textContent = sentence;
    said.className = empty ? 'note' : 'wrong';
    for (const field of document.querySelectorAll(`#text [aria-describedby=text-${id}-said]`)) {
        field.setAttribute('aria-invalid', String(sentence !== '' && !empty));
    }
}

/**
 * Says at a field what is needed, where the number typed there isn't one, or why a page with it is refused.
 * @param {Calls} calls @param {string} id @param {string} needed @param {{ scheme: number } | { parameter: number }} typed
 * @returns {boolean} whether neither is so
 */
function tryField(calls, id, needed, typed) {
    const lacks = Object.values(typed).some(isNaN);
    const number = lacks ? 0 : writePage(calls, '', typed).number;
    sayAtField(id, lacks ? needed : number === 0 ? '' : refusal(number));
    return !lacks && number === 0;
}

/**
 * The header that is typed, or none where something of it is refused. Scheme and page are tried each by itself, on an empty
 * text, so that no refusal hides another.
 * @param {Calls} calls @param {State} state @returns {Header | undefined}
 */
function headerTyped(calls, state) {
    const serial = hexTyped(state.serial, 4);
    const identifier = hexTyped(state.identifier, 4);
    const scheme = hexTyped(state.scheme.trim() || '00', 2);
    const parameter = halfTyped(state.pageNumber.trim() || '1') * 16 + halfTyped(state.pageTotal.trim() || '1');
    sayAtField('serial', isNaN(serial) ? FOUR_DIGITS : '', state.serial === '');
    sayAtField('identifier', isNaN(identifier) ? FOUR_DIGITS : '', state.identifier === '');
    const schemeTaken = tryField(calls, 'scheme', 'One or two hex digits are needed.', { scheme });
    const pageTaken = tryField(calls, 'page', 'Two numbers are needed that each fit half an octet: 15 at most.', { parameter });
    return !isNaN(serial + identifier) && schemeTaken && pageTaken ? { serial, identifier, scheme, parameter } : undefined;
}

class TextPart {
    /** @param {Desk} desk */
    constructor(desk) {
        this.desk = desk;
        this.typed = elementOf('text-typed', HTMLTextAreaElement);
        /** The text that the state had last: where it has another now, it is shown. */
        this.known = '';
        this.cells = Array.from({ length: CB.TEXT }, () => make('span', ''));
        /** @type {{ page: Uint8Array, blocks: Uint8Array, name: string } | undefined} */
        this.made = undefined;
        anElement('text-panel').append(...this.cells);
        elementOf('text-meter', HTMLMeterElement).max = CB.TEXT;
        this.#startFields();
        this.#startButtons();
        desk.listen((state) => this.#show(state), 'text');
    }

    #startFields() {
        this.typed.maxLength = TEXT_MOST;
        this.typed.addEventListener('beforeinput', ({ data, dataTransfer }) => {
            const { value, selectionStart, selectionEnd } = this.typed;
            const given = data ?? dataTransfer?.getData('text/plain') ?? '';
            this.#sayCut(value.length - (selectionEnd - selectionStart) + given.length);
        });
        this.typed.addEventListener('input', () => this.#textTyped());
        /**
         * The fields by their names in the state.
         * @type {Map<keyof State, HTMLInputElement>}
         */
        this.fields = new Map();
        for (const name of /** @type {const} */ (['serial', 'identifier', 'scheme', 'pageNumber', 'pageTotal'])) {
            const field = elementOf(`text-${name}`, HTMLInputElement);
            field.addEventListener('input', () => this.desk.change({ [name]: field.value }));
            this.fields.set(name, field);
        }
    }

    #startButtons() {
        for (const [character, sign] of TEXT_SIGNS) {
            anElement(character === '\r' ? 'text-return' : 'text-feed').addEventListener('click', () => {
                this.typed.setRangeText(sign, this.typed.selectionStart, this.typed.selectionEnd, 'end');
                this.typed.focus();
                this.#textTyped();
            });
        }
        for (const kind of /** @type {const} */ (['page', 'blocks'])) {
            anElement(`text-save-${kind}`).addEventListener('click', () => {
                if (!this.made) return;
                saveFile(`${this.made.name}.${kind}`, this.made[kind]);
                this.desk.say(`${this.made.name}.${kind} is saved, ${this.made[kind].length} octets.`);
            });
        }
    }

    /** @param {number} length that the text would have */
    #sayCut(length) {
        anElement('text-cut').textContent = length <= TEXT_MOST ? '' :
            `The text is far too long, and only its beginning is taken; a page holds ${CB.TEXT} characters at most.`;
    }

    /** @returns {string} the text that stands in the textarea */
    #text() {
        return TEXT_SIGNS.reduce((text, [character, sign]) => text.replaceAll(sign, character), this.typed.value);
    }

    #textTyped() {
        const text = this.#text();
        this.known = text;
        this.desk.change({ text });
    }

    /** @param {State} state */
    #show(state) {
        if (state.text !== this.known) {
            const shown = TEXT_SIGNS.reduce((text, [character, sign]) => text.replaceAll(character, sign), state.text);
            this.typed.value = shown.slice(0, TEXT_MOST);
            this.#sayCut(shown.length);
        }
        this.known = state.text;
        for (const [name, field] of this.fields ?? []) if (field.value !== state[name]) field.value = String(state[name]);
        const text = this.#text();
        const judged = judgeText(this.desk.calls, text);
        const header = headerTyped(this.desk.calls, state);
        const written = header && judged.number === 0 ? writePage(this.desk.calls, text, header) : undefined;
        this.#showJudged(judged);
        this.#showBad(judged);
        anElement('text-shown').hidden = judged.number !== 0;
        if (judged.number === 0) this.#showPanel(written?.page ?? judged.page);
        this.#showMade(written);
        anElement('text-lacking').hidden = judged.number !== 0 || header !== undefined;
    }

    /** @param {Judged} judged */
    #showJudged(judged) {
        const { number, room } = judged;
        elementOf('text-meter', HTMLMeterElement).value = CB.TEXT - room;
        anElement('text-room').textContent = roomWords(judged);
        anElement('text-refused').textContent = number === 0 ? '' : refusal(number);
        this.typed.setAttribute('aria-invalid', String(number !== 0));
    }

    /**
     * The text with its marks, and the list of what can't be written, by which each is found in the textarea.
     * @param {Judged} judged
     */
    #showBad(judged) {
        const { characters, bad, fit } = judged;
        anElement('text-bad').hidden = bad.length === 0 && fit === characters.length;
        anElement('text-layer').replaceChildren(...markedText(judged));
        const items = bad.slice(0, TEXT_LISTED).map(({ character, at, place }) => {
            const button = make('button', '', make('mark', '', visible(character)), ` ${codePointName(character)} at ${place}`);
            button.setAttribute('type', 'button');
            button.addEventListener('click', () => {
                this.typed.focus();
                this.typed.setSelectionRange(at, at + character.length);
            });
            return make('li', '', button);
        });
        if (bad.length > TEXT_LISTED) items.push(make('li', '', `and ${grouped(bad.length - TEXT_LISTED)} more`));
        anElement('text-list').replaceChildren(...items);
    }

    /**
     * All places of the panel, as cb_read_text gives them of all octets of a page.
     * @param {Uint8Array} page
     */
    #showPanel(page) {
        const { count, text } = this.desk.calls.readText(page, CB.OUTPUT);
        for (const [before, cell] of this.cells.entries()) {
            const character = String.fromCharCode(text[before]);
            const name = TEXT_NAMES.get(character);
            cell.textContent = name ?? character;
            cell.className = before >= count ? 'text-blank' : name ? 'text-name' : '';
        }
        const shown = String.fromCharCode(...text.subarray(0, count));
        const words = `${counted(count, 'character')}, then ${counted(CB.TEXT - count, 'blank cell')}`;
        anElement('text-panel').setAttribute('aria-label', `${words}: ${shown}`);
        anElement('text-count').textContent = `${words}.`;
    }

    /**
     * The page with its octets, header and blocks, where one is written.
     * @param {{ count: number, page: Uint8Array } | undefined} written
     */
    #showMade(written) {
        this.made = undefined;
        anElement('text-made').hidden = written === undefined;
        if (!written) return;
        const { page, count: used } = written;
        const { calls } = this.desk;
        const { blocks } = calls.writeBlocks(page, false, used);
        const { serial, identifier, scheme, parameter } = calls.readHeader(page);
        const [serialHex, identifierHex] = [hexNumber(serial, 4), hexNumber(identifier, 4)];
        const place = `${parameter >> 4} of ${parameter & 0xF}`;
        this.made = { page, blocks, name: `page-${serialHex}-${identifierHex}-${place.replaceAll(' ', '-')}` };
        anElement('text-used').textContent = `The page: ${used} of its ${page.length} octets used`;
        anElement('text-octets').replaceChildren(
            make('span', 'text-head', hex(page.subarray(0, CB.HEADER), ' ')), ' ',
            make('span', 'text-used', hex(page.subarray(CB.HEADER, used), ' ')), ' ',
            make('span', 'text-rest', hex(page.subarray(used), ' ')));
        anElement('text-header').textContent = `Its header is read back as serial number ${serialHex}, message ` +
            `identifier ${identifierHex}, coding scheme ${hexNumber(scheme, 2)}, page ${place}.`;
        anElement('text-blocks').replaceChildren(...Array.from({ length: CB.BLOCKS / CB.PIECE }, (_, block) => {
            const octets = blocks.subarray(CB.PIECE * block, CB.PIECE * (block + 1));
            return make('p', '', make('b', '', hex(octets.subarray(0, 1))), ` ${hex(octets.subarray(1), ' ')}`);
        }));
    }
}

/** @param {Desk} desk */
export function startText(desk) {
    new TextPart(desk);
}
