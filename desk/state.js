// What the parts share: the plans and what is typed, kept in the page's address, and who listens to it.
import { Calls } from './calls.js';
import { NO_SLOTS } from './planfile.js';

/**
 * @typedef State
 * @property {Uint8Array} current the octets of the current plan's file, as the rows lay them out; cb_read_plan may refuse them
 * @property {Uint8Array} previous
 * @property {string} rows rows that can't be laid out, as typed; the plan part's own
 * @property {number} begin
 * @property {string} wanted as typed
 * @property {string} lost slots lost, as typed or clicked: '3,7'
 * @property {string} text as typed, and so all that follow
 * @property {string} serial
 * @property {string} identifier
 * @property {string} scheme
 * @property {string} pageNumber
 * @property {string} pageTotal
 */
/** @typedef {{ number: number, count: number, message: Uint8Array }} Written */
/** @typedef {(state: State) => void} Listener */

/** Changes are written to the address this much later, in milliseconds, and not each by itself. */
const ADDRESS_LATER = 300;

/** @returns {State} */
function emptyState() {
    return {
        current: NO_SLOTS, previous: NO_SLOTS, rows: '', begin: 1, wanted: '', lost: '',
        text: '', serial: '', identifier: '', scheme: '', pageNumber: '', pageTotal: '',
    };
}

/** @param {Uint8Array} octets @returns {string} base64 for addresses */
function toBase64Url(octets) {
    return btoa(String.fromCharCode(...octets)).replaceAll('+', '-').replaceAll('/', '_').replace(/=+$/, '');
}

/** @param {string} text @returns {Uint8Array} */
function fromBase64Url(text) {
    return Uint8Array.from(atob(text.replaceAll('-', '+').replaceAll('_', '/')), (letter) => letter.charCodeAt(0));
}

/** @param {State} state @param {string} part @returns {string} what stands in the address behind # */
function toAddress(state, part) {
    const items = new URLSearchParams({ part });
    const empty = new Map(Object.entries(emptyState()));
    for (const [name, value] of Object.entries(state)) {
        const text = value instanceof Uint8Array ? toBase64Url(value) : String(value);
        const none = empty.get(name);
        if (text !== (none instanceof Uint8Array ? toBase64Url(none) : String(none))) items.set(name, text);
    }
    return items.toString();
}

/**
 * Reads an address; what isn't there, or can't be read, is as in an empty state.
 * @param {string} address @returns {{ part: string, state: State, unread: string[] }}
 */
function fromAddress(address) {
    const items = new URLSearchParams(address.replace(/^#/, ''));
    const unread = [];
    /** @type {Record<string, unknown>} */
    const state = { ...emptyState() };
    for (const [name, none] of Object.entries(emptyState())) {
        const text = items.get(name);
        if (text === null) continue;
        try {
            if (none instanceof Uint8Array) state[name] = fromBase64Url(text);
            else state[name] = typeof none === 'number' ? wholeNumber(text) : text;
        } catch {
            unread.push(name);
        }
    }
    return { part: items.get('part') ?? '', state: /** @type {State} */ (state), unread };
}

/** @param {string} text @returns {number} 0, which no call takes for a slot, where it isn't a number of up to nine digits */
export function wholeNumber(text) {
    return /^\s*\d{1,9}\s*$/.test(text) ? Number(text) : 0;
}

export class Desk {
    /** @param {Calls} calls @param {HTMLElement} status @param {(part: string) => void} show */
    constructor(calls, status, show) {
        this.calls = calls;
        this.status = status;
        /** Shows a part. */
        this.show = show;
        this.state = emptyState();
        /** The part that is shown. */
        this.part = '';
        /**
         * Names of what isn't saved; closing the page asks while there is one.
         * @type {Set<string>}
         */
        this.unsaved = new Set();
        /** @type {{ listener: Listener, part: string, late: boolean }[]} */
        this.listeners = [];
        /** @type {Written | undefined} */
        this.remembered = undefined;
        /** The address that isn't written yet waits for this. */
        this.timer = 0;
    }

    /**
     * Sets what is named, and tells the listeners.
     * @param {Partial<State>} part
     */
    change(part) {
        Object.assign(this.state, part);
        if ('current' in part || 'previous' in part || 'begin' in part) this.remembered = undefined;
        this.addressChanged();
        for (const entry of this.listeners) this.tell(entry);
    }

    /**
     * Calls a listener now and after each change. With a part named, only while that part is shown, and when it is shown again.
     * @param {Listener} listener @param {string} [part]
     */
    listen(listener, part = '') {
        const entry = { listener, part, late: false };
        this.listeners.push(entry);
        this.tell(entry);
    }

    /** @param {{ listener: Listener, part: string, late: boolean }} entry */
    tell(entry) {
        entry.late = entry.part !== '' && entry.part !== this.part;
        if (entry.late) return;
        try {
            entry.listener(this.state);
        } catch (error) {
            console.error(error);
            this.say(`Something went wrong in the desk itself: ${error}`);
        }
    }

    /**
     * The part that is shown is another one.
     * @param {string} part
     */
    partChanged(part) {
        this.part = part;
        this.addressChanged();
        for (const entry of this.listeners) if (entry.late) this.tell(entry);
    }

    /**
     * Says a sentence in the status line.
     * @param {string} sentence
     */
    say(sentence) {
        if (this.status.textContent !== sentence) this.status.textContent = sentence;
    }

    /**
     * cb_write_schedule of the state, remembered until the state changes.
     * @returns {Written}
     */
    written() {
        const { current, previous, begin } = this.state;
        this.remembered ??= this.calls.writeSchedule(current, previous, begin);
        return this.remembered;
    }

    /**
     * Takes the state from an address.
     * @param {string} address @returns {string} the part that it names
     */
    restore(address) {
        const { part, state, unread } = fromAddress(address);
        this.change(state);
        if (unread.length > 0) this.say(`The address is damaged; left out: ${unread.join(', ')}.`);
        return part;
    }

    /** Has the address written, a moment later. */
    addressChanged() {
        this.timer ||= window.setTimeout(() => this.writeAddress(), ADDRESS_LATER);
    }

    writeAddress() {
        clearTimeout(this.timer);
        this.timer = 0;
        history.replaceState(null, '', `#${toAddress(this.state, this.part)}`);
    }
}
