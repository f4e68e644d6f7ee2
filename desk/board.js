// The part Board: which slots a board reads, and what it holds in the end, by cb_decide and cb_enter slot after slot.
import { CB } from './words.js';
import { counted, elementOf, make } from './elements.js';
import { refusal } from './files.js';
import { PAGE_KIND, planEntry } from './planfile.js';
import { checkRow, followChosen, planFault, plannedWords, toldWords } from './check.js';

/** @typedef {import('./state.js').Desk} Desk */
/** @typedef {import('./state.js').State} State */
/** @typedef {import('./check.js').Chosen} Chosen */
/** @typedef {import('./check.js').Told} Told */
/** @typedef {{ known: boolean, message: Uint8Array, received: number, words: string }} Obeyed */
/**
 * @typedef Step what happens in a slot
 * @property {string} planned
 * @property {string} told
 * @property {string} short the same in few letters
 * @property {boolean} past neither planned nor told
 * @property {boolean} read
 * @property {boolean} lost
 * @property {string} outcome
 * @property {number[]} held the slots whose pages are held after it
 */

/** The message where none is known: calls don't look at it, and take no null. */
const BOARD_NONE = new Uint8Array(CB.OUTPUT);

/** @param {bigint} held @returns {number[]} the slots whose bits are set */
function heldSlots(held) {
    const slots = [];
    for (let slot = 1; slot <= CB.SLOTS; slot++) if (held >> BigInt(slot - 1) & 1n) slots.push(slot);
    return slots;
}

/**
 * Numbers as typed, with spaces or commas between them.
 * @param {string} typed @param {RegExp} form of one @param {number} base @param {string} what one has to be
 * @returns {number[] | string} or what is wrong
 */
function typedNumbers(typed, form, base, what) {
    const words = typed.split(/[\s,;]+/).filter((word) => word !== '');
    const wrong = words.find((word) => !form.test(word));
    return wrong === undefined ? words.map((word) => parseInt(word, base)) : `“${wrong}” is not ${what}.`;
}

/** @param {number} code @returns {string} as there is room for in a slot of the strip */
function shortTold(code) {
    if (code >= CB.FIRST) return toldWords(code).slice(-4);
    if (code === CB.ADVISED) return 'adv.';
    return code === CB.OPTIONAL ? 'opt.' : `rep. ${code}`;
}

/** @param {number[]} slots in order @returns {string} with a dash in the place of those between */
function slotsWords(slots) {
    return slots.map((slot, place) => {
        if (slots[place - 1] === slot - 1 && slots[place + 1] === slot + 1) return '';
        return slots[place - 2] === slot - 2 ? `–${slot}` : `, ${slot}`;
    }).join('').slice(2);
}

/**
 * The rows of the table. Slots that are neither planned nor told, one after the other and all alike, have one row.
 * @param {Step[]} steps @returns {HTMLElement[]}
 */
function boardRows(steps) {
    const rows = [];
    for (let place = 0; place < steps.length; place++) {
        const first = place;
        const step = steps[place];
        while (step.past && place + 1 < steps.length && JSON.stringify(steps[place + 1]) === JSON.stringify(step)) place += 1;
        rows.push(checkRow(first === place ? String(first + 1) : `${first + 1}–${place + 1}`, [
            ['Planned', step.planned], ['Told as', step.told], ['Board', step.read ? 'reads' : 'skips'],
            ['Outcome', step.outcome === 'lost' ? '✗ lost' : step.outcome], ['Holds then', slotsWords(step.held)],
        ]));
    }
    return rows;
}

/** @param {Step[]} steps @param {number} end the last slot that a schedule tells of, 0 if there is none @returns {string} */
function summaryWords(steps, end) {
    const period = end > 0 ? steps.slice(0, end) : steps;
    const reads = period.filter(({ read }) => read).length;
    const lost = period.filter(({ read, lost: loses }) => read && loses).length;
    const { held } = steps[steps.length - 1];
    const readsOn = end > 0 && end < steps.length && steps.slice(end).every(({ read }) => read);
    const pages = held.length > 1 ? 'the pages of slots' : 'the page of slot';
    return `The board reads ${reads} of ${counted(period.length, 'slot')} and skips ${period.length - reads}` +
        `${lost > 0 ? `; of those that it reads ${lost} ${lost === 1 ? 'is' : 'are'} lost` : ''}. ` +
        `${readsOn ? `Past End, which is ${end}, it reads every slot. ` : ''}` +
        (held.length > 0 ? `It holds in the end ${pages} ${slotsWords(held)}.` : 'It holds no page in the end.');
}

/** @param {HTMLButtonElement} button @param {number} slot @param {Step} step @param {number} most pages held in the end */
function showStep(button, slot, { told, short, past, read, lost, outcome, held }, most) {
    const got = outcome.startsWith('got');
    button.setAttribute('aria-pressed', String(lost));
    button.setAttribute('aria-label', `Slot ${slot}: ${told}; ${read ? `read, ${outcome}` : 'skipped'}; holds ${held.length}`);
    button.className = past ? 'board-past' : got ? 'board-got' : read ? 'board-read' : 'board-skip';
    const bar = make('span', 'board-bar');
    bar.style.width = `${100 * held.length / most}%`;
    const does = make('span', '', read ? 'read' : 'skip');
    const radio = make('span', lost ? 'board-lost' : '', lost ? '✗ lost' : got ? '✓ got' : '');
    const more = [make('span', 'octets', short), does, radio, make('span', '', `${held.length} held`)];
    button.replaceChildren(make('b', '', String(slot)), ...(past ? [does, radio] : more), bar);
}

class BoardPart {
    /** @param {Desk} desk */
    constructor(desk) {
        this.desk = desk;
        /** The last list of each that was good. */
        this.wanted = new Uint16Array(0);
        /** @type {number[]} */
        this.lost = [];
        /** @type {Chosen | null} */
        this.chosen = null;
        this.obeys = elementOf('board-obeys', HTMLSelectElement);
        this.wantedField = elementOf('board-wanted', HTMLInputElement);
        this.lostField = elementOf('board-lost', HTMLInputElement);
        this.strip = elementOf('board-strip', HTMLElement);
        this.buttons = Array.from({ length: CB.SLOTS }, (_, place) => this.button(place));
    }

    start() {
        const { desk } = this;
        this.strip.append(...this.buttons);
        this.strip.addEventListener('keydown', (event) => this.move(event));
        this.wantedField.addEventListener('input', () => desk.change({ wanted: this.wantedField.value }));
        this.lostField.addEventListener('input', () => desk.change({ lost: this.lostField.value }));
        this.obeys.addEventListener('change', () => this.show());
        elementOf('board-hear', HTMLElement).addEventListener('click', () => desk.change({ lost: '' }));
        followChosen((chosen) => {
            this.chosen = chosen;
            this.show();
        });
        desk.listen((state) => {
            this.take(state);
            this.show();
        }, 'board');
    }

    /** @param {number} place @returns {HTMLButtonElement} */
    button(place) {
        const made = document.createElement('button');
        made.type = 'button';
        made.tabIndex = place === 0 ? 0 : -1;
        made.addEventListener('click', () => {
            const slot = place + 1;
            const lost = this.lost.includes(slot) ? this.lost.filter((other) => other !== slot) : [...this.lost, slot];
            this.desk.change({ lost: lost.sort((a, b) => a - b).join(',') });
        });
        made.addEventListener('focus', () => {
            for (const button of this.buttons) button.tabIndex = button === made ? 0 : -1;
        });
        return made;
    }

    /**
     * Goes from slot to slot by keys.
     * @param {KeyboardEvent} event
     */
    move(event) {
        const at = this.buttons.findIndex((button) => button === document.activeElement);
        const line = this.buttons.filter((button) => button.offsetTop === this.buttons[0].offsetTop).length;
        const steps = { ArrowLeft: -1, ArrowRight: 1, ArrowUp: -line, ArrowDown: line, Home: -at, End: CB.SLOTS - 1 - at };
        const step = new Map(Object.entries(steps)).get(event.key);
        if (step === undefined || event.altKey || event.ctrlKey || event.metaKey) return;
        event.preventDefault();
        this.buttons[at + step]?.focus();
    }

    /**
     * By what cb_decide refuses a slot or a list of identifiers.
     * @param {number} slot @param {number[]} wanted @returns {number}
     */
    refusedBy(slot, wanted) {
        return this.desk.calls.decide(false, BOARD_NONE, 0, slot, Uint16Array.from(wanted), 0n).number;
    }

    /**
     * Takes identifiers as typed; where they are wrong, the last good ones stay.
     * @param {string} typed @returns {string} what is wrong
     */
    takeWanted(typed) {
        const wanted = typedNumbers(typed, /^[0-9a-f]{1,4}$/i, 16, 'an identifier of one to four hex digits');
        if (typeof wanted === 'string') return wanted;
        const number = this.refusedBy(1, wanted);
        if (number === 0) this.wanted = Uint16Array.from(wanted);
        return number === 0 ? '' : refusal(number);
    }

    /**
     * Takes slots as typed; where they are wrong, the last good ones stay.
     * @param {string} typed @returns {string} what is wrong
     */
    takeLost(typed) {
        const lost = typedNumbers(typed, /^\d{1,9}$/, 10, 'a slot in decimal');
        if (typeof lost === 'string') return lost;
        const bad = lost.find((slot) => this.refusedBy(slot, []) !== 0);
        if (bad === undefined) this.lost = lost;
        return bad === undefined ? '' : refusal(this.refusedBy(bad, []), `slot ${bad}`);
    }

    /** @param {State} state */
    take({ wanted, lost }) {
        const faults = [];
        for (const [field, typed, fault] of /** @type {[HTMLInputElement, string, string][]} */ ([
            [this.wantedField, wanted, this.takeWanted(wanted)], [this.lostField, lost, this.takeLost(lost)],
        ])) {
            if (field.value !== typed) field.value = typed;
            field.setAttribute('aria-invalid', String(fault !== ''));
            if (fault !== '') faults.push(fault);
        }
        elementOf('board-said', HTMLElement).textContent = faults.join(' ');
    }

    /**
     * The schedule that the board obeys.
     * @returns {Obeyed}
     */
    obeyed() {
        const { value } = this.obeys;
        const written = this.desk.written();
        const none = { known: false, message: BOARD_NONE, received: 0 };
        if (value === 'none') return { ...none, words: 'The board knows no schedule.' };
        if (value === 'chosen') {
            if (this.chosen === null) return { ...none, words: 'No message is chosen in Check: the board knows no schedule.' };
            return { ...this.chosen, known: true, words: `The board obeys ${this.chosen.name}.` };
        }
        if (written.number === 0) return { known: true, message: written.message, received: CB.OUTPUT, words: '' };
        const why = planFault(this.desk) || refusal(written.number);
        return { ...none, words: `No schedule is written from the plans: the board knows none. ${why}` };
    }

    /**
     * What the board does in the slots of a period.
     * @param {Obeyed} obeyed @param {Told} told @returns {Step[]}
     */
    period({ known, message, received }, told) {
        const { calls, state } = this.desk;
        const { number, count } = calls.readPlan(state.current);
        const steps = [];
        for (let slot = 1, held = 0n; slot <= CB.SLOTS; slot++) {
            const planned = number === 0 && slot <= count;
            const lost = this.lost.includes(slot);
            const read = calls.decide(known, message, received, slot, this.wanted, held).count === CB.READ;
            const before = held;
            let outcome = read ? 'no page sent' : '';
            if (read && lost) {
                outcome = 'lost';
            } else if (read && planned && planEntry(state.current, slot).kind === PAGE_KIND) {
                held = calls.enter(known, message, received, slot, held);
                const entered = heldSlots(held & ~before);
                outcome = entered.length === 0 ? 'got, held already' : `got, held as slot ${entered}`;
                if (entered[0] === slot) outcome = 'got';
            }
            const { code } = told.slots[slot - 1];
            steps.push({
                planned: planned ? plannedWords(state.current, slot) : 'nothing',
                told: slot <= told.end ? toldWords(code) : known && told.number === 0 ? 'past End' : 'not told',
                short: slot <= told.end ? shortTold(code) : '–',
                past: !planned && slot > told.end,
                read, lost, outcome, held: heldSlots(held),
            });
        }
        return steps;
    }

    show() {
        const obeyed = this.obeyed();
        const told = this.desk.calls.slots(obeyed.message, obeyed.received);
        const steps = this.period(obeyed, told);
        const refused = obeyed.known && told.number !== 0 ? ` ${refusal(told.number)} So it tells the board nothing.` : '';
        elementOf('board-schedule', HTMLElement).textContent = obeyed.words + refused;
        elementOf('board-summary', HTMLElement).textContent = summaryWords(steps, told.end);
        const most = Math.max(1, steps[CB.SLOTS - 1].held.length);
        steps.forEach((step, place) => showStep(this.buttons[place], place + 1, step, most));
        elementOf('board-rows', HTMLElement).replaceChildren(...boardRows(steps));
    }
}

/** @param {Desk} desk */
export function startBoard(desk) {
    new BoardPart(desk).start();
}
