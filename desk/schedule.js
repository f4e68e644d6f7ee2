// The part Schedule: the message that cb_write_schedule makes of the plans, octet by octet, its slots in a picture, its blocks.
import { CB } from './words.js';
import { hex, hexNumber, refusal, saveFile } from './files.js';
import { Desk, wholeNumber } from './state.js';
import { anElement, counted, elementOf, make, makeHead } from './elements.js';
import { planFault, plannedWords, toldWords } from './check.js';

/**
 * Octets of the message that say one thing; number is what they are if they say it.
 * @typedef {{ at: number, length: number, number: number, slot: number, words: string }} ScheduleItem
 */
/** @typedef {ReturnType<import('./calls.js').Calls['slots']>} ToldSlots */

const NEW_FROM = 2;          // octets before those of the new bits
const DESCRIBED_FROM = 8;    // octets before the descriptions
const GRID_ROW = 8;
const SLOT_WIDTH = 22;
const SLOT_TOP = 42;         // room for the lines from repeats to their firsts

/** @param {Uint8Array} message @param {ScheduleItem} item @returns {Uint8Array} */
function itemOctets(message, { at, length }) {
    return message.subarray(at, at + length);
}

/**
 * What the octets before the descriptions say.
 * @param {ToldSlots} told @returns {ScheduleItem[]}
 */
function headItems({ begin, end, slots }) {
    const items = [
        { at: 0, length: 1, number: begin, slot: 0, words: `type 0, Begin ${begin}: slot ${begin} comes after this message` },
        { at: 1, length: 1, number: end, slot: 0, words: `End ${end}: ${counted(end, 'slot')}` },
    ];
    for (let at = NEW_FROM; at < DESCRIBED_FROM; at++) {
        const first = 8 * (at - NEW_FROM);
        const bits = slots.slice(first, first + 8).map(({ fresh }) => (fresh ? 1 : 0));
        const fresh = bits.flatMap((bit, i) => (bit === 1 ? [first + i + 1] : []));
        const words = `new of slots ${first + 1} to ${first + 8}: ${fresh.join(', ') || 'none'}`;
        items.push({ at, length: 1, number: parseInt(bits.join(''), 2), slot: 0, words });
    }
    return items;
}

/**
 * What the used octets say, in their order. None where what the calls tell doesn't end at the last used octet, or isn't what
 * the octets are: better nothing said than something wrong.
 * @param {Desk} desk @param {Uint8Array} message @param {number} used @param {ToldSlots} told @returns {ScheduleItem[]}
 */
function scheduleItems({ calls }, message, used, told) {
    const items = headItems(told);
    let at = DESCRIBED_FROM;
    for (let place = 0; place < CB.SLOTS; place++) {
        const { slot, fresh, code } = calls.description(message, message.length, place);
        if (slot === 0) break;
        const length = code >= CB.FIRST ? 2 : 1;
        items.push({ at, length, number: code, slot, words: `slot ${slot}${fresh ? ', new' : ''}: ${toldWords(code)}` });
        at += length;
    }
    const agree = items.every((item) => parseInt(hex(itemOctets(message, item)), 16) === item.number);
    return at === used && agree ? items : [];
}

/** @param {string} tag @param {Record<string, string | number>} attributes @param {(Node | string)[]} inside */
function drawn(tag, attributes, ...inside) {
    const made = document.createElementNS('http://www.w3.org/2000/svg', tag);
    for (const [name, value] of Object.entries(attributes)) made.setAttribute(name, String(value));
    made.append(...inside);
    return made;
}

/** @param {number} code @returns {string} the kind of what is told, of which the picture has the first letter */
function codeKind(code) {
    if (code >= CB.FIRST) return 'first';
    if (code === CB.ADVISED) return 'advised';
    return code === CB.OPTIONAL ? 'optional' : 'repeat';
}

/** @param {number} slot @param {string} label @param {ToldSlots} told @returns {SVGElement} */
function drawnSlot(slot, label, { begin, end, slots }) {
    const { code, fresh } = slots[slot - 1];
    const x = SLOT_WIDTH * (slot - 1);
    const middle = x + SLOT_WIDTH / 2;
    const kind = slot <= end ? codeKind(code) : 'past';
    const parts = [
        drawn('title', {}, label),
        drawn('rect', { x: x + 1.5, y: SLOT_TOP, width: SLOT_WIDTH - 3, height: 22, rx: 2 }),
        drawn('text', { x: middle, y: SLOT_TOP + 15.5, class: 'letter' }, slot <= end ? kind[0].toUpperCase() : ''),
        drawn('text', { x: middle, y: SLOT_TOP + 34 }, String(slot)),
    ];
    if (fresh) parts.push(drawn('circle', { cx: middle, cy: SLOT_TOP + 41, r: 3 }));
    if (slot === begin) parts.push(drawn('path', { d: `M${x} ${SLOT_TOP - 4}V${SLOT_TOP + 26}`, class: 'begin' }));
    return drawn('g', { class: `schedule-${kind}`, role: 'img', 'aria-label': label, tabindex: slot === 1 ? 0 : -1 }, ...parts);
}

/** @param {number} slot @param {number} first @returns {SVGElement} the line from a repeat to its first */
function drawnLine(slot, first) {
    const [from, to] = [slot, first].map((one) => SLOT_WIDTH * (one - 0.5));
    const high = SLOT_TOP - 8 - Math.min(60, 5 * (slot - first));
    return drawn('path', { d: `M${from} ${SLOT_TOP}Q${(from + to) / 2} ${high} ${to} ${SLOT_TOP}`, class: 'line' });
}

/**
 * Arrow keys go from one of the things in a box to the next; one of them can be reached by Tab.
 * @param {Element} box @param {string} things @param {number} row how many are in a row
 */
function goByArrows(box, things, row) {
    box.addEventListener('keydown', (event) => {
        const { key, altKey, ctrlKey, metaKey } = /** @type {KeyboardEvent} */ (event);
        const all = /** @type {(HTMLElement | SVGElement)[]} */ ([...box.querySelectorAll(things)]);
        const at = all.findIndex((thing) => thing === document.activeElement);
        const places = new Map([
            ['ArrowLeft', at - 1], ['ArrowRight', at + 1], ['ArrowUp', at - row], ['ArrowDown', at + row],
            ['Home', 0], ['End', all.length - 1],
        ]);
        const next = all[places.get(key) ?? -1];
        if (at < 0 || next === undefined || altKey || ctrlKey || metaKey) return;
        event.preventDefault();
        all[at].tabIndex = -1;
        next.tabIndex = 0;
        next.focus();
    });
}

class SchedulePart {
    /** @param {Desk} desk */
    constructor(desk) {
        this.desk = desk;
        this.begin = elementOf('schedule-begin', HTMLInputElement);
        this.strip = /** @type {Element} */ (document.querySelector('#schedule-strip'));
        this.saves = ['blocks', 'message'].map((what) => elementOf(`schedule-save-${what}`, HTMLButtonElement));
    }

    start() {
        this.begin.addEventListener('input', () => this.desk.change({ begin: wholeNumber(this.begin.value) }));
        this.saves[0].addEventListener('click', () => this.save('schedule.blocks', this.blocks()));
        this.saves[1].addEventListener('click', () => this.save('schedule.message', this.desk.written().message));
        anElement('schedule-plan').addEventListener('click', () => this.desk.show('plan'));
        goByArrows(this.strip, 'g', 1);
        goByArrows(anElement('schedule-grid'), 'td', GRID_ROW);
        for (const happened of ['mouseover', 'focusin']) {
            anElement('schedule-shown').addEventListener(happened, ({ target }) => this.point(/** @type {Element} */ (target)));
        }
        this.desk.listen(() => this.show(), 'schedule');
    }

    /** @returns {Uint8Array} */
    blocks() {
        const { message, count } = this.desk.written();
        return this.desk.calls.writeBlocks(message, true, count).blocks;
    }

    /** @param {string} name @param {Uint8Array} octets */
    save(name, octets) {
        saveFile(name, octets);
        this.desk.say(`${counted(octets.length, 'octet')} are saved as ${name}.`);
    }

    show() {
        const { state, calls } = this.desk;
        const { number, count, message } = this.desk.written();
        if (document.activeElement !== this.begin) this.begin.value = String(state.begin);
        const good = number === 0;
        const said = number === CB.BEGIN_OR_END ? refusal(number, `Begin ${this.begin.value || 'is empty'}`) : refusal(number);
        anElement('schedule-said').textContent = good ? '' : planFault(this.desk) || said;
        anElement('schedule-plan').hidden = good || number === CB.BEGIN_OR_END;
        anElement('schedule-shown').hidden = !good;
        anElement('schedule-used').textContent = good ? `${count} of ${message.length} octets used` : '';
        for (const button of this.saves) button.disabled = !good;
        if (!good) return;
        const told = calls.slots(message, message.length);
        const items = scheduleItems(this.desk, message, count, told);
        this.showStrip(told, items);
        this.showGrid(message, count, items);
        this.showBlocks();
        this.showItems(message, items);
    }

    /** @param {ToldSlots} told @param {ScheduleItem[]} items */
    showStrip(told, items) {
        const slots = told.slots.map(({ code, fresh }, i) => {
            const words = `${toldWords(code)}${fresh ? ', new' : ''}`;
            const label = i < told.end ? `${words}; planned: ${this.planned(i + 1)}` : 'past End';
            const slot = drawnSlot(i + 1, `Slot ${i + 1}: ${label}.`, told);
            const item = items.findIndex((one) => one.slot === i + 1);
            if (item >= 0) slot.dataset.item = String(item);
            return slot;
        });
        const lines = told.slots.flatMap(({ code }, i) => (
            i < told.end && codeKind(code) === 'repeat' ? [drawnLine(i + 1, code)] : []));
        this.strip.setAttribute('viewBox', `0 0 ${SLOT_WIDTH * CB.SLOTS} ${SLOT_TOP + 48}`);
        this.strip.replaceChildren(...lines, ...slots);
    }

    /** @param {number} slot @returns {string} */
    planned(slot) {
        return plannedWords(this.desk.state.current, slot);
    }

    /** @param {Uint8Array} message @param {number} used @param {ScheduleItem[]} items */
    showGrid(message, used, items) {
        const cells = Array.from(message, (octet, i) => {
            const item = items.findIndex(({ at, length }) => i >= at && i < at + length);
            const cell = make('td', i < used ? 'schedule-used' : 'schedule-rest', hexNumber(octet, 2));
            const words = i < used ? items[item]?.words : 'not used';
            cell.classList.toggle('schedule-even', item >= 0 && item % 2 === 0);
            cell.setAttribute('role', 'gridcell');
            cell.setAttribute('aria-label', `Octet ${i + 1}: ${cell.textContent}${words ? `, ${words}` : ''}.`);
            cell.tabIndex = i === 0 ? 0 : -1;
            if (item >= 0) cell.dataset.item = String(item);
            return cell;
        });
        const rows = [];
        for (let i = 0; i < cells.length; i += GRID_ROW) {
            rows.push(make('tr', '', makeHead('row', 'note', String(i + 1)), ...cells.slice(i, i + GRID_ROW)));
        }
        elementOf('schedule-grid', HTMLTableElement).tBodies[0].replaceChildren(...rows);
        anElement('schedule-told').textContent = 'Point at an octet or a slot, or go there by keys, to see what it says.';
    }

    showBlocks() {
        const blocks = this.blocks();
        const rows = [];
        for (let at = 0; at < blocks.length; at += CB.PIECE) {
            const [type, ...octets] = blocks.subarray(at, at + CB.PIECE);
            const cell = make('td', '', make('b', '', hexNumber(type, 2)), ` ${hex(Uint8Array.from(octets), ' ')}`);
            rows.push(make('tr', '', makeHead('row', 'note', String(at / CB.PIECE + 1)), cell));
        }
        elementOf('schedule-blocks', HTMLTableElement).tBodies[0].replaceChildren(...rows);
    }

    /** @param {Uint8Array} message @param {ScheduleItem[]} items */
    showItems(message, items) {
        const rows = items.map((item, i) => {
            const { at, length, slot, words } = item;
            const places = length === 1 ? String(at + 1) : `${at + 1}–${at + length}`;
            const row = make('tr', '', makeHead('row', '', places), make('td', 'octets', hex(itemOctets(message, item), ' ')),
                make('td', '', words), make('td', '', slot > 0 ? this.planned(slot) : ''));
            row.dataset.item = String(i);
            return row;
        });
        elementOf('schedule-items', HTMLTableElement).tBodies[0].replaceChildren(...rows);
        anElement('schedule-unsaid').textContent = items.length > 0 ? '' : 'The octets are not what the calls tell of them.';
    }

    /**
     * Says what an octet or a slot is, and shows where the same is on the page.
     * @param {Element} target
     */
    point(target) {
        const thing = target.closest('[data-item], [aria-label^="Octet"], g');
        if (thing === null) return;
        const said = thing.getAttribute('aria-label');
        if (said !== null) anElement('schedule-told').textContent = said;
        const item = thing.getAttribute('data-item');
        for (const one of anElement('schedule-shown').querySelectorAll('.schedule-pointed, [data-item]')) {
            one.classList.toggle('schedule-pointed', item !== null && one.getAttribute('data-item') === item);
        }
    }
}

/** @param {Desk} desk */
export function startSchedule(desk) {
    new SchedulePart(desk).start();
}
