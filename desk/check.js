// The part Check: the schedule messages of a log, or one by itself, judged slot by slot beside the plans.
import { CB, RULES, WORDS } from './words.js';
import { counted, elementOf, grouped, make } from './elements.js';
import { firstOctets, hex, hexNumber, refusal, takesFiles } from './files.js';
import { PAGE_KIND, planEntry } from './planfile.js';

/** @typedef {import('./state.js').Desk} Desk */
/** @typedef {{ message: Uint8Array, received: number, name: string }} Chosen */
/** @typedef {ReturnType<import('./calls.js').Calls['checkSlots']>} Checked */
/** @typedef {ReturnType<import('./calls.js').Calls['slots']>} Told */

/** What the rules of truth ask for, by the numbers that cb_check_slots gives where they fail. */
const CHECK_RULES = new Map([
    [CB.RULE_LOWEST, 'the first slot of a page has to be told as its first transmission, or as advised'],
    [CB.RULE_LATER, 'a later slot of a page has to be told as a repeat of its first slot, or as advised or optional'],
    [CB.RULE_OPTIONAL, 'a slot planned as optional has to be told as optional'],
    [CB.RULE_ADVISED, 'a slot planned as advised has to be told as advised'],
    [CB.RULE_NEW, 'the mark new is wrong: advised has it, optional lacks it, and a first transmission or a repeat has it ' +
        'exactly if the previous plan lacks the page'],
]);
const CHECK_SLICE = CB.PIECE * 4096; // octets of a log that are taken in between two looks at the page
const CHECK_PAUSE = 16;              // milliseconds of judging between two looks at the page
const CHECK_ROWS = 100;              // rows that are added to the list at a time
const CHECK_STORE = 1024;            // messages in one piece of memory

/**
 * Whom the choice of a message is told to.
 * @type {((chosen: Chosen) => void)[]}
 */
const CHECK_FOLLOWERS = [];

/**
 * Calls a follower with each message that is chosen from now on.
 * @param {(chosen: Chosen) => void} follower
 */
export function followChosen(follower) {
    CHECK_FOLLOWERS.push(follower);
}

/** @param {string} id @returns {HTMLElement} */
function checkPlace(id) {
    return elementOf(`check-${id}`, HTMLElement);
}

/**
 * A row of a table. Each cell has its column's heading with it, for widths at which cells stand below one another.
 * @param {string | Node} head @param {[string, string, string?][]} cells heading, text, style @returns {HTMLElement}
 */
export function checkRow(head, cells) {
    const first = make('th', '', head);
    first.setAttribute('scope', 'row');
    const row = make('tr', '', first);
    for (const [heading, text, style = ''] of cells) {
        const cell = make('td', style, text);
        cell.dataset.heading = heading;
        row.append(cell);
    }
    return row;
}

/**
 * What a plan file that is good has of a slot within its count.
 * @param {Uint8Array} plan @param {number} slot @returns {string}
 */
export function plannedWords(plan, slot) {
    const { kind, serial, identifier, parameter } = planEntry(plan, slot);
    if (kind !== PAGE_KIND) return kind === 1 ? 'advised' : 'optional';
    return `${hexNumber(serial, 4)} ${hexNumber(identifier, 4)} page ${parameter >> 4} of ${parameter & 15}`;
}

/** @param {number} code of a slot up to End @returns {string} */
export function toldWords(code) {
    if (code >= CB.FIRST) return `first transmission of ${hexNumber(code - CB.FIRST, 4)}`;
    if (code === CB.ADVISED) return 'advised';
    return code === CB.OPTIONAL ? 'optional' : `repeat of slot ${code}`;
}

/** @param {{ code: number, fresh: boolean }} told @returns {string} */
function slotWords({ code, fresh }) {
    return `${toldWords(code)}, ${fresh ? 'new' : 'not new'}`;
}

/**
 * Why a plan is refused, or nothing.
 * @param {Desk} desk @returns {string}
 */
export function planFault({ calls, state }) {
    for (const name of /** @type {const} */ (['current', 'previous'])) {
        const { number, count } = calls.readPlan(state[name]);
        if (number !== 0) return refusal(number, `the ${name} plan${count > 0 ? `: entry ${count}` : ''}`);
    }
    return '';
}

/**
 * What is said of a log without a schedule.
 * @param {string} name @param {Map<number, number>} answers how often each came
 */
function noScheduleWords(name, answers) {
    const pieces = [...answers.values()].reduce((sum, count) => sum + count, 0);
    if (pieces === 0) return `${name} is empty.`;
    const refused = [...answers].filter(([answer]) => WORDS.has(answer)).sort(([, a], [, b]) => b - a);
    const words = refused.map(([answer, count]) => `${grouped(count)} by ${answer} (${WORDS.get(answer)})`);
    const sentence = `${name} has no schedule message in its ${counted(pieces, 'piece')}.`;
    return words.length > 0 ? `${sentence} Refused: ${words.join(', ')}.` : sentence;
}

/** The schedule messages of a file, in large pieces of memory: a log can have hundreds of thousands. */
class CheckList {
    constructor() {
        /**
         * The block that completes each.
         * @type {number[]}
         */
        this.blocks = [];
        /** @type {number[]} */
        this.received = [];
        /**
         * Number + 2^8 * count + 2^16 * rule that fails at the slot counted; -1 before it is judged.
         * @type {number[]}
         */
        this.verdicts = [];
        /** @type {Uint8Array[]} */
        this.stores = [];
    }

    /** @param {number} block @param {number} received @param {Uint8Array} message */
    add(block, received, message) {
        const place = this.blocks.length % CHECK_STORE;
        if (place === 0) this.stores.push(new Uint8Array(CHECK_STORE * CB.OUTPUT));
        this.stores[this.stores.length - 1].set(message, place * CB.OUTPUT);
        this.blocks.push(block);
        this.received.push(received);
        this.verdicts.push(-1);
    }

    /** @param {number} index @returns {Uint8Array} */
    message(index) {
        const place = index % CHECK_STORE * CB.OUTPUT;
        return this.stores[Math.floor(index / CHECK_STORE)].subarray(place, place + CB.OUTPUT);
    }
}

class CheckPart {
    /** @param {Desk} desk */
    constructor(desk) {
        this.desk = desk;
        this.list = new CheckList();
        /**
         * The file that the list is of, and whether it is one message.
         * @type {File | null}
         */
        this.file = null;
        this.alone = false;
        /** The place in the list of the message that is shown slot by slot. */
        this.chosen = -1;
        this.shown = CHECK_ROWS;
        /** Takings of a file, and judgings of a list: a later one ends an earlier one. */
        this.takings = 0;
        this.judgings = 0;
        /** The plans that the verdicts are beside, and why one of them is refused. */
        this.beside = '';
        this.fault = '';
        this.asLog = elementOf('check-as-log', HTMLInputElement);
        this.asMessage = elementOf('check-as-message', HTMLInputElement);
        this.received = elementOf('check-received', HTMLSelectElement);
        this.onlyUntrue = elementOf('check-untrue', HTMLInputElement);
        this.rows = checkPlace('rows');
    }

    start() {
        const input = elementOf('check-file', HTMLInputElement);
        checkPlace('open').addEventListener('click', () => input.click());
        takesFiles(elementOf('check', HTMLElement), input, (file) => void this.take(file, file.size === CB.OUTPUT, CB.OUTPUT));
        for (const control of [this.asLog, this.asMessage, this.received]) {
            control.addEventListener('change', () => {
                if (this.file !== null) void this.take(this.file, this.asMessage.checked, Number(this.received.value));
            });
        }
        checkPlace('stop').addEventListener('click', () => this.finish('Stopped. What was there stays.'));
        checkPlace('more').addEventListener('click', () => this.showMore());
        this.onlyUntrue.addEventListener('change', () => {
            this.showList();
            this.showChosen();
        });
        this.rows.addEventListener('change', ({ target }) => {
            this.chosen = Number(/** @type {HTMLInputElement} */ (target).value);
            this.showChosen();
        });
        this.rows.addEventListener('click', ({ target }) => {
            if (target instanceof HTMLTableCellElement) target.parentElement?.querySelector('input')?.click();
        });
        this.desk.listen(({ current, previous }) => {
            const beside = `${hex(current)} ${hex(previous)}`;
            if (beside !== this.beside) void this.judge();
            this.beside = beside;
        }, 'check');
    }

    /**
     * Takes a file. Where it is in vain, what was there stays.
     * @param {File} file @param {boolean} alone whether as one message @param {number} received of that message
     */
    async take(file, alone, received) {
        const taking = ++this.takings;
        let sentence = '';
        try {
            const taken = alone ? await this.takeMessage(file, received) : await this.takeLog(file, taking);
            if (taking !== this.takings) return;
            if (typeof taken === 'string') sentence = taken;
            else this.replace(taken, file, alone);
        } catch (error) {
            sentence = `${file.name} can't be read: ${error instanceof Error ? error.message : error}`;
        }
        if (taking === this.takings) this.finish(sentence);
    }

    /** @param {File} file @param {number} received @returns {Promise<CheckList | string>} the message, or why not */
    async takeMessage(file, received) {
        const octets = await firstOctets(file, CB.OUTPUT + 1);
        const { number } = this.desk.calls.readSchedule(octets, received);
        if (number === CB.MESSAGE_LENGTH) return refusal(number, file.name);
        const list = new CheckList();
        list.add(0, received, octets);
        return list;
    }

    /** @param {File} file @param {number} taking @returns {Promise<CheckList | string>} its schedules, or why there are none */
    async takeLog(file, taking) {
        const intake = this.desk.calls.newIntake();
        const list = new CheckList();
        /** @type {Map<number, number>} */
        const answers = new Map();
        for (let at = 0, block = 1; at < file.size; at += CHECK_SLICE) {
            if (at > 0) this.showGoing(file.name, at / file.size);
            const octets = new Uint8Array(await file.slice(at, at + CHECK_SLICE).arrayBuffer());
            if (taking !== this.takings) return '';
            for (let place = 0; place < octets.length; place += CB.PIECE, block++) {
                const { answer, received, output } = intake.take(octets.subarray(place, place + CB.PIECE));
                answers.set(answer, (answers.get(answer) ?? 0) + 1);
                if (answer === CB.SCHEDULE) list.add(block, received, output);
            }
        }
        return list.blocks.length > 0 ? list : noScheduleWords(file.name, answers);
    }

    /** @param {string} name @param {number} part that is taken in, of 1 */
    showGoing(name, part) {
        checkPlace('going').hidden = false;
        elementOf('check-bar', HTMLProgressElement).value = part;
        checkPlace('at').textContent = `${name}: ${Math.floor(100 * part)} %`;
    }

    /**
     * Ends a taking, with a sentence if it was in vain.
     * @param {string} sentence
     */
    finish(sentence) {
        this.takings += 1;
        checkPlace('going').hidden = true;
        checkPlace('said').textContent = sentence;
        if (sentence !== '') this.desk.say(sentence);
        this.asLog.checked = !this.alone;
        this.asMessage.checked = this.alone;
        checkPlace('of').hidden = !this.alone;
        if (this.alone) this.received.value = String(this.list.received[0]);
    }

    /** @param {CheckList} list @param {File} file @param {boolean} alone */
    replace(list, file, alone) {
        Object.assign(this, { list, file, alone, chosen: -1, shown: CHECK_ROWS });
        checkPlace('there').hidden = false;
        checkPlace('detail').hidden = true;
        checkPlace('name').textContent = `${file.name} is taken for`;
        checkPlace('of-file').textContent = `Schedules of ${file.name}`;
        void this.judge();
    }

    /** Judges the list beside the plans, and looks at the page now and then. */
    async judge() {
        const judging = ++this.judgings;
        const { verdicts } = this.list;
        this.fault = planFault(this.desk);
        verdicts.fill(-1);
        for (let index = 0; index < verdicts.length;) {
            const first = index === 0;
            const pause = performance.now() + CHECK_PAUSE;
            for (; index < verdicts.length && performance.now() < pause; index++) verdicts[index] = this.judged(index);
            this.showSummary(index);
            if (index === verdicts.length) break;
            if (first) this.showList();
            await new Promise((resolve) => { setTimeout(resolve); });
            if (judging !== this.judgings) return;
        }
        if (verdicts.length === 0) return;
        if (this.chosen < 0) this.chosen = Math.max(0, verdicts.findIndex((verdict) => verdict !== 0));
        this.showList();
        this.showChosen();
    }

    /** @param {number} index @returns {Checked} */
    checked(index) {
        const { current, previous } = this.desk.state;
        return this.desk.calls.checkSlots(current, previous, this.list.message(index), this.list.received[index]);
    }

    /** @param {number} index @returns {number} the verdict as the list has it */
    judged(index) {
        const { number, count, verdicts } = this.checked(index);
        return number + 256 * count + 65536 * (number === CB.UNTRUE && count > 0 ? verdicts[count - 1] : 0);
    }

    /** @param {number} done how many are judged */
    showSummary(done) {
        const { verdicts } = this.list;
        const all = counted(verdicts.length, 'schedule');
        const good = verdicts.filter((verdict) => verdict === 0).length;
        let sentence = `${all}: ${grouped(good)} true, ${grouped(done - good)} not`;
        if (done < verdicts.length) sentence = `${grouped(done)} of ${all} checked`;
        else if (this.fault !== '') sentence = `${all}, not checked. ${this.fault}`;
        else if (verdicts[0] === CB.PLAN_EMPTY) sentence = `${all}, not checked. ${refusal(CB.PLAN_EMPTY)}`;
        checkPlace('summary').textContent = sentence;
        if (done === verdicts.length) this.desk.say(sentence);
    }

    showList() {
        const { verdicts } = this.list;
        const listed = [...verdicts.keys()].filter((index) => !this.onlyUntrue.checked || verdicts[index] !== 0);
        this.rows.replaceChildren(...listed.slice(0, this.shown).map((index) => this.listRow(index)));
        checkPlace('more').hidden = listed.length <= this.shown;
        checkPlace('more').textContent = `Show more; ${grouped(this.shown)} of ${grouped(listed.length)} are shown`;
        checkPlace('none').hidden = listed.length > 0;
    }

    /** Shows more of the list, and goes to the first row of that. */
    showMore() {
        const before = this.shown;
        this.shown += CHECK_ROWS;
        this.showList();
        this.rows.querySelectorAll('input')[before]?.focus();
    }

    /** @param {number} index @returns {HTMLElement} */
    listRow(index) {
        const { blocks, received, verdicts } = this.list;
        const radio = Object.assign(document.createElement('input'),
            { type: 'radio', name: 'check-chosen', value: String(index), checked: index === this.chosen });
        const label = make('label', '', radio, this.alone ? 'alone' : String(blocks[index]));
        const packed = verdicts[index];
        const number = packed & 255;
        const words = this.fault !== '' ? 'not checked' : RULES.get(packed >> 16) ?? WORDS.get(number);
        /** @type {[string, string, string?][]} */
        const judged = [
            ['No.', String(number)], ['Slot', number === CB.UNTRUE ? String(packed >> 8 & 255) : ''],
            ['Verdict', number === 0 ? '✓ true' : `✗ ${words}`, number === 0 ? 'check-true' : 'check-untrue'],
        ];
        return checkRow(label, [['Octets', String(received[index])], ...(packed < 0 ? [] : judged)]);
    }

    /** Shows the chosen message slot by slot. */
    showChosen() {
        const { list, chosen, desk, alone } = this;
        if (chosen < 0) return;
        const message = list.message(chosen);
        const received = list.received[chosen];
        const file = this.file?.name ?? '';
        const block = `block ${list.blocks[chosen]}`;
        const checked = this.checked(chosen);
        const told = desk.calls.slots(message, received);
        checkPlace('detail').hidden = false;
        checkPlace('title').textContent = alone ? file : `The schedule that ${block} completes`;
        checkPlace('words').className = checked.number === 0 ? 'good' : 'wrong';
        checkPlace('words').textContent = this.chosenWords(checked, told);
        checkPlace('slots').hidden = told.number !== 0;
        if (told.number === 0) this.showSlots(checked, told);
        checkPlace('octets').replaceChildren(`${hex(message.subarray(0, received), ' ')} `,
            make('span', 'note', hex(message.subarray(received), ' ')));
        for (const follower of CHECK_FOLLOWERS) follower({ message, received, name: alone ? file : `${block} of ${file}` });
    }

    /** @param {Checked} checked @param {Told} told @returns {string} */
    chosenWords({ number, count, verdicts }, told) {
        const { state, calls } = this.desk;
        const slots = counted(told.end, 'slot');
        if (number === 0) return `True at each of its ${slots}.`;
        if (number === CB.UNTRUE && count > 0) {
            const untrue = [...verdicts.keys()].filter((place) => verdicts[place] !== 0).map((place) => place + 1);
            return `Refused by ${number}: of its ${slots} these are not told as planned: ${untrue.join(', ')}.`;
        }
        const planned = counted(calls.readPlan(state.current).count, 'slot');
        const sizes = number === CB.UNTRUE ? ` End is ${told.end}, and the plan has ${planned}.` : '';
        const below = told.number === 0 ? '; what it tells is below' : '';
        return `${this.fault || refusal(number)}${sizes} So its slots are not judged${below}.`;
    }

    /** @param {Checked} checked @param {Told} told */
    showSlots({ number, count, verdicts }, told) {
        const { calls, state } = this.desk;
        const plan = calls.readPlan(state.current);
        const planned = plan.number === 0 ? plan.count : 0;
        const unplanned = plan.number === 0 ? 'not in the plan' : 'the plan is refused';
        const judged = number === 0 || number === CB.UNTRUE && count > 0;
        const written = calls.writeSchedule(state.current, state.previous, 1);
        const ours = calls.slots(written.message, CB.OUTPUT);
        const rows = [];
        const last = Math.max(planned, told.end);
        for (let slot = 1; slot <= last; slot++) {
            const rule = verdicts[slot - 1];
            if (judged && rule === 0 && this.onlyUntrue.checked) continue;
            const said = slot <= told.end ? slotWords(told.slots[slot - 1]) : 'not told';
            const our = written.number === 0 && slot <= ours.end ? slotWords(ours.slots[slot - 1]) : '';
            const row = checkRow(String(slot), [
                ['Planned', slot <= planned ? plannedWords(state.current, slot) : unplanned],
                ['Told', said],
                ['Our writer', our === said ? 'the same' : our, our === said ? 'note' : ''],
                ['Verdict', !judged ? 'not judged' : rule === 0 ? '✓ true' : `✗ ${CHECK_RULES.get(rule)}`],
            ]);
            row.className = !judged ? '' : rule === 0 ? 'check-true' : 'check-untrue';
            rows.push(row);
        }
        checkPlace('told').replaceChildren(...rows);
        const past = last < CB.SLOTS ? `Slots ${last + 1} to ${CB.SLOTS} are not part of it. ` : '';
        const unwritten = this.fault === '' && written.number !== 0;
        const why = unwritten ? ` Our writer does not write this plan. ${refusal(written.number)}` : '';
        checkPlace('past').textContent = `${past}A first transmission is told by 15 bits of its identifier.${why}`;
    }
}

/** @param {Desk} desk */
export function startCheck(desk) {
    if (!('cb_check_slots' in desk.calls.exports)) throw new Error('the wasm has no call cb_check_slots');
    new CheckPart(desk).start();
}
