// The part Plan: rows typed, pasted and opened, laid out as plan files after each change and judged by cb_read_plan.
import { CB } from './words.js';
import { firstOctets, hexNumber, refusal, saveFile, takesFiles } from './files.js';
import { Desk } from './state.js';
import { anElement, counted, elementOf } from './elements.js';
import {
    allDigits, emptyRow, layRow, NO_SLOTS, PAGE_KIND, PLAN_FIELDS, planOctets, planRows, PLANS, putUnlaid, unlaidRows,
} from './planfile.js';
import { isRows, PasteWrong, rowsOfPaste } from './paste.js';

/** @typedef {import('./planfile.js').PlanRow} PlanRow */
/** @typedef {import('./planfile.js').PlanName} PlanName */
/** @typedef {import('./planfile.js').PlanField} PlanField */
/**
 * The elements of a row; below is the row where what is wrong with it is said.
 * @typedef {{ row: HTMLElement, below: HTMLElement, sentence: HTMLElement, mark: HTMLElement, octet: HTMLElement,
 *             kind: HTMLSelectElement, fields: Record<PlanField, HTMLInputElement> }} PlanView
 */

/** Steps that can be undone. */
const PAST_MOST = 50;

/** @type {Record<PlanName, string>} */
const NO_ROWS = {
    current: 'No slots yet: fill in the row below, paste rows, or open a file.',
    previous: 'No slots, which stands for no plan before.',
};

/** @type {Record<PlanName, Uint8Array>} */
const SAMPLES = {
    current: Uint8Array.of(
        0x43, 0x42, 0x50, 0x00, 0x01, 0x05,
        0x02, 0x00, 0x10, 0x11, 0x11, 0x11,
        0x01, 0x00, 0x00, 0x00, 0x00, 0x00,
        0x02, 0x00, 0x20, 0x22, 0x22, 0x11,
        0x02, 0x00, 0x10, 0x11, 0x11, 0x11,
        0x00, 0x00, 0x00, 0x00, 0x00, 0x00,
    ),
    previous: Uint8Array.of(
        0x43, 0x42, 0x50, 0x00, 0x01, 0x01,
        0x02, 0x00, 0x20, 0x22, 0x22, 0x11,
    ),
};

/** @param {string} id @returns {DocumentFragment} */
function planTemplate(id) {
    return /** @type {DocumentFragment} */ (elementOf(id, HTMLTemplateElement).content.cloneNode(true));
}

/**
 * Puts a text in an element. Where it is there already nothing is laid out anew, which is most of what a key costs in 48 rows.
 * @param {HTMLElement} element @param {string} text
 */
function putText(element, text) {
    if (element.textContent !== text) element.textContent = text;
}

/** @param {Uint8Array} one @param {Uint8Array} other @returns {boolean} */
function sameOctets(one, other) {
    return one.length === other.length && one.every((octet, i) => octet === other[i]);
}

/** The rows of one plan on the page. */
class PlanTable {
    /** @param {Desk} desk @param {PlanName} name */
    constructor(desk, name) {
        this.desk = desk;
        this.name = name;
        /** @type {PlanRow[]} */
        this.rows = [];
        /** The plan as it is in a file, or in the address that was opened. */
        this.saved = NO_SLOTS;
        /** The row that was last in focus, from 0. */
        this.at = 0;
        this.root = anElement(`plan-${name}`);
        this.root.append(planTemplate('plan-template'));
        for (const element of this.root.querySelectorAll('[data-plan]')) {
            element.id = `plan-${name}-${/** @type {HTMLElement} */ (element).dataset.plan}`;
        }
        this.element('title').textContent = name === 'current' ? 'Current plan' : 'Previous plan';
        this.root.querySelector('table')?.setAttribute('aria-labelledby', this.element('title').id);
        /** @type {PlanView[]} */
        this.views = Array.from({ length: CB.SLOTS }, (_, i) => this.makeView(i));
        this.element('rows').append(...this.views.flatMap(({ row, below }) => [row, below]));
    }

    /** @param {string} what @returns {HTMLElement} */
    element(what) {
        return anElement(`plan-${this.name}-${what}`);
    }

    /** @param {number} i @returns {PlanView} */
    makeView(i) {
        const made = planTemplate('plan-row-template');
        /** @type {(what: string) => any} */
        const find = (what) => made.querySelector(`[data-plan='${what}']`);
        const [row, below] = made.querySelectorAll('tr');
        row.dataset.row = String(i);
        row.id = `plan-${this.name}-${i + 1}`;
        find('slot').textContent = String(i + 1);
        find('sentence').id = `plan-${this.name}-wrong-${i + 1}`;
        find('kind').setAttribute('aria-label', `Kind, slot ${i + 1}`);
        for (const { field, name } of PLAN_FIELDS) find(field).setAttribute('aria-label', `${name}, slot ${i + 1}`);
        const [serial, identifier, page, total] = PLAN_FIELDS.map(({ field }) => find(field));
        return {
            row, below, sentence: find('sentence'), mark: find('new'), octet: find('octet'), kind: find('kind'),
            fields: { serial, identifier, page, total },
        };
    }

    /** Shows all rows as they are; the one below the last is open. */
    show() {
        this.views.forEach((view, i) => {
            const row = this.rows[i] ?? emptyRow(-1);
            view.row.hidden = i > this.rows.length;
            view.row.classList.toggle('plan-open', i === this.rows.length);
            view.kind.options[0].hidden = i < this.rows.length;
            view.kind.value = String(row.kind);
            if (view.kind.selectedIndex < 0) view.kind.add(new Option(`kind ${row.kind}`, String(row.kind), true, true));
            for (const { field } of PLAN_FIELDS) {
                if (view.fields[field].value !== row[field]) view.fields[field].value = row[field];
            }
        });
        this.choose(this.at);
        this.judge();
    }

    /** Says of the plan what cb_read_plan says, and where it refuses it, at each row what it says of that row alone. */
    judge() {
        const { number, count } = this.desk.calls.readPlan(planOctets(this.rows));
        let unlaid = 0;
        this.views.forEach((view, i) => {
            const row = this.rows[i];
            const { octets, field, sentence } = row ? layRow(row) : { octets: [], field: undefined, sentence: '' };
            if (sentence !== '') unlaid ||= i + 1;
            const alone = number !== 0 && row && sentence === '' ? this.desk.calls.readPlan(planOctets([row])).number : 0;
            this.sayAt(view, alone === 0 ? sentence : refusal(alone), field);
            putText(view.octet, row && !sentence && (row.kind === PAGE_KIND || octets[5]) ? hexNumber(octets[5], 2) : '');
        });
        const verdict = this.element('verdict');
        verdict.className = number === 0 ? 'note' : 'wrong';
        if (this.rows.length === 0) putText(verdict, NO_ROWS[this.name]);
        else if (number === 0) putText(verdict, `${counted(this.rows.length, 'slot')}.`);
        else if (count === unlaid) putText(verdict, `Slot ${count} isn’t complete, so the plan counts as refused.`);
        else putText(verdict, `Refused by ${number} at slot ${count}.`);
    }

    /** @param {PlanView} view @param {string} sentence @param {PlanField | undefined} field the one that is wrong */
    sayAt(view, sentence, field) {
        if (view.sentence.textContent === sentence) return;
        view.sentence.textContent = sentence;
        view.below.hidden = sentence === '';
        for (const [name, input] of Object.entries(view.fields)) {
            if (sentence !== '' && (field ?? name) === name) {
                input.setAttribute('aria-invalid', 'true');
                input.setAttribute('aria-describedby', view.sentence.id);
            } else {
                input.removeAttribute('aria-invalid');
                input.removeAttribute('aria-describedby');
            }
        }
    }

    /** @param {number} i @returns {number} the row, or the nearest that is shown */
    near(i) {
        return Math.max(0, Math.min(i, this.rows.length, CB.SLOTS - 1));
    }

    /** @param {number} i @param {string} field to have the focus */
    focus(i, field) {
        const view = this.views[this.near(i)];
        const element = field === 'kind' ? view.kind : view.fields[/** @type {PlanField} */ (field)];
        element.focus();
        if (element instanceof HTMLInputElement) element.select();
    }

    /**
     * Marks the row that the buttons above the table are for.
     * @param {number} i
     */
    choose(i) {
        this.views[this.at].row.classList.remove('plan-at');
        this.at = this.near(i);
        this.views[this.at].row.classList.add('plan-at');
        this.element('chosen').textContent = `Slot ${this.at + 1}`;
    }

    /**
     * Says why something was not done, here and in the status line.
     * @param {string} sentence
     */
    refuse(sentence) {
        this.element('said').textContent = sentence;
        this.desk.say(sentence);
    }
}

/** Both plans, what can be undone, and what the state holds of them. */
class PlanPart {
    /** @param {Desk} desk */
    constructor(desk) {
        this.desk = desk;
        this.tables = { current: new PlanTable(desk, 'current'), previous: new PlanTable(desk, 'previous') };
        /** @type {Record<PlanName, PlanRow[]>[]} */
        this.past = [];
        /**
         * The field that is typed in: what is typed there is one step to undo.
         * @type {EventTarget | undefined}
         */
        this.typing = undefined;
        this.sent = { current: NO_SLOTS, previous: NO_SLOTS, rows: '' };
        this.undoButton = elementOf('plan-undo', HTMLButtonElement);
        this.noSchedule = anElement('plan-none');
    }

    /** @returns {Record<PlanName, PlanRow[]>} */
    plans() {
        return { current: this.tables.current.rows, previous: this.tables.previous.rows };
    }

    /** Remembers the rows as they are, for Undo. */
    remember() {
        this.past.push(structuredClone(this.plans()));
        if (this.past.length > PAST_MOST) this.past.shift();
        this.typing = undefined;
    }

    /**
     * A step that can be undone.
     * @param {() => void} change
     */
    step(change) {
        this.remember();
        change();
        this.show();
    }

    show() {
        for (const plan of PLANS) {
            this.tables[plan].element('said').textContent = '';
            this.tables[plan].show();
        }
        this.commit();
    }

    /** Lays the rows out in the state. */
    commit() {
        const plans = this.plans();
        this.sent = { current: planOctets(plans.current), previous: planOctets(plans.previous), rows: unlaidRows(plans) };
        for (const plan of PLANS) this.keepUnsaved(plan);
        this.undoButton.disabled = this.past.length === 0;
        this.desk.change(this.sent);
    }

    /** @param {PlanName} plan */
    keepUnsaved(plan) {
        const { rows, saved } = this.tables[plan];
        if (rows.length > 0 && !sameOctets(saved, this.sent[plan])) this.desk.unsaved.add(`the ${plan} plan`);
        else this.desk.unsaved.delete(`the ${plan} plan`);
    }

    /** Takes plans that are in the state by an address. Rows can show a bad entry of a plan, and no other fault. */
    takeState() {
        const { state, calls } = this.desk;
        const plans = { current: planRows(state.current), previous: planRows(state.previous) };
        putUnlaid(state.rows, plans);
        const answers = PLANS.map((plan) => calls.readPlan(state[plan]));
        PLANS.forEach((plan, i) => {
            this.tables[plan].rows = answers[i].number === 0 || answers[i].count > 0 ? plans[plan] : [];
            this.tables[plan].saved = planOctets(this.tables[plan].rows);
        });
        this.show();
        PLANS.forEach((plan, i) => {
            const { number, count } = answers[i];
            if (number !== 0 && count === 0) this.tables[plan].refuse(refusal(number, 'the plan in the address'));
        });
    }

    stateChanged() {
        const { current, previous, rows } = this.desk.state;
        if (current === this.sent.current && previous === this.sent.previous && rows === this.sent.rows) {
            this.showNew();
        } else {
            this.remember();
            this.takeState();
        }
    }

    /** Marks the slots that cb_write_schedule tells as new; none where it writes no message. */
    showNew() {
        const { calls, state } = this.desk;
        const { number, message } = calls.writeSchedule(state.current, state.previous, 1);
        const told = number === 0 ? calls.slots(message, message.length).slots : [];
        this.tables.current.views.forEach(({ mark }, i) => { mark.hidden = !told[i]?.fresh; });
        const good = PLANS.every((plan) => calls.readPlan(state[plan]).number === 0) && this.tables.current.rows.length > 0;
        putText(this.noSchedule, good && number !== 0 ? `There is no schedule message for this. ${refusal(number)}` : '');
    }

    /** @param {PlanTable} table @param {number} i @param {HTMLInputElement} input */
    typed(table, i, input) {
        if (this.typing !== input) this.remember();
        this.typing = input;
        table.element('said').textContent = '';
        this.desk.say('');
        const open = i === table.rows.length;
        if (open) table.rows.push(emptyRow(PAGE_KIND, '1'));
        table.rows[i][/** @type {PlanField} */ (input.dataset.plan)] = input.value;
        if (open) table.show();
        else table.judge();
        this.commit();
    }

    /**
     * What was typed is shown with all its digits once the field is left.
     * @param {PlanTable} table @param {number} i @param {HTMLInputElement} input
     */
    left(table, i, input) {
        const field = /** @type {PlanField} */ (input.dataset.plan);
        this.typing = undefined;
        if (i < table.rows.length) table.rows[i][field] = input.value = allDigits(input.value, field);
    }

    /** @param {PlanTable} table @param {number} i @param {number} kind */
    kindChosen(table, i, kind) {
        this.step(() => {
            const row = table.rows[i] ?? emptyRow(0);
            const empty = PLAN_FIELDS.every(({ field }) => row[field] === '');
            if (row.kind === PAGE_KIND) table.rows[i] = emptyRow(kind);
            else table.rows[i] = kind === PAGE_KIND && empty ? emptyRow(kind, '1') : { ...row, kind };
        });
    }

    /** @param {PlanTable} table @param {number} i */
    insertRow(table, i) {
        if (table.rows.length < CB.SLOTS) this.step(() => table.rows.splice(i, 0, emptyRow(0)));
        else table.refuse(`There are ${CB.SLOTS} slots, and no more than that.`);
    }

    /** @param {PlanTable} table @param {number} i @param {PlanRow[]} others what is put in its place */
    replaceRow(table, i, ...others) {
        if (i < table.rows.length) this.step(() => table.rows.splice(i, 1, ...others));
    }

    /** @param {PlanTable} table @param {number} i @param {number} to */
    moveRow(table, i, to) {
        if (i >= table.rows.length || to < 0 || to >= table.rows.length) return;
        this.step(() => table.rows.splice(to, 0, ...table.rows.splice(i, 1)));
        table.choose(to);
    }

    /** @param {PlanTable} table @param {number} at the row pasted into @param {string} text */
    paste(table, at, text) {
        const { rows, passed } = rowsOfPaste(text);
        const next = [...table.rows];
        const taken = new Set();
        rows.forEach(({ line, slot, row }, i) => {
            const to = slot === undefined ? at + i : slot - 1;
            if (to < 0 || to >= CB.SLOTS) throw new PasteWrong(line, `there is no slot ${to + 1}.`);
            if (taken.has(to)) throw new PasteWrong(line, `slot ${to + 1} comes twice.`);
            taken.add(to);
            next[to] = row;
        });
        const { number, count } = this.desk.calls.readPlan(planOctets(rows.map(({ row }) => row)));
        if (number !== 0) throw new PasteWrong(rows[count - 1].line, refusal(number));
        for (let i = 0; i < next.length; i++) {
            const after = rows.find(({ slot }) => slot !== undefined && slot > i);
            if (next[i] === undefined && after) throw new PasteWrong(after.line, `slot ${i + 1} before it has no row.`);
        }
        this.step(() => { table.rows = next; });
        const over = passed.length === 0 ? '' : ` Columns passed over: ${passed.join(', ')}.`;
        this.desk.say(`${counted(rows.length, 'row')} pasted into the ${table.name} plan.${over}`);
    }

    /** @param {PlanTable} table @param {File} file */
    async open(table, file) {
        const octets = await firstOctets(file, CB.PLAN + 1).catch(() => undefined);
        if (octets === undefined) {
            table.refuse(`${file.name} can’t be read.`);
            return;
        }
        const { number, count } = this.desk.calls.readPlan(octets);
        if (number !== 0) {
            table.refuse(refusal(number, count === 0 ? file.name : `${file.name}: entry ${count}`));
            return;
        }
        this.step(() => {
            table.rows = planRows(octets);
            table.saved = octets;
        });
        this.desk.say(`${file.name} is the ${table.name} plan now.`);
    }

    /** @param {PlanTable} table */
    save(table) {
        const octets = this.desk.state[table.name];
        if (this.desk.calls.readPlan(octets).number !== 0) {
            table.refuse(`Not saved: the ${table.name} plan is refused.`);
            return;
        }
        saveFile(`${table.name}.plan`, octets);
        table.saved = octets;
        this.commit();
        this.desk.say(`The ${table.name} plan is saved as ${table.name}.plan.`);
    }

    /** The current plan becomes the previous one, and stays, to be changed for the next period. */
    next() {
        const { current, previous } = this.tables;
        if (this.desk.calls.readPlan(this.desk.state.current).number !== 0) {
            current.refuse('Not done: the current plan is refused.');
            return;
        }
        this.step(() => {
            previous.rows = structuredClone(current.rows);
            previous.saved = current.saved;
        });
        this.desk.say('The current plan is the previous one too now; change the current one for the next period.');
    }

    sample() {
        this.step(() => {
            for (const plan of PLANS) {
                this.tables[plan].rows = planRows(SAMPLES[plan]);
                this.tables[plan].saved = SAMPLES[plan];
            }
        });
        this.desk.say('These are the sample plans; Undo brings back what was here.');
    }

    undo() {
        const past = this.past.pop();
        if (past === undefined) return;
        for (const plan of PLANS) this.tables[plan].rows = past[plan];
        this.typing = undefined;
        this.show();
        this.desk.say('Undone.');
    }
}

/** @param {Event} event @returns {number} the row that an event is in, or -1 */
function planRowOf(event) {
    return Number(/** @type {Element} */ (event.target).closest('tr')?.dataset.row ?? -1);
}

/** @param {PlanPart} part @param {PlanTable} table @param {KeyboardEvent} event */
function planKey(part, table, event) {
    const i = planRowOf(event);
    const target = /** @type {HTMLElement} */ (event.target);
    if (i < 0 || event.ctrlKey || event.metaKey || event.shiftKey) return;
    /** @type {Record<string, () => number | void>} */
    const keys = event.altKey ? {
        ArrowUp: () => { part.moveRow(table, i, i - 1); return table.at; },
        ArrowDown: () => { part.moveRow(table, i, i + 1); return table.at; },
        Insert: () => part.insertRow(table, i),
        Delete: () => part.replaceRow(table, i),
    } : { Enter: () => i + 1, ArrowUp: () => i - 1, ArrowDown: () => i + 1 };
    const act = keys[event.key];
    if (act === undefined || (!event.altKey && event.key !== 'Enter' && target instanceof HTMLSelectElement)) return;
    event.preventDefault();
    table.focus(act() ?? i, target.dataset.plan ?? 'kind');
}

/** @param {PlanPart} part @param {PlanTable} table */
function startPlanRows(part, table) {
    const rows = table.element('rows');
    rows.addEventListener('input', (event) => {
        if (event.target instanceof HTMLInputElement) part.typed(table, planRowOf(event), event.target);
    });
    rows.addEventListener('change', (event) => {
        const field = /** @type {HTMLInputElement | HTMLSelectElement} */ (event.target);
        if (field instanceof HTMLInputElement) part.left(table, planRowOf(event), field);
        else if (field.value !== '-1') part.kindChosen(table, planRowOf(event), Number(field.value));
    });
    rows.addEventListener('keydown', (event) => planKey(part, table, event));
    for (const happened of ['focusin', 'click']) {
        rows.addEventListener(happened, (event) => { if (planRowOf(event) >= 0) table.choose(planRowOf(event)); });
    }
    table.root.addEventListener('paste', (event) => {
        const text = event.clipboardData?.getData('text/plain') ?? '';
        if (!isRows(text)) return;
        event.preventDefault();
        try {
            part.paste(table, table.at, text);
        } catch (error) {
            if (!(error instanceof PasteWrong)) throw error;
            table.refuse(error.message);
        }
    });
}

/** @param {PlanPart} part @param {PlanTable} table */
function startPlanButtons(part, table) {
    const input = elementOf(`plan-${table.name}-input`, HTMLInputElement);
    takesFiles(table.root, input, (file) => void part.open(table, file));
    /** @type {Record<string, () => void>} */
    const buttons = {
        open: () => input.click(),
        save: () => part.save(table),
        empty: () => part.step(() => { table.rows = []; }),
        insert: () => part.insertRow(table, table.at),
        remove: () => part.replaceRow(table, table.at),
        clear: () => part.replaceRow(table, table.at, emptyRow(0)),
        up: () => part.moveRow(table, table.at, table.at - 1),
        down: () => part.moveRow(table, table.at, table.at + 1),
    };
    for (const [name, act] of Object.entries(buttons)) table.element(name).addEventListener('click', act);
}

/** @param {Desk} desk */
export function startPlan(desk) {
    const part = new PlanPart(desk);
    for (const plan of PLANS) {
        startPlanRows(part, part.tables[plan]);
        startPlanButtons(part, part.tables[plan]);
    }
    anElement('plan-next').addEventListener('click', () => part.next());
    anElement('plan-sample').addEventListener('click', () => part.sample());
    part.undoButton.addEventListener('click', () => part.undo());
    part.takeState();
    desk.listen(() => part.stateChanged());
}
