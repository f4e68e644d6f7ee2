// The part Log: a log taken in by a worker, its answers counted, and what came of it listed.
import { CB } from './words.js';
import { saveFile, takesFiles } from './files.js';
import { wholeNumber } from './state.js';
import { anElement, counted, elementOf, grouped, make, makeHead } from './elements.js';
import { RowList } from './logrows.js';
import { TakenLog } from './logtaken.js';
import { LOG_VIEWS, answerWords } from './logviews.js';

/** @typedef {import('./state.js').Desk} Desk */
/** @typedef {import('./logviews.js').View} View */
/** @typedef {import('./worker.js').LogNews} LogNews */
/** @typedef {import('./worker.js').LogTask} LogTask */

/** The answers that are counted also where none came; no others come from a state that is kept as it should be. */
const LOG_ANSWERS = [
    CB.PAGE, CB.TAKEN, CB.PIECE_LENGTH, CB.DISCRIMINATOR, CB.RESERVED_CODE, CB.NULL_CODE, CB.NOT_NEXT, CB.SCHEDULE,
];
/** What stands for all answers. */
const EVERY_ANSWER = 'all';

/** @param {string} id @returns {string} the text of a script that holds no script of the page */
function heldText(id) {
    return (document.getElementById(id)?.textContent ?? '').trim();
}

class LogPart {
    /** @param {Desk} desk */
    constructor(desk) {
        this.desk = desk;
        this.said = anElement('log-said');
        this.going = anElement('log-going');
        this.list = new RowList(anElement('log-rows'));
        /** @type {TakenLog | undefined} */
        this.log = undefined;
        this.view = LOG_VIEWS.pieces;
        /** The answer of the pieces that are listed. */
        this.answer = EVERY_ANSWER;
        /** @type {Worker | undefined} */
        this.worker = undefined;
        this.workerAddress = '';
        /** Which row's details are shown, or will be. */
        this.detailed = '';
        this.#listen();
    }

    #listen() {
        takesFiles(anElement('log'), elementOf('log-file', HTMLInputElement), (file) => this.#open(file));
        anElement('log-stop').addEventListener('click', () => {
            this.#stop();
            this.desk.say('Cancelled; what was shown before stays.');
        });
        anElement('log-views').addEventListener('change', (event) => {
            if (event.target instanceof HTMLInputElement) this.#show(LOG_VIEWS[event.target.value]);
        });
        anElement('log-answers').addEventListener('change', (event) => {
            if (event.target instanceof HTMLInputElement) this.#only(event.target.value);
        });
        anElement('log-jump').addEventListener('submit', (event) => {
            event.preventDefault();
            this.#jump();
        });
        for (const want of /** @type {const} */ (['pieces', 'pages'])) {
            anElement(`log-save-${want}`).addEventListener('click', () => this.#save(want));
        }
    }

    /**
     * Says what went wrong; what was there stays.
     * @param {string} sentence
     */
    #fail(sentence) {
        this.#stop();
        this.said.textContent = this.log ? `${sentence} ${this.log.file.name} is still shown.` : sentence;
    }

    #stop() {
        this.worker?.terminate();
        this.worker = undefined;
        this.going.hidden = true;
    }

    /** @param {File} file */
    #open(file) {
        const { size } = file;
        if (size === 0) {
            this.#fail(`${file.name} has no octets: it is empty, a folder, or gone.`);
            return;
        }
        const start = performance.now();
        this.#work({ file, size, want: 'survey' }, ({ survey }) => {
            if (!survey) return;
            this.log = new TakenLog(this.desk.calls, file, size, survey);
            this.#showLog((performance.now() - start) / 1000);
        });
    }

    /** @param {'pieces' | 'pages'} want */
    #save(want) {
        if (!this.log) return;
        const { file, size } = this.log;
        this.#work({ file, size, want }, async ({ list }) => {
            if (!list) return;
            saveFile(`${file.name}.${want}.txt`, new Uint8Array(await list.arrayBuffer()));
            this.desk.say(`The list of ${want} is saved as ${file.name}.${want}.txt.`);
        });
    }

    /**
     * Has a file gone through by a worker, in the place of what one is at.
     * @param {Omit<LogTask, 'wasm'>} task @param {(news: LogNews) => void} finished
     */
    #work(task, finished) {
        const { file } = task;
        this.#stop();
        this.said.textContent = '';
        this.workerAddress ||= URL.createObjectURL(new Blob([heldText('worker-source')], { type: 'text/javascript' }));
        const worker = new Worker(this.workerAddress);
        this.worker = worker;
        worker.onerror = (event) => this.#fail(`${file.name} can't be gone through: ${event.message}.`);
        worker.onmessage = (event) => {
            const news = /** @type {LogNews} */ (event.data);
            if (worker !== this.worker) return;
            if (news.done !== undefined) this.#progress(task, news.done);
            else if (news.failed !== undefined) this.#fail(`${file.name} can't be gone through to its end: ${news.failed}.`);
            else {
                this.#stop();
                finished(news);
            }
        };
        const wasm = Uint8Array.from(atob(heldText('wasm')), (letter) => letter.charCodeAt(0));
        worker.postMessage(/** @type {LogTask} */ ({ ...task, wasm }));
        this.#progress(task, 0);
    }

    /** @param {{ file: File, size: number }} task @param {number} done octets */
    #progress({ file, size }, done) {
        this.going.hidden = false;
        elementOf('log-bar', HTMLProgressElement).value = done / size;
        anElement('log-at').textContent = `${file.name}: ${grouped(done)} of ${grouped(size)} octets`;
    }

    /** @param {number} seconds that it took */
    #showLog(seconds) {
        const log = /** @type {TakenLog} */ (this.log);
        const { file, size, survey } = log;
        anElement('log-there').hidden = false;
        anElement('log-name').textContent = file.name;
        const pieces = survey.answers.length;
        const summary = `${counted(size, 'octet')}, ${counted(pieces, 'piece')}, taken in within ${seconds.toFixed(2)} s.`;
        anElement('log-summary').textContent = summary;
        this.desk.say(`${file.name}: ${summary}`);
        for (const input of document.querySelectorAll('#log-views input')) {
            const view = LOG_VIEWS[/** @type {HTMLInputElement} */ (input).value];
            const words = /** @type {HTMLElement} */ (input.nextElementSibling);
            words.textContent = `${view.name} (${grouped(view.count(log))})`;
        }
        const { counts } = survey;
        const answers = [...counts.keys()].filter((answer) => counts[answer] > 0 || LOG_ANSWERS.includes(answer));
        anElement('log-answers').replaceChildren(this.#countRow(EVERY_ANSWER, 'every piece', pieces),
            ...answers.map((answer) => this.#countRow(String(answer), answerWords(answer), counts[answer])));
        this.#only(EVERY_ANSWER, this.view);
    }

    /** @param {string} answer @param {string} words @param {number} count */
    #countRow(answer, words, count) {
        const radio = document.createElement('input');
        radio.type = 'radio';
        radio.name = 'log-answer';
        radio.value = answer;
        radio.disabled = count === 0;
        return make('tr', count === 0 ? 'log-none' : '', makeHead('row', '', make('label', '', radio, ` ${answer}`)),
            make('td', '', words), make('td', 'rows-number', grouped(count)));
    }

    /**
     * Lists the pieces of one answer, or of every answer.
     * @param {string} answer @param {View} [view]
     */
    #only(answer, view = LOG_VIEWS.pieces) {
        const log = /** @type {TakenLog} */ (this.log);
        log.only = answer === EVERY_ANSWER ? undefined : log.answered(Number(answer));
        this.answer = answer;
        this.#show(view);
    }

    /** @param {View} view */
    #show(view) {
        const log = /** @type {TakenLog} */ (this.log);
        const count = view.count(log);
        this.view = view;
        anElement('log-there').querySelectorAll('input').forEach((input) => {
            input.checked = input.value === this.answer || LOG_VIEWS[input.value] === view;
        });
        const answered = view === LOG_VIEWS.pieces && log.only ? ` answered by ${this.answer}` : '';
        anElement('log-title').textContent = `${view.name}${answered} (${grouped(count)})`;
        anElement('log-there').classList.toggle('log-pieces', view === LOG_VIEWS.pieces);
        anElement('log-details').replaceChildren();
        this.list.show({
            columns: view.columns,
            count,
            row: (index) => view.row(log, index).catch((error) => {
                this.#sayUnread(log, error);
                return [grouped(view.piece(log, index)), 'can\'t be read'];
            }),
            chosen: (index) => void this.#details(index),
        });
    }

    /** @param {TakenLog} log @param {unknown} error */
    #sayUnread(log, error) {
        const sentence = `${log.file.name} can't be read any more: it changed or is gone. (${error})`;
        if (log === this.log) this.said.textContent = sentence;
    }

    /** @param {number} index */
    async #details(index) {
        const log = /** @type {TakenLog} */ (this.log);
        const asked = `${this.view.name} ${index}`;
        this.detailed = asked;
        const made = await this.view.details(log, index).catch(() => [make('p', '', 'This can\'t be read any more.')]);
        if (this.detailed !== asked || log !== this.log) return;
        anElement('log-details').replaceChildren(...made, ...this.view === LOG_VIEWS.pieces ? [] : [this.#pieceButton(index)]);
    }

    /**
     * Goes over to the piece that completed what is listed.
     * @param {number} index @returns {HTMLElement}
     */
    #pieceButton(index) {
        const piece = this.view.piece(/** @type {TakenLog} */ (this.log), index);
        const button = make('button', '', `Show piece ${grouped(piece)}`);
        button.setAttribute('type', 'button');
        button.addEventListener('click', () => {
            this.#only(EVERY_ANSWER);
            this.list.choose(piece - 1);
            this.list.box.focus();
        });
        return button;
    }

    /** Chooses what the piece that is typed completed, or the next after it. */
    #jump() {
        const log = /** @type {TakenLog} */ (this.log);
        const field = elementOf('log-piece', HTMLInputElement);
        const wanted = wholeNumber(field.value.replaceAll(',', ''));
        const pieces = log.survey.answers.length;
        const bad = wanted < 1 || wanted > pieces;
        field.setAttribute('aria-invalid', String(bad));
        if (bad) {
            this.desk.say(`The pieces are numbered 1 to ${grouped(pieces)}.`);
            return;
        }
        const count = this.view.count(log);
        let low = 0;
        for (let high = count; low < high;) {
            const middle = Math.floor((low + high) / 2);
            if (this.view.piece(log, middle) < wanted) low = middle + 1;
            else high = middle;
        }
        if (low === count) this.desk.say(`Nothing is listed from piece ${grouped(wanted)} on.`);
        else this.list.choose(low);
    }
}

/** @param {Desk} desk */
export function startLog(desk) {
    new LogPart(desk);
}
