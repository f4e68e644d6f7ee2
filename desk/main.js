// The frame: the tabs, the address, and each part started by itself.
import { Calls } from './calls.js';
import { Desk } from './state.js';
import { startPlan } from './plan.js';
import { startSchedule } from './schedule.js';
import { startCheck } from './check.js';
import { startBoard } from './board.js';
import { startText } from './text.js';
import { startLog } from './log.js';

/** @type {[string, (desk: Desk) => unknown][]} */
const PARTS = [
    ['plan', startPlan], ['schedule', startSchedule], ['check', startCheck],
    ['board', startBoard], ['text', startText], ['log', startLog],
];

/** @param {string} id @returns {HTMLElement} */
function frameElement(id) {
    return /** @type {HTMLElement} */ (document.getElementById(id));
}

/** @param {string} part @returns {string} the part's name as its tab has it */
function partName(part) {
    return frameElement(`tab-${part}`).textContent ?? '';
}

/**
 * Shows a part and hides the others.
 * @param {string} shown
 */
function showPart(shown) {
    for (const [part] of PARTS) {
        const tab = frameElement(`tab-${part}`);
        tab.setAttribute('aria-selected', String(part === shown));
        tab.tabIndex = part === shown ? 0 : -1;
        frameElement(part).hidden = part !== shown;
    }
    frameElement('part-name').textContent = `: ${partName(shown)}`;
    document.title = `Csobvarit desk: ${partName(shown)}`;
}

/** @param {string} part @returns {string} the part, or the first where there is none of that name */
function knownPart(part) {
    return PARTS.some(([name]) => name === part) ? part : PARTS[0][0];
}

/**
 * Tabs by click and by keys.
 * @param {(part: string) => void} show
 */
function startTabs(show) {
    const names = PARTS.map(([part]) => part);
    frameElement('tabs').addEventListener('keydown', (event) => {
        const at = names.findIndex((part) => document.activeElement === frameElement(`tab-${part}`));
        const places = new Map([['ArrowLeft', at - 1], ['ArrowRight', at + 1], ['Home', 0], ['End', names.length - 1]]);
        const place = places.get(event.key);
        if (at < 0 || place === undefined || event.altKey || event.ctrlKey || event.metaKey) return;
        event.preventDefault();
        const part = names[(place + names.length) % names.length];
        show(part);
        frameElement(`tab-${part}`).focus();
    });
    for (const part of names) frameElement(`tab-${part}`).addEventListener('click', () => show(part));
}

/**
 * Starts a part; one that fails is said so in its place, and the others go on.
 * @param {string} part @param {() => unknown} start
 */
async function startPart(part, start) {
    try {
        await start();
    } catch (error) {
        console.error(error);
        const sentence = document.createElement('p');
        sentence.className = 'wrong';
        sentence.textContent = `The part ${partName(part)} could not start: ${error}`;
        frameElement(part).prepend(sentence);
    }
}

/** The page asks before it is closed with something unsaved, and doesn't leave for a file dropped beside the places for it. */
function guardPage(/** @type {Desk} */ desk) {
    window.addEventListener('beforeunload', (event) => {
        desk.writeAddress();
        if (desk.unsaved.size === 0) return;
        event.preventDefault();
        event.returnValue = ''; // older browsers ask by this alone
    });
    window.addEventListener('dragover', (event) => {
        if (event.defaultPrevented || !event.dataTransfer?.types.includes('Files')) return;
        event.preventDefault();
        event.dataTransfer.dropEffect = 'none';
    });
    window.addEventListener('drop', (event) => {
        if (event.dataTransfer?.types.includes('Files')) event.preventDefault();
    });
}

async function startDesk() {
    const wasm = Uint8Array.from(atob((frameElement('wasm').textContent ?? '').trim()), (letter) => letter.charCodeAt(0));
    const calls = await Calls.open(wasm);
    /** @param {string} part */
    const show = (part) => {
        showPart(knownPart(part));
        desk.partChanged(knownPart(part));
    };
    const desk = new Desk(calls, frameElement('status'), show);
    guardPage(desk);
    startTabs((part) => {
        if (part !== desk.part) desk.say(''); // what was said belongs to the part that is left
        show(part);
    });
    show(desk.restore(location.hash));
    for (const [part, start] of PARTS) void startPart(part, () => start(desk));
    document.querySelector('main')?.removeAttribute('aria-busy');
    window.addEventListener('hashchange', () => show(desk.restore(location.hash)));
}

startDesk().catch((error) => {
    console.error(error);
    frameElement('status').textContent = `The desk could not start: ${error}`;
});
