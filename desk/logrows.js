// A list of rows of which only those in sight are laid out, so that there may be millions of them.
import { make, makeHead } from './elements.js';

/** @typedef {{ name: string, className: string }} Column */
/**
 * @typedef RowSource
 * @property {Column[]} columns
 * @property {number} count of the rows
 * @property {(index: number) => Promise<string[]>} row its cells
 * @property {(index: number) => void} chosen
 */

/** Browsers make no element higher than some 17 million pixels: where rows take more than this, the scroll bar goes faster. */
const MOST_HEIGHT = 8_000_000;

export class RowList {
    /** @param {HTMLElement} box that scrolls and takes the keys */
    constructor(box) {
        this.box = box;
        this.head = make('tr', '');
        this.body = make('tbody', '');
        this.space = make('div', '', make('table', '', make('thead', '', this.head), this.body));
        /** @type {RowSource} */
        this.source = { columns: [], count: 0, row: async () => [], chosen: () => {} };
        this.top = 0;
        this.active = 0;
        this.visible = 1;
        this.height = 1;
        /** Where the scroll bar was put; where it is elsewhere, a hand has moved it. */
        this.put = 0;
        /** Parts of a row that the wheel has gone. */
        this.wheeled = 0;
        this.laying = false;
        this.stale = false;
        box.append(this.space);
        this.#listen();
    }

    #listen() {
        const { box } = this;
        box.tabIndex = 0;
        box.setAttribute('role', 'grid');
        this.head.setAttribute('role', 'row');
        for (const part of this.space.querySelectorAll('table, thead, tbody')) part.setAttribute('role', 'presentation');
        box.addEventListener('scroll', () => this.#scrolled());
        box.addEventListener('keydown', (event) => this.#key(event));
        box.addEventListener('wheel', (event) => this.#wheel(event), { passive: false });
        this.body.addEventListener('click', (event) => {
            const row = event.target instanceof Element ? event.target.closest('tr') : null;
            if (row) this.choose(Number(row.dataset.index));
        });
        new ResizeObserver(() => this.#measure()).observe(box);
    }

    /**
     * Lists other rows, the first of them chosen.
     * @param {RowSource} source
     */
    show(source) {
        this.source = source;
        this.head.replaceChildren(...source.columns.map(({ name, className }) => makeHead('col', className, name)));
        for (const head of this.head.children) head.setAttribute('role', 'columnheader');
        this.box.setAttribute('aria-rowcount', String(source.count + 1));
        this.box.style.setProperty('--rows', String(Math.min(source.count, 1000)));
        this.body.replaceChildren();
        this.top = 0;
        this.#measure();
        this.choose(0);
    }

    /**
     * Chooses a row, and brings it into sight: by as little as that takes, or in the middle where it is far.
     * @param {number} index
     */
    choose(index) {
        const { count, chosen } = this.source;
        const { top, visible } = this;
        this.active = Math.max(0, Math.min(index, count - 1));
        const near = Math.max(this.active - visible + 1, Math.min(top, this.active));
        this.#moveTo(Math.abs(near - top) > visible ? this.active - Math.floor(visible / 2) : near);
        if (count > 0) chosen(this.active);
    }

    /** @returns {number} the last row that can be at the top */
    #lastTop() {
        return Math.max(0, this.source.count - this.visible);
    }

    /** @returns {number} how far the scroll bar goes, in pixels */
    #range() {
        return Math.min(this.#lastTop() * this.height, MOST_HEIGHT);
    }

    #measure() {
        if (matchMedia('print').matches) return; // on paper stand the rows that were in sight
        this.height = this.head.offsetHeight || this.height;
        this.visible = Math.max(1, Math.floor(this.box.clientHeight / this.height) - 1);
        this.space.style.height = `${this.box.clientHeight + this.#range()}px`;
        this.#moveTo(this.top);
    }

    /** @param {number} top */
    #moveTo(top) {
        this.top = Math.max(0, Math.min(top, this.#lastTop()));
        this.box.scrollTop = this.top / (this.#lastTop() || 1) * this.#range();
        this.put = this.box.scrollTop;
        void this.#lay();
    }

    #scrolled() {
        if (Math.abs(this.box.scrollTop - this.put) < 1) return;
        this.put = this.box.scrollTop;
        this.top = Math.min(this.#lastTop(), Math.round(this.put / (this.#range() || 1) * this.#lastTop()));
        void this.#lay();
    }

    /**
     * The wheel goes by rows also where the scroll bar doesn't.
     * @param {WheelEvent} event
     */
    #wheel(event) {
        if (this.#lastTop() * this.height <= MOST_HEIGHT || event.ctrlKey || event.deltaY === 0) return;
        event.preventDefault();
        this.wheeled += event.deltaY / [this.height, 1, 1 / this.visible][event.deltaMode];
        const rows = Math.trunc(this.wheeled);
        this.wheeled -= rows;
        this.#moveTo(this.top + rows);
    }

    /** @param {KeyboardEvent} event */
    #key(event) {
        const { active, visible } = this;
        const place = new Map([
            ['ArrowUp', active - 1], ['ArrowDown', active + 1], ['PageUp', active - visible], ['PageDown', active + visible],
            ['Home', 0], ['End', this.source.count - 1],
        ]).get(event.key);
        if (place === undefined || event.altKey || event.ctrlKey || event.metaKey) return;
        event.preventDefault();
        this.choose(place);
    }

    /** Lays out the rows in sight as soon as they are read; what is asked for meanwhile comes after them. */
    async #lay() {
        this.stale = true;
        if (this.laying) return;
        this.laying = true;
        while (this.stale) {
            this.stale = false;
            const { source, top } = this;
            const length = Math.min(this.visible, source.count - top);
            const rows = await Promise.all(Array.from({ length }, (_, before) => source.row(top + before)));
            const made = rows.map((cells, before) => this.#row(top + before, cells, source.columns));
            if (source === this.source) this.body.replaceChildren(...made);
        }
        this.laying = false;
        this.box.setAttribute('aria-activedescendant', `${this.box.id}-${this.active}`);
    }

    /** @param {number} index @param {string[]} cells @param {Column[]} columns */
    #row(index, cells, columns) {
        const row = make('tr', '', ...cells.map((cell, column) => make('td', columns[column].className, cell)));
        for (const cell of row.children) cell.setAttribute('role', 'gridcell');
        row.id = `${this.box.id}-${index}`;
        row.dataset.index = String(index);
        row.setAttribute('role', 'row');
        row.setAttribute('aria-rowindex', String(index + 2));
        row.setAttribute('aria-selected', String(index === this.active));
        return row;
    }
}
