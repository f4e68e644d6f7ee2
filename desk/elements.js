// Elements of the page, found and made, and numbers in words.

/** @template {HTMLElement} T @param {string} id @param {new () => T} type @returns {T} */
export function elementOf(id, type) {
    const found = document.getElementById(id);
    if (!(found instanceof type)) throw new TypeError(`the page has no ${id}`);
    return found;
}

/** @param {string} id @returns {HTMLElement} */
export function anElement(id) {
    return elementOf(id, HTMLElement);
}

/** @param {string} tag @param {string} className @param {(Node | string)[]} inside @returns {HTMLElement} */
export function make(tag, className, ...inside) {
    const made = document.createElement(tag);
    if (className !== '') made.className = className;
    made.append(...inside);
    return made;
}

/** @param {'row' | 'col'} scope @param {string} className @param {(Node | string)[]} inside @returns {HTMLElement} */
export function makeHead(scope, className, ...inside) {
    const made = make('th', className, ...inside);
    made.setAttribute('scope', scope);
    return made;
}

/** @param {number} value @returns {string} with commas */
export function grouped(value) {
    return value.toLocaleString('en-GB');
}

/** @param {number} value @param {string} one @param {string} [several] @returns {string} */
export function counted(value, one, several = `${one}s`) {
    return `${grouped(value)} ${value === 1 ? one : several}`;
}
