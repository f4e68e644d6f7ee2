// Octets as hex, files in and out, and the words of a refusal.
import { WORDS } from './words.js';

/** @param {number} value @param {number} digits @returns {string} upper case, with zeros before it */
export function hexNumber(value, digits) {
    return value.toString(16).toUpperCase().padStart(digits, '0');
}

/** @param {Uint8Array} octets @param {string} [between] @returns {string} two digits for each octet, upper case */
export function hex(octets, between = '') {
    return Array.from(octets, (octet) => hexNumber(octet, 2)).join(between);
}

/**
 * Hands octets to the browser as a file to keep.
 * @param {string} name @param {Uint8Array} octets
 */
export function saveFile(name, octets) {
    const link = document.createElement('a');
    link.href = URL.createObjectURL(new Blob([octets], { type: 'application/octet-stream' }));
    link.download = name;
    link.click();
    // The browser reads the address after this turn; a minute is more than it takes.
    setTimeout(() => URL.revokeObjectURL(link.href), 60_000);
}

/**
 * Takes a file that is dropped on an element or chosen by an input. Of several, the first counts.
 * @param {HTMLElement} element @param {HTMLInputElement} input @param {(file: File) => void} take
 */
export function takesFiles(element, input, take) {
    /** @param {FileList | null | undefined} files */
    const first = (files) => {
        if (files && files.length > 0) take(files[0]);
    };
    element.addEventListener('dragover', (event) => {
        event.preventDefault();
        element.classList.add('dropping');
    });
    element.addEventListener('dragleave', (event) => {
        if (!element.contains(/** @type {Node | null} */ (event.relatedTarget))) element.classList.remove('dropping');
    });
    element.addEventListener('drop', (event) => {
        event.preventDefault();
        element.classList.remove('dropping');
        first(event.dataTransfer?.files);
    });
    input.addEventListener('change', () => {
        first(input.files);
        input.value = ''; // so that the same file can be chosen again
    });
}

/**
 * The sentence of a refusal, with the words that the proved programs use.
 * @param {number} number @param {string} [what] what is refused, as 'the current plan: entry 7' @returns {string}
 */
export function refusal(number, what) {
    return `Refused by ${[number, what, WORDS.get(number)].filter((part) => part !== undefined && part !== '').join(': ')}.`;
}

/** @param {File} file @param {number} most @returns {Promise<Uint8Array>} its first octets, that many at most */
export async function firstOctets(file, most) {
    return new Uint8Array(await file.slice(0, most).arrayBuffer());
}
