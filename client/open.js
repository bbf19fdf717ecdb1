// The field that opens any word's article.
import { load, lookUp, nameOf, wordOf } from './lexicon.js';
import { address, attempt, complain, fill, make, quoted, visit } from './page.js';

const MOST = 12;

export function setUpOpen() {
    const [input, list] = [document.getElementById('open-word'), document.getElementById('open-list')];
    const suggest = () => fill(list, lookUp(input.value, MOST).map((word) => make('option', { value: nameOf(word) }, word.kind)));
    input.addEventListener('focus', () => attempt(load));
    input.addEventListener('input', suggest);
    document.getElementById('open').addEventListener('submit', (event) => {
        event.preventDefault();
        attempt(() => openTyped(input, input.value.trim()));
    });
    document.addEventListener('keydown', (event) => {
        const isFree = !document.activeElement || !document.activeElement.matches('input, textarea, select');
        if (event.key === '/' && isFree && !event.ctrlKey && !event.metaKey && !event.altKey) {
            event.preventDefault();
            input.focus();
        }
    });
}

// The word with the form that was typed, or else the first one that fits.
async function openTyped(input, typed) {
    if (typed === '') { return; }
    await load();
    const found = wordOf(typed) || lookUp(typed, MOST)[0];
    if (found) {
        input.value = '';
        input.blur();
        visit(address(nameOf(found)));
    } else {
        complain('No word has the form ', quoted(typed), '. ', make('a', { href: address(typed) }, 'Add it'), '.');
    }
}
