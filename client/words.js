// The page of all words: by kind, with a filter, and a form that adds one.
import { KINDS, allWords, fitting, load, nameOf, wordOf } from './lexicon.js';
import { attempt, count, field, fill, make, say, wordLink } from './page.js';
import { wordForm } from './wordform.js';

const [SHOWN_OF_A_KIND, MORE_OF_A_KIND] = [100, 500];

export function wordsView() {
    const limits = new Map();
    const total = make('p', { class: 'quiet', role: 'status' });
    const lists = make('div', { class: 'kinds' });
    const show = () => showLists(lists, total, filter.value, limits);
    const filter = make('input', { id: 'filter', type: 'search', dir: 'auto', spellcheck: 'false', autocapitalize: 'off', autocomplete: 'off', oninput: () => { limits.clear(); show(); } });
    const adding = make('section', { class: 'panel', 'aria-label': 'Add a word' });
    const renew = () => {
        const form = wordForm({}, (forms) => {
            show();
            renew().focus();
            say('Added ', wordLink(nameOf(wordOf(forms[0]))), '. Its article is empty.');
        });
        fill(adding, make('h2', {}, 'Add a word'), form.element);
        return form;
    };
    renew();
    attempt(() => load().then(show));
    const element = make('div', { class: 'words-page' },
        make('section', { 'aria-label': 'All words' }, make('h1', {}, 'Words'), field('Filter', filter), total, lists), adding);
    return { element, title: 'Words', close: () => {} };
}

function showLists(lists, total, typed, limits) {
    const fits = fitting(typed);
    total.textContent = (fits === allWords() ? '' : `${fits.length.toLocaleString('en')} of `) + count(allWords().length, 'word');
    fill(lists, KINDS.map((it) => kindList(it, fits.filter((word) => word.kind === it.kind), limits, () => showLists(lists, total, typed, limits))));
}

// The focus goes to the first word that is new.
function kindList({ kind, title }, words, limits, again) {
    const limit = limits.get(kind) || SHOWN_OF_A_KIND;
    const left = words.length - limit;
    const more = () => {
        again(limits.set(kind, limit + MORE_OF_A_KIND));
        document.querySelectorAll(`.kind.${kind} a`)[limit].focus();
    };
    return make('section', { class: 'kind ' + kind }, make('h2', {}, title, make('small', {}, ' ' + String(words.length))),
        make('ul', {}, words.slice(0, limit).map((word) => make('li', {}, wordLink(nameOf(word))))),
        left > 0 ? make('button', { type: 'button', onclick: more }, `Show ${Math.min(left, MORE_OF_A_KIND)} more of ${left}`) : null);
}
