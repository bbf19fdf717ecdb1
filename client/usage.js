// The word of an article: its forms, what can be done with it, and which sentences hold it.
import { ask, unless } from './api.js';
import { allWords, kindOf, load, nameOf, tokensOf, wordOf } from './lexicon.js';
import { address, button, complain, count, fill, isDone, make, placeLink, say, visit } from './page.js';
import { wordForm } from './wordform.js';

export function wordPanel(word) {
    const kind = kindOf(word.kind);
    const forms = kind.forms.map((label, place) => [place > 0 ? ', ' : '', make('bdi', {}, word.forms[place]), kind.forms.length > 1 ? ` (${label})` : '']);
    const below = make('div', {});
    return make('section', { class: 'word-panel', 'aria-label': 'The word' }, make('p', {}, kind.one + ': ', forms),
        make('div', { class: 'row' },
            button('Other forms\u2026', () => showReword(word, below)),
            button('Remove the word\u2026', () => showRemove(word, below)),
            button('Sentences with it\u2026', () => showUsage(word, below))), below);
}

const panel = (below, ...children) => fill(below, make('div', { class: 'panel' }, ...children));
const closing = (below) => make('button', { type: 'button', onclick: () => fill(below) }, 'Close');

function showReword(word, below) {
    const form = wordForm({ word }, (forms) => {
        say('The word has other forms now.');
        visit(address(forms[kindOf(word.kind).named]));
    }, () => fill(below));
    panel(below, make('p', { class: 'quiet' }, 'A form that a sentence uses can\'t be changed; the others can.'), form.element);
    form.focus();
}

function showRemove(word, below) {
    const sure = button('Remove it', () => remove(word), { class: 'main' });
    panel(below, make('p', {}, 'A word can be removed while its article is empty and no sentence uses it. It can be added again later.'),
        make('div', { class: 'row' }, sure, closing(below)));
    sure.focus();
}

async function remove(word) {
    const done = await isDone(ask('unword', { word: nameOf(word) }));
    await load();
    if (done) {
        say('Removed the word ', make('bdi', {}, nameOf(word)), '.');
        visit('#/');
    } else if (wordOf(nameOf(word))) {
        complain('The word is still there, so it was not removed. Try again.');
    }
}

function showUsage(word, below) {
    const start = button('Read them', () => readAll(word, below), { class: 'main' });
    panel(below, make('p', {}, `To find the sentences with this word, all ${count(allWords().length, 'article')} are read, one after the other. `
        + 'Their questions are answered on the way, so this can take a while, and others wait for the wiki meanwhile.'),
    make('div', { class: 'row' }, start, closing(below)));
    start.focus();
}

async function readAll(word, below) {
    const names = allWords().map(nameOf);
    const state = { isStopped: false, found: 0 };
    const progress = make('progress', { max: names.length, value: 0, 'aria-label': 'Articles read' });
    const told = make('p', { role: 'status' }, 'Reading\u2026');
    const list = make('ul', {});
    const stop = make('button', { type: 'button', onclick: () => { state.isStopped = true; } }, 'Stop');
    const end = make('div', { class: 'row' }, stop);
    panel(below, told, progress, list, end);
    stop.focus();
    try {
        for (const name of names) {
            if (state.isStopped || !below.isConnected) { break; }
            await readOne(name, word, list, state);
            progress.value += 1;
        }
    } finally {
        progress.remove();
        told.textContent = `${count(state.found, 'sentence')} with this word in ${count(progress.value, 'article')}` + (progress.value < names.length ? '; stopped before the end.' : '.');
        fill(end, closing(below));
    }
}

// A word that was removed meanwhile has no article any more.
async function readOne(name, word, list, state) {
    const { sentences } = await ask('read', { article: name }).catch(unless('NoWord', { sentences: [] }));
    sentences.forEach((sentence, at) => {
        if (!tokensOf(sentence.text).some((token) => word.forms.includes(token))) { return; }
        state.found += 1;
        list.append(make('li', {}, make('a', { href: address(name, at) }, make('bdi', {}, sentence.text)), ' ', make('small', {}, placeLink(name, at))));
    });
}
