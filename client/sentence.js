// One sentence of an article: its words as links, its status in words and colour, its answers, and what can be done with it.
import { ask } from './api.js';
import { isEnd, nameOf, tokensOf, wordOf } from './lexicon.js';
import { button, fill, freshId, make, wordLink } from './page.js';

const STATUSES = new Map([
    ['asserted', ['asserted', 'It counts: all asserted sentences together have a model.']],
    ['retracted', ['retracted', 'A person has taken it back, so it doesn\'t count.']],
    ['contradiction', ['contradiction', 'It contradicts what is asserted, so it doesn\'t count. Retract or edit what it contradicts and reassert it, or edit it.']],
    ['budget', ['undecided', 'The search for a contradiction was ended at its limit, so it doesn\'t count. Reassert it after a change, or make it simpler.']],
    ['outside', ['outside OWL', 'It can be read, but it is no axiom of OWL, so it doesn\'t count.']],
    ['question', ['question', 'It asks for all names that are known to be in a class.']],
    ['question-outside', ['question outside OWL', 'It asks for no class of OWL, so it has no answer.']],
]);

const CAUSES = new Map([
    ['shared', 'It speaks of two things at once that only one class could hold together, as in \u201cEvery man who owns a dog sees the dog.\u201d'],
    ['cycle', 'Its relations go round in a circle, or from a thing to itself, as in \u201cEvery man sees itself.\u201d'],
    ['noroot', 'Nothing leads from a name to what it speaks of, as in \u201cA man owns a dog.\u201d'],
    ['equality', 'It says that two things are the same where a class would have to say so, as in \u201cEvery man is Mary.\u201d'],
    ['free', 'It takes up a thing again from a place where that can\'t be seen.'],
]);

export const statusName = (status) => (STATUSES.get(status) || [status])[0];
export const statusText = (status) => (STATUSES.get(status) || ['', ''])[1];

// The words of a text as links to their articles.
export function linked(text) {
    return tokensOf(text).map((token, place) => {
        const word = wordOf(token);
        const shown = word ? wordLink(nameOf(word), token) : make('bdi', {}, token);
        return [place === 0 || isEnd(token) ? '' : ' ', shown];
    });
}

export function answersOf(sentence) {
    if (!sentence.answers) { return null; }
    const list = (names, kind) => names.map((name) => make('li', { class: kind }, wordLink(name), kind ? make('small', {}, ' not known') : null));
    const none = sentence.answers.length + sentence.unknown.length === 0;
    return make('ul', { class: 'answers', 'aria-label': 'Answers' },
        none ? make('li', { class: 'quiet' }, 'no name is known') : [list(sentence.answers, null), list(sentence.unknown, 'unknown')]);
}

// The actions are called with the row, whose place is looked up at that moment.
export function row(sentence, actions) {
    const panelId = freshId('panel');
    const toggle = make('button', { type: 'button', class: 'more', 'aria-expanded': 'false', 'aria-controls': panelId, 'aria-describedby': panelId + '-text', title: 'What can be done with this sentence' },
        make('span', { 'aria-hidden': 'true' }, '\u22ef'), make('span', { class: 'unseen' }, 'Actions'));
    const panel = make('div', { id: panelId, class: 'actions', hidden: true });
    const element = make('li', { class: 'sentence', tabindex: '-1', 'data-status': sentence.status },
        make('div', { class: 'line' }, make('p', { id: panelId + '-text', class: 'text' }, linked(sentence.text)), make('span', { class: 'status' }, statusName(sentence.status)), toggle),
        make('div', { class: 'answer-place' }, answersOf(sentence)), panel);
    toggle.addEventListener('click', () => {
        panel.hidden = !panel.hidden;
        toggle.setAttribute('aria-expanded', String(!panel.hidden));
        fillPanel(panel, element, sentence, actions);
        (panel.hidden ? toggle : panel.querySelector('button')).focus();
    });
    panel.addEventListener('keydown', (event) => {
        if (event.key === 'Escape') { toggle.click(); }
    });
    return element;
}

export function setAnswers(element, sentence) {
    const place = element.querySelector('.answer-place');
    if (!place.contains(document.activeElement)) { fill(place, answersOf(sentence)); }
}

const TAKEN_UP = new Set(['retracted', 'contradiction', 'budget']);

function fillPanel(panel, element, sentence, actions) {
    const details = make('div', { class: 'details' }, make('p', {}, statusText(sentence.status), ' ', CAUSES.get(sentence.cause) || ''));
    fill(panel, make('div', { class: 'row' },
        button('Edit', () => actions.edit(element)),
        button('Insert before', () => actions.insert(element)),
        sentence.status === 'asserted' ? button('Retract', () => actions.retract(element)) : null,
        TAKEN_UP.has(sentence.status) ? button('Reassert', () => actions.reassert(element)) : null,
        button('Remove', () => actions.remove(element)),
        button('Details', () => showDetails(details, element, sentence, actions))), details);
}

async function showDetails(details, element, sentence, actions) {
    const reply = await actions.axioms(element);
    if (reply === null) { return; }
    const code = await ask('parse', { text: sentence.text });
    const lines = (texts) => texts.map((text) => make('code', {}, make('bdi', {}, text)));
    fill(details,
        make('p', {}, statusText(sentence.status), ' ', CAUSES.get(reply.cause || sentence.cause) || ''),
        reply.axioms && reply.axioms.length > 0 ? make('div', {}, make('h2', {}, reply.axioms.length === 1 ? 'Axiom' : 'Axioms'), lines(reply.axioms)) : null,
        reply.axioms && reply.axioms.length === 0 && !reply.cause ? make('p', {}, 'It says nothing: it has no axioms.') : null,
        reply.class ? make('div', {}, make('h2', {}, 'Class that is asked for'), lines([reply.class])) : null,
        make('div', {}, make('h2', {}, 'Code of its reading'), lines([code.code.join(' ')])));
}
