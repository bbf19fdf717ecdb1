// The form by which a word is added or gets other forms: each form is suggested from the first one, shown, and can be changed.
import { ask } from './api.js';
import { KINDS, kindOf, load, nameOf, suggested, wordOf } from './lexicon.js';
import { attempt, complain, field, freshId, isDone, make } from './page.js';

const INPUT = { type: 'text', dir: 'auto', spellcheck: 'false', autocapitalize: 'off', required: true };

// `settings` has the word that gets other forms, or the text to begin with; `done` is called with the forms that were taken.
export function wordForm({ word, text }, done, cancel) {
    const state = { word, kind: word ? word.kind : 'noun', touched: [], inputs: [], fields: make('div', {}) };
    const submit = make('button', { type: 'submit', class: 'main' }, word ? 'Change the forms' : 'Add the word');
    const element = make('form', { class: 'word-form', autocomplete: 'off' }, word ? null : kindChoice(state), state.fields,
        make('div', { class: 'row' }, submit, cancel ? make('button', { type: 'button', onclick: cancel }, 'Cancel') : null));
    element.addEventListener('submit', (event) => {
        event.preventDefault();
        attempt(() => send(state, done), submit);
    });
    showFields(state, word ? word.forms : suggested(state.kind, text || ''));
    return { element, focus: () => given(state).focus() };
}

function kindChoice(state) {
    const name = freshId('kind');
    return make('fieldset', {}, make('legend', {}, 'Kind'), KINDS.map((it) => {
        const choose = () => {
            const { value } = given(state);
            state.kind = it.kind;
            showFields(state, suggested(it.kind, value));
        };
        const input = make('input', { type: 'radio', name, value: it.kind, checked: it.kind === state.kind, onchange: choose });
        return make('label', { class: 'choice' }, input, ' ', it.one, make('small', {}, ' ' + it.example));
    }));
}

// The field of the form by which the word is named.
const given = (state) => state.inputs[kindOf(state.kind).named];

function showFields(state, values) {
    const kind = kindOf(state.kind);
    state.touched = kind.forms.map(() => Boolean(state.word));
    state.inputs = values.map((value, place) => make('input', { ...INPUT, id: freshId('form'), value, oninput: () => typed(state, place) }));
    const order = [kind.named, ...kind.forms.keys()].filter((place, at) => at === 0 || place !== kind.named);
    state.fields.replaceChildren(...order.map((place) => (
        field(kind.forms[place], state.inputs[place], state.touched[place] || place === kind.named ? null : 'suggested; change it where English does'))));
}

function typed(state, place) {
    state.touched[place] = true;
    state.inputs[place].removeAttribute('aria-invalid');
    if (state.inputs[place] !== given(state)) { return; }
    suggested(state.kind, given(state).value.trim()).forEach((form, other) => {
        if (!state.touched[other]) { state.inputs[other].value = form; }
    });
}

async function send(state, done) {
    const forms = state.inputs.map((input) => input.value.trim());
    const change = state.word ? ask('reword', { word: nameOf(state.word), forms }) : ask('word', { kind: state.kind, forms });
    const isSure = await isDone(change).catch((error) => {
        point(state, error, forms);
        throw error;
    });
    await load();
    if (isSure) { return done(forms); }
    const found = wordOf(forms[0]);
    return complain(found && found.forms.join(' ') === forms.join(' ') ? 'A word has these forms now.' : 'No word has these forms, so the change was not done. Try again.');
}

// The field that a refusal speaks of gets the focus.
function point(state, error, forms) {
    const input = state.inputs[error.is('BadForm') ? error.reply.which : forms.indexOf(error.cause === 'refused' ? error.reply.text : '')];
    if (input) {
        input.setAttribute('aria-invalid', 'true');
        input.focus();
    }
}
