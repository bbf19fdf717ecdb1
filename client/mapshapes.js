// The axioms of a sentence by those of others of its shape, which are equal to it but for their words. The wiki doesn't tell this:
// it is inferred here, since no rule and no meaning looks at a word but by its kind, its form and where else it stands.
import { nameOf, tokensOf, wordOf } from './lexicon.js';

// For each shape the sentences that were asked for: the names of their words, with a space between two, and their axioms.
const told = new Map();

// A token of the grammar stands for itself, and a word for its kind, the forms that are this text, and which of the words it is.
function placeOf(text) {
    const tokens = tokensOf(text);
    const words = [...new Set(tokens.map(wordOf).filter((word) => word))];
    const partOf = (token, word) => word ? [word.kind, word.forms.map((form) => form === token), words.indexOf(word)] : token;
    const shape = JSON.stringify(tokens.map((token) => partOf(token, wordOf(token))));
    if (!told.has(shape)) { told.set(shape, new Map()); }
    return { sentences: told.get(shape), names: words.map(nameOf).join(' ') };
}

export function learn(text, axioms) {
    const { sentences, names } = placeOf(text);
    sentences.set(names, axioms);
}

export function forget(text) {
    const { sentences, names } = placeOf(text);
    sentences.delete(names);
}

// What was asked for this sentence, or is inferred for it; undefined where it has to be asked for. Nothing is inferred but where
// the axioms of the first sentence of a shape lead to those that the second one was told to have.
export function axiomsOf(text) {
    const { sentences, names } = placeOf(text);
    const [first, second] = sentences;
    if (sentences.has(names) || second === undefined) { return sentences.get(names); }
    return renamed(first, second[0]).join('\n') === second[1].join('\n') ? renamed(first, names) : undefined;
}

// Axioms with other words in the places of these. What is no word of the sentence becomes what no word is.
function renamed([names, axioms], others) {
    const all = others.split(' ');
    const other = new Map(names.split(' ').map((name, place) => [name, all[place]]));
    return axioms.map((axiom) => axiom.replace(/(^|[ (]):([^ ()]*)/g, (whole, before, name) => `${before}:${other.get(name) || '?'}`));
}
