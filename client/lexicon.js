// The words of the wiki as this page knows them, their forms, and how a text is cut into tokens.
import { ask } from './api.js';

// The five kinds; `named` is the place of the form by which a word is named, which is given first where a word is added.
export const KINDS = [
    { kind: 'noun', title: 'Nouns', one: 'noun', named: 0, forms: ['singular', 'plural'], example: 'country, countries' },
    { kind: 'name', title: 'Names', one: 'proper name', named: 0, forms: ['name'], example: 'Switzerland' },
    { kind: 'verb', title: 'Verbs', one: 'verb', named: 1, forms: ['third person', 'infinitive', 'past participle'], example: 'borders, border, bordered' },
    { kind: 'of', title: 'Of-constructs', one: 'of-construct', named: 0, forms: ['noun before of'], example: 'capital (of)' },
    { kind: 'adjective', title: 'Adjectives', one: 'adjective', named: 0, forms: ['adjective with its preposition'], example: 'located-in' },
];

let words = [];
let byForm = new Map();
let plainForms = new Map();

export async function load() {
    ({ words } = await ask('words', {}));
    byForm = new Map(words.flatMap((word) => word.forms.map((form) => [form, word])));
    plainForms = new Map(words.map((word) => [word, word.forms.map(plain)]));
}

export const allWords = () => words;
export const wordOf = (form) => byForm.get(form);
export const kindOf = (kind) => KINDS.find((it) => it.kind === kind);
export const nameOf = (word) => word.forms[kindOf(word.kind).named];

// A text as it is compared with what a person types: letters that look alike are alike, and so are great and small ones.
export const plain = (text) => text.normalize('NFC').toLowerCase();

// The words with what is typed in a form of theirs.
export function fitting(typed) {
    const wanted = plain(typed.trim());
    return wanted === '' ? words : words.filter((word) => plainForms.get(word).some((form) => form.includes(wanted)));
}

// The first of these: those with this very form, those that begin with it, then those that have it inside.
export function lookUp(typed, most) {
    const wanted = plain(typed.trim());
    const fits = [(form) => form === wanted, (form) => form.startsWith(wanted), () => true];
    const inside = wanted === '' ? [] : fitting(typed);
    return [...new Set(fits.flatMap((fit) => inside.filter((word) => plainForms.get(word).some(fit))))].slice(0, most);
}

const SIBILANT = /(?:s|x|z|ch|sh)$/;
const CONSONANT_Y = /[^aeiou-]y$/;
const withS = (text) => SIBILANT.test(text) ? text + 'es' : (CONSONANT_Y.test(text) ? text.slice(0, -1) + 'ies' : text + 's');
const withD = (text) => text.endsWith('e') ? text + 'd' : (CONSONANT_Y.test(text) ? text.slice(0, -1) + 'ied' : text + 'ed');

// All forms of a word of this kind whose given form is this text.
export function suggested(kind, text) {
    if (text === '') { return kindOf(kind).forms.map(() => ''); }
    return kind === 'noun' ? [text, withS(text)] : (kind === 'verb' ? [withS(text), text, withD(text)] : [text]);
}

// The tokens of a text: a last full stop or question mark is one of its own.
export const tokensOf = (text) => text.trim().replace(/[.?]$/, ' $&').split(/\s+/).filter((part) => part !== '');
export const isEnd = (token) => token === '.' || token === '?';
export const textOf = (tokens) => tokens.reduce((text, token) => text + (text === '' || isEnd(token) ? '' : ' ') + token, '');
