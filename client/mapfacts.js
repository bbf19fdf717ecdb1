// What is asserted of classes and names, gathered article by article: by `read`, and by `axioms` for sentences of new shapes.
import { ask, unless } from './api.js';
import { allWords, load, nameOf } from './lexicon.js';
import { axiomsOf, forget, learn } from './mapshapes.js';

// Calls `progress` with how many articles were read and how many there are; it tells whether to go on.
export async function gather(progress) {
    await load();
    const names = allWords().map(nameOf);
    const ofKind = (kind) => allWords().filter((word) => word.kind === kind).map(nameOf);
    const facts = { classes: ofKind('noun'), names: ofKind('name'), below: new Map(), classesOf: new Map(), relations: [], others: 0 };
    for (const [place, article] of names.entries()) {
        const axioms = await axiomsIn(article, () => progress(place, names.length));
        if (axioms === null) { return null; }
        axioms.forEach((axiom) => { facts.others += note(facts, parsed(axiom)) ? 0 : 1; });
    }
    return facts;
}

// The axioms of what an article asserts. Those that are asked for count where its revision is the same afterwards: else they may
// be those of another sentence, which stood at the place by then.
async function axiomsIn(article, goesOn) {
    let [last, asked] = [null, []];
    try {
        while (goesOn()) {
            const { revision, sentences } = await ask('read', { article }).catch(unless('NoWord', { sentences: [] }));
            if (revision !== last) { asked.forEach(forget); }
            [last, asked] = [revision, []];
            for (const [at, { text, status }] of sentences.entries()) {
                if (status === 'asserted' && !axiomsOf(text)) {
                    asked.push(text);
                    learn(text, (await ask('axioms', { article, at }).catch(unless('NoPlace', {}))).axioms || []);
                }
            }
            if (asked.length === 0) { return sentences.filter((it) => it.status === 'asserted').flatMap((it) => axiomsOf(it.text)); }
        }
        return null;
    } finally {
        asked.forEach(forget);
    }
}

// An axiom as a tree: a word is a text without its colon, anything else a list of an operator and its arguments.
export function parsed(text) {
    const open = [[]];
    for (const [, name, begins] of text.matchAll(/([^\s()]+)(\()?|\)/g)) {
        if (begins) {
            open.push([name]);
        } else {
            const done = name ? name.replace(/^:/, '') : open.pop();
            open[open.length - 1].push(done);
        }
    }
    return open[0][0];
}

const relate = (facts, role, from, to) => facts.relations.push(isWord(role) ? { role, from, to } : { role: role[1], from: to, to: from });
const parts = (tree, operator) => tree[0] === operator ? tree.slice(1).flatMap((part) => parts(part, operator)) : [tree];
const isWord = (tree) => typeof tree === 'string' && !tree.startsWith('owl:');
const put = (map, key, value) => map.set(key, (map.get(key) || new Set()).add(value));

// Notes what can be drawn of an axiom, and tells whether anything can.
function note(facts, [kind, one, two, three]) {
    switch (kind) {
    case 'SubClassOf': return parts(one, 'ObjectUnionOf').filter((low) => (
        parts(two, 'ObjectIntersectionOf').filter((high) => isWord(low) && isWord(high) && put(facts.below, low, high)).length > 0)).length > 0;
    case 'ClassAssertion': return parts(one, 'ObjectIntersectionOf').filter((part) => (
        isWord(part) ? put(facts.classesOf, two, part) : part[0] === 'ObjectHasValue' && relate(facts, part[1], two, part[2]))).length > 0;
    case 'ObjectPropertyAssertion': return relate(facts, one, two, three);
    case 'SameIndividual': return relate(facts, 'is', one, two);
    default: return false;
    }
}
