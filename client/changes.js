// How an article changed, and how one of its sentences is changed without overwriting what somebody else did.
import { ask } from './api.js';
import { complain, isDone, make } from './page.js';

export const sameSentence = (one, other) => one !== undefined && other !== undefined && one.text === other.text && one.status === other.status;
export const sameSentences = (one, other) => one.length === other.length && one.every((sentence, at) => sameSentence(sentence, other[at]));

// For each sentence of `after` its place in `before`, in the same order, or -1 where it is new.
export function matches(before, after) {
    const last = [before.length - 1, after.length - 1];
    let same = 0;
    while (same < Math.min(before.length, after.length) && sameSentence(before[last[0] - same], after[last[1] - same])) { same += 1; }
    let next = 0;
    return after.map((sentence, place) => {
        const isOfEnd = place > last[1] - same && last[0] - last[1] + place >= next;
        const at = isOfEnd ? last[0] - last[1] + place : before.findIndex((it, old) => old >= next && sameSentence(it, sentence));
        if (at >= 0) { next = at + 1; }
        return at;
    });
}

// What changed between two readings of an article, as a list.
export function whatChanged(before, after) {
    const found = matches(before.sentences, after.sentences);
    const item = (how, it) => make('li', {}, make('strong', {}, how), ': ', make('bdi', {}, it.text), ` (${it.status})`);
    return make('ul', { class: 'changed' },
        before.sentences.filter((it, at) => !found.includes(at)).map((it) => item('gone', it)),
        after.sentences.filter((it, at) => found[at] === -1).map((it) => item('new', it)));
}

export const isSameAt = (shown, now, at) => at === shown.sentences.length ? now.sentences.length === at : sameSentence(shown.sentences[at], now.sentences[at]);

// Sends a change of the sentence at this place where it is still the one that was shown, and reads what came of it.
export async function change(article, shown, at, name, members) {
    const before = await ask('read', { article });
    if (!isSameAt(shown, before, at)) {
        complain('Nothing was sent, since somebody else changed this place of the article. Look at it, and try again.', whatChanged(shown, before));
        return { now: before, done: false };
    }
    const done = await isDone(ask(name, { article, at, ...members }));
    const now = await ask('read', { article });
    compare(before, now, done);
    return { now, done };
}

// Tells what happened, where that isn't just the one change that was asked for.
export function compare(before, now, done) {
    if (!done && now.revision === before.revision && sameSentences(before.sentences, now.sentences)) {
        complain('The article is as it was before, so the change was not done. Try again.');
    } else if (!done) {
        complain('The article was changed. Look whether your change is among these:', whatChanged(before, now));
    } else if (now.revision !== before.revision + 1) {
        complain('Somebody else changed the article at the same moment. This changed altogether:', whatChanged(before, now));
    }
}
