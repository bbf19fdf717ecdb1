// Adds a sentence at the end of an article by a session, so that nobody adds to an article without having seen what others wrote.
import { Trouble, ask, tellLast } from './api.js';
import { compare, sameSentences, whatChanged } from './changes.js';
import { textOf } from './lexicon.js';
import { complain, explained, wordLink } from './page.js';

const FULL = 'All places for people who write are taken. The sentence can be added without one: the article is read first, and nothing is sent if it isn\'t what is shown. A change between the two isn\'t noticed.';

// A task has the article, what is shown of it, the tokens, and what to call: `done` and `moved` with a new reading, `offer`
// with a text, a label and an action.
export async function append(task) {
    const session = await begun(task);
    if (session === null) { return; }
    const held = { session, isOurs: true };
    const leave = () => tellLast('drop', { session });
    window.addEventListener('pagehide', leave);
    try {
        await checked(task, held, () => typed(task, held));
    } catch (error) {
        lose(held, error);
        throw error;
    } finally {
        window.removeEventListener('pagehide', leave);
        if (held.isOurs) { await ask('drop', { session }).catch(() => {}); }
    }
}

function begun(task) {
    const add = () => ask('add', { article: task.article, text: textOf(task.tokens) });
    return ask('open', { article: task.article }).then(({ session }) => session).catch((error) => {
        if (!error.is || !error.is('Full') || error.reply.which !== 'sessions') { throw error; }
        task.offer([FULL], 'Add it all the same', () => checked(task, {}, add));
        return null;
    });
}

// After a failure of the network the session isn't touched again, since numbers begin anew when the program does.
function lose(held, error) {
    if (!(error instanceof Trouble) || error.cause !== 'refused' || error.is('NoSession')) { held.isOurs = false; }
}

// Does it where the article is the one that is shown.
async function checked(task, held, action) {
    const before = await ask('read', { article: task.article });
    if (hasMoved(task, before)) { return; }
    try {
        await action();
    } catch (error) {
        lose(held, error);
        if (error.is && error.is('Stale') && hasMoved(task, await ask('read', { article: task.article }))) { return; }
        if (!error.uncertain || error.request === 'type') { throw error; }
        complain(explained(error));
        const now = await ask('read', { article: task.article });
        compare(before, now, false);
        task.moved(now);
        return;
    }
    const now = await ask('read', { article: task.article });
    compare(before, now, true);
    task.done(now);
}

function hasMoved(task, now) {
    if (now.revision === task.shown.revision && sameSentences(now.sentences, task.shown.sentences)) { return false; }
    task.offer(['Somebody else changed the article since it was shown here. Nothing was sent.', whatChanged(task.shown, now)],
        'Go on with my sentence', () => append({ ...task, shown: now }));
    task.moved(now);
    return true;
}

async function typed(task, { session }) {
    for (const [place, text] of task.tokens.entries()) {
        const reply = await ask('type', { session, text });
        if (reply.tokens !== place + 1) { throw new Trouble('mixed', 'read', {}); }
    }
    const reply = await ask('commit', { session });
    if (reply.article !== task.article) {
        complain('The wiki was started again meanwhile, and added the sentence to another article: ', wordLink(reply.article), '.');
    }
}
