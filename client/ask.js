// The page on which a question is asked: it is added to an article as a sentence, answered, and can be removed again.
import { ask } from './api.js';
import { change } from './changes.js';
import { append } from './commit.js';
import { Editor } from './editor.js';
import { load, nameOf, wordOf } from './lexicon.js';
import { attempt, button, complain, field, fill, make, placeLink, quoted, say, visit } from './page.js';
import { answersOf, linked, statusName, statusText } from './sentence.js';

const FIELD = { id: 'ask-article', type: 'text', dir: 'auto', spellcheck: 'false', autocapitalize: 'off', autocomplete: 'off' };

export function askView(name) {
    const article = make('input', { ...FIELD, value: name });
    const answers = make('div', { class: 'answered', 'aria-live': 'polite' });
    const place = make('div', {});
    const element = make('div', { class: 'ask-page' }, make('h1', {}, 'Ask'),
        make('p', {}, 'The wiki answers questions that stand in an article. A question that you ask here is added to an article as a sentence, where everybody sees it. You can remove it again when you have the answer.'),
        answers, field('Article for the question', article, 'left empty: that of the first word of the question that has one'), place);
    attempt(async () => {
        await load();
        const editor = new Editor({
            title: 'A question', tokens: [], label: 'Ask', only: '?',
            commit: (tokens) => send(editor, article, answers, tokens),
            cancel: () => visit('#/'),
        });
        fill(place, editor.element);
        editor.focus();
    });
    return { element, title: 'Ask', close: () => {} };
}

async function send(editor, article, answers, tokens) {
    const typed = article.value.trim();
    const word = typed === '' ? tokens.map(wordOf).find((it) => it) : wordOf(typed);
    if (!word) {
        complain(typed === '' ? 'The question has no word of the wiki, so choose an article for it.' : ['No word has the form ', quoted(typed), '. Choose another article.']);
        article.focus();
        return;
    }
    const name = nameOf(word);
    const shown = await ask('read', { article: name });
    await append({
        article: name, shown, tokens,
        offer: (children, label, action) => editor.offer(children, label, action),
        moved: () => {},
        done: (now) => {
            editor.clear();
            showAnswer(answers, name, now, editor);
        },
    });
}

function showAnswer(answers, name, now, editor) {
    const at = now.sentences.length - 1;
    const sentence = now.sentences[at];
    if (!sentence) { return; }
    const close = () => {
        fill(answers);
        editor.focus();
    };
    const remove = button('Remove the question again', async () => {
        const result = await change(name, now, at, 'remove', {});
        if (result.done) {
            close();
            say('The question was removed again.');
        }
    });
    fill(answers, make('section', { class: 'panel', 'aria-label': 'The answer' },
        make('p', { class: 'question' }, linked(sentence.text)),
        answersOf(sentence) || make('p', {}, make('strong', {}, statusName(sentence.status)), ': ', statusText(sentence.status)),
        make('p', { class: 'quiet' }, 'The question was added as ', placeLink(name, at), '.'),
        make('div', { class: 'row' }, remove, button('Keep it', close))));
}
