// The page of an article: its word, its sentences, and the editor below them. What others change appears by itself.
import { ask } from './api.js';
import { change, isSameAt, matches, sameSentences, whatChanged } from './changes.js';
import { append } from './commit.js';
import { Editor } from './editor.js';
import { load, nameOf, textOf, tokensOf, wordOf } from './lexicon.js';
import { address, attempt, button, closeButton, complain, fill, make, quoted, say, visit } from './page.js';
import { row, setAnswers, statusName, statusText } from './sentence.js';
import { wordPanel } from './usage.js';
import { watch } from './watch.js';
import { wordForm } from './wordform.js';

// What was typed for an article and not committed, while other pages are looked at.
const drafts = new Map();

const MODES = new Map([
    ['append', { title: 'A new sentence', label: 'Add' }],
    ['ask', { title: 'A question', label: 'Ask', only: '?' }],
    ['edit', { title: 'Edit the marked sentence', label: 'Replace' }],
    ['insert', { title: 'A sentence before the marked one', label: 'Insert' }],
]);

export function articleView(form, place) {
    const view = new ArticleView(form);
    attempt(() => view.begin(place));
    return { element: view.element, title: form, close: () => view.close() };
}

class ArticleView {
    constructor(form) {
        Object.assign(this, { name: form, shown: { revision: 0, sentences: [] }, isChanging: false, isClosed: false, editor: null, edited: null, stop: () => {} });
        this.heading = make('h1', {}, make('bdi', {}, form));
        this.wordPlace = make('div', {});
        this.news = make('div', { class: 'news', role: 'status' });
        this.list = make('ol', { class: 'sentences', 'aria-label': 'Sentences' });
        this.foot = make('div', { class: 'row article-foot' });
        this.dock = make('div', { class: 'dock' });
        this.element = make('article', {}, this.heading, this.wordPlace, this.news, this.list, this.foot, this.dock);
        this.actions = {
            edit: (element) => this.openEditor('edit', element),
            insert: (element) => this.openEditor('insert', element),
            retract: (element) => this.send(this.place(element), 'retract', {}),
            reassert: (element) => this.send(this.place(element), 'reassert', {}),
            remove: (element) => this.remove(element),
            axioms: (element) => this.axioms(this.place(element)),
        };
    }

    async begin(place) {
        await load();
        const word = wordOf(this.name);
        if (!word) { return this.showMissing(); }
        this.name = nameOf(word);
        fill(this.heading, make('bdi', {}, this.name));
        fill(this.wordPlace, wordPanel(word));
        fill(this.foot, button('Write a sentence', () => this.openEditor('append', null), { class: 'main' }), button('Ask a question', () => this.openEditor('ask', null)));
        this.show(await this.read());
        if (place !== null) { this.point(place); }
        if (!this.isClosed) { this.stop = watch(() => this.read(), (next) => this.receive(next), (error) => this.lost(error)); }
    }

    close() {
        this.isClosed = true;
        this.keepDraft();
        this.stop();
    }

    read() {
        return ask('read', { article: this.name });
    }

    showMissing() {
        const form = wordForm({ text: this.name }, (forms) => visit(address(nameOf(wordOf(forms[0])))));
        fill(this.wordPlace, make('p', {}, 'No word has the form ', quoted(this.name), '. It can be added:'), make('div', { class: 'panel' }, form.element));
    }

    place(element) {
        return [...this.list.children].indexOf(element);
    }

    // Rows whose sentence stays keep their place on the page, with what is open or has the focus in them.
    show(next) {
        const found = matches(this.shown.sentences, next.sentences);
        const rows = [...this.list.children];
        const kept = new Set(found);
        rows.filter((element, at) => !kept.has(at)).forEach((element) => element.remove());
        next.sentences.forEach((sentence, at) => {
            const element = rows[found[at]] || row(sentence, this.actions);
            setAnswers(element, sentence);
            if (this.list.children[at] !== element) { this.list.insertBefore(element, this.list.children[at] || null); }
        });
        this.list.classList.toggle('none', next.sentences.length === 0);
        this.shown = next;
        return found;
    }

    point(place) {
        const element = this.list.children[place];
        this.list.querySelectorAll('.pointed').forEach((it) => it.classList.remove('pointed'));
        if (element) {
            element.classList.add('pointed');
            element.scrollIntoView({ block: 'center' });
            element.focus({ preventScroll: true });
        } else {
            complain('The article has no such sentence any more.');
        }
    }

    async receive(next) {
        if (this.news.querySelector('.lost')) { fill(this.news); }
        if (this.isChanging || JSON.stringify(next) === JSON.stringify(this.shown)) { return; }
        const isNews = !sameSentences(this.shown.sentences, next.sentences);
        if (isNews) { await load(); }
        this.accept(next, isNews ? ['Somebody else changed this article:', whatChanged(this.shown, next)] : null);
    }

    // Shows a reading, with what is new in it.
    accept(next, news) {
        const found = this.show(next);
        if (news === null) { return; }
        const mark = (isFresh) => [...this.list.children].forEach((it, at) => it.classList.toggle('fresh', isFresh(at)));
        mark((at) => found[at] === -1);
        fill(this.news, make('div', { class: 'notice plain' }, make('div', {}, news), closeButton(() => {
            mark(() => false);
            fill(this.news);
        })));
    }

    lost(error) {
        const isGone = error.is && error.is('NoWord');
        const text = isGone ? 'The word of this article was removed or renamed by somebody else. Look at the list of words.'
            : 'The wiki doesn\'t answer at present, so this page may be out of date. It goes on trying.';
        if (!this.news.querySelector('.lost')) { fill(this.news, make('div', { class: 'notice bad lost' }, text)); }
        return !isGone;
    }

    // While a change of our own is under way, what is read is no news of others.
    async whileChanging(action) {
        this.isChanging = true;
        try {
            return await action();
        } finally {
            this.isChanging = false;
        }
    }

    async send(at, name, members, whenDone = () => {}) {
        const result = await this.whileChanging(() => change(this.name, this.shown, at, name, members));
        if (result.done) { whenDone(); }
        this.show(result.now);
        if (result.done && name !== 'remove') {
            this.point(at);
            this.tell(result.now.sentences[at]);
        }
        return result;
    }

    tell(sentence) {
        if (sentence) { say(quoted(sentence.text), ' is marked ', make('strong', {}, statusName(sentence.status)), '. ', statusText(sentence.status)); }
    }

    async remove(element) {
        const at = this.place(element);
        const sentence = this.shown.sentences[at];
        if (!(await this.send(at, 'remove', {})).done) { return; }
        const follower = this.list.children[at];
        const back = button('Put it back', async () => {
            notice.remove();
            await this.send(follower && follower.isConnected ? this.place(follower) : this.shown.sentences.length, 'add', { text: sentence.text });
        });
        const notice = say('Removed ', quoted(sentence.text), ', which was ', statusName(sentence.status), '. ', back);
        back.focus();
    }

    async axioms(at) {
        const now = await this.read();
        if (isSameAt(this.shown, now, at)) { return ask('axioms', { article: this.name, at }); }
        this.accept(now, ['Somebody else changed this article:', whatChanged(this.shown, now)]);
        return null;
    }

    keepDraft() {
        if (this.editor && this.edited === null) { drafts.set(this.name, this.editor.tokens.slice()); }
    }

    openEditor(mode, element) {
        this.keepDraft();
        const old = mode === 'edit' ? tokensOf(this.shown.sentences[this.place(element)].text) : [];
        this.edited = element === null ? null : { element, name: mode === 'edit' ? 'edit' : 'add' };
        [...this.list.children].forEach((it) => it.classList.toggle('edited', it === element));
        this.editor = new Editor({
            ...MODES.get(mode),
            tokens: element === null ? drafts.get(this.name) || [] : old,
            commit: (tokens) => (element === null ? this.append(tokens) : this.replace(tokens)),
            cancel: () => this.closeEditor(),
        });
        fill(this.dock, this.editor.element);
        this.foot.hidden = true;
        if (element) { element.scrollIntoView({ block: 'center' }); }
        this.editor.focus();
    }

    closeEditor() {
        this.keepDraft();
        fill(this.dock);
        this.foot.hidden = false;
        [...this.list.children].forEach((it) => it.classList.remove('edited'));
        (this.edited && this.edited.element.isConnected ? this.edited.element : this.foot.firstElementChild).focus();
        Object.assign(this, { editor: null, edited: null });
    }

    append(tokens) {
        const { editor } = this;
        return this.whileChanging(() => append({
            article: this.name, shown: this.shown, tokens,
            offer: (children, label, action) => editor.offer(children, label, () => this.whileChanging(action)),
            moved: (now) => this.show(now),
            done: (now) => {
                this.show(now);
                editor.clear();
                (this.list.lastElementChild || this.list).scrollIntoView({ block: 'nearest' });
                this.tell(now.sentences[now.sentences.length - 1]);
            },
        }));
    }

    async replace(tokens) {
        const { element, name } = this.edited;
        if (element.isConnected) {
            await this.send(this.place(element), name, { text: textOf(tokens) }, () => this.closeEditor());
        } else {
            this.editor.offer(['Somebody else changed or removed the marked sentence, so nothing was sent. What you typed can be added at the end.'],
                'Add it at the end', () => this.append(tokens));
        }
    }
}
