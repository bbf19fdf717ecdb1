// The editor: a sentence is typed token by token from menus, which come from `parse` of what is typed.
import { ask } from './api.js';
import { isEnd, textOf, tokensOf, wordOf } from './lexicon.js';
import { Menu } from './menu.js';
import { attempt, button, fill, freshId, make, quoted } from './page.js';
import { wordForm } from './wordform.js';

const [MOST_TOKENS, LONGEST_INPUT] = [40, 4000];
const FIELD = { type: 'text', class: 'next', dir: 'auto', spellcheck: 'false', autocapitalize: 'off', autocomplete: 'off', maxlength: LONGEST_INPUT,
    role: 'combobox', 'aria-label': 'Next word', 'aria-expanded': 'true', 'aria-autocomplete': 'list' };

export class Editor {
    // `settings`: title, tokens, label of the button, `commit` with the tokens, `cancel`, and `only`, the mark it has to end with.
    constructor(settings) {
        this.settings = settings;
        this.tokens = settings.tokens.slice();
        this.state = { turn: 0, isCurrent: false, isWhole: false, isRunning: false, isPressed: false };
        this.menu = new Menu((token) => this.take(token), (element) => this.input.setAttribute('aria-activedescendant', element ? element.id : ''));
        this.typed = make('bdi', { id: freshId('typed'), class: 'typed-text' });
        this.input = make('input', { ...FIELD, 'aria-controls': this.menu.id, 'aria-describedby': this.typed.id });
        this.note = make('div', { class: 'note', role: 'status' });
        this.extra = make('div', { class: 'extra' });
        this.ends = [['.', 'Full stop'], ['?', 'Question mark']].map(([mark, label]) => (
            button(mark, () => this.enter(this.input.value + ' ' + mark), { class: 'end', 'aria-label': label })));
        this.done = button(settings.label, () => this.commit(), { class: 'main' });
        this.element = this.build();
        this.update();
    }

    build() {
        this.input.addEventListener('keydown', (event) => this.key(event));
        // Keyboards of telephones tell no keys, so the end of a word is seen in the field too.
        this.input.addEventListener('input', () => {
            this.state.isPressed = false;
            return /\S[\s.?]$/.test(this.input.value) ? this.enter(this.input.value) : this.changed();
        });
        this.input.addEventListener('paste', (event) => {
            const text = event.clipboardData.getData('text').slice(0, LONGEST_INPUT).trim();
            if (/\s|[.?]$/.test(text)) {
                event.preventDefault();
                this.enter(this.input.value + ' ' + text);
            }
        });
        const line = make('div', { class: 'typed', onclick: () => this.focus() }, this.typed, this.input);
        return make('section', { class: 'editor', 'aria-label': this.settings.title },
            make('div', { class: 'editor-head' }, make('h2', {}, this.settings.title),
                make('span', { class: 'quiet keys' }, 'Space or Enter takes a word, arrows choose, Backspace takes one back')),
            make('div', { class: 'typed-row' }, line, this.ends, this.done, button('Close', () => this.settings.cancel())),
            this.note, this.extra, this.menu.element);
    }

    focus() {
        this.input.focus();
    }

    clear() {
        this.tokens = [];
        this.input.value = '';
        fill(this.extra);
        this.update();
        this.focus();
    }

    // Says something, with a button to go on by.
    offer(children, label, action) {
        const close = () => fill(this.extra);
        const go = button(label, () => {
            close();
            return action();
        });
        fill(this.extra, make('div', { class: 'offer', role: 'alert' }, children, make('div', { class: 'row' }, go, button('Not now', close))));
        go.focus();
    }

    key(event) {
        const { value, selectionStart } = this.input;
        const action = this.actionOf(event, value, selectionStart === value.length);
        if (action && !event.isComposing && !event.ctrlKey && !event.metaKey && !event.altKey) {
            event.preventDefault();
            attempt(action);
        }
    }

    actionOf({ key, shiftKey }, value, isAtEnd) {
        const isEmpty = value === '';
        const goes = new Map([
            ['Enter', true], ['Tab', !isEmpty && !shiftKey && !(this.state.isCurrent && this.menu.marked() === null)], [' ', isAtEnd], ['.', isAtEnd], ['?', isAtEnd],
            ['Backspace', isEmpty], ['ArrowDown', true], ['ArrowUp', true], ['ArrowRight', isAtEnd], ['ArrowLeft', isEmpty], ['Escape', true],
        ]);
        const actions = new Map([
            ['Enter', () => this.pressEnter(value.trim())], ['Tab', () => this.pressEnter(value.trim())], [' ', () => this.enter(value)],
            ['Backspace', () => this.back()], ['Escape', () => this.escape(isEmpty)],
            ['ArrowDown', () => this.menu.step(1)], ['ArrowUp', () => this.menu.step(-1)],
            ['ArrowRight', () => this.menu.stepGroup(1)], ['ArrowLeft', () => this.menu.stepGroup(-1)],
        ]);
        return goes.get(key) ? actions.get(key) || (() => this.enter(value + ' ' + key)) : null;
    }

    // Where the menu hasn't come yet, the key counts when it has.
    pressEnter(text) {
        this.state.isPressed = !this.state.isCurrent;
        if (this.state.isPressed) { return null; }
        if (text === '' && this.state.isWhole) { return attempt(() => this.commit(), this.done); }
        const marked = /\s/.test(text) ? null : this.menu.marked();
        return marked === null ? this.enter(text) : this.take(marked);
    }

    take(token) {
        this.input.value = '';
        this.tokens.push(token);
        this.focus();
        return this.update();
    }

    // Adds a text that a person typed or pasted; what can't follow comes back to the field.
    enter(text) {
        const [first, ...others] = tokensOf(text);
        if (first === undefined) { return null; }
        this.input.value = '';
        this.tokens.push(this.state.isCurrent ? this.menu.spelled(first) : first, ...others);
        this.focus();
        return this.update();
    }

    back() {
        this.tokens.pop();
        return this.update();
    }

    escape(isEmpty) {
        if (isEmpty && this.tokens.length === 0) { return this.settings.cancel(); }
        this.input.value = '';
        return this.changed();
    }

    changed() {
        this.input.removeAttribute('aria-invalid');
        this.menu.filter(this.input.value);
        this.showNew();
    }

    // One `parse` at a time, and one more where tokens have changed meanwhile.
    async update() {
        Object.assign(this.state, { turn: this.state.turn + 1, isCurrent: false, isPressed: false });
        this.show();
        if (this.state.isRunning) { return; }
        this.state.isRunning = true;
        await attempt(() => this.follow());
        Object.assign(this.state, { isRunning: false });
    }

    async follow() {
        while (!this.state.isCurrent) {
            const { turn } = this.state;
            const isCut = this.tokens.length > MOST_TOKENS;
            if (isCut) { this.putBack(MOST_TOKENS); }
            const tokens = this.tokens.slice();
            const reply = await ask('parse', { text: tokens.join(' ') }).catch((error) => {
                if (error.is && error.is('NotSentence')) { return error.reply; }
                fill(this.note, button('Ask for the menu again', () => this.update()));
                throw error;
            });
            if (turn === this.state.turn) { this.judge(reply, tokens, isCut ? `A sentence has at most ${MOST_TOKENS} words and marks, so the first ${MOST_TOKENS} were tried. ` : null); }
        }
    }

    judge({ code, k, menu }, tokens, why) {
        Object.assign(this.state, { isCurrent: true, isWhole: code !== undefined });
        this.menu.set(menu);
        fill(this.note, why);
        if (code === undefined && k < tokens.length) {
            this.putBack(k);
            fill(this.note, why, quoted(tokens[k]), k === 0 ? ' can\'t begin a sentence.' : [' can\'t stand after ', quoted(textOf(tokens.slice(0, k))), '.']);
        }
        this.show();
        this.menu.filter(this.input.value);
        this.input.setAttribute('aria-invalid', String(this.note.textContent !== ''));
        this.showNew();
        if (this.state.isPressed) { this.pressEnter(this.input.value.trim()); }
    }

    // The tokens from this place on go back into the field.
    putBack(place) {
        this.input.value = (this.tokens.slice(place).join(' ') + ' ' + this.input.value).trim();
        this.tokens = this.tokens.slice(0, place);
    }

    show() {
        const text = textOf(this.tokens);
        const { isCurrent, isWhole } = this.state;
        this.typed.textContent = wordOf(this.tokens[0]) ? text : text.charAt(0).toUpperCase() + text.slice(1);
        this.ends.forEach((end) => end.classList.toggle('lit', isCurrent && this.menu.has(end.textContent) && (this.settings.only || end.textContent) === end.textContent));
        this.done.classList.toggle('lit', isCurrent && isWhole);
        this.input.placeholder = isWhole && isCurrent ? 'Enter: ' + this.settings.label : (text === '' ? 'Type or choose a word' : '');
        this.element.setAttribute('aria-busy', String(!isCurrent));
    }

    async commit() {
        if (!this.state.isCurrent || !this.state.isWhole || this.input.value.trim() !== '') {
            fill(this.note, 'The sentence isn\'t whole yet. Go on until . or ? lights up, and choose that.');
        } else if (this.settings.only && this.tokens[this.tokens.length - 1] !== this.settings.only) {
            fill(this.note, 'This is a statement and no question. A question begins with what, who or which, and ends with a question mark.');
        } else {
            await this.settings.commit(this.tokens.slice());
        }
    }

    // A word that doesn't exist yet can be added without leaving.
    showNew() {
        const text = tokensOf(this.input.value)[0] || '';
        const isNew = this.state.isCurrent && text !== '' && !isEnd(text) && !wordOf(text) && (this.menu.options.length === 0 || this.input.getAttribute('aria-invalid') === 'true');
        if (!this.extra.querySelector('form, .offer')) { fill(this.extra, isNew ? button(['Add the word ', quoted(text), '\u2026'], () => this.addWord(text)) : null); }
    }

    addWord(text) {
        const close = () => {
            fill(this.extra);
            this.focus();
        };
        const form = wordForm({ text }, () => {
            close();
            return this.enter(this.input.value);
        }, close);
        fill(this.extra, make('div', { class: 'panel' }, form.element));
        form.focus();
    }
}
