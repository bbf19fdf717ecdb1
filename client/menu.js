// The menu of tokens that may follow, in its groups, with one of them marked.
import { plain } from './lexicon.js';
import { fill, freshId, make } from './page.js';

const GROUPS = [['function', 'Function words'], ['name', 'Names'], ['noun', 'Nouns'], ['of', 'Of-constructs'], ['verb', 'Verbs'], ['adjective', 'Adjectives']];
const SHOWN_OF_A_GROUP = 60;

export class Menu {
    // `take` is called with the token that is clicked, `onMarked` with the element that is marked, or null.
    constructor(take, onMarked) {
        this.id = freshId('menu');
        Object.assign(this, { onMarked, groups: [], plain: new Map(), options: [], at: -1 });
        const click = (event) => {
            const option = this.options.find((it) => it.element.contains(event.target));
            if (option) { take(option.token); }
        };
        this.element = make('div', { id: this.id, class: 'menu', role: 'listbox', 'aria-label': 'Words that can come next', onclick: click, onmousedown: (event) => event.preventDefault() });
    }

    set(menu) {
        this.groups = GROUPS.map(([name]) => (menu ? menu[name] : []));
        this.plain = new Map(this.groups.flat().map((token) => [token, plain(token)]));
    }

    has(token) {
        return this.groups.some((tokens) => tokens.includes(token));
    }

    // The text as the menu spells it, where just one of its tokens is like it.
    spelled(text) {
        const alike = this.has(text) ? [text] : this.groups.flat().filter((token) => this.plain.get(token) === plain(text));
        return alike.length === 1 ? alike[0] : text;
    }

    // Shows what fits the filter; of a text with spaces its first word counts.
    filter(typed) {
        const wanted = plain(typed.trim().split(/\s/)[0]);
        const fits = this.groups.map((tokens) => tokens.filter((token) => this.plain.get(token).includes(wanted)));
        this.options = fits.flatMap((tokens, group) => tokens.slice(0, SHOWN_OF_A_GROUP).map((token) => (
            { token, group, element: make('div', { id: freshId('option'), role: 'option', 'aria-selected': 'false' }, make('bdi', {}, token)) })));
        fill(this.element, fits.map((tokens, group) => this.column(GROUPS[group][1], this.options.filter((it) => it.group === group), tokens.length)));
        this.mark(wanted === '' && this.options.length !== 1 ? -1 : this.best(wanted));
    }

    column(title, options, all) {
        const id = freshId('group');
        const left = all - options.length;
        return make('div', { class: 'group' + (all === 0 ? ' empty' : ''), role: 'group', 'aria-labelledby': id },
            make('div', { id, class: 'group-name', role: 'presentation' }, title), options.map((option) => option.element),
            left > 0 ? make('div', { class: 'quiet', role: 'presentation' }, `${left} more: type to find them`) : null);
    }

    best(wanted) {
        const same = this.options.findIndex((option) => this.plain.get(option.token) === wanted);
        return same >= 0 ? same : Math.max(this.options.findIndex((option) => this.plain.get(option.token).startsWith(wanted)), 0);
    }

    mark(at) {
        if (this.options[this.at]) { this.options[this.at].element.setAttribute('aria-selected', 'false'); }
        const { element } = this.options[at] || { element: null };
        this.at = element ? at : -1;
        if (element) {
            element.setAttribute('aria-selected', 'true');
            element.scrollIntoView({ block: 'nearest' });
        }
        this.onMarked(element);
    }

    marked() {
        return this.at < 0 ? null : this.options[this.at].token;
    }

    step(by) {
        const all = this.options.length;
        this.mark(this.at < 0 ? (by > 0 ? 0 : all - 1) : (this.at + by + all) % all);
    }

    // To the first token of the next group that has any.
    stepGroup(by) {
        const groups = [...new Set(this.options.map((option) => option.group))];
        const here = this.at < 0 ? (by > 0 ? -1 : 0) : groups.indexOf(this.options[this.at].group);
        const group = groups[(here + by + groups.length) % groups.length];
        this.mark(this.options.findIndex((option) => option.group === group));
    }
}
