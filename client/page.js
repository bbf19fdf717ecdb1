// The elements of the page. A text goes in as text alone, so that nothing that the wiki tells is ever markup.

export function make(name, attributes, ...children) {
    const element = document.createElement(name);
    for (const [key, value] of Object.entries(attributes)) {
        if (typeof value === 'function') {
            element.addEventListener(key.slice(2), value);
        } else if (value !== false && value !== null && value !== undefined) {
            element.setAttribute(key, value === true ? '' : String(value));
        }
    }
    return fill(element, children);
}

export function fill(element, ...children) {
    element.replaceChildren(...children.flat(Infinity).filter((child) => child !== null && child !== undefined));
    return element;
}

// A word or a sentence, set apart from the direction of the text around it.
export const quoted = (text) => ['\u201c', make('bdi', {}, text), '\u201d'];

export const address = (article, place) => '#/article/' + encodeURIComponent(article) + (place === undefined ? '' : '/' + String(place));

// Opens the page at this address, also where it is open already.
export function visit(where) {
    if (location.hash === where) { window.dispatchEvent(new Event('hashchange')); }
    location.hash = where;
}

export const wordLink = (article, text) => make('a', { href: address(article) }, make('bdi', {}, text || article));
export const placeLink = (article, place) => make('a', { href: address(article, place) }, 'sentence ' + String(place + 1) + ' of ', make('bdi', {}, article));

// A button whose action may wait for the wiki. It does nothing more meanwhile, and an error is shown as a sentence.
export function button(label, action, attributes) {
    const element = make('button', { type: 'button', ...attributes }, label);
    element.addEventListener('click', () => attempt(action, element));
    return element;
}

export const closeButton = (action) => make('button', { type: 'button', class: 'close', 'aria-label': 'Close this message', onclick: action }, '\u00d7');

let explain = null;
export const explainBy = (how) => { explain = how; };
export const explained = (error) => explain(error);

export async function attempt(action, element) {
    if (element && element.getAttribute('aria-disabled') === 'true') { return; }
    if (element) { element.setAttribute('aria-disabled', 'true'); }
    try {
        await action();
    } catch (error) {
        complain(explain(error));
    } finally {
        if (element) { element.removeAttribute('aria-disabled'); }
    }
}

// Whether a change was done for certain. Where nobody knows yet, that is told; a refusal is thrown.
export async function isDone(change) {
    try {
        await change;
        return true;
    } catch (error) {
        if (!error.uncertain) { throw error; }
        complain(explain(error));
        return false;
    }
}

const KEPT_NOTICES = 3;

function notice(kind, role, children) {
    const notices = document.getElementById('notices');
    const element = make('div', { class: 'notice ' + kind, role }, make('div', {}, children), closeButton(() => {
        element.remove();
        document.getElementById('main').focus();
    }));
    element.made = performance.now();
    notices.append(element);
    if (notices.children.length > KEPT_NOTICES) { notices.firstElementChild.remove(); }
    return element;
}

// Takes away the messages that are older than this very moment's.
export function clearNotices() {
    const limit = performance.now() - 1000;
    [...document.getElementById('notices').children].filter((it) => it.made < limit).forEach((it) => it.remove());
}

export const say = (...children) => notice('plain', undefined, children);
export const complain = (...children) => notice('bad', 'alert', children);

// A field with its label before it.
export const field = (label, input, hint) => make('div', { class: 'field' }, make('label', { for: input.id }, label), input, hint ? make('small', {}, hint) : null);

let lastNumber = 0;

export function freshId(name) {
    lastNumber += 1;
    return name + '-' + String(lastNumber);
}

export const count = (n, thing) => n.toLocaleString('en') + ' ' + thing + (n === 1 ? '' : (thing.endsWith('s') ? 'es' : 's'));
