// The start: which page is shown, by what stands behind the # of the address.
import { stopWaiting, waited } from './api.js';
import { articleView } from './article.js';
import { askView } from './ask.js';
import { mapView } from './map.js';
import { setUpOpen } from './open.js';
import { attempt, clearNotices, explainBy, fill, make } from './page.js';
import { explain } from './refusals.js';
import { wordsView } from './words.js';

const [TOLD_AFTER, STOPPABLE_AFTER] = [1000, 5000];

let [view, lastArticle] = [null, ''];

function viewOf(hash) {
    const [page, name, place] = hash.split('/').slice(1);
    if (page === 'article' && name) {
        lastArticle = decodeURIComponent(name);
        return articleView(lastArticle, /^\d+$/.test(place || '') ? Number(place) : null);
    }
    return page === 'ask' ? askView(lastArticle) : (page === 'map' ? mapView() : wordsView());
}

function open() {
    const main = document.getElementById('main');
    if (view) {
        view.close();
        clearNotices();
        main.focus({ preventScroll: true });
        window.scrollTo(0, 0);
    }
    try {
        view = viewOf(location.hash);
    } catch (error) {
        view = wordsView();
    }
    document.title = view.title + ' \u00b7 AceWiki';
    fill(main, view.element);
    document.querySelectorAll('nav a').forEach((link) => link.setAttribute('aria-current', link.hash === (location.hash || '#/') ? 'page' : 'false'));
}

// While an answer is waited for long, the page says so, and the waiting can be ended.
function showWaiting() {
    const shown = document.getElementById('waiting');
    const stop = make('button', { type: 'button', onclick: stopWaiting }, 'Stop waiting');
    fill(shown, 'Waiting for the wiki\u2026', stop);
    setInterval(() => {
        shown.hidden = waited() < TOLD_AFTER;
        stop.hidden = waited() < STOPPABLE_AFTER;
    }, 250);
}

// Shown inside another page, where clicks may be meant for that page, the editor does nothing.
if (window.top === window.self) {
    explainBy(explain);
    setUpOpen();
    showWaiting();
    document.getElementById('skip').addEventListener('click', () => document.getElementById('main').focus());
    window.addEventListener('hashchange', () => attempt(open));
    open();
} else {
    fill(document.body, make('p', {}, 'The editor doesn\'t work inside another page. ', make('a', { href: location.href, target: '_blank', rel: 'noopener' }, 'Open it on its own'), '.'));
}
