// The page of the map: reads what is asserted, with progress, and shows the drawing.
import { attempt, button, complain, count, explained, fill, make } from './page.js';
import { gather } from './mapfacts.js';
import { draw } from './mapdrawing.js';

const DRAWN_AT_FIRST = 12;
const ZOOMS = [0.4, 0.55, 0.75, 1, 1.35, 1.8];

export function mapView() {
    const state = { stopped: false };
    const content = make('div', {});
    const element = make('div', { class: 'map-page' }, make('h1', {}, 'Map'),
        make('p', { class: 'quiet' }, 'Classes, each beside the one above it, with the names that are in them, and the relations between names: what is asserted in so many words, not what follows from it.'), content);
    attempt(() => readAndDraw(content, state));
    return { element, title: 'Map', close: () => { state.stopped = true; } };
}

async function readAndDraw(content, state) {
    const bar = make('progress', { max: 1, value: 0, 'aria-label': 'Articles read' });
    const told = make('p', { role: 'status' }, 'Reading\u2026');
    fill(content, told, bar, make('div', { class: 'row' }, make('button', { type: 'button', onclick: () => { state.stopped = true; } }, 'Stop')));
    const facts = await gather((read, all) => {
        [bar.max, bar.value] = [all, read];
        return !state.stopped;
    }).catch((error) => { complain(explained(error)); return null; });
    if (facts !== null) { return show(content, facts, state); }
    state.stopped = false;
    return fill(content, make('p', {}, 'Stopped before all was read.'), button('Read on', () => readAndDraw(content, state)));
}

function show(content, facts, state) {
    const drawing = draw(facts);
    const roles = [...new Set(drawing.edges.map((edge) => edge.role))].sort();
    const choice = make('select', { id: 'map-relations' }, [['', 'of the name that is pointed at'], ['all', 'all'], ...roles.map((role) => [':' + role, role])].map(([value, label]) => make('option', { value }, label)));
    const pick = () => drawing.edges.forEach((edge) => edge.element.classList.toggle('shown', choice.value === 'all' || choice.value === ':' + edge.role));
    choice.value = drawing.edges.length <= DRAWN_AT_FIRST ? 'all' : '';
    choice.addEventListener('change', pick);
    pick();
    let at = ZOOMS.indexOf(1);
    const zoom = (by) => {
        at = Math.min(Math.max(at + by, 0), ZOOMS.length - 1);
        ['width', 'height'].forEach((side) => drawing.element.setAttribute(side, String(drawing[side] * ZOOMS[at])));
    };
    zoom(0);
    const others = facts.others === 0 ? '' : ` ${count(facts.others, 'axiom')} of other kinds can't be drawn.`;
    fill(content,
        make('div', { class: 'row map-tools' }, make('label', { for: 'map-relations' }, 'Relations shown'), choice,
            button('\u2212', () => zoom(-1), { 'aria-label': 'Smaller' }), button('+', () => zoom(1), { 'aria-label': 'Larger' }), button('Read again', () => readAndDraw(content, state))),
        make('p', { class: 'quiet', role: 'status' }, `${count(facts.classes.length, 'class').replace(/classs$/, 'classes')}, ${count(facts.names.length, 'name')}, ${count(drawing.edges.length, 'relation')}.${others}`),
        make('div', { class: 'map-frame', tabindex: '0', role: 'region', 'aria-label': 'The drawing; it can be scrolled' }, drawing.element));
}
