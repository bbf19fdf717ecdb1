// The drawing: a box for each class, beside the class above it, with the names that are in it, and arrows between names.
import { address } from './page.js';

const WIDTH = 190;
const STEP = WIDTH + 46;
const ROW = 24;
const HEAD = 28;
const GAP = 14;
const LONGEST = 22;
const DEEPEST = 30;

function svg(name, attributes, ...children) {
    const element = document.createElementNS('http://www.w3.org/2000/svg', name);
    Object.entries(attributes).forEach(([key, value]) => element.setAttribute(key, String(value)));
    element.append(...children);
    return element;
}

const text = (x, y, kind, words) => svg('text', { x, y, class: kind }, words.length > LONGEST ? words.slice(0, LONGEST - 1) + '\u2026' : words);
const link = (name, what, ...children) => svg('a', { href: address(name), 'aria-label': what }, svg('title', {}, what), ...children);

// How deep each class lies below others; where classes go round in a circle the count ends.
function depths(facts) {
    const depth = new Map(facts.classes.map((name) => [name, 0]));
    for (let round = 0; round < DEEPEST; round += 1) {
        for (const [low, highs] of facts.below) {
            const above = [...highs].filter((high) => high !== low && depth.has(high)).map((high) => depth.get(high) + 1);
            if (depth.has(low)) { depth.set(low, Math.min(Math.max(depth.get(low), ...above), DEEPEST)); }
        }
    }
    return depth;
}

const deepest = (names, depth) => [...(names || [])].filter((name) => depth.has(name)).sort((one, other) => depth.get(other) - depth.get(one));

// The boxes with their chips: each name has one in its deepest class, and pale ones in the others.
function boxesOf(facts, depth) {
    const boxes = new Map([...facts.classes, null].map((name) => [name, { name, chips: [], below: [], x: 0, y: 0 }]));
    for (const name of facts.names) {
        const [first, ...others] = deepest(facts.classesOf.get(name), depth);
        boxes.get(first === undefined ? null : first).chips.push({ name, isAlso: false });
        others.forEach((it) => boxes.get(it).chips.push({ name, isAlso: true }));
    }
    for (const box of boxes.values()) {
        box.above = deepest(facts.below.get(box.name), depth).find((high) => depth.get(high) < depth.get(box.name));
        if (box.above !== undefined) { boxes.get(box.above).below.push(box); }
        placeChips(box);
    }
    if (boxes.get(null).chips.length === 0) { boxes.delete(null); }
    return boxes;
}

function placeChips(box) {
    let [x, row] = [8, 0];
    for (const chip of box.chips) {
        chip.width = Math.min(Math.min(chip.name.length, LONGEST) * 8.3 + 14, WIDTH - 16);
        if (x > 8 && x + chip.width > WIDTH - 8) { [x, row] = [8, row + 1]; }
        [chip.x, chip.y] = [x, HEAD + row * ROW];
        x += chip.width + 6;
    }
    box.height = HEAD + (box.chips.length > 0 ? (row + 1) * ROW + 4 : 0);
}

function placeTree(box, x, y) {
    [box.x, box.y] = [x, y];
    return Math.max(box.below.reduce((next, low) => placeTree(low, x + STEP, next), y), y + box.height + GAP);
}

// Trees stand below each other; boxes that are alone fill columns beneath them.
function place(boxes) {
    const roots = [...boxes.values()].filter((box) => box.above === undefined);
    const top = roots.filter((box) => box.below.length > 0).reduce((y, box) => placeTree(box, GAP, y), GAP);
    const columns = new Array(4).fill(top);
    for (const box of roots.filter((it) => it.below.length === 0)) {
        const column = columns.indexOf(Math.min(...columns));
        columns[column] = placeTree(box, GAP + column * STEP, columns[column]);
    }
}

function drawBox(box, chips, relations) {
    const isNone = box.name === null;
    const head = [svg('rect', { x: box.x, y: box.y, width: WIDTH, height: box.height, rx: 7, class: 'box' }), text(box.x + 10, box.y + 19, 'class-name', isNone ? 'in no class' : box.name)];
    const inside = box.chips.map((chip) => {
        const [x, y] = [box.x + chip.x, box.y + chip.y];
        const told = relations.filter((it) => it.from === chip.name).map((it) => `; ${it.role} ${it.to}`).join('');
        const element = link(chip.name, chip.name + (isNone ? ', in no class' : ', in the class ' + box.name) + told,
            svg('rect', { x, y, width: chip.width, height: ROW - 5, rx: 9, class: chip.isAlso ? 'chip also' : 'chip' }), text(x + 7, y + 14, 'chip-name', chip.name));
        if (!chip.isAlso) { chips.set(chip.name, { element, box, x, end: x + chip.width, y: y + 9, edges: [] }); }
        return element;
    });
    return [isNone ? svg('g', {}, ...head) : link(box.name, 'the class ' + box.name + (box.above ? ', below ' + box.above : ''), ...head), ...inside];
}

function drawAbove(box, high) {
    const [x, y, toX, toY] = [box.x, box.y + 14, high.x + WIDTH, high.y + 14];
    return svg('path', { class: 'isa', d: `M ${x} ${y} C ${x - 24} ${y}, ${toX + 24} ${toY}, ${toX} ${toY}`, 'marker-end': 'url(#isa-end)' });
}

function drawRelation({ role, from, to }, chips) {
    const [one, other] = [chips.get(from), chips.get(to)];
    const isRight = other.x > one.end;
    const [x, toX] = [isRight ? one.end : one.x, other.end < one.x ? other.end : other.x];
    const [bend, toBend] = [isRight ? x + 40 : x - 40, other.end < one.x ? toX + 40 : toX - 40];
    const path = svg('path', { class: 'relation', d: `M ${x} ${one.y} C ${bend} ${one.y}, ${toBend} ${other.y}, ${toX} ${other.y}`, 'marker-end': 'url(#relation-end)' });
    const label = text((x + toX + 3 * (bend + toBend)) / 8, (one.y + other.y) / 2 - 3, 'relation-name', one.box.x === other.box.x ? '' : role);
    const element = svg('g', { class: 'edge' }, path, label);
    [one, other].forEach((chip) => chip.edges.push(element));
    return { role, element };
}

function marker(id, kind) {
    const size = { viewBox: '0 0 8 8', refX: 8, refY: 4, markerWidth: 8, markerHeight: 8, orient: 'auto', markerUnits: 'userSpaceOnUse' };
    return svg('marker', { id, ...size }, svg('path', { d: 'M 0 0 L 8 4 L 0 8 z', class: kind }));
}

// The drawing with its edges, each with its role, and its size.
export function draw(facts) {
    const [boxes, chips] = [boxesOf(facts, depths(facts)), new Map()];
    place(boxes);
    const all = [...boxes.values()];
    const drawn = all.flatMap((box) => drawBox(box, chips, facts.relations));
    const above = all.flatMap((box) => [...(facts.below.get(box.name) || [])].filter((high) => boxes.has(high) && high !== box.name).map((high) => drawAbove(box, boxes.get(high))));
    const edges = facts.relations.filter((it) => chips.has(it.from) && chips.has(it.to)).map((it) => drawRelation(it, chips));
    const width = Math.max(...all.map((box) => box.x + WIDTH), 300) + GAP;
    const height = Math.max(...all.map((box) => box.y + box.height), 60) + GAP;
    const element = svg('svg', { viewBox: `0 0 ${width} ${height}`, role: 'group', 'aria-label': 'Classes, names and their relations' },
        svg('defs', {}, marker('isa-end', 'isa-arrow'), marker('relation-end', 'relation-arrow')), ...above, ...drawn, ...edges.map((edge) => edge.element));
    for (const chip of chips.values()) {
        const light = (isOn) => () => chip.edges.forEach((edge) => edge.classList.toggle('on', isOn));
        ['mouseenter', 'focus'].forEach((event) => chip.element.addEventListener(event, light(true)));
        ['mouseleave', 'blur'].forEach((event) => chip.element.addEventListener(event, light(false)));
    }
    return { element, edges, width, height };
}
