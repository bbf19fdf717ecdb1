// The one way to the wiki: one request at a time, each a line of JSON whose first member is `do`.

const READS = new Set(['find', 'words', 'parse', 'read', 'axioms', 'menu']);
const TRIES_OF_A_READ = 3;

// What stood against a request: it was refused, or a status, the network, a person who stopped it or a strange answer did.
// After an uncertain change nobody knows yet whether it was done.
export class Trouble extends Error {
    constructor(cause, request, { status, reply }) {
        super(cause);
        const isKnown = cause === 'refused' || (cause === 'status' && status < 500);
        Object.assign(this, { cause, request, status, reply, uncertain: !READS.has(request) && !isKnown });
    }

    is(refusal) {
        return this.cause === 'refused' && this.reply.name === refusal;
    }
}

export const body = (name, members) => JSON.stringify({ do: name, ...members });

let [last, running] = [Promise.resolve(), null];

export function ask(name, members) {
    const answer = last.then(() => patiently(name, members));
    last = answer.catch(() => {});
    return answer;
}

// For how long the present request has been waited for, in milliseconds.
export const waited = () => running ? performance.now() - running.since : 0;

export const stopWaiting = () => running && running.controller.abort();

// For a page that is being left: the answer is not waited for.
export const tellLast = (name, members) => send(name, members, { keepalive: true }).catch(() => {});

// For what may be refused in this way, which then counts as this reply.
export const unless = (refusal, reply) => (error) => {
    if (error.is && error.is(refusal)) { return reply; }
    throw error;
};

async function patiently(name, members) {
    for (let left = READS.has(name) ? TRIES_OF_A_READ : 1; ; left -= 1) {
        try {
            return await exchange(name, members);
        } catch (trouble) {
            if (left === 1 || (trouble.status !== 429 && trouble.status !== 503)) { throw trouble; }
            await new Promise((resolve) => setTimeout(resolve, 1000));
        }
    }
}

async function exchange(name, members) {
    const controller = new AbortController();
    running = { controller, since: performance.now() };
    try {
        const response = await send(name, members, { signal: controller.signal });
        return judged(name, response.status, parsed(await response.text()));
    } catch (error) {
        throw error instanceof Trouble ? error : new Trouble(controller.signal.aborted ? 'stopped' : 'network', name, {});
    } finally {
        running = null;
    }
}

function send(name, members, options) {
    const headers = { 'Content-Type': 'application/json' };
    return fetch('/api', { method: 'POST', headers, body: body(name, members), cache: 'no-store', ...options });
}

function judged(name, status, reply) {
    if (reply.done === name) { return reply; }
    throw new Trouble(typeof reply.refused === 'number' ? 'refused' : (status === 200 ? 'strange' : 'status'), name, { status, reply });
}

function parsed(text) {
    try {
        return JSON.parse(text) || {};
    } catch (error) {
        return {};
    }
}
