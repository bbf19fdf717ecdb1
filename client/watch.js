// Reads something again and again: every 5 seconds, or ten times as long as the last reading took, never while the page is hidden.

const [LEAST_PAUSE, PAUSES] = [5000, 10];

// Calls `received` with each reading, or `lost` with the error, which tells whether to go on. Returns what ends the watch.
export function watch(read, received, lost) {
    const state = { timer: null, isEnded: false, isReading: false, pause: LEAST_PAUSE, due: performance.now() + LEAST_PAUSE };
    const turn = async () => {
        state.isReading = true;
        const begun = performance.now();
        const goesOn = await read().then(async (reading) => {
            state.pause = Math.max(LEAST_PAUSE, PAUSES * (performance.now() - begun));
            if (!state.isEnded) { await received(reading); }
            return true;
        }).catch((error) => state.isEnded || lost(error));
        Object.assign(state, { isReading: false, isEnded: state.isEnded || !goesOn, due: performance.now() + state.pause });
        wait();
    };
    const wait = () => {
        clearTimeout(state.timer);
        if (!state.isEnded && !state.isReading && !document.hidden) { state.timer = setTimeout(turn, state.due - performance.now()); }
    };
    const end = () => {
        state.isEnded = true;
        clearTimeout(state.timer);
        document.removeEventListener('visibilitychange', wait);
    };
    document.addEventListener('visibilitychange', wait);
    wait();
    return end;
}
