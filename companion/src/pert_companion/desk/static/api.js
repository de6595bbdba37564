// Asks the desk's own server, and nothing else. The addresses and what they answer are in types/desk.d.ts.
/** The server refused: what it said, for people, and its code. */
export class Refused extends Error {
    /**
     * @param {number} status
     * @param {ApiError["error"]} error
     */
    constructor(status, error) {
        super(error.message);
        this.status = status;
        this.code = error.code;
        this.error = error;
    }
}

/** The server does not answer: it ended, or the machine has no room for a connection. */
export class Gone extends Error {}

/** @returns {Promise<any>} */
export function get(path) {
    return ask(path, {});
}

/** @returns {Promise<any>} */
export function post(path, body) {
    return ask(path, { method: "POST", headers: { "Content-Type": "application/json" }, body: JSON.stringify(body) });
}

/**
 * Sends a file, if there is one, with its options.
 * @param {string} path
 * @param {File | null} file
 * @param {object} [options]
 * @returns {Promise<any>}
 */
export function upload(path, file, options = {}) {
    const form = new FormData();
    if (file !== null) form.append("file", file, file.name);
    form.append("options", JSON.stringify(options));
    return ask(path, { method: "POST", headers: { "X-Pert-Desk": "1" }, body: form });
}

async function ask(path, wishes) {
    let answer;
    let found;
    try {
        answer = await fetch(path, { ...wishes, credentials: "same-origin", cache: "no-store" });
        found = await answer.json();
    } catch {
        throw new Gone("pert-desk does not answer.");
    }
    if (answer.ok) return found;
    throw new Refused(answer.status, found.error);
}

// Returns a function of which one call runs, and after it the latest of those that were made meanwhile.
export function latest(run) {
    let isRunning = false;
    let waiting = null;
    return async (wish) => {
        waiting = { wish };
        if (isRunning) return;
        isRunning = true;
        try {
            while (waiting !== null) {
                const next = waiting.wish;
                waiting = null;
                await run(next);
            }
        } finally {
            isRunning = false;
        }
    };
}
