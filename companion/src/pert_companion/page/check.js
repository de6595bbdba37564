// Checks the certificate of a project's time-cost curve. Shares nothing with pert, with pert_check, or with what draws a page.
//
//     PertCheck.check(deck, certificate)       // "certified 2", or "not certified line 15 reason 9"
//
// Both are texts, or bytes as Uint8Array. The answer is that of `pert_check`: the first line at which a condition of docs/certificate.md fails,
// and the condition, or 0 for a malformed or missing line. A `Checker` takes a certificate in parts: `take(part)` returns false as soon as the
// answer is known, which `end()` returns. `readDeck` throws Refused if the deck cannot be used; it tests what a certificate depends on, and
// `pert check` tests the rest. Time is linear in deck and certificate, memory in the deck and a part. Numbers are BigInt, so sums are exact.
"use strict";

const PertCheck = (() => {
    const CODE = /^[A-Za-z0-9._-]{1,16}$/;
    const AMOUNT = /^(?:0|[1-9][0-9]{0,12})$/;
    const KINDS = new Set("PROJECT ASOF TERMS WBS EVENT ACT PIECE ACCT CHARGE TOGO STATUS RES LOAD END".split(" "));
    const MOST_BYTES = 67108864; // of a deck
    const LONGEST_LINE = 191; // bytes without the line feed

    // ---- The deck
    class Refused extends Error {}
    function need(holds, card, text) {
        if (!holds) throw new Refused(`record ${card.record}: ${text}`);
    }

    function textOf(source) {
        if (source.length > MOST_BYTES) throw new Refused(`more than ${MOST_BYTES} bytes`);
        if (typeof source === "string") return source;
        try {
            return new TextDecoder("utf-8", { fatal: true, ignoreBOM: true }).decode(source);
        } catch {
            throw new Refused("not UTF-8");
        }
    }

    // Returns the records of comma-separated values. CR, LF and CR LF end a record, and an empty line is none. Quotes count only at the beginning
    // of a field; up to two byte order marks in front are dropped.
    function recordsOf(text) {
        const records = [];
        const stop = /[,\r\n]/g;
        const fields = []; // of the record at hand
        let at = 0;
        while (at < 2 && text[at] === "\ufeff") at += 1;
        for (;;) {
            if (fields.length === 0) {
                while (text[at] === "\r" || text[at] === "\n") at += 1;
                if (at >= text.length) return records;
            }
            let field = "";
            if (text[at] === '"') {
                do {
                    const quote = text.indexOf('"', at + 1);
                    const end = quote < 0 ? text.length : quote;
                    field += text.slice(at + 1, end);
                    at = end + 1;
                    if (text[at] === '"') field += '"';
                } while (text[at] === '"');
            }
            stop.lastIndex = at;
            const end = stop.exec(text)?.index ?? text.length;
            fields.push(field + text.slice(at, end));
            if (text[end] !== ",") records.push(fields.splice(0)); // all of them
            at = end + 1;
        }
    }

    function fieldOf(card, at, form, what) {
        need(form.test(card.fields[at] ?? ""), card, `field ${at + 1} is not a ${what}`);
        return card.fields[at];
    }
    const codeAt = (card, at) => fieldOf(card, at, CODE, "code");
    const amountAt = (card, at) => BigInt(fieldOf(card, at, AMOUNT, "number"));

    // Returns the place of the code in a field.
    function knownAt(card, at, codes) {
        need(codes.has(codeAt(card, at)), card, `${card.fields[at]} is on no card`);
        return codes.get(card.fields[at]);
    }

    // Returns the cards of a kind by their codes, each with its place among them.
    function named(cards, kind) {
        const found = new Map();
        for (const card of cards) {
            if (card.fields[0] !== kind) continue;
            need(!found.has(codeAt(card, 1)), card, `${card.fields[1]} occurs twice`);
            found.set(card.fields[1], found.size);
        }
        return found;
    }

    function activityOf(card, events, items) {
        const [normal, crash, cost, slope] = [8, 9, 10, 11].map((field) => amountAt(card, field));
        need(crash <= normal, card, "the crash duration is above the normal one");
        const [from, to, item] = [knownAt(card, 2, events), knownAt(card, 3, events), knownAt(card, 4, items)];
        return { code: card.fields[1], from, to, item, normal, crash, cost, slope, pieces: [] };
    }

    // Returns the durations at which one unit less begins to cost more, each with its rise.
    function kneesOf(activity) {
        const knees = [{ at: activity.normal, rise: activity.slope }];
        let [at, before] = [activity.pieces.reduce((sum, piece) => sum + piece.units, activity.crash), activity.slope];
        for (const { units, slope, card } of activity.pieces) {
            need(slope > before, card, `a piece of ${activity.code} does not rise`);
            need(at < activity.normal, card, `the pieces of ${activity.code} leave nothing to its first slope`);
            knees.push({ at, rise: slope - before });
            at -= units;
            before = slope;
        }
        return knees;
    }

    // Returns what a certificate depends on: version, code, start, end, events, and activities with their knees. `cards` are all cards.
    function readDeck(source) {
        const records = recordsOf(textOf(source)).map((fields, at) => ({ record: at + 1, fields }));
        const cards = records.filter((card) => card.fields.some((field) => field !== ""));
        need(cards[0]?.fields[0] === "PROJECT", cards[0] ?? { record: 1 }, "the first card is not PROJECT");
        need(cards[cards.length - 1].fields[0] === "END", cards[cards.length - 1], "the last card is not END");
        for (const card of cards) need(KINDS.has(card.fields[0]), card, "unknown kind of card");
        const [events, items, acts] = ["EVENT", "WBS", "ACT"].map((kind) => named(cards, kind));
        const [activityCards, pieces] = ["ACT", "PIECE"].map((kind) => cards.filter((card) => card.fields[0] === kind));
        const activities = activityCards.map((card) => activityOf(card, events, items));
        for (const card of pieces) {
            activities[knownAt(card, 1, acts)].pieces.push({ units: amountAt(card, 2), slope: amountAt(card, 3), card });
        }
        for (const activity of activities) activity.knees = kneesOf(activity);
        const [code, start, end] = [codeAt(cards[0], 1), knownAt(cards[0], 2, events), knownAt(cards[0], 3, events)];
        return { version: pieces.length > 0 ? 2 : 1, code, start, end, events: [...events.keys()], activities, acts, cards };
    }

    // ---- The lines of a certificate
    const [WORD, NUMBER] = ["([A-Za-z0-9._-]{1,16})", "(0|[1-9][0-9]{0,17})"];
    const HEAD = RegExp(`^CERT ([12]) ${WORD} ${NUMBER} ${NUMBER}$`);
    const STEP = RegExp(`^STEP ${WORD}$`);
    const SEGMENT = RegExp(`^SEGMENT ${NUMBER} ${NUMBER} ${NUMBER} ${NUMBER}$`);
    const EVENT = RegExp(`^EVENT ${WORD} ${NUMBER} ([01])$`);
    const ACT = RegExp(`^ACT ${WORD} ${NUMBER}((?: (?:0|[1-9][0-9]{0,17})){2,6})$`);

    class Wrong extends Error {} // its message is the number of the condition, or 0
    function ask(condition, holds) {
        if (!holds) throw new Wrong(condition);
    }

    // Returns the words of a line, which must have this form.
    function read(form, line) {
        const found = form.exec(line);
        ask(0, found !== null);
        return found.slice(1);
    }

    // Takes the steps of a walk, and returns the line after them.
    function* walkInto(codes, most) {
        let line = yield;
        for (; line.startsWith("STEP ") && codes.length < most; line = yield) codes.push(read(STEP, line)[0]);
        return line;
    }

    // ---- The fifteen conditions. Each `yield` takes the next line.
    function* certificateOf(deck) {
        const [version, code, events, activities] = read(HEAD, yield);
        ask(1, version === String(deck.version) && code === deck.code);
        ask(1, events === String(deck.events.length) && activities === String(deck.activities.length));
        ask(0, (yield) === "NORMAL");
        const [normalWalk, crashWalk] = [[], []];
        ask(0, (yield* walkInto(normalWalk, deck.events.length)) === "CRASH");
        let line = yield* walkInto(crashWalk, deck.events.length);
        let [segments, before] = [0, null];
        do {
            const [upper, lower, cost, slope] = read(SEGMENT, line).map(BigInt);
            const fall = upper - lower;
            ask(2, before !== null || isThroughWalk(deck, normalWalk, "normal", upper));
            if (before === null) ask(15, fall > 0n || (fall === 0n && slope === 0n));
            else ask(15, before.fall > 0n && upper === before.lower && fall > 0n);
            const segment = { upper, lower, cost, slope, fall, isFirst: before === null, paid: 0n, gain: 0n, stops: false };
            yield* segmentOf(deck, segment);
            segments += 1;
            before = segment;
            line = yield;
        } while (line !== "END");
        ask(3, isThroughWalk(deck, crashWalk, "crash", before.lower));
        return segments;
    }

    // Whether the activities lead from start to end, each from where the one before ends, and their durations add up to the length.
    function isThroughWalk(deck, codes, duration, length) {
        let [at, total] = [deck.start, 0n];
        for (const code of codes) {
            const activity = deck.activities[deck.acts.get(code)];
            if (activity === undefined || activity.from !== at) return false;
            at = activity.to;
            total += activity[duration];
        }
        return at === deck.end && total === length;
    }

    function* segmentOf(deck, segment) {
        [segment.times, segment.moves] = [[], []];
        for (let event = 0; event < deck.events.length; event += 1) checkEvent(deck, segment, event, yield);
        [segment.inflow, segment.outflow] = [deck.events.map(() => 0n), deck.events.map(() => 0n)];
        for (const activity of deck.activities) {
            const [code, duration, list] = read(ACT, yield);
            const flows = list.slice(1).split(" ").map(BigInt);
            ask(0, deck.version === 2 || flows.length === 2);
            ask(4, code === activity.code && flows.length === activity.knees.length + 1);
            checkActivity(segment, activity, BigInt(duration), flows);
        }
        ask(0, (yield) === "CLOSE");
        checkClose(deck, segment);
    }

    function checkEvent(deck, segment, event, line) {
        const [code, time, bit] = read(EVENT, line);
        ask(4, code === deck.events[event]);
        ask(5, event !== deck.start || (time === "0" && bit === "0"));
        ask(5, event !== deck.end || (BigInt(time) === segment.upper && (bit === "1" || segment.fall === 0n)));
        ask(15, segment.fall > 0n || bit === "0");
        segment.times.push(BigInt(time));
        segment.moves.push(BigInt(bit));
    }

    function checkActivity(segment, { from, to, normal, crash, cost, knees }, duration, flows) {
        const turn = segment.moves[to] - segment.moves[from];
        const atUpper = segment.times[to] - segment.times[from];
        const atLower = atUpper - segment.fall * turn;
        ask(6, atUpper >= crash && atLower >= crash);
        ask(7, duration === (atUpper < normal ? atUpper : normal) && (!segment.isFirst || duration === normal));
        ask(8, knees.every((knee, k) => flows[k] <= knee.rise));
        for (const gap of [atUpper, atLower]) {
            ask(11, knees.every(({ at, rise }, k) => (gap <= at || flows[k] === 0n) && (gap >= at || flows[k] === rise)));
            ask(11, gap <= crash || flows[knees.length] === 0n);
        }
        const flow = flows.reduce((sum, each) => sum + each, 0n);
        ask(15, segment.fall > 0n || flow === 0n);
        segment.outflow[from] += flow;
        segment.inflow[to] += flow;
        segment.paid += cost;
        for (const { at, rise } of knees) {
            if (at > duration) segment.paid += rise * (at - duration);
            if (turn > 0n && at > atLower) segment.gain += rise; // forward: the gap shrinks
            if (turn < 0n && at > atUpper) segment.gain -= rise; // backward: the gap grows
            if (at === atLower && at !== atUpper) segment.stops = true; // it shrinks or grows to a knee
        }
        if (turn > 0n && atLower === crash) segment.stops = true;
    }

    function checkClose(deck, { inflow, outflow, cost, slope, fall, paid, gain, stops }) {
        ask(9, deck.events.every((_, event) => event === deck.start || event === deck.end || inflow[event] === outflow[event]));
        ask(10, outflow[deck.start] === slope);
        ask(12, paid === cost);
        ask(13, fall === 0n || gain === slope);
        ask(14, fall === 0n || stops);
    }

    // ---- The answer
    class Checker {
        constructor(deck) {
            this.lines = certificateOf(deck);
            this.lines.next();
            this.count = 0; // complete lines
            this.rest = ""; // of a line that is not complete
            this.segments = null; // known after END
            this.answer = null;
        }

        take(text) {
            const lines = (this.rest + text).split("\n");
            this.rest = lines.pop();
            for (const line of lines) if (this.answer === null) this.takeLine(line);
            if (this.rest.length > LONGEST_LINE || (this.rest !== "" && this.segments !== null)) this.stop(this.count + 1, 0);
            return this.answer === null;
        }
        takeLine(line) {
            this.count += 1;
            if (this.segments !== null) return this.stop(this.count, 0);
            try {
                const step = this.lines.next(line);
                if (step.done) this.segments = step.value;
            } catch (error) {
                if (!(error instanceof Wrong)) throw error;
                this.stop(this.count, error.message);
            }
        }

        stop(line, reason) {
            this.answer ??= `not certified line ${line} reason ${reason}`;
        }
        end() {
            if (this.segments === null) this.stop(this.count + 1, 0);
            return (this.answer ??= `certified ${this.segments}`);
        }
    }

    function check(deck, certificate) {
        const checker = new Checker(readDeck(deck));
        const text = typeof certificate === "string" ? certificate : new TextDecoder("latin1").decode(certificate);
        for (let at = 0; at < text.length && checker.take(text.slice(at, at + 1e6)); at += 1e6);
        return checker.end();
    }

    return { Refused, Checker, readDeck, check };
})();

if (typeof module !== "undefined") module.exports = PertCheck;
