// Reads the deck and the certificate that a report page holds, in the forms that data.py describes: the certificate's text, and the schedule,
// the cost and the price of any length. Lengths, durations, times and costs are BigInt. This script checks nothing: check.js does.
//
//     const deck = PertCertificate.readDeck(JSON.parse(deckElement.textContent).text);
//     const curve = PertCertificate.open(JSON.parse(certificateElement.textContent), deck);
//     curve.longest, curve.shortest           // 35n and 27n
//     curve.breakpoints                       // [{length: 35n, cost: 12600n, next: 100n}, .., {length: 27n, cost: 13690n, next: null}]
//     const reading = PertCertificate.readingAt(curve, 30n);
//     reading.cost, reading.next              // 13190n, and 150n more at 29; null at the shortest length
//     reading.durations, reading.times        // an entry per activity and per event, in card order
//
// A reading takes time in proportion to events and activities, and a curve takes memory in proportion to its compact form.
"use strict";

const PertCertificate = (() => {
    const FORM = 1;
    const MOST_TEXT = 64_000_000; // characters that `expand` returns at most; `chunks` has no limit

    class DataError extends Error {}

    function demand(holds, text) {
        if (!holds) throw new DataError(text);
    }

    // ---- deck

    // Returns the records of comma-separated values, each a list of fields. An empty line is no record.
    function readRecords(text) {
        const records = [];
        let fields = [];
        let at = text.startsWith("\ufeff") ? 1 : 0;
        const stop = /[,\r\n]/g;
        for (;;) {
            if (fields.length === 0) {
                while (text[at] === "\n" || text[at] === "\r") at += 1;
                if (at >= text.length) return records;
            }
            let field = "";
            if (text[at] === '"') {
                do {
                    const closing = text.indexOf('"', at + 1);
                    const end = closing < 0 ? text.length : closing;
                    field += text.slice(at + 1, end);
                    at = end + 1;
                    if (text[at] === '"') field += '"'; // two quotes in a quoted field are one
                } while (text[at] === '"');
            }
            stop.lastIndex = at;
            const found = stop.exec(text);
            const end = found === null ? text.length : found.index;
            fields.push(field + text.slice(at, end));
            if (text[end] !== ",") {
                records.push(fields);
                fields = [];
            }
            at = end + 1;
            if (found === null && fields.length === 0) return records;
        }
    }

    // Returns what a page shows of a deck that the programs accept. `events` and `activities` are in card order; `from` and `to` are places in
    // `events`. `terms` is null without a TERMS card.
    function readDeck(text) {
        const cards = readRecords(text).filter((fields) => fields.some((field) => field !== ""));
        const of = (kind) => cards.filter((card) => card[0] === kind);
        demand(of("PROJECT").length === 1, "the deck has no PROJECT card");
        const [, code, start, end, startDate, unitDays, directed, title] = of("PROJECT")[0];
        const events = of("EVENT").map((card) => ({ code: card[1], title: card[2] }));
        const places = new Map(events.map((event, place) => [event.code, place]));
        const activities = of("ACT").map((card) => readActivity(card, places));
        const named = new Map(activities.map((activity) => [activity.code, activity]));
        for (const [, activity, units, slope] of of("PIECE")) {
            demand(named.has(activity), "a PIECE card names no activity");
            named.get(activity).pieces.push({ units: BigInt(units), slope: BigInt(slope) });
        }
        const items = of("WBS").map((card) => ({ code: card[1], parent: card[2], title: card[3] }));
        const terms = of("TERMS").map(([, overhead, target, bonus, penalty]) => ({
            overhead: BigInt(overhead),
            target: BigInt(target),
            bonus: BigInt(bonus),
            penalty: BigInt(penalty),
        }));
        const project = { code, start: places.get(start), end: places.get(end), startDate, unitDays, directed, title };
        return { project, events, activities, items, terms: terms[0] || null };
    }

    function readActivity(card, places) {
        demand(places.has(card[2]) && places.has(card[3]), "an ACT card names no event");
        const [normal, crash, cost, slope] = card.slice(8, 12).map(BigInt);
        const from = places.get(card[2]);
        return { code: card[1], from, to: places.get(card[3]), item: card[4], normal, crash, cost, slope, title: card[12], pieces: [] };
    }

    // ---- compact form

    function words(text) {
        return text === "" ? [] : text.split(" ");
    }

    function number(word) {
        demand(/^[0-9]{1,18}$/.test(word), "a change in the certificate has a word that is no number");
        return BigInt(word);
    }

    // Returns the compact form with its lists as arrays, or throws a DataError.
    function listsOf(data) {
        demand(data !== null && typeof data === "object" && data.form === FORM, "not the compact form of a certificate");
        for (const name of ["head", "normal", "crash", "events", "activities"]) {
            demand(typeof data[name] === "string", `the certificate has no ${name}`);
        }
        const isList = Array.isArray(data.segments) && data.segments.every((segment) => typeof segment === "string");
        demand(isList, "the certificate has no list of segments");
        const lists = { head: data.head, segments: data.segments };
        for (const name of ["normal", "crash", "events", "activities"]) lists[name] = words(data[name]);
        return lists;
    }

    // Returns the ends of a segment, or 0 and 0 if its line is malformed.
    function endsOf(text) {
        const found = /^([0-9]{1,18}) ([0-9]{1,18}) /.exec(text);
        return found === null ? [0n, 0n] : [BigInt(found[1]), BigInt(found[2])];
    }

    // Returns the changes of one kind as [place, word, ..].
    function changesOf(text, count) {
        const changes = text === "" ? [] : text.split(";");
        return changes.map((change) => {
            const [place, ...more] = change.split(" ");
            const at = Number(number(place));
            demand(at < count, "a change in the certificate is at a place that there is not");
            return [at, ...more];
        });
    }

    function threeParts(segment) {
        const parts = segment.split("|");
        demand(parts.length === 3, "a segment of the certificate does not have three parts");
        return parts;
    }

    // What a segment is expected to be.
    function firstState(lists) {
        const count = lists.activities.length;
        return {
            times: lists.events.map(() => 0n),
            bits: lists.events.map(() => 0),
            durations: Array(count).fill("0"),
            flows: Array(count).fill("0 0"),
        };
    }

    function changeEvents(state, changes) {
        for (const [event, ...more] of changes) {
            if (more.length === 0) {
                state.bits[event] = 1 - state.bits[event];
            } else {
                const isRight = more.length === 2 && (more[1] === "0" || more[1] === "1");
                demand(isRight, "a change of an event does not have a time and a bit");
                state.times[event] = number(more[0]);
                state.bits[event] = Number(more[1]);
            }
        }
    }

    function changeActivities(state, changes) {
        for (const [activity, duration, ...flows] of changes) {
            demand(duration !== undefined, "a change of an activity has no duration");
            state.durations[activity] = duration;
            if (flows.length > 0) state.flows[activity] = flows.join(" ");
        }
    }

    // Moves the events that move to the lower end of a segment.
    function fall(state, span) {
        for (let event = 0; event < state.times.length; event += 1) {
            if (state.bits[event] === 1) state.times[event] -= span;
        }
    }

    // Yields the text of the certificate in pieces, one per segment.
    function* chunks(data) {
        const lists = listsOf(data);
        const steps = (codes) => codes.map((code) => `STEP ${code}\n`).join("");
        yield `CERT ${lists.head}\nNORMAL\n${steps(lists.normal)}CRASH\n${steps(lists.crash)}`;
        const state = firstState(lists);
        for (const segment of lists.segments) {
            const [ends, events, activities] = threeParts(segment);
            changeEvents(state, changesOf(events, lists.events.length));
            changeActivities(state, changesOf(activities, lists.activities.length));
            const lines = [`SEGMENT ${ends}\n`];
            lists.events.forEach((code, e) => lines.push(`EVENT ${code} ${state.times[e]} ${state.bits[e]}\n`));
            lists.activities.forEach((code, a) => lines.push(`ACT ${code} ${state.durations[a]} ${state.flows[a]}\n`));
            lines.push("CLOSE\n");
            yield lines.join("");
            const [upper, lower] = endsOf(ends);
            fall(state, upper - lower);
        }
        yield "END\n";
    }

    // Returns the text of the certificate, at most MOST_TEXT characters.
    function expand(data) {
        const parts = [];
        let size = 0;
        for (const chunk of chunks(data)) {
            size += chunk.length;
            demand(size <= MOST_TEXT, `the certificate has more than ${MOST_TEXT} characters`);
            parts.push(chunk);
        }
        return parts.join("");
    }

    // ---- curve

    // Returns the curve of a certificate in compact form, for a deck as `readDeck` returns it. `histories` has, per event, the segments in which
    // the event changed, with its time at their upper end and whether it moves: until its next change its time follows from these.
    function open(data, deck) {
        const lists = listsOf(data);
        demand(lists.events.length === deck.events.length, "the certificate does not have the events of the deck");
        demand(lists.activities.length === deck.activities.length, "the certificate does not have the activities of the deck");
        demand(lists.segments.length > 0, "the certificate has no segment");
        const histories = lists.events.map(() => [{ segment: 0, upper: 0n, time: 0n, bit: 0n }]);
        const segments = lists.segments.map((segment, at) => {
            const [ends, events] = threeParts(segment);
            const [upper, lower, cost, slope] = words(ends).map(number);
            demand(slope !== undefined, "a segment does not have four numbers");
            for (const [event, ...more] of changesOf(events, lists.events.length)) note(histories[event], at, upper, more);
            return { upper, lower, cost, slope };
        });
        const last = segments[segments.length - 1];
        const isTurn = (segment, at) => at === 0 || segment.slope !== segments[at - 1].slope; // others are no breakpoints of the curve
        const breakpoints = segments.filter(isTurn).map(({ upper, cost, slope }) => ({ length: upper, cost, next: slope }));
        if (last.lower === last.upper) breakpoints.pop(); // a project with a single length
        breakpoints.push({ length: last.lower, cost: last.cost + last.slope * (last.upper - last.lower), next: null });
        return { deck, segments, histories, breakpoints, longest: segments[0].upper, shortest: last.lower };
    }

    // Adds a change to the history of an event.
    function note(history, segment, upper, change) {
        const before = history[history.length - 1];
        if (change.length === 0) {
            history.push({ segment, upper, time: timeOf(before, upper), bit: 1n - before.bit });
        } else {
            history.push({ segment, upper, time: number(change[0]), bit: number(change[1] || "") });
        }
    }

    function timeOf({ upper, time, bit }, length) {
        return time - bit * (upper - length);
    }

    // Returns the place of the first entry for which a test holds that holds for all entries after it, or the number of entries.
    function firstWith(list, holds) {
        let low = 0;
        let high = list.length;
        while (low < high) {
            const middle = (low + high) >> 1;
            if (holds(list[middle])) high = middle;
            else low = middle + 1;
        }
        return low;
    }

    // Returns the schedule of a length, its cost, and what one unit less costs. At a breakpoint the schedule is that of the segment above.
    function readingAt(curve, length) {
        demand(curve.shortest <= length && length <= curve.longest, `length ${length} is outside ${curve.shortest} to ${curve.longest}`);
        const at = firstWith(curve.segments, (segment) => segment.lower <= length);
        const times = curve.histories.map((history) => {
            const after = firstWith(history, (change) => change.segment > at);
            return timeOf(history[after - 1], length);
        });
        const durations = curve.deck.activities.map(({ from, to, normal }) => {
            const gap = times[to] - times[from];
            return gap < normal ? gap : normal;
        });
        const { upper, lower, cost, slope } = curve.segments[at];
        const below = curve.segments[at + 1];
        const nextBelow = below === undefined ? null : below.slope;
        return { length, cost: cost + slope * (upper - length), next: length > lower ? slope : nextBelow, times, durations };
    }

    return { DataError, readRecords, readDeck, chunks, expand, open, readingAt };
})();

if (typeof module !== "undefined") module.exports = PertCertificate;
