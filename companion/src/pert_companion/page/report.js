// Draws the chosen length of a report page. Schedules, costs and prices are those of the certificate in the page, read by certificate.js. Nothing is
// checked here, and nothing is loaded or sent.
"use strict";

// ---- The choice of a length
(() => {
    const $ = (id) => document.getElementById(id);
    const form = JSON.parse($("pert-certificate").textContent);
    if (form === null) return; // it is larger than a page can hold
    const view = JSON.parse($("pert-view").textContent);
    if (!view.has_choice) { // the page has no slider, and shows the only length
        document.documentElement.classList.add("live");
        return;
    }
    const MONTHS = "Jan Feb Mar Apr May Jun Jul Aug Sep Oct Nov Dec".split(" ");
    const DAY = 86400000;
    const [WAITING, BEGUN, FINISHED] = [0, 1, 2];
    let deck;
    let curve;
    let plan; // today's plan: nothing is shortened
    try {
        deck = PertCertificate.readDeck(JSON.parse($("pert-deck").textContent).text);
        curve = PertCertificate.open(form, deck);
        plan = PertCertificate.readingAt(curve, curve.longest);
    } catch {
        return; // somebody changed the data; the page stays as it was written
    }

    // ---- Words, as words.py has them
    function grouped(digits) {
        return digits.replace(/\B(?=(?:[0-9]{3})+$)/g, ",");
    }

    function digits(amount) {
        const all = String(amount < 0n ? -amount : amount).padStart(view.decimals + 1, "0");
        const whole = grouped(all.slice(0, all.length - view.decimals));
        const part = view.decimals > 0 ? `.${all.slice(-view.decimals)}` : "";
        return `${amount < 0n ? "\u2212" : ""}${whole}${part}`;
    }

    const money = (amount) => `${digits(amount)}${view.currency ? `\u00a0${view.currency}` : ""}`;
    const signed = (amount) => `${amount > 0n ? "+" : ""}${money(amount)}`;
    const signedDigits = (amount) => `${amount > 0n ? "+" : ""}${digits(amount)}`;

    // Returns units of the deck as a number of days without separators: `1030`, `82.5`. Halves of hundredths go to the even one, as in Python.
    function plainDays(units) {
        if (view.calendar.unit === view.day_minutes) return String(units);
        const [all, day] = [BigInt(units) * BigInt(view.calendar.unit) * 100n, BigInt(view.day_minutes)];
        const [size, sign] = all < 0n ? [-all, "-"] : [all, ""];
        const [whole, twice] = [size / day, (size % day) * 2n];
        const hundredths = twice > day || (twice === day && whole % 2n === 1n) ? whole + 1n : whole;
        const part = String(hundredths % 100n).padStart(2, "0").replace(/0+$/, "");
        return `${hundredths === 0n ? "" : sign}${hundredths / 100n}${part === "" ? "" : `.${part}`}`;
    }

    const days = (units) => plainDays(units).replace("-", "\u2212").replace(/[0-9]+/, grouped);

    // Returns a length without its sign: `30 days`.
    function lengthText(units) {
        const number = days(units < 0n ? -units : units);
        return `${number} ${view.day}${number === "1" ? "" : "s"}`;
    }

    // By how many units a length is shortened: by a day, or by a unit if units are longer.
    const step = BigInt(Math.max(1, Math.floor(view.day_minutes / view.calendar.unit)));

    function dayText(time) {
        if (time === null) return "\u2013";
        const day = new Date(time);
        return `${day.getUTCDate()} ${MONTHS[day.getUTCMonth()]} ${day.getUTCFullYear()}`;
    }

    /**
     * Returns by how many units a length is shortened next: by a day, or by what is left.
     * @param {bigint} length
     */
    function shortening(length) {
        const left = length - BigInt(curve.shortest);
        return left < step ? left : step;
    }

    // ---- Days, as clock.py has them: places of working minutes in runs of days
    const firstDay = Date.parse(view.calendar.first);
    const drawnFrom = Date.parse(view.drawing.first);
    let minutes = 0;
    const runs = view.calendar.runs.map(([offset, days, each]) => {
        const run = { offset, each, from: minutes };
        minutes += days * each;
        return run;
    });
    const known = minutes;

    // Returns the day that has a minute of work, counted from 0, or null if the page does not know it.
    function dayWith(minute) {
        if (minute >= known) return null;
        let [low, high] = [0, runs.length - 1];
        while (low < high) {
            const middle = (low + high + 1) >> 1;
            if (runs[middle].from <= minute) low = middle;
            else high = middle - 1;
        }
        const { offset, each, from } = runs[low];
        return firstDay + DAY * (offset + Math.floor((minute - from) / each));
    }

    const beginDay = (length) => dayWith(Number(length) * view.calendar.unit);
    const endDay = (length) => dayWith(Math.max(0, Number(length) * view.calendar.unit - 1));

    // ---- Times of a schedule: early and late times of events with its durations
    const order = topological();

    // Returns the activities so that each comes after all that end where it begins.
    function topological() {
        const waiting = deck.events.map(() => 0);
        const leaving = deck.events.map(() => []);
        deck.activities.forEach(({ from, to }, place) => {
            waiting[to] += 1;
            leaving[from].push(place);
        });
        const ready = deck.events.map((_, event) => event).filter((event) => waiting[event] === 0);
        const found = [];
        while (ready.length > 0) {
            for (const place of leaving[ready.pop()]) {
                found.push(place);
                const { to } = deck.activities[place];
                waiting[to] -= 1;
                if (waiting[to] === 0) ready.push(to);
            }
        }
        return found;
    }

    // Late times keep the latest dates of the contract and of tasks, so that a schedule that breaks one has negative slack.
    function timesOf(durations, length) {
        const early = deck.events.map(() => 0);
        const late = deck.events.map(() => length);
        if (view.latest_end !== null) late[deck.project.end] = Math.min(length, view.latest_end / view.calendar.unit);
        for (const task of tasks) {
            const latest = latestStart(task, durations);
            const event = deck.activities[task.start >= 0 ? task.start : task.parts[0]].from;
            late[event] = Math.min(late[event], latest);
            if (task.finish < 0 || task.latestFinish === null) continue;
            const last = deck.activities[task.finish].from;
            late[last] = Math.min(late[last], task.latestFinish);
        }
        for (const place of order) {
            const { from, to } = deck.activities[place];
            early[to] = Math.max(early[to], early[from] + durations[place]);
        }
        pushBack(durations, late);
        return { early, late };
    }

    // Lets every event be early enough for those after it.
    function pushBack(durations, late) {
        for (let at = order.length - 1; at >= 0; at -= 1) {
            const { from, to } = deck.activities[order[at]];
            late[from] = Math.min(late[from], late[to] - durations[order[at]]);
        }
    }

    // ---- Costs
    /**
     * @param {number} place
     * @param {bigint} duration
     */
    function extraOf(place, duration) {
        const activity = deck.activities[place];
        let shorter = activity.normal - duration;
        let first = activity.normal - activity.crash;
        for (const { units: each } of activity.pieces) first -= each;
        let cost = 0n;
        for (const { units: each, slope } of [{ units: first, slope: activity.slope }, ...activity.pieces]) {
            /** @type {bigint} */
            const taken = shorter < each ? shorter : each;
            cost += taken * slope;
            shorter -= taken;
        }
        return cost;
    }

    /** @param {bigint} length */
    function timeCosts(length) {
        if (deck.terms === null) return null;
        const { overhead, target, bonus, penalty } = deck.terms;
        return {
            overhead: overhead * length,
            bonus: length < target ? bonus * (target - length) : 0n,
            penalty: length > target ? penalty * (length - target) : 0n,
        };
    }

    /**
     * Returns the least cost of the work at a length.
     * @param {bigint} length
     * @returns {bigint}
     */
    function workCost(length) {
        let [low, high] = [0, curve.segments.length - 1];
        while (low < high) {
            const middle = (low + high) >> 1;
            if (curve.segments[middle].lower <= length) high = middle;
            else low = middle + 1;
        }
        const { upper, cost, slope } = curve.segments[low];
        return cost + slope * (upper - length);
    }

    // Returns what a length costs in all: its work and its time.
    function totalCost(length) {
        const costs = timeCosts(length);
        return workCost(length) + (costs === null ? 0n : costs.overhead - costs.bonus + costs.penalty);
    }

    // ---- Tasks
    let areGroupsDrawn = false; // since a task became critical, or is no more
    const unitsOf = (minutes) => (minutes === null ? null : minutes / view.calendar.unit);
    const tasks = view.tasks.map(([parts, start, finish, state, name, first, last], place) => {
        const row = $(`t${place}`);
        const of = (selector) => row?.querySelector(selector) ?? null;
        return {
            parts,
            start,
            finish,
            state,
            name,
            latestStart: unitsOf(first), // in units after the start, or null
            latestFinish: unitsOf(last),
            row,
            startCell: of(".start"),
            finishCell: of(".finish"),
            slackCell: of(".slack"),
            durationCell: of(".duration"),
            bar: of("rect.bar"),
            milestone: of("svg.milestone"),
            isCritical: null,
        };
    });

    const sum = (task, durations) => task.parts.reduce((total, part) => total + Number(durations[part]), 0);

    // Returns the latest start of a task by its own latest dates.
    function latestStart(task, durations) {
        const byFinish = task.latestFinish === null ? Infinity : task.latestFinish - sum(task, durations);
        return Math.min(task.latestStart ?? Infinity, byFinish);
    }

    // Returns the latest start of a task after which it ends in time, and so do its parts.
    function lateStartOf(task, durations, late) {
        const lateEnd = (card) => late[deck.activities[card].to];
        const found = [latestStart(task, durations), ...(task.start >= 0 ? [lateEnd(task.start)] : [])];
        let done = 0;
        for (const part of task.parts) {
            done += Number(durations[part]);
            found.push(lateEnd(part) - done);
        }
        if (task.finish >= 0) found.push(lateEnd(task.finish) - done);
        return Math.min(...found);
    }

    // Tasks are done in one piece in late dates too: a finish that waits for others comes no later
    // than the late start plus the work, and what leads to it ends in time. Late times never fall
    // below early ones: a task that has to pause keeps what slack it has.
    function holdTogether(durations, { early, late }) {
        const tied = tasks.filter((task) => task.finish >= 0);
        let hasChanged = tied.length > 0;
        while (hasChanged) {
            hasChanged = false;
            for (const task of tied) {
                const event = deck.activities[task.finish].from;
                const latest = Math.max(early[event], lateStartOf(task, durations, late) + sum(task, durations));
                if (latest >= late[event]) continue;
                late[event] = latest;
                hasChanged = true;
            }
            if (hasChanged) pushBack(durations, late);
        }
    }

    // Returns when a task begins and ends, in units after the start, and its slack.
    function spanOf(task, durations, { early, late }) {
        const [first, last] = [task.parts[0], task.parts[task.parts.length - 1]];
        const chosen = sum(task, durations);
        let start = early[deck.activities[first].from];
        let finish = early[deck.activities[last].from] + durations[last];
        if (task.finish >= 0) {
            finish = early[deck.activities[task.finish].from];
            if (task.start < 0) start = finish - chosen;
        }
        let slack = lateStartOf(task, durations, late) - start;
        if (task.finish >= 0) slack = Math.min(slack, late[deck.activities[task.finish].to] - finish);
        return { start, finish, chosen, slack: Math.floor(slack), isCritical: slack <= 0 };
    }

    function place(days) {
        return `${(100 * days) / view.drawing.days}%`;
    }

    function setText(element, text) {
        if (element !== null && element.textContent !== text) element.textContent = text;
    }

    // Returns the days of a task, its slack and duration in units, and whether it is critical. `exact` are its dates by its own calendar, if the
    // page has them.
    function drawnSpan(task, durations, times, exact) {
        if (exact !== null) {
            const [first, last, slack, chosen, isCritical] = exact;
            return { begins: Date.parse(first), ends: Date.parse(last), slack, chosen, isCritical };
        }
        const { start, finish, chosen, slack, isCritical } = spanOf(task, durations, times);
        const begins = chosen > 0 ? beginDay(start) : endDay(start);
        return { begins, ends: chosen > 0 ? endDay(finish) : begins, slack, chosen, isCritical };
    }

    function drawTask(task, durations, times, exact) {
        if (task.row === null || task.state === FINISHED) return;
        const { begins, ends, chosen, slack, isCritical } = drawnSpan(task, durations, times, exact);
        if (task.state === WAITING) setText(task.startCell, dayText(begins));
        setText(task.finishCell, dayText(ends));
        setText(task.slackCell, days(slack));
        setText(task.durationCell, days(chosen));
        if (isCritical !== task.isCritical) {
            task.isCritical = isCritical;
            task.row.classList.toggle("critical", isCritical);
            areGroupsDrawn = false;
        }
        if (begins === null || ends === null) return;
        const [left, right] = [(begins - drawnFrom) / DAY, (ends - drawnFrom) / DAY + 1];
        task.bar?.setAttribute("x", place(left));
        task.bar?.setAttribute("width", place(right - left));
        task.milestone?.setAttribute("x", place(right));
    }

    // ---- Groups: those with a task that is shown
    const groups = [];
    const above = []; // the groups of the row at hand, by level
    /** @type {NodeListOf<HTMLTableRowElement>} */
    const gantt = document.querySelectorAll(".gantt tbody tr");
    for (const row of gantt) {
        const level = Number(/level([0-9]+)/.exec(row.cells[0].className)[1]);
        if (row.classList.contains("group")) {
            above.splice(level, above.length, { row, rows: [] });
            groups.push(above[level]);
        } else {
            for (const group of above.slice(0, level)) group?.rows.push(row);
        }
    }

    function drawGroups() {
        if (areGroupsDrawn) return;
        areGroupsDrawn = true;
        for (const { row, rows } of groups) {
            const isOther = rows.every(({ classList }) => classList.contains("other") && !classList.contains("critical"));
            if (row.classList.contains("other") !== isOther) row.classList.toggle("other", isOther);
        }
    }

    // ---- What a schedule changes: a row for each task, made when it is first needed
    const changedBody = $("changed").querySelector("tbody");

    function cell(kind, className) {
        const made = document.createElement(kind);
        made.className = className;
        return made;
    }

    // Returns the row of a task, in the order of tasks among the rows that there are.
    function changedRow(place) {
        const task = tasks[place];
        if (task.changed !== undefined) return task.changed;
        const row = document.createElement("tr");
        const name = cell("th", "");
        name.scope = "row";
        name.append(Object.assign(document.createElement("bdi"), { textContent: task.name }));
        const cells = ["normal", "before", "now", "extra"].map(() => cell("td", "number"));
        row.append(name, ...cells);
        const after = tasks.slice(place + 1).find((other) => other.changed !== undefined);
        changedBody.insertBefore(row, after?.changed.row ?? null);
        task.changed = { row, cells };
        return task.changed;
    }

    // Draws the rows of tasks that differ from today's plan or from the stop before, and returns their durations.
    function drawChangedRows(here, plan, stop) {
        const rows = [];
        tasks.forEach((task, place) => {
            if (task.state === FINISHED) return;
            const [now, normal, before] = [here, plan, stop].map((reading) => sum(task, reading.durations));
            const isChanged = now !== normal || before !== normal;
            if (!isChanged && task.changed === undefined) return;
            const { row, cells } = changedRow(place);
            row.hidden = !isChanged;
            if (!isChanged) return;
            const extra = task.parts.reduce((total, part) => total + extraOf(part, here.durations[part]), 0n);
            const texts = [normal, before, now].map(days);
            [...texts, money(extra)].forEach((text, at) => setText(cells[at], text));
            row.classList.toggle("longer", now > before);
            rows.push({ normal, before, now });
        });
        return rows;
    }

    function drawChanges(rows, stop) {
        $("differences").hidden = false;
        const shortened = rows.filter((row) => row.now < row.normal).length;
        const count = `${shortened} task${shortened === 1 ? " is" : "s are"} shorter than in today\u2019s plan.`;
        setText($("out-same"), rows.length === 0 ? "Nothing is shortened." : count);
        $("changed").parentElement.hidden = rows.length === 0;
        setText($("out-stop"), `At ${lengthText(stop.length)}`);
        const longer = rows.filter((row) => row.now > row.before).length;
        const other = rows.filter((row) => row.now !== row.before).length;
        const isMuch = longer > 0 || other > Math.max(3, tasks.length / 5);
        $("out-warning").hidden = !isMuch;
        if (isMuch) {
            const again = longer > 0 ? `, and ${longer} of them ${longer === 1 ? "is" : "are"} longer again` : "";
            const text = `Against ${lengthText(stop.length)} this schedule changes ${other} task${other === 1 ? "" : "s"}${again}: it rearranges the work.`;
            setText($("out-warning"), text);
        }
    }

    // Returns the breakpoint above a length, or the longest one: the stop before it.
    function stopBefore(length) {
        const above = curve.breakpoints.filter((point) => point.length > length);
        return above.length > 0 ? above[above.length - 1].length : curve.longest;
    }

    // ---- The chosen length
    let chosen = BigInt(view.length);
    let isAsked = false;

    // Draws the chosen length. What a changed certificate has may be no schedule: then there is nothing to choose.
    function draw() {
        isAsked = false;
        try {
            drawChosen();
        } catch {
            $("choose").hidden = true;
        }
    }

    function drawChosen() {
        const here = PertCertificate.readingAt(curve, chosen);
        const stop = PertCertificate.readingAt(curve, stopBefore(chosen));
        const durations = here.durations.map(Number);
        const times = timesOf(durations, Number(chosen));
        holdTogether(durations, times);
        drawCosts(here);
        const exact = view.exact?.find(([length]) => BigInt(length) === chosen)?.[1] ?? null;
        tasks.forEach((task, place) => drawTask(task, durations, times, exact === null ? null : exact[place]));
        $("out-counted").hidden = view.exact === null || exact !== null;
        drawGroups();
        drawChanges(drawChangedRows(here, plan, stop), stop);
        drawMark(here);
        drawStretch();
    }

    function drawCosts(here) {
        const late = view.contract === null ? null : here.length - BigInt(view.contract.units);
        const end = dayText(endDay(here.length));
        let lateText = "";
        if (late !== null && late === 0n) lateText = `on the ${view.contract.name}`;
        else if (late !== null) lateText = `${lengthText(late)} ${late > 0n ? "after" : "before"} the ${view.contract.name}`;
        const [number, ...word] = lengthText(here.length).split(" ");
        setText($("out-length"), number);
        setText($("out-unit"), word.join(" "));
        setText($("out-end"), end);
        setText($("out-late"), lateText);
        setText($("out-cost"), money(here.cost));
        const [total, against] = [totalCost(here.length), totalCost(here.length) - totalCost(curve.longest)];
        const less = shortening(here.length);
        const next = less === 0n ? null : totalCost(here.length - less) - total;
        const rest = less === step ? "" : ` for ${lengthText(less)}`; // no complete day is left
        setText($("out-more"), signed(against));
        setText($("out-next"), next === null ? "no length is shorter" : `${signed(next)}${rest}`);
        const costs = timeCosts(here.length);
        if (costs !== null) {
            for (const key of ["overhead", "bonus", "penalty"]) setText($(`out-${key}`), money(costs[key]));
            setText($("out-total"), money(total));
        }
        setText($("out-line"), `${lengthText(here.length)}, ends on ${end}: ${signed(against)} against today\u2019s plan`);
        drawOption({ length: here.length, end, work: here.cost, total, against, next: next === null ? "\u2013" : `${signedDigits(next)}${rest}` });
        drawBridge(here.cost, total);
        $("slider").setAttribute("aria-valuetext", `${lengthText(here.length)}, ends on ${end}, costs ${money(total)}`);
    }

    // Draws the row of the chosen length among the options, in the order of the heads that python wrote.
    function drawOption({ length, end, work, total, against, next }) {
        const row = $("option-chosen");
        const time = deck.terms === null ? [] : [digits(total - work), digits(total)];
        const same = view.chances.find(([each]) => BigInt(each) === length);
        const chance = view.chances.length === 0 ? [] : [same === undefined ? "\u2013" : same[1]];
        const texts = [end, digits(work), ...time, signedDigits(against), next, ...chance];
        setText(row.cells[0], `${lengthText(length)}: chosen`);
        texts.forEach((text, at) => setText(row.cells[at + 1], text));
    }

    // Draws the steps from the latest estimate to what the chosen length costs in all.
    function drawBridge(work, total) {
        if (view.latest === null) return;
        const more = work - workCost(curve.longest);
        const whole = BigInt(view.latest) + BigInt(more + total - work);
        const steps = {
            work: signedDigits(more),
            time: signedDigits(total - work),
            whole: digits(whole),
            covered: digits(whole + BigInt(view.uncharged)), // with the budgets that no account has
        };
        for (const [key, text] of Object.entries(steps)) setText($(`bridge-${key}`)?.cells[1] ?? null, text);
    }

    function drawMark(here) {
        const dot = document.querySelector(".curve .dot.chosen");
        const span = Number(curve.longest - curve.shortest) || 1;
        dot?.setAttribute("cx", `${(100 * Number(here.length - curve.shortest)) / span}%`);
        const { least, most, height } = view.chart;
        dot?.setAttribute("cy", String(height * (1 - (Number(here.cost) - least) / (most - least))));
    }

    function drawStretch() {
        const found = view.stretches.find(([lower, upper]) => chosen >= BigInt(lower) && chosen <= BigInt(upper));
        $("out-stretch").hidden = found === undefined;
        setText($("out-stretch"), found === undefined ? "" : found[2]);
    }

    // Chooses a length, and draws it with the next frame.
    function choose(length, from) {
        chosen = length < curve.shortest ? curve.shortest : length > curve.longest ? curve.longest : length;
        if (from !== $("slider")) $("slider").value = String(chosen);
        if (from !== $("number")) $("number").value = plainDays(chosen);
        if (!isAsked) requestAnimationFrame(draw);
        isAsked = true;
    }

    function settle() {
        history.replaceState(null, "", `#length=${plainDays(chosen)}`);
        $("number").value = plainDays(chosen);
        setText($("said"), $("slider").getAttribute("aria-valuetext"));
    }

    // Returns the units of a length in days, as a reader writes it or as the address has it; null for anything else.
    function lengthOf(text) {
        const found = /^(?:#length=)?([0-9]{1,12})(?:\.([0-9]{1,6}))?$/.exec(text);
        if (found === null) return null;
        const millionths = BigInt(found[1] + (found[2] ?? "").padEnd(6, "0"));
        const [minutes, unit] = [millionths * BigInt(view.day_minutes), BigInt(view.calendar.unit) * 1000000n];
        return (2n * minutes + unit) / (2n * unit);
    }

    const inputs = new Map([[$("slider"), (text) => BigInt(text)], [$("number"), lengthOf]]);
    for (const [input, read] of inputs) {
        input.addEventListener("input", () => {
            const length = read(input.value);
            if (length !== null && length >= curve.shortest && length <= curve.longest) choose(length, input);
        });
        input.addEventListener("change", () => {
            choose(read(input.value) ?? chosen, null);
            requestAnimationFrame(settle);
        });
    }
    $("choose").addEventListener("submit", (event) => event.preventDefault());
    addEventListener("hashchange", () => {
        const length = lengthOf(location.hash);
        if (length !== null) choose(length, null);
    });
    document.documentElement.classList.add("live");
    $("choose").hidden = false;
    chosen = lengthOf(location.hash) ?? chosen;
    choose(chosen, null);
})();
