// The page that checks a report page, or a deck and a certificate, and shows its own figures of them. Uses PertCheck for the fifteen conditions,
// PertCertificate for the compact form, and PertSide and PertSchedule for what is shown. Of a report page it reads the data alone.
"use strict";

(() => {
    const MOST_PAGE = 64_000_000; // bytes
    const MOST_CERTIFICATE = 2_000_000_000; // bytes of a file, or characters of a compact one written out
    const MOST_ROWS = 5000; // tasks of a schedule that are drawn
    const PART = 1 << 20;
    const BLOCKS = ["pert-source", "pert-deck", "pert-side", "pert-certificate"]; // as data.py describes them
    const MONTHS = "Jan Feb Mar Apr May Jun Jul Aug Sep Oct Nov Dec".split(" ");
    const CONDITIONS = [
        "the line is malformed or missing",
        "version, code and the two numbers are the deck's",
        "the normal walk leads from start to end, and adds up to the first upper end",
        "the crash walk leads from start to end, and adds up to the last lower end",
        "the codes are the deck's, in card order, with one flow per knee and one more",
        "start and end have the times and bits of this length",
        "at both ends each gap is at least the crash duration",
        "each duration is the lesser of normal duration and gap",
        "the flow at each knee is at most its rise",
        "inflow equals outflow at each event but start and end",
        "the outflow of the start is the slope",
        "the flow fits the gaps at both ends",
        "the cost is that of the durations",
        "the slope is that of the cut",
        "some activity stops the segment at its lower end",
        "the segments cover the range exactly once",
    ];

    // Something that nothing is shown of, with the reason.
    class Refusal extends Error {}
    const REASONS = [Refusal, PertCheck.Refused, PertCertificate.DataError, PertSide.Refused, PertSchedule.Wrong];

    const $ = (id) => document.getElementById(id);
    const given = { page: null, deck: null, certificate: null, side: null };
    let run = 0; // a later run ends an earlier one

    function demand(holds, text) {
        if (!holds) throw new Refusal(text);
    }

    // ---- Files

    async function bytesOf(file, most) {
        demand(file.size <= most, `${file.name} has more than ${most} bytes`);
        return new Uint8Array(await file.arrayBuffer());
    }

    function latin(bytes) {
        return new TextDecoder("latin1").decode(bytes);
    }

    // Returns `page`, `side`, `deck` or `certificate`. What is none of the others counts as a certificate, so that a changed first line is reported.
    async function kindOf(file) {
        const head = latin(await file.slice(0, 4096).arrayBuffer());
        if (/\.html?$/i.test(file.name) || /^[\s\u00ef\u00bb\u00bf]*</.test(head)) return "page";
        if (/\.json$/i.test(file.name) || /^[\s\u00ef\u00bb\u00bf]*\{/.test(head)) return "side";
        if (/\.csv$/i.test(file.name) || /^[\s,"\u00ef\u00bb\u00bf]*PROJECT/.test(head)) return "deck";
        return "certificate";
    }

    async function choose(files) {
        for (const file of files) {
            let kind;
            try {
                kind = await kindOf(file);
            } catch {
                refuse(`${file.name} cannot be read`);
                return;
            }
            given[kind] = file;
            if (kind === "page") given.certificate = null;
            if (kind === "certificate") given.page = null;
        }
        await checkGiven();
    }

    // Yields a certificate in parts, with how much of it was passed: from a file, or from the compact form.
    async function* partsOfFile(file) {
        demand(file.size <= MOST_CERTIFICATE, `${file.name} has more than ${MOST_CERTIFICATE} bytes`);
        for (let at = 0; at < file.size; at += PART) {
            yield [latin(await file.slice(at, at + PART).arrayBuffer()), Math.min(1, (at + PART) / file.size)];
        }
    }

    async function* partsOfData(data) {
        const count = Array.isArray(data?.segments) ? data.segments.length + 2 : 1;
        let [at, size] = [0, 0];
        for (const text of PertCertificate.chunks(data)) {
            at += 1;
            size += text.length;
            demand(size <= MOST_CERTIFICATE, `the certificate has more than ${MOST_CERTIFICATE} characters`);
            yield [text, at / count];
        }
    }

    async function digestOf(bytes) {
        demand(globalThis.crypto?.subtle !== undefined, "this browser computes no checksums here; open the page from a file");
        const digest = new Uint8Array(await crypto.subtle.digest("SHA-256", bytes));
        return [...digest].map((byte) => byte.toString(16).padStart(2, "0")).join("");
    }

    // ---- The data of a report page

    // Returns the texts of the data blocks by their ids, as a browser finds them. No script of the page is run, and nothing of it is loaded.
    function blocksOf(bytes) {
        let text;
        try {
            text = new TextDecoder("utf-8", { fatal: true }).decode(bytes);
        } catch {
            throw new Refusal("the page is not UTF-8");
        }
        const page = new DOMParser().parseFromString(text, "text/html");
        return new Map(BLOCKS.map((id) => [id, blockOf(page, id)]));
    }

    function blockOf(page, id) {
        const found = elementsOf(page, id);
        demand(found.length > 0, `the page has no ${id}`);
        demand(found.length === 1, `the page has ${found.length} copies of ${id}`);
        const [block] = found;
        const isData = block.localName === "script" && block.namespaceURI === "http://www.w3.org/1999/xhtml" && block.getAttribute("type") === "application/json";
        demand(isData, `${id} of the page is no data`);
        return block.textContent;
    }

    // Returns all elements with an id, in templates too.
    function elementsOf(root, id) {
        const inside = [...root.querySelectorAll("template")].flatMap(({ content }) => elementsOf(content, id));
        return [...[...root.querySelectorAll("[id]")].filter((element) => element.id.toLowerCase() === id), ...inside];
    }

    function parsed(text, id) {
        try {
            return JSON.parse(text);
        } catch {
            throw new Refusal(`${id} of the page is not JSON`);
        }
    }

    // Returns what a page holds: the deck's bytes, the text of its side data, the compact form of its certificate, and the source as it was given.
    async function contentsOfPage() {
        const blocks = blocksOf(await bytesOf(given.page, MOST_PAGE));
        const text = parsed(blocks.get("pert-deck"), "pert-deck")?.text;
        const side = parsed(blocks.get("pert-side"), "pert-side");
        demand(typeof text === "string" && typeof side?.text === "string", "the page has no text of a deck or of its side data");
        const joined = BLOCKS.map((id) => `${blocks.get(id)}\n`).join("");
        return {
            bytes: new TextEncoder().encode(text),
            side,
            form: parsed(blocks.get("pert-certificate"), "pert-certificate"),
            source: parsed(blocks.get("pert-source"), "pert-source"),
            digest: await digestOf(new TextEncoder().encode(joined)),
        };
    }

    // ---- Checking

    // Returns the answer of PertCheck, or null if another run has begun.
    async function answerOf(deck, parts, isCurrent, keep) {
        const checker = new PertCheck.Checker(deck);
        let pausedAt = performance.now();
        for await (const [text, share] of parts) {
            if (!checker.take(text)) break;
            keep?.(text);
            if (performance.now() - pausedAt < 50) continue;
            $("progress").hidden = false;
            $("progress").value = share;
            await new Promise((resume) => setTimeout(resume));
            if (!isCurrent()) return null;
            pausedAt = performance.now();
        }
        return checker.end();
    }

    function explained(answer) {
        const found = /^not certified line (\d+) reason (\d+)$/.exec(answer);
        const reason = Number(found[2]);
        return `${answer}: ${reason === 0 ? CONDITIONS[0] : `this fails: ${CONDITIONS[reason]}`}`;
    }

    async function checkPage(isCurrent) {
        const { bytes, side, form, source, digest } = await contentsOfPage();
        demand(form !== null, "the certificate is larger than a page can hold; use pert-report --check");
        const deck = PertCheck.readDeck(bytes);
        const details = [["SHA-256 of the data", digest]];
        await compareGiven(details, source, bytes);
        const answer = await answerOf(deck, partsOfData(form), isCurrent);
        if (answer === null) return null;
        if (!answer.startsWith("certified")) throw new Refusal(explained(answer));
        demand(side.sha256 === (await digestOf(bytes)), "the side data belong to another deck");
        return { answer, details, deck, side: PertSide.read(side.text, deck), plan: PertSchedule.open(form, deck) };
    }

    const areSame = (one, other) => one.length === other.length && one.every((byte, at) => byte === other[at]);

    // Returns what becomes of a deck before its curve is drawn, or null if a certificate is of the deck itself.
    function stepsOf(bytes) {
        try {
            const { cards } = PertCheck.readDeck(bytes);
            return cards.some(({ fields }) => fields[0] === "STATUS" || fields[0] === "ASOF") ? "what is left of it" : null;
        } catch {
            return "its network, or what is left of that";
        }
    }

    // Refuses a page that was made of another deck or another side file than those chosen with it. `shown` are the bytes of the deck whose
    // figures are shown; only pert-report can make those of what is left again.
    async function compareGiven(details, source, shown) {
        const { deck, side } = source?.state ?? {};
        if (given.deck !== null) {
            const { name } = given.deck;
            const other = await bytesOf(given.deck, MOST_PAGE * 2);
            demand(areSame(new TextEncoder().encode(deck ?? ""), other), `the page was made of another deck than ${name}`);
            const steps = areSame(shown, other) ? null : stepsOf(other);
            demand(steps !== null || areSame(shown, other), `the figures of the page are those of another deck than ${name}`);
            const whole = "the deck of these figures";
            details.push([name, steps === null ? whole : `the page holds it; whether the figures are of ${steps}, pert-report --check says`]);
        }
        if (given.side !== null) {
            const other = new TextDecoder().decode(await bytesOf(given.side, MOST_PAGE));
            demand(typeof side === "string", `the page was made without a side file, and ${given.side.name} was chosen with it`);
            demand(PertSide.meaning(side) === PertSide.meaning(other), `the page was made of another side file than ${given.side.name}`);
            details.push([given.side.name, "the side file that the page was made of"]);
        }
    }

    async function checkFiles(isCurrent) {
        const bytes = await bytesOf(given.deck, MOST_PAGE * 2);
        const deck = PertCheck.readDeck(bytes);
        const digest = await digestOf(bytes);
        const form = new PertCompactor();
        const answer = await answerOf(deck, partsOfFile(given.certificate), isCurrent, (text) => form.take(text));
        if (answer === null) return null;
        if (!answer.startsWith("certified")) throw new Refusal(explained(answer));
        let side = PertSide.implied(deck);
        if (given.side !== null) side = PertSide.read(new TextDecoder().decode(await bytesOf(given.side, MOST_PAGE)), deck);
        const dates = given.side === null ? "every day counts, since no side file was chosen" : "by the calendar of the side file";
        const details = [["SHA-256 of the deck", digest], ["Dates", dates]];
        return { answer, details, deck, side, plan: PertSchedule.open(form.data(), deck) };
    }

    async function checkGiven() {
        run += 1;
        const own = run;
        showChosen();
        $("figures").hidden = true;
        if (given.page === null && (given.deck === null || given.certificate === null)) {
            say(given.deck === null ? "Now add the deck." : "Now add the certificate.", "", []);
            return;
        }
        say("Checking\u2026", "", []);
        try {
            const found = await (given.page === null ? checkFiles : checkPage)(() => own === run);
            if (found === null || own !== run) return;
            showFigures(found);
            say(`${found.answer}: these are the figures of the data in the file`, "right", found.details);
        } catch (error) {
            if (own !== run) return;
            const isReason = REASONS.some((kind) => error instanceof kind);
            refuse(isReason ? error.message : `it cannot be read (${error.name})`);
            if (!isReason) throw error; // a file that cannot be read any more, or a mistake in here
        }
    }

    // ---- What the page shows

    // Returns a text with escapes for characters that are not seen, or that turn the direction of the others.
    function plain(text) {
        const unseen = /[\u0000-\u001f\u007f-\u009f\u00ad\u061c\u180e\u200b-\u200f\u2028-\u202e\u2060-\u206f\ufeff\ufff9-\ufffb]/g;
        return text.replace(unseen, (mark) => `\\u${mark.charCodeAt(0).toString(16).padStart(4, "0")}`);
    }

    function element(name, text, className) {
        const made = document.createElement(name);
        made.textContent = plain(text);
        made.dir = "auto";
        if (className) made.className = className;
        return made;
    }

    function refuse(text) {
        $("figures").hidden = true;
        for (const id of ["curve", "schedule"]) $(id).tBodies[0].replaceChildren();
        say(`Refused, so nothing is shown: ${plain(text)}`, "wrong", []);
    }

    function say(verdict, className, details) {
        $("verdict").textContent = verdict;
        $("verdict").className = `verdict ${className}`;
        $("progress").hidden = true;
        fill($("details"), details);
    }

    function fill(list, pairs) {
        list.replaceChildren(...pairs.flatMap(([name, text]) => [element("dt", name), element("dd", text)]));
    }

    function showChosen() {
        const names = { page: "Report page", deck: "Deck", certificate: "Certificate", side: "Side file" };
        const chosen = Object.keys(names).filter((kind) => given[kind] !== null);
        $("chosen").replaceChildren(...chosen.map((kind) => element("li", `${names[kind]}: ${given[kind].name}`)));
    }

    // Returns a day as `8 Apr 2024`, or a dash.
    function dayText(day) {
        if (day === null) return "\u2013";
        const [year, month, number] = day.split("-").map(Number);
        return `${number} ${MONTHS[month - 1]} ${year}`;
    }

    function row(cells, texts) {
        const made = document.createElement("tr");
        cells.forEach((text, at) => {
            const cell = element(at === 0 ? "th" : "td", text, at === 0 || texts.includes(at) ? "" : "number");
            if (at === 0) cell.scope = "row";
            made.append(cell);
        });
        return made;
    }

    function heads(table, names, texts) {
        const cells = names.map((name, at) => {
            const cell = element("th", name, at === 0 || texts.includes(at) ? "" : "number");
            cell.scope = "col";
            return cell;
        });
        table.tHead.rows[0].replaceChildren(...cells);
    }

    function showFigures({ deck, side, plan }) {
        const { fields } = deck.cards[0];
        $("project").textContent = plain(`${deck.code}${fields[7] ? `, ${fields[7]}` : ""}`);
        fill($("facts"), factsOf(deck, side, plan));
        showCurve(side, plan);
        const number = $("number");
        number.value = side.plainDays(plan.longest);
        $("number-name").textContent = `Length in ${side.day}s`;
        $("range").textContent = rangeText(side, plan);
        number.oninput = () => showLength(side, plan, number.value);
        showLength(side, plan, number.value);
        $("figures").hidden = false;
    }

    function factsOf(deck, side, plan) {
        const asOf = deck.cards.find(({ fields }) => fields[0] === "ASOF");
        const facts = [["First day", dayText(side.start)], ["As of", dayText(asOf?.fields[1] ?? side.start)]];
        facts.push(["Longest", endText(side, plan.longest)], ["Shortest", endText(side, plan.shortest)]);
        if (plan.optimum !== null) facts.push(["Cheapest with the price of time", endText(side, plan.optimum)]);
        facts.push(["Tasks", String(side.tasks.length)], ["Currency", side.currency || "none is named"]);
        return facts;
    }

    function rangeText(side, plan) {
        return `from ${side.numberOfDays(plan.shortest)} to ${side.numberOfDays(plan.longest)}`;
    }

    function endText(side, length) {
        return `${side.lengthText(length)}, ends on ${dayText(side.endDay(length))}`;
    }

    function showCurve(side, plan) {
        const hasTotal = plan.terms !== null;
        heads($("curve"), ["Length", "Ends on", "Cost of the work", ...(hasTotal ? ["In all"] : []), side.oneLess], [1]);
        const rows = plan.breakpoints.map(({ length, cost, next }) => {
            const cells = [side.lengthText(length), dayText(side.endDay(length)), side.money(cost)];
            if (hasTotal) cells.push(side.money(plan.total(length)));
            return row([...cells, next === null ? "\u2013" : side.money(next * side.step)], [1]);
        });
        $("curve").tBodies[0].replaceChildren(...rows);
    }

    function showLength(side, plan, text) {
        const length = side.unitsOf(text);
        if (length === null || length < plan.shortest || length > plan.longest) {
            fill($("chosen-length"), [["Length", `none ${rangeText(side, plan)} is chosen`]]);
            $("schedule").tBodies[0].replaceChildren();
            return;
        }
        try {
            drawLength(side, plan, plan.at(length, side.tasks));
        } catch (error) {
            refuse(error.message);
        }
    }

    function drawLength(side, plan, { length, cost, total, tasks }) {
        const facts = [["Length", side.lengthText(length)], ["Ends on", dayText(side.endDay(length))], ["Cost of the work", side.money(cost)]];
        if (total !== null) facts.push(["In all, with the price of time", side.money(total)]);
        const less = length - plan.shortest < side.step ? length - plan.shortest : side.step;
        const rest = less === side.step ? "" : ` for ${side.lengthText(less)}`;
        const next = `${side.money(plan.cost(length - less) - cost)}${rest}`;
        facts.push([`${side.oneLess}, for the work`, less === 0n ? "no length is shorter" : next]);
        fill($("chosen-length"), facts);
        $("schedule").caption.textContent = `What is left of each task at ${side.lengthText(length)}, with nothing begun later than it has to`;
        heads($("schedule"), ["Task", "Start", "Finish", `${side.day[0].toUpperCase()}${side.day.slice(1)}s`, "Shortened by", "Costs more"], [1, 2]);
        const rows = tasks.slice(0, MOST_ROWS).map((task, at) => scheduleRow(side, side.tasks[at], task));
        if (tasks.length > MOST_ROWS) rows.push(row([`and ${tasks.length - MOST_ROWS} more tasks`], []));
        $("schedule").tBodies[0].replaceChildren(...rows);
    }

    function scheduleRow(side, { name, outline }, { start, finish, duration, shortened, extra }) {
        const first = duration > 0n ? side.beginDay(start) : side.endDay(start);
        const last = duration > 0n ? side.endDay(finish) : first;
        const made = row([name, dayText(first), dayText(last), side.numberOfDays(duration), side.numberOfDays(shortened), side.money(extra)], [1, 2]);
        if (outline.length > 0) made.cells[0].append(element("small", outline.join(" \u203a ")));
        return made;
    }

    // ---- Choosing and dropping

    $("choose").addEventListener("submit", (event) => event.preventDefault());
    $("files").addEventListener("change", (event) => {
        const files = [...event.target.files];
        event.target.value = "";
        choose(files);
    });
    for (const name of ["dragenter", "dragover"]) {
        document.addEventListener(name, (event) => {
            event.preventDefault();
            $("drop").classList.add("over");
        });
    }
    for (const name of ["dragleave", "drop"]) document.addEventListener(name, () => $("drop").classList.remove("over"));
    document.addEventListener("drop", (event) => {
        event.preventDefault();
        choose([...event.dataTransfer.files]);
    });
})();
