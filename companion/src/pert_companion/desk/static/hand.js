// Panels that keep the project or hand it on: states, comparison, exports, certificate, check, changes and history, vouchers.
import { Gone, Refused, get, post, upload } from "./api.js";
import { $, dayText, element, plural, setText, table, title } from "./dom.js";

const FORMATS = [
    ["xlsx", "Excel workbook"],
    ["xml", "MS Project (XML)"],
    ["csv", "List (CSV)"],
    ["ics", "Calendar (iCalendar)"],
    ["report", "Report page (HTML)"],
    ["deck", "Deck (CSV)"],
    ["side", "Side file (JSON)"],
    ["certificate", "Certificate of the curve"],
];

/** Returns the command that does the same, to be copied. */
export function commandLine(text) {
    return element("p", { class: "command" }, "The same by command: ", element("code", {}, text));
}

/** Runs what a button asks for, and shows why it was refused in an element. */
export async function tried(output, button, run) {
    button.disabled = true;
    output.replaceChildren(element("p", { class: "lead" }, "Working\u2026"));
    try {
        await run();
    } catch (error) {
        if (!(error instanceof Refused || error instanceof Gone)) throw error;
        output.replaceChildren(element("p", { class: "hint warn" }, error.message));
    } finally {
        button.disabled = false;
    }
}

/** Returns a list of changes, each in a line. @param {Change[]} changes */
export function changeTable(caption, changes) {
    const rows = changes.map(({ name, field, before, after }) => [title(name || "Project"), field, before || "\u2013", after || "\u2013"]);
    return table(caption, ["Task", "What", "Before", "Now"], rows);
}

/** Returns a diff with its lines in colour. */
export function diffOf(text) {
    const lines = text.split("\n").map((line) => {
        const kind = line.startsWith("+") ? "added" : line.startsWith("-") ? "removed" : line.startsWith("@@") ? "place" : null;
        return element("span", { class: kind }, `${line}\n`);
    });
    return element("pre", { class: "diff", tabindex: 0, "aria-label": "Difference line by line" }, ...lines);
}

/** The panel to hand the project on. */
export class Hand {
    /** @param {import("./model.js").Desk} desk */
    constructor(desk) {
        this.desk = desk;
        this.drawn = false;
        $("check").addEventListener("click", () => this.check());
        $("original").addEventListener("change", (event) => this.takeOriginal(event.target.files[0]));
    }

    draw() {
        const { source } = this.desk.project;
        // a list has no planner that takes a schedule back
        const hasWay = source !== null && source.planner !== "";
        const list = hasWay ? [["into", `${source.planner}: your own file, changed (${source.name})`], ...FORMATS] : FORMATS;
        const buttons = list.map(([format, name]) => {
            const button = element("button", { type: "button", "data-format": format }, name);
            button.addEventListener("click", () => this.exportTo(format, button));
            return element("li", {}, button);
        });
        $("formats").replaceChildren(...buttons);
        $("original-part").hidden = !hasWay || source.is_here;
        setText($("export-length"), `At the chosen length, ${this.desk.length.days} days, which ends on ${dayText(this.desk.length.end)}.`);
    }

    versioned() {
        const { chosen, project } = this.desk;
        return { version: project.version, ...(chosen === null ? {} : { length: chosen }) };
    }

    exportTo(format, button) {
        return tried($("exported"), button, async () => {
            /** @type {ExportReady} */
            const ready = await post(`${this.desk.base}/exports`, { ...this.versioned(), format, to_folder: $("to-folder").checked });
            const link = element("a", { href: ready.url, download: ready.name }, ready.name);
            const parts = [element("p", {}, link, ` (${plural(ready.bytes, "byte")})${ready.file ? `, also in the folder as ${ready.file}` : ""}`)];
            if (ready.notes.length > 0) parts.push(element("ul", {}, ...ready.notes.map((note) => element("li", {}, note))));
            $("exported").replaceChildren(...parts, commandLine(ready.command));
            link.click();
        });
    }

    takeOriginal(file) {
        if (file === undefined) return undefined;
        return tried($("exported"), $("original"), async () => {
            const { name } = await upload(`${this.desk.base}/original`, file);
            await this.desk.load();
            this.draw();
            $("exported").replaceChildren(element("p", {}, `${name} is in the folder now.`));
        });
    }

    check() {
        return tried($("checked"), $("check"), async () => {
            /** @type {CheckAnswer} */
            const { answer, is_certified: isCertified, command } = await post(`${this.desk.base}/check`, this.versioned());
            const text = isCertified ? "The certificate of the curve holds: no length can cost less than is shown." : "The certificate does not hold.";
            $("checked").replaceChildren(element("p", { class: isCertified ? "hint good" : "hint warn" }, `${text} pert_check answered \u201c${answer}\u201d.`), commandLine(command));
        });
    }
}

/** The panel of states: save as the state of a date, and compare with any. */
export class StatesPanel {
    /** @param {import("./model.js").Desk} desk */
    constructor(desk) {
        this.desk = desk;
        $("save-state").addEventListener("click", () => this.save());
        $("with").addEventListener("change", () => this.compare());
    }

    async draw() {
        await this.desk.reading(async () => this.show(await get(`${this.desk.base}/states`)));
        if (!$("state-date").value) $("state-date").value = this.desk.project.data_date ?? "";
    }

    /** @param {States} answer */
    show({ states }) {
        const before = $("with").value;
        const kinds = { opened: "as it was opened", state: "saved state", before: "kept before saving", other: "deck of the folder" };
        const options = states.map((state) => element("option", { value: state.id }, `${dayText(state.data_date)}: ${state.name || state.file}, ${kinds[state.kind]}`));
        $("with").replaceChildren(element("option", { value: "" }, states.length === 0 ? "no other state yet" : "choose a state"), ...options);
        $("with").value = states.some(({ id }) => id === before) ? before : "";
        if ($("with").value !== "") this.compare();
    }

    save() {
        return tried($("state-saved"), $("save-state"), async () => {
            const date = $("state-date").value;
            const states = await post(`${this.desk.base}/states`, { version: this.desk.project.version, date });
            this.show(states);
            const [file] = states.states.filter((state) => state.kind === "state" && state.data_date === date).map((state) => state.file);
            $("state-saved").replaceChildren(element("p", { class: "hint good" }, `Saved as the state of ${dayText(date)}${file ? `: ${file}` : ""}.`));
        });
    }

    compare() {
        if ($("with").value === "") return $("comparison").replaceChildren();
        return tried($("comparison"), $("with"), async () => {
            /** @type {Comparison} */
            const found = await get(`${this.desk.base}/compare?with=${encodeURIComponent($("with").value)}`);
            const rows = found.changes.map(({ task, name, text }) => [title(name || task || "Project"), text]);
            const parts = [element("pre", { class: "text", tabindex: 0, "aria-label": "Comparison" }, found.text), commandLine(found.command)];
            if (rows.length > 0) parts.unshift(table(plural(rows.length, "change"), ["Task", "Change"], rows));
            $("comparison").replaceChildren(...parts);
        });
    }
}

/** @param {HistoryStep} step */
function stepLine(step) {
    const parts = [element("time", {}, step.time), ` ${step.text}${step.is_undone ? " (undone)" : ""}`];
    if (step.command) parts.push(element("code", {}, step.command));
    return element("li", { class: step.is_undone ? "undone" : null }, ...parts);
}

/** The panel of changes and history. */
export class HistoryPanel {
    /** @param {import("./model.js").Desk} desk */
    constructor(desk) {
        this.desk = desk;
        $("revert").addEventListener("click", () => desk.do("revert"));
    }

    async draw() {
        await this.desk.reading(async () => {
            /** @type {Changes} */
            const { list, diff } = await get(`${this.desk.base}/changes`);
            const none = element("p", { class: "lead" }, "Nothing was changed since the project was opened.");
            const parts = list.length === 0 && diff === "" ? [none] : [changeTable(plural(list.length, "change"), list)];
            if (diff !== "") parts.push(element("details", {}, element("summary", {}, "Difference of the deck, line by line"), diffOf(diff)));
            $("changes-list").replaceChildren(...parts);
            $("revert").disabled = list.length === 0 && diff === "";
            /** @type {History} */
            const { steps } = await get(`${this.desk.base}/history`);
            $("history").replaceChildren(element("ol", { class: "history", reversed: true }, ...steps.reverse().map(stepLine)));
        });
    }
}

/** The part of the status panel that books lists of vouchers, amounts to go or progress. */
export class Vouchers {
    /** @param {import("./model.js").Desk} desk */
    constructor(desk) {
        this.desk = desk;
        $("vouchers").addEventListener("change", (event) => this.read(event.target.files[0]));
    }

    read(file) {
        if (file === undefined) return undefined;
        return tried($("booking"), $("vouchers"), async () => {
            const options = { list: $("voucher-list").value, ...($("data-date").value ? { as_of: $("data-date").value } : {}) };
            this.show(await upload(`${this.desk.base}/vouchers`, file, options));
            $("vouchers").value = "";
        });
    }

    /** @param {VoucherOutcome} outcome */
    show(outcome) {
        const boxes = outcome.findings.map((finding) => findingBox(finding.kind, finding.meaning, finding.is_accepted, finding.list.map(({ place, why }) => `${place}: ${why}`)));
        const book = element("button", { type: "button", class: "strong" }, `Book ${plural(outcome.new, "new line")}`);
        const drop = element("button", { type: "button", onclick: () => $("booking").replaceChildren() }, "Do not book");
        book.addEventListener("click", () => {
            const accept = boxes.map((box) => box.querySelector("input")).filter((box) => box.checked).map((box) => box.value);
            this.desk.add({ path: "/book", body: { upload: outcome.upload, accept }, text: `book ${outcome.summary}` });
            $("booking").replaceChildren();
        });
        const notes = outcome.notes.map((note) => element("p", { class: "hint" }, note));
        $("booking").replaceChildren(element("p", {}, outcome.summary), ...notes, ...boxes, element("p", { class: "buttons" }, book, drop), commandLine(outcome.command));
    }
}

/** Returns a kind of things that are accepted with a check box, and the list of them. */
export function findingBox(kind, meaning, isAccepted, lines) {
    const box = element("input", { type: "checkbox", value: kind, checked: isAccepted });
    const head = element("label", {}, box, element("strong", {}, ` ${plural(lines.length, kind)}`), `: ${meaning}`);
    const list = element("ul", {}, ...lines.map((line) => element("li", {}, title(line))));
    return element("div", { class: "finding" }, head, element("details", { open: lines.length <= 5 }, element("summary", {}, "Where"), list));
}
