// The page of the folder: its projects as the portfolio's page has them, filled in as they are computed, and the import of planners' files.
import { Gone, Refused, get, post, upload } from "./api.js";
import { $, dayText, element, plural, setText, table, title } from "./dom.js";
import "./drop.js";
import { commandLine, findingBox } from "./hand.js";

const ALARMS = { missed: "deadline missed", late: "late", overrun: "over budget", stale: "old figures", fault: "refused" };
const LOSSES = "A deck cannot have these, or they could not be read. Nothing is left out in silence: tick what you accept.";
const AT_ONCE = 3; // rows that are asked for at the same time
/** @type {Map<string, HTMLTableRowElement>} */
const lines = new Map();
/** @type {PortfolioRow["heads"]} */
let heads = [];
let latest = { file: null, more: {} }; // what was imported last

// ---- Projects

/** @param {FolderRow} project */
function lineOf(project) {
    const { id, file, title: name, row, unsaved, source } = project;
    const link = element("a", { href: `/projects/${id}` }, title(name || file));
    const notes = [file, source && source !== file ? `from ${source}` : "", unsaved > 0 ? `${plural(unsaved, "edit")} not saved` : ""];
    const small = element("small", {}, title(notes.filter((note) => note).join(" \u00b7 ")));
    const head = element("th", { scope: "row", "data-key": name || file }, link, small);
    const line = element("tr", { "data-alarms": row?.alarms ?? "", "data-urgency": row?.urgency ?? "" }, head);
    if (row === null) line.append(element("td", { class: "lead", colspan: Math.max(1, heads.length - 1) }, "\u2026"));
    else if (row.fault) line.append(element("td", { class: "fault", colspan: Math.max(1, heads.length - 1) }, "refused: ", title(row.fault)));
    else line.append(...row.cells.map(cellOf));
    return line;
}

function cellOf({ text, key, note, tone, is_number: isNumber }) {
    const cell = element("td", { class: `${isNumber ? "number" : "text"} ${tone}`, "data-key": key }, text);
    if (note) cell.append(element("small", {}, title(note)));
    return cell;
}

/** @param {FolderRow} project */
function place(project) {
    const line = lineOf(project);
    lines.get(project.id)?.remove();
    lines.set(project.id, line);
    const urgency = line.dataset.urgency;
    const body = $("projects").tBodies[0];
    const next = [...body.rows].find((other) => urgency !== "" && (other.dataset.urgency === "" || other.dataset.urgency > urgency));
    body.insertBefore(line, next ?? null);
}

/** @param {PortfolioRow} row */
function takeHeads(row) {
    if (heads.length > 0 || row.heads.length === 0) return;
    heads = row.heads;
    const cells = heads.map(({ name, is_number: isNumber }) => element("th", { scope: "col", class: isNumber ? "number" : "", "data-kind": isNumber ? "number" : "text" }, name));
    $("projects").tHead.rows[0].replaceChildren(...cells);
}

async function fillRow(project) {
    try {
        Object.assign(project, await get(`/api/projects/${project.id}/row`));
    } catch (error) {
        if (!(error instanceof Refused)) throw error;
        project.row = { heads: [], cells: [], fault: error.message, alarms: "fault", urgency: "~" };
    }
    takeHeads(project.row);
    place(project);
}

async function fillRows(waiting) {
    const worker = async () => {
        while (waiting.length > 0) await fillRow(waiting.shift());
    };
    await Promise.all(Array.from({ length: AT_ONCE }, worker));
}

// Draws buttons for the alarms that there are, and lets the portfolio's own script sort and filter.
function drawFilters(projects) {
    const alarms = projects.flatMap(({ row }) => row.alarms.split(" ").filter((word) => word !== ""));
    const button = (word, text, isPressed) => element("button", { type: "button", "data-only": word, "aria-pressed": String(isPressed) }, text);
    const buttons = [...new Set(alarms)].map((word) => button(word, `${ALARMS[word] ?? word} ${alarms.filter((other) => other === word).length}`, false));
    const name = element("label", {}, "Name ", element("input", { type: "search", id: "named" }));
    $("filters").replaceChildren(button("", `all ${projects.length}`, true), ...buttons, name, element("output", { id: "count", class: "lead" }));
    document.head.append(element("script", { src: "/static/portfolio.js" }));
}

function drawSums(sums) {
    const span = Math.max(1, heads.length - 3);
    const rows = sums.map(({ name, overrun, note, is_bad: isBad }) => {
        const amount = element("td", { class: `number${isBad ? " bad" : ""}` }, overrun);
        return element("tr", { class: "sum" }, element("th", { scope: "row", colspan: 2 }, name), amount, element("td", { colspan: span }, note));
    });
    $("projects").tFoot.replaceChildren(...rows);
}

async function showFolder() {
    /** @type {Folder} */
    const folder = await get("/api/folder");
    $("none").hidden = folder.projects.length > 0;
    for (const project of folder.projects) if (project.row !== null) takeHeads(project.row);
    folder.projects.forEach(place);
    drawFiles(folder.files);
    for (const { id, title: name, file } of folder.projects) $("newer").append(element("option", { value: id }, name || file));
    await fillRows(folder.projects.filter(({ row }) => row === null));
    if (folder.projects.length > 1) drawFilters(folder.projects);
    const { sums } = folder.sums === null && folder.projects.length > 1 ? await get("/api/folder") : folder;
    drawSums(sums ?? []);
    document.documentElement.classList.add("live");
}

// ---- Imports

function drawFiles(files) {
    const items = files.map(({ id, name, bytes }) => {
        const button = element("button", { type: "button", onclick: () => begin(null, { file: id }) }, "Import ", title(name));
        return element("li", {}, button, element("small", {}, ` ${plural(bytes, "byte")}`));
    });
    $("waiting").replaceChildren(...items);
}

// Sends a file, or names one of the folder, and follows its import.
async function begin(file, more = {}) {
    latest = { file, more };
    $("outcome").hidden = false;
    setText($("outcome-name"), file === null ? "Import" : `Import of ${file.name}`);
    $("outcome-name").focus();
    const given = [.../** @type {any} */ (new FormData($("options")))].filter(([, value]) => value !== "");
    const options = { ...Object.fromEntries(given), ...more };
    await shown(async () => follow(await upload("/api/uploads", file, options), file?.name ?? ""));
}

async function shown(run) {
    try {
        await run();
    } catch (error) {
        if (!(error instanceof Refused || error instanceof Gone)) throw error;
        fail(error.message);
    }
}

// Says why there is no project. Often an option is missing, so the options are opened.
function fail(text) {
    $("working").hidden = true;
    const again = element("button", { type: "button", class: "strong", onclick: () => begin(latest.file, latest.more) }, "Try again with these options");
    $("found").replaceChildren(element("p", { class: "hint warn" }, text), element("p", { class: "buttons" }, again));
    $("more").open = true;
    setText($("said"), text);
}

/** Follows an import by its events. @param {UploadBegun} begun */
function follow(begun, name) {
    const events = new EventSource(begun.events);
    $("working").hidden = false;
    $("percent").value = 0;
    setText($("step"), `reading ${name}`);
    $("found").replaceChildren();
    events.addEventListener("progress", (event) => {
        const { percent, text } = JSON.parse(event.data);
        $("percent").value = percent;
        setText($("step"), text);
    });
    events.addEventListener("outcome", (event) => {
        events.close();
        $("working").hidden = true;
        showOutcome(JSON.parse(event.data), begun.upload);
    });
    events.addEventListener("failed", (event) => {
        events.close();
        fail(JSON.parse(event.data).error.message);
    });
    events.addEventListener("error", () => {
        if (events.readyState === EventSource.CLOSED) fail("The import ended without an answer.");
    });
}

/** Shows what was read and what was not. @param {ImportOutcome} outcome */
function showOutcome(outcome, id) {
    const { file, summary, notes, losses, dates, pauses, command, project } = outcome;
    setText($("outcome-name"), `Import of ${file}`);
    setText($("said"), summary);
    const boxes = losses.map(({ kind, meaning, is_accepted: isAccepted, losses: list }) => findingBox(kind, meaning, isAccepted, list.map(lossLine)));
    const parts = [element("p", { class: "strong" }, summary)];
    if (project !== null) parts.push(element("p", { class: "buttons" }, element("a", { class: "button strong", href: `/projects/${project}` }, "Open the project")));
    if (pauses) parts.push(element("p", { class: "hint" }, pauses));
    if (boxes.length > 0) parts.push(element("h3", {}, "What is not carried over"), element("p", { class: "lead" }, LOSSES), ...boxes);
    if (notes.length > 0) parts.push(element("h3", {}, "What was assumed"), element("ul", {}, ...notes.map((note) => element("li", {}, title(note)))));
    if (dates !== null) parts.push(...datePart(dates));
    if (project === null) parts.push(makePart(file, id, boxes));
    $("found").replaceChildren(...parts, commandLine(command));
    $("found").querySelector("a.button, input, button")?.focus();
}

// Returns the buttons that make the project, which is possible when all losses are accepted, or forget the file.
function makePart(file, id, boxes) {
    const inputs = boxes.map((box) => box.querySelector("input"));
    const name = element("input", { type: "text", value: file.replace(/\.[^.]*$/, "") });
    const make = element("button", { type: "button", class: "strong", id: "make" }, boxes.length > 0 ? "Accept these and make the project" : "Make the project");
    const drop = element("button", { type: "button" }, "Do not import");
    const tell = () => (make.disabled = inputs.some((input) => !input.checked));
    for (const input of inputs) input.addEventListener("change", tell);
    tell();
    make.addEventListener("click", () => {
        const body = { kinds: inputs.map(({ value }) => value), ...(name.value.trim() ? { name: name.value.trim() } : {}) };
        shown(async () => follow(await post(`/api/uploads/${id}/accept`, body), file));
    });
    drop.addEventListener("click", async () => {
        $("outcome").hidden = true;
        await fetch(`/api/uploads/${id}`, { method: "DELETE", headers: { "Content-Type": "application/json" } });
        $("file").focus();
    });
    return element("p", { class: "buttons" }, element("label", {}, "Name of its file ", name), make, drop);
}

function lossLine({ where, name, field, text, why }) {
    const place = [where, name, field].filter((part) => part).join(", ");
    return `${place}${text ? `: \u201c${text}\u201d` : ""}: ${why}`;
}

/** @param {NonNullable<ImportOutcome["dates"]>} dates */
function datePart({ compared, summary, differences }) {
    const rows = differences.map(({ row, code, name, field, listed, computed }) => [title(`${row === null ? "" : `${row} `}${name || code}`), field, dayText(listed), dayText(computed)]);
    const parts = [element("h3", {}, "Dates against the planner\u2019s"), element("p", {}, summary)];
    if (rows.length === 0) return parts;
    const shownRows = table(`${plural(rows.length, "difference")} in ${plural(compared, "date")}`, ["Task", "Date", "In the file", "Here"], rows);
    return [...parts, element("details", { open: rows.length <= 8 }, element("summary", {}, plural(rows.length, "different date")), shownRows)];
}

$("options").addEventListener("submit", (event) => event.preventDefault());
$("file").addEventListener("change", (event) => {
    const [file] = event.target.files;
    event.target.value = "";
    if (file !== undefined) begin(file);
});
shown(showFolder);
