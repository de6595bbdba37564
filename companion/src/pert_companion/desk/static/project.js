// The page of a project: its panels, the keys that hold everywhere, and the line that says what was done.
import { HistoryPanel, Hand, StatesPanel, Vouchers, changeTable, diffOf } from "./hand.js";
import { Figures, Lengths } from "./length.js";
import { Load } from "./load.js";
import { Desk } from "./model.js";
import { Network } from "./network.js";
import { Gantt, Progress, Tasks } from "./tasks.js";
import { $, dayText, element, plural, setText } from "./dom.js";
import "./drop.js";

const desk = new Desk(document.body.dataset.project);
const figures = new Figures(desk);
const lengths = new Lengths(desk, figures);
const load = new Load(desk, figures);
const hand = new Hand(desk);
const states = new StatesPanel(desk);
const history = new HistoryPanel(desk);
new Vouchers(desk);
const tabs = /** @type {HTMLElement[]} */ ([...document.querySelectorAll("[role='tab']")]);
/** @type {Record<string, {draw: () => unknown}>} What is drawn when a panel is opened. */
const panels = { length: lengths, load, hand, compare: states, changes: history, report: { draw: drawReport }, network: { draw: drawNetwork } };
let tasks = null;
let network = null;
let isNetworkOld = true;
let saidLast = "";

// ---- Panels

function openTab(name, hasFocus = false) {
    const chosen = tabs.find((tab) => tab.dataset.panel === name) ?? tabs[0];
    for (const tab of tabs) {
        const isChosen = tab === chosen;
        tab.setAttribute("aria-selected", String(isChosen));
        tab.tabIndex = isChosen ? 0 : -1;
        $(`panel-${tab.dataset.panel}`).hidden = !isChosen;
    }
    if (hasFocus) chosen.focus();
    chosen.scrollIntoView({ block: "nearest", inline: "nearest" });
    window.history.replaceState(null, "", `#${chosen.dataset.panel}`);
    drawPanel();
}

function drawPanel() {
    if (desk.project === null) return;
    const chosen = tabs.find((tab) => tab.getAttribute("aria-selected") === "true");
    panels[chosen.dataset.panel]?.draw();
}

for (const tab of tabs) {
    tab.addEventListener("click", () => openTab(tab.dataset.panel));
    tab.addEventListener("keydown", (event) => {
        const place = tabs.indexOf(tab);
        const next = { ArrowLeft: place - 1, ArrowRight: place + 1, Home: 0, End: tabs.length - 1 }[event.key];
        if (next === undefined) return;
        event.preventDefault();
        openTab(tabs[(next + tabs.length) % tabs.length].dataset.panel, true);
    });
}
addEventListener("hashchange", () => openTab(location.hash.slice(1)));
addEventListener("resize", () => drawPanel());

function drawNetwork() {
    network ??= new Network($("network"), goTo, (text) => setText($("network-said"), text));
    if (isNetworkOld) {
        isNetworkOld = false;
        network.show(desk.tasks.map((task) => nodeOf(task, desk.dated.get(task.code))));
    }
    network.draw();
}

function nodeOf(task, dated) {
    const isDone = task.state === "finished";
    return {
        key: task.code,
        name: task.name || task.code,
        start: task.actual_start ?? dated?.start ?? "",
        finish: task.actual_finish ?? dated?.finish ?? "",
        note: isDone ? "finished" : dated?.is_critical ? "critical" : `float ${dated?.float ?? ""}`,
        isCritical: Boolean(dated?.is_critical) && !isDone,
        isDone,
        before: task.links.map((link) => link.task),
    };
}

function drawReport() {
    const address = `${desk.base}/report?version=${desk.project.version}${desk.chosen === null ? "" : `&length=${desk.chosen}`}`;
    if ($("report").getAttribute("src") !== address) $("report").setAttribute("src", address);
    $("report-alone").setAttribute("href", address);
}

function goTo(code) {
    openTab("tasks");
    tasks.find(code);
}

// ---- The head of the page

function drawHead() {
    const { project } = desk;
    document.title = `${project.title} \u2013 pert-desk`;
    setText($("title"), project.title);
    setText($("file"), project.file);
    setText($("as-of"), project.data_date === null ? `plan from ${dayText(project.first_day)}` : `as of ${dayText(project.data_date)}`);
    if (document.activeElement !== $("data-date")) $("data-date").value = project.data_date ?? "";
    const notes = [...project.notes, ...(project.accepted ? [`Not carried over at the import, and accepted: ${project.accepted}`] : [])];
    $("notes").replaceChildren(...notes.map((note) => element("li", {}, note)));
    $("notes-part").hidden = notes.length === 0;
    if (project.recovered > 0) desk.say(`${plural(project.recovered, "edit")} of a desk that was ended before it saved are here again.`);
}

function drawSteps() {
    const { project, steps } = desk;
    if (project === null) return;
    $("undo").disabled = !project.can_undo;
    $("redo").disabled = !project.can_redo;
    $("main").setAttribute("aria-busy", String(steps.length > 0));
    const isSaved = project.version === project.saved_version && steps.length === 0;
    $("save").disabled = isSaved;
    const waiting = steps.length > 0 && desk.trouble !== null ? `${plural(steps.length, "edit")} not sent` : "not saved yet";
    setText($("saved"), isSaved ? "saved" : waiting);
    if (desk.said !== saidLast) setText($("said"), desk.said);
    saidLast = desk.said;
}

// ---- Trouble: a line that says what happened, and what can be done

const CHOICES = {
    conflict: [["Do mine as well", () => desk.resume()], ["Drop mine", () => desk.drop()]],
    kept: [["Send them", () => desk.resume()], ["Drop them", () => desk.drop()]],
    outside: [["Take that file, with my edits on top", () => desk.outside("theirs")], ["Stay with mine", () => desk.outside("mine")]],
    gone: [["Try again", () => desk.resume()]],
    "no-access": [["Try again", () => desk.resume()]],
};

function drawTrouble() {
    const { trouble, steps } = desk;
    $("trouble").hidden = trouble === null;
    if (trouble === null) return;
    const waiting = steps.length > 0 ? ` ${steps.length === 1 ? "This waits" : "These wait"} and ${steps.length === 1 ? "is" : "are"} not lost: ${steps.map(({ text }) => text).join("; ")}.` : "";
    const choices = steps.length === 0 && trouble.kind === "conflict" ? [["Go on", () => desk.resume()]] : CHOICES[trouble.kind];
    const buttons = choices.map(([text, act]) => element("button", { type: "button", onclick: act }, text));
    const parts = [element("p", {}, trouble.text.replace(/[.]?$/, ".") + waiting)];
    if (trouble.changes.length > 0) parts.push(element("details", { open: trouble.changes.length < 4 }, element("summary", {}, "What others changed"), changeTable("Changed by others", trouble.changes)));
    if (trouble.diff) parts.push(element("details", {}, element("summary", {}, "Difference line by line"), diffOf(trouble.diff)));
    $("trouble").replaceChildren(...parts, element("p", { class: "buttons" }, ...buttons));
}

// ---- Keys and buttons

for (const name of /** @type {const} */ (["undo", "redo", "save"])) $(name).addEventListener("click", () => desk.do(name));
$("data-date").addEventListener("change", () => {
    const day = $("data-date").value;
    if (day) desk.editProject({ kind: "data-date", day }, `data date ${day}`);
});
$("zoom-in").addEventListener("click", () => network?.zoom(network.scale * 1.25));
$("zoom-out").addEventListener("click", () => network?.zoom(network.scale / 1.25));

addEventListener("keydown", (event) => {
    if (!(event.ctrlKey || event.metaKey) || event.altKey) return;
    const key = event.key.toLowerCase();
    const isText = event.target instanceof HTMLInputElement && event.target.type !== "range" && event.target.type !== "checkbox";
    if (key === "s") desk.do("save");
    else if (isText) return;
    else if (key === "z" && !event.shiftKey) desk.do("undo");
    else if ((key === "z" && event.shiftKey) || key === "y") desk.do("redo");
    else return;
    event.preventDefault();
});
addEventListener("beforeunload", (event) => {
    if (desk.steps.length > 0) event.preventDefault();
});

// ---- Beginning

desk.addEventListener("project", drawHead);
desk.addEventListener("steps", drawSteps);
desk.addEventListener("trouble", drawTrouble);

async function begin() {
    await desk.reading(() => desk.open());
    if (desk.project === null) return;
    tasks = new Tasks(desk, $("tasks"));
    panels.tasks = tasks;
    panels.gantt = new Gantt(desk, $("gantt"), goTo);
    panels.status = new Progress(desk, $("progress"));
    desk.addEventListener("schedule", () => {
        isNetworkOld = true;
        drawPanel();
    });
    desk.addEventListener("rows", drawPanel);
    drawSteps();
    openTab(location.hash.slice(1) || "tasks");
    document.documentElement.classList.add("live");
}

begin();
