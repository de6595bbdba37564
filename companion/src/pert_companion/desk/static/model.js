// A project as this tab shows it. What is changed goes to the server one by one, each with the version that the answer before had. What cannot be sent
// waits, also when the tab is loaded again: nothing is lost because the server ended or another tab was faster.
// Its events are `project` (all is new), `rows`, `length`, `schedule`, `added` (a task), `steps` (something waits, or was done) and `trouble`.
import { Gone, Refused, get, latest, post } from "./api.js";

const RETRY = 2000; // milliseconds until a server that did not answer is asked again
const LOOK = 4000; // milliseconds between questions for changes by others
const STOPS = ["conflict", "changed-outside", "no-access"];

export class Desk extends EventTarget {
    /** @param {string} id */
    constructor(id) {
        super();
        this.id = id;
        this.base = `/api/projects/${id}`;
        /** @type {Project} */
        this.project = null;
        /** @type {Length} */
        this.length = null;
        /** @type {Map<string, Dated>} */
        this.dated = new Map();
        /** @type {number | null} */
        this.chosen = null; // units, or null for the longest: then edits move the end
        /** @type {DeskStep[]} */
        this.steps = [];
        this.pending = new Map(); // what was written in cells, until it is answered
        this.faults = new Map(); // why the latest edit of a cell was refused, and what was written
        /** @type {DeskTrouble | null} */
        this.trouble = null;
        this.isBusy = false;
        this.said = ""; // what was done last, or why not
        this.askLength = latest((units) => this.readLength(units));
        this.askSchedule = latest(() => this.readSchedule());
        this.askChance = latest((units) => this.readChance(units));
    }

    tell(name) {
        this.dispatchEvent(new Event(name));
    }

    /** Opens the project, and takes up what was not sent when the tab was left. */
    async open() {
        await this.load();
        this.steps = JSON.parse(sessionStorage.getItem(this.kept) ?? "[]");
        if (this.steps.length > 0) this.stop("kept", "Some of your edits were not sent when this page was left.");
        setInterval(() => this.look(), LOOK);
    }

    get kept() {
        return `pert-desk ${this.id}`;
    }

    /** Reads the project again, at the chosen length. */
    async load() {
        const query = this.chosen === null ? "" : `?length=${this.chosen}`;
        this.project = await get(`${this.base}${query}`);
        this.takeSchedule(this.project.schedule);
        this.tell("project");
        this.tell("length");
        this.tell("schedule");
    }

    takeSchedule(schedule) {
        this.dated = new Map(schedule.tasks.map((task) => [task.code, task]));
        const isSame = this.length?.units === schedule.length.units && this.length.version === schedule.version;
        if (isSame && this.length.chance !== null) return;
        this.length = schedule.length;
        this.askChance(schedule.length.units);
    }

    // Asks for the chance of a length, which takes longer than the other figures.
    async readChance(units) {
        await this.reading(async () => {
            const found = await get(`${this.base}/length?length=${units}&chance=1`);
            if (found.units !== this.length.units || found.version !== this.length.version) return;
            this.length = found;
            this.tell("length");
        });
    }

    /** @returns {WorkRow[]} */
    get tasks() {
        return /** @type {WorkRow[]} */ (this.project.rows.filter((row) => row.kind === "task"));
    }

    // ---- The chosen length

    /** Chooses a length in units, and asks for what it costs. */
    choose(units) {
        const { shortest, longest } = this.project.curve;
        const chosen = Math.max(shortest, Math.min(longest, units));
        this.chosen = chosen === longest ? null : chosen;
        return this.askLength(`length=${chosen}`);
    }

    /** Chooses the longest length that ends on a day or before. */
    chooseDay(day) {
        return this.reading(async () => {
            const found = await get(`${this.base}/length?by=${encodeURIComponent(day)}`);
            await this.choose(found.units);
        });
    }

    async readLength(query) {
        await this.reading(async () => {
            this.length = await get(`${this.base}/length?${query}`);
            this.tell("length");
            this.askSchedule(null);
        });
    }

    async readSchedule() {
        await this.reading(async () => {
            const query = this.chosen === null ? "" : `?length=${this.chosen}`;
            const schedule = await get(`${this.base}/schedule${query}`);
            if (schedule.version !== this.project.version) return;
            this.takeSchedule(schedule);
            this.tell("length");
            this.tell("schedule");
        });
    }

    // Reads something; a fault is shown, and nothing of it is lost.
    async reading(read) {
        try {
            await read();
        } catch (error) {
            if (error instanceof Gone) this.stop("gone", error.message);
            else if (error instanceof Refused) this.refuse(error);
            else throw error;
        }
    }

    // ---- Changing

    /**
     * Edits a figure of a task. The cell shows what was written until the answer is there.
     * @param {WorkRow} task
     * @param {Field} field
     * @param {string} value
     */
    edit(task, field, value) {
        const cell = `${task.code} ${field}`;
        this.pending.set(cell, value);
        this.faults.delete(cell);
        const edit = { kind: "task", task: task.code, field, value };
        this.add({ path: "/edits", body: { edits: [edit] }, text: `${field.replace("_", " ")} of ${task.name}: ${value || "none"}`, cell });
    }

    /** Edits a figure of the project. @param {Edit} edit @param {string} text */
    editProject(edit, text) {
        this.add({ path: "/edits", body: { edits: [edit] }, text });
    }

    /** Does what has no more to it than its name. @param {"undo" | "redo" | "save" | "revert"} name */
    do(name) {
        this.add({ path: `/${name}`, body: {}, text: name });
    }

    /** Adds a task after another one in the table. @param {string} name @param {WorkRow} after */
    addTask(name, after) {
        this.add({ path: "/tasks", body: { name, after: after.code }, text: `new task ${name}` });
    }

    /** Removes a task with its links. @param {WorkRow} task */
    removeTask(task) {
        const edit = { kind: "task", task: task.code, field: "remove", value: "" };
        this.add({ path: "/edits", body: { edits: [edit] }, text: `remove ${task.name}` });
    }

    /** Lets a step follow those that wait. @param {DeskStep} step */
    add(step) {
        this.steps.push(step);
        this.keep();
        this.pump();
    }

    keep() {
        if (this.steps.length === 0) sessionStorage.removeItem(this.kept);
        else sessionStorage.setItem(this.kept, JSON.stringify(this.steps));
        this.tell("steps");
    }

    async pump() {
        if (this.isBusy || this.trouble !== null) return;
        this.isBusy = true;
        while (this.steps.length > 0 && this.trouble === null) await this.send(this.steps[0]);
        this.isBusy = false;
    }

    /** @param {DeskStep} step */
    async send(step) {
        try {
            const versioned = { ...step.body, version: this.project.version, ...(this.chosen === null ? {} : { length: this.chosen }) };
            await this.take(await post(`${this.base}${step.path}`, versioned));
            this.finish(step);
        } catch (error) {
            if (error instanceof Gone) this.stop("gone", error.message);
            else if (!(error instanceof Refused)) throw error;
            else if (STOPS.includes(error.code)) this.refuse(error);
            else this.finish(step, error);
        }
    }

    // Takes a step from those that wait: it is done, or refused for a reason.
    finish(step, error = null) {
        this.steps = this.steps.filter((other) => other !== step);
        if (step.cell !== undefined) {
            const written = this.pending.get(step.cell);
            this.pending.delete(step.cell);
            if (error !== null) this.faults.set(step.cell, { text: error.message, written });
        }
        this.said = error === null ? this.said : `Not done: ${error.message}`;
        this.keep();
        this.tell("rows");
    }

    /** Puts answered figures into place. @param {any} answer an EditAnswer, or Saved */
    async take(answer) {
        const { project } = this;
        for (const name of ["version", "saved_version", "can_undo", "can_redo"]) if (name in answer) project[name] = answer[name];
        if (answer.files !== undefined) this.said = `Saved ${answer.files.join(" and ")}.`;
        if (answer.changes === undefined) return;
        this.said = saidOf(answer.changes);
        const isOfProject = answer.changes.some(({ task }) => task === ""); // the data date or the price of time
        if (isOfProject || answer.rows_are_others) {
            await this.load();
            const added = answer.changes.find(({ field, after }) => field === "task" && after === "new");
            if (added !== undefined) this.dispatchEvent(new CustomEvent("added", { detail: added.task }));
            return;
        }
        const rows = new Map(answer.rows.map((row) => [row.code, row]));
        project.rows = project.rows.map((row) => (row.kind === "task" ? rows.get(row.code) ?? row : row));
        project.curve = answer.curve;
        this.length = answer.length;
        if (this.chosen !== null) this.chosen = answer.length.units;
        this.tell("length");
        if (answer.schedule_is_old) this.askSchedule(null);
    }

    // ---- Trouble

    /** @param {Refused} error */
    refuse(error) {
        const { version, changes = [], outside } = error.error;
        if (error.code === "changed-outside") this.stop("outside", outside?.fault || error.message, outside?.changes, outside?.diff);
        else if (error.code === "no-access") this.stop("no-access", "pert-desk was started again. Open the address that it printed in this browser, then try again.");
        else if (error.code === "conflict") this.stop("conflict", "Another window changed this project. This page shows it as it is now.", changes);
        else this.say(error.message);
        if (error.code === "conflict" && version !== this.project?.version) this.reading(() => this.load());
    }

    say(text) {
        this.said = text;
        this.tell("steps");
    }

    stop(kind, text, changes = [], diff = "") {
        this.trouble = { kind, text, changes, diff };
        if (kind === "gone") setTimeout(() => this.trouble?.kind === "gone" && this.resume(), RETRY);
        this.tell("trouble");
        this.tell("steps");
    }

    /** Goes on after trouble: reads what there is now, and sends what waits. */
    async resume() {
        try {
            await this.load();
        } catch (error) {
            if (error instanceof Gone) this.stop("gone", error.message);
            else if (error instanceof Refused) this.refuse(error);
            else throw error;
            return;
        }
        this.trouble = null;
        this.tell("trouble");
        await this.pump();
    }

    /** Drops what waits. */
    drop() {
        this.steps = [];
        this.pending.clear();
        this.keep();
        return this.resume();
    }

    /** Takes the file as somebody else left it, or stays with what is here. @param {"theirs" | "mine"} take */
    outside(take) {
        this.trouble = null;
        this.tell("trouble");
        this.steps.unshift({ path: "/outside", body: { take }, text: "take the file" });
        this.keep();
        return this.pump();
    }

    // Looks whether another tab or another program changed the project.
    async look() {
        if (document.hidden || this.isBusy || this.trouble !== null) return;
        await this.reading(async () => {
            const { version, outside } = await get(`${this.base}/version`);
            if (this.isBusy || this.trouble !== null) return;
            if (outside !== null) this.stop("outside", outside.fault || "Somebody else changed the file.", outside.changes, outside.diff);
            if (outside !== null || version <= this.project.version) return;
            await this.load();
            this.say("Another tab changed this project. This page shows it as it is now.");
        });
    }
}

// Returns what changed in a line.
function saidOf(changes) {
    const texts = changes.slice(0, 3).map(({ name, field, before, after }) => `${name ? `${name}: ` : ""}${field} ${before || "none"} \u2192 ${after || "none"}`);
    if (changes.length > 3) texts.push(`and ${changes.length - 3} more`);
    return texts.join("; ");
}
