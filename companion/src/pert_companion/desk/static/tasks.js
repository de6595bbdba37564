// The table of tasks, which is edited in place; the Gantt chart, which is the same rows with long bars; and the table of progress.
import { $, dayText, plural } from "./dom.js";
import { Grid } from "./grid.js";
import { Bars, dateColumns, nameColumn, rowClass, rowsOf } from "./rows.js";

/** @type {EditedColumn[]} */
const FIELDS = [
    ["links", "After", "The tasks that come before by row or code, as 12, DIG or 12SS+2d", 118, "text"],
    ["normal", "Normal", "Normal duration in days", 70, "number"],
    ["shortest", "Shortest", "Shortest duration in days", 74, "number"],
    ["price", "A day less", "What the first day less costs", 84, "number"],
    ["cost", "Cost", "Cost at the normal duration", 92, "number"],
    ["optimistic", "Optimistic", "Optimistic estimate in days", 84, "number"],
    ["likely", "Likely", "Likely estimate in days", 64, "number"],
    ["pessimistic", "Pessimistic", "Pessimistic estimate in days", 88, "number"],
    ["percent", "Done %", "Part of the work that is done, in per cent", 66, "number"],
    ["actual_start", "Began", "The day on which work began", 112, "text"],
    ["actual_finish", "Finished", "The last day of work", 112, "text"],
    ["remaining", "Remaining", "Days that are left to do", 84, "number"],
];
const SETS = {
    plan: ["links", "normal", "shortest", "price", "cost"],
    estimates: ["optimistic", "likely", "pessimistic"],
    progress: ["percent", "actual_start", "actual_finish", "remaining"],
    all: FIELDS.map((field) => field[0]),
};
const DATES = ["actual_start", "actual_finish"];
const MONEY = ["price", "cost"];
const ZOOMS = { fit: 0, weeks: 6, days: 22 }; // pixels of a day
const WIDEST = 12000; // pixels of all days

/** Returns what the editor of a field begins with. @param {WorkRow} task @param {Field} key */
function valueOf(task, key) {
    const value = key === "links" ? task.links_text : task[key];
    return value === null || value === undefined ? "" : String(value);
}

function shownOf(task, key) {
    const value = valueOf(task, key);
    if (DATES.includes(key)) return value === "" ? "" : dayText(value);
    if (key === "price" && task.normal === task.shortest) return ""; // it cannot be shortened
    return MONEY.includes(key) ? value.replace(/\B(?=(?:[0-9]{3})+(?![0-9]))(?<!\.[0-9]*)/g, ",") : value;
}

/** A table of the project's rows: what tables of all panels have in common. */
class Rows {
    /**
     * @param {import("./model.js").Desk} desk
     * @param {HTMLElement} host
     * @param {string} name
     * @param {(key: string) => void} [open]
     */
    constructor(desk, host, name, open) {
        this.desk = desk;
        this.folded = new Set();
        this.takes = (_task, _dated) => true;
        this.bars = new Bars(desk);
        this.grid = new Grid(host, {
            name,
            columns: [],
            rowClass,
            cellClass: (row, key) => this.cellClass(row, key),
            note: (row, key) => this.noteOf(row, key),
            why: ({ task }, key) => task?.fixed[key] ?? "",
            edit: (row, column, text) => desk.edit(row.task, /** @type {Field} */ (column.key), text),
            open: (row, column) => {
                if (row.task === null) this.fold(row.key);
                else if (row.task.fixed[column.key]) desk.say(`${row.name}: ${row.task.fixed[column.key]}.`);
                else open?.(row.key);
            },
        });
    }

    fold(key) {
        if (!this.folded.delete(key)) this.folded.add(key);
        this.draw();
    }

    /** Takes the rows again, after a filter, a fold or an answer. */
    draw() {
        if (this.grid.host.closest("[hidden]") !== null) return; // it is drawn when it is opened
        if (this.grid.headOf("bars") !== undefined) this.bars.take(this.grid);
        this.grid.show(rowsOf(this.desk, this.takes, this.folded));
    }

    /** @param {EditedColumn} field @returns {GridColumn} */
    fieldColumn([key, head, hint, width, kind]) {
        return {
            key,
            head,
            hint,
            width,
            kind,
            text: ({ task }) => (task === null ? "" : this.desk.pending.get(`${task.code} ${key}`) ?? shownOf(task, key)),
            input: ({ task }) => (task?.editable.includes(key) ? this.desk.faults.get(`${task.code} ${key}`)?.written ?? valueOf(task, key) : null),
        };
    }

    cellClass({ task }, key) {
        if (task === null) return "";
        const cell = `${task.code} ${key}`;
        const state = this.desk.pending.has(cell) ? " pending" : this.desk.faults.has(cell) ? " refused" : "";
        return `${task.editable.includes(key) ? "open" : ""}${state}`;
    }

    noteOf({ task }, key) {
        const fault = task === null ? undefined : this.desk.faults.get(`${task.code} ${key}`);
        if (fault === undefined) return "";
        return `Not changed: ${fault.text.replace(/[.]?$/, ".")}${fault.written ? ` You wrote \u201c${fault.written}\u201d.` : ""}`;
    }
}

/** The panel of tasks: a table with a filter. */
export class Tasks extends Rows {
    constructor(desk, host) {
        super(desk, host, "Tasks");
        this.setColumns();
        $("columns").addEventListener("change", () => this.setColumns());
        for (const id of ["find", "only"]) $(id).addEventListener("input", () => this.filter());
        $("add-task").addEventListener("click", () => this.add());
        $("new-task").addEventListener("keydown", (event) => event.key === "Enter" && this.add());
        $("remove-task").addEventListener("click", () => this.remove());
        this.grid.host.addEventListener("keydown", (event) => this.press(event));
        for (const id of ["new-task", "add-task", "remove-task"]) {
            $(id).disabled = desk.project.tasks_fixed !== "";
            if ($(id).disabled) $(id).title = desk.project.tasks_fixed;
        }
        desk.addEventListener("added", (/** @type {CustomEvent} */ event) => this.find(event.detail));
    }

    press(event) {
        if (event.target !== this.grid.host || event.altKey || event.metaKey) return;
        if (event.key === "Insert") $("new-task").focus();
        else if (event.key === "Delete" && event.ctrlKey) this.remove();
        else return;
        event.preventDefault();
    }

    // Adds a task after the row with the keyboard; after the first task of a group.
    add() {
        const name = $("new-task").value.trim();
        const after = this.grid.rows.slice(this.grid.at.row).find(({ task }) => task !== null);
        if (name === "") $("new-task").focus();
        if (name === "" || after === undefined) return;
        $("new-task").value = "";
        this.desk.addTask(name, after.task);
    }

    // Removes the task of the row with the keyboard.
    remove() {
        const { task } = this.grid.rows[this.grid.at.row] ?? { task: null };
        if (task === null) this.desk.say("Go to a task first: groups are those of their tasks.");
        else this.desk.removeTask(task);
    }

    setColumns() {
        const keys = SETS[$("columns").value];
        const fields = FIELDS.filter(([key]) => keys.includes(key)).map((field) => this.fieldColumn(field));
        const number = { key: "row", head: "Row", width: 48, kind: "number", text: ({ task }) => (task?.row === null || task === null ? "" : String(task.row)) };
        const code = { key: "code", head: "Code", hint: "What links call the task", width: 116, text: ({ task }) => task?.code ?? "" };
        this.grid.setColumns([nameColumn((key) => this.fold(key)), number, code, ...fields, ...dateColumns(), this.bars.column(200, 2)]);
        this.draw();
    }

    filter() {
        const wanted = $("find").value.trim().toLowerCase();
        const only = $("only").value;
        const kinds = {
            all: () => true,
            critical: (task, dated) => dated?.is_critical && task.state !== "finished",
            late: (_task, dated) => dated?.is_late,
            shortened: (_task, dated) => dated !== undefined && Number(dated.shortened) > 0,
            open: (task) => task.state !== "finished",
        };
        this.takes = (task, dated) => kinds[only](task, dated) && `${task.name} ${task.code}`.toLowerCase().includes(wanted);
        this.draw();
    }

    draw() {
        super.draw();
        const count = this.grid.rows.filter(({ task }) => task !== null).length;
        $("shown").textContent = count === this.desk.tasks.length ? plural(count, "task") : `${count} of ${plural(this.desk.tasks.length, "task")}`;
    }

    /** Goes to a task, whatever the filter was. */
    find(code) {
        [$("find").value, $("only").value] = ["", "all"];
        this.folded.clear();
        this.filter();
        this.grid.go(this.grid.rows.findIndex(({ key }) => key === code), 0);
        this.grid.host.focus();
    }
}

/** The panel of the Gantt chart. */
export class Gantt extends Rows {
    constructor(desk, host, open) {
        super(desk, host, "Gantt chart", open);
        $("zoom").addEventListener("change", () => this.setColumns());
        this.setColumns();
    }

    setColumns() {
        const each = ZOOMS[$("zoom").value];
        const bars = each === 0 ? this.bars.column(320, 3) : this.bars.column(Math.min(WIDEST, Math.round(each * this.bars.axis.days)));
        const columns = [nameColumn((key) => this.fold(key)), ...dateColumns(), bars];
        this.grid.setColumns(columns.map((column) => ({ ...column, input: undefined })));
        this.draw();
    }
}

/** The table of progress, in the panel of status. */
export class Progress extends Rows {
    constructor(desk, host) {
        super(desk, host, "Progress of the tasks");
        const fields = FIELDS.filter(([key]) => SETS.progress.includes(key)).map((field) => this.fieldColumn(field));
        this.grid.setColumns([nameColumn((key) => this.fold(key)), ...fields, ...dateColumns()]);
        $("progress-only").addEventListener("change", () => {
            this.takes = $("progress-only").checked ? (task) => task.state !== "finished" : () => true;
            this.draw();
        });
    }
}
