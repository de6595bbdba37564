// The rows of the tables: groups and tasks with their dates, as filtered and folded; and the columns that tables share.
import { dayText, element, title } from "./dom.js";
import { drawAxis, drawBars, Axis } from "./bars.js";

/**
 * Returns the rows that are shown: those that a filter takes, with their groups, without what is folded.
 * @param {import("./model.js").Desk} desk
 * @param {(task: WorkRow, dated: Dated | undefined) => boolean} takes
 * @param {Set<string>} folded
 */
export function rowsOf(desk, takes, folded) {
    /** @type {GridRow[]} */
    const found = [];
    /** @type {GridRow[]} */
    let above = []; // groups of the row at hand, of which none is shown yet
    let hidden = Infinity; // the level of the folded group above
    desk.project.rows.forEach((row, at) => {
        if (row.level <= hidden) hidden = Infinity;
        above = above.filter(({ level }) => level < row.level);
        if (row.kind === "group") {
            const key = `group ${at}`;
            const group = { key, name: row.name, level: row.level, task: null, dated: undefined, isFolded: folded.has(key) };
            if (hidden === Infinity) above.push(group);
            if (group.isFolded && hidden === Infinity) hidden = row.level;
            return;
        }
        const dated = desk.dated.get(row.code);
        if (!takes(row, dated)) return;
        found.push(...above);
        above = [];
        if (hidden === Infinity) found.push({ key: row.code, name: row.name || row.code, level: row.level, task: row, dated, isFolded: false });
    });
    return found;
}

/** Returns the class of a row, as the report's schedule has it. @param {GridRow} row */
export function rowClass({ task, dated }) {
    if (task === null) return "group";
    const isCritical = dated?.is_critical && task.state !== "finished";
    return `task ${task.state}${isCritical ? " critical" : ""}${dated?.is_late ? " late" : ""}`;
}

/** The column of names, with a button to fold at groups. @param {(key: string) => void} fold */
export function nameColumn(fold) {
    return {
        key: "name",
        head: "Task",
        width: matchMedia("(max-width: 560px)").matches ? 132 : 230,
        grow: 1,
        kind: "name",
        draw: (/** @type {GridRow} */ row, cell) => {
            cell.classList.add(`level${Math.min(row.level, 8)}`);
            if (row.task === null) cell.append(foldButton(row, fold));
            cell.append(title(row.name));
            const notes = [row.task?.code, row.dated?.note].filter((text) => text);
            cell.title = [row.name, ...notes].join("\n");
            if (row.task?.state === "finished" || row.task?.state === "begun") cell.append(element("span", { class: "state" }, ` ${row.task.state}`));
        },
        input: (/** @type {GridRow} */ row) => (row.task?.editable.includes("name") ? row.task.name : null),
    };
}

function foldButton(row, fold) {
    const text = row.isFolded ? "\u25b8" : "\u25be";
    const name = `${row.isFolded ? "Unfold" : "Fold"} ${row.name}`;
    return element("button", { type: "button", class: "fold", tabindex: -1, "aria-label": name, onclick: () => fold(row.key) }, text);
}

// Draws the days of a task at the chosen length, and by how many it is shortened.
function drawDays({ dated }, cell) {
    if (dated === undefined) return;
    cell.append(dated.duration);
    if (Number(dated.shortened) > 0) cell.append(element("small", { class: "shorter" }, ` \u2212${dated.shortened}`));
}

/** The columns of a schedule: days at the chosen length, dates and float. */
export function dateColumns() {
    return [
        { key: "duration", head: "Days", hint: "Days of work at the chosen length, and by how many that is shortened", width: 64, kind: "number", draw: drawDays },
        { key: "start", head: "Start", width: 102, text: ({ dated }) => (dated ? dayText(dated.start) : "") },
        { key: "finish", head: "Finish", width: 102, text: ({ dated }) => (dated ? dayText(dated.finish) : "") },
        { key: "float", head: "Float", hint: "Total float: days that the task can wait", width: 58, kind: "number float", text: ({ dated, task }) => (dated && task.state !== "finished" ? dated.float : "") },
    ];
}

/** The bars of all rows over one axis, which is drawn again when the schedule or the width is another one. */
export class Bars {
    /** @param {import("./model.js").Desk} desk */
    constructor(desk) {
        this.desk = desk;
        this.axis = new Axis("2000-01-01", "2000-01-02");
        this.lines = { ticks: [], today: null, contract: null };
    }

    column(width, grow = 0) {
        return { key: "bars", head: "", width, grow, kind: "bars", draw: (/** @type {GridRow} */ row, cell) => drawBars(cell, this.axis, this.barsOf(row), this.lines) };
    }

    /** Takes the days of the schedule, and draws the axis into the heading. @param {import("./grid.js").Grid} grid */
    take(grid) {
        const { project, dated, tasks } = this.desk;
        const contract = project.curve.contract?.day ?? null;
        const days = [project.first_day, ...tasks.map((task) => task.actual_start), ...[...dated.values()].flatMap(({ start, finish }) => [start, finish]), contract];
        const known = days.filter((day) => day).sort();
        this.axis = new Axis(known[0], known[known.length - 1]);
        const head = grid.headOf("bars");
        this.lines = { ticks: this.axis.ticks(head.clientWidth || 300), today: project.data_date, contract };
        drawAxis(head, this.axis, project.data_date);
    }

    /** @param {GridRow} row */
    barsOf({ task, dated }) {
        if (task === null || dated === undefined) return [];
        const { start, finish } = dated;
        if (task.is_milestone) return [{ kind: "milestone", first: start, last: finish }];
        if (task.state === "waiting") return [{ kind: "bar", first: start, last: finish }];
        const begun = task.actual_start ?? start;
        const done = { kind: "done", first: begun, last: task.actual_finish ?? (task.state === "finished" ? finish : this.lines.today) ?? finish };
        if (task.state === "finished") return [done];
        const left = this.lines.today !== null && this.lines.today > begun ? this.lines.today : begun;
        return [{ kind: "bar", first: left > finish ? finish : left, last: finish }, done];
    }
}
