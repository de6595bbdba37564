// Draws bars of tasks over a time axis, with the classes and the measures of the report page's schedule.
import { DAY, dayText, drawing } from "./dom.js";

const WEEKS = [1, 2, 4]; // between ticks
const MONTHS = [1, 2, 3, 6, 12, 24, 60, 120];
const APART = 64; // pixels between ticks
const LETTER = 9; // pixels of a letter, and of the space around a label

export class Axis {
    /**
     * @param {string} first the first day that is drawn
     * @param {string} last the last one
     */
    constructor(first, last) {
        this.first = Date.parse(first);
        this.days = Math.max(1, (Date.parse(last) - this.first) / DAY + 1);
    }

    /** Returns the place of the morning of a day, in percent; `after` days later. */
    at(day, after = 0) {
        return (100 * ((Date.parse(day) - this.first) / DAY + after)) / this.days;
    }

    /** Returns the days of ticks that have room in a width, each with a label: Mondays, or first days of months. */
    ticks(width) {
        const most = Math.max(1, Math.floor(width / APART));
        const weeks = WEEKS.find((count) => this.days / (7 * count) <= most);
        const months = MONTHS.find((count) => this.days / (30.4 * count) <= most) ?? 240;
        const found = [];
        for (let offset = 0; offset < this.days; offset += 1) {
            const day = new Date(this.first + offset * DAY);
            const monday = Math.floor(day.getTime() / DAY) + 3; // a multiple of 7 on Mondays
            const month = 12 * day.getUTCFullYear() + day.getUTCMonth();
            const isTick = weeks === undefined ? day.getUTCDate() === 1 && month % months === 0 : monday % (7 * weeks) === 0;
            if (!isTick) continue;
            const [number, name, year] = dayText(day.toISOString()).split(" ");
            const label = weeks === undefined ? (month % 12 === 0 ? year : name) : `${number} ${name}`;
            found.push({ day: day.toISOString(), label });
        }
        return found;
    }
}

/** Draws the axis into a heading. @param {Axis} axis */
export function drawAxis(head, axis, asOf) {
    const svg = drawing("svg", { class: "axis", width: "100%", height: 24, "aria-hidden": "true" });
    const width = head.clientWidth || 300;
    for (const { day, label } of axis.ticks(width)) {
        const left = (axis.at(day) / 100) * width;
        if (left + LETTER * label.length <= width) svg.append(drawing("text", { x: `${axis.at(day)}%`, y: 20 }, label));
    }
    if (asOf) svg.append(drawing("line", { class: "today", x1: `${axis.at(asOf)}%`, x2: `${axis.at(asOf)}%`, y1: 0, y2: 24 }));
    head.replaceChildren(svg);
}

/**
 * Draws the bars of a row into a cell.
 * @param {HTMLElement} cell
 * @param {Axis} axis
 * @param {{kind: string, first: string, last: string}[]} bars
 * @param {{ticks: {day: string}[], today: string | null, contract: string | null}} lines
 */
export function drawBars(cell, axis, bars, lines) {
    const svg = drawing("svg", { class: "row", width: "100%", height: 30, "aria-hidden": "true" });
    const upright = (className, at) => drawing("line", { class: className, x1: `${at}%`, x2: `${at}%`, y1: 0, y2: 30 });
    for (const { day } of lines.ticks) svg.append(upright("grid", axis.at(day)));
    if (lines.contract) svg.append(upright("vertical", axis.at(lines.contract, 1)));
    if (lines.today) svg.append(upright("today", axis.at(lines.today)));
    for (const bar of bars) svg.append(barOf(axis, bar));
    cell.replaceChildren(svg);
}

const HEIGHTS = { baseline: [20, 3], done: [11, 8], bar: [10, 10] };

function barOf(axis, { kind, first, last }) {
    const [left, right] = [axis.at(first), axis.at(last, 1)];
    if (kind === "milestone") {
        const mark = drawing("path", { d: "M0 9l6 6-6 6-6-6z" });
        return drawing("svg", { class: "milestone", x: `${right}%`, width: 1, height: 30 }, mark);
    }
    const [y, height] = HEIGHTS[kind];
    return drawing("rect", { class: kind, x: `${left}%`, width: `${Math.max(0.15, right - left)}%`, y, height });
}
