// Draws least cost by length, with the classes and the measures of the report page's chart.
import { dayText, drawing, grouped } from "./dom.js";

const HEIGHT = 220;
const BOX = 1000;

/** Returns round numbers that span two others, at most six. */
function scaleOf(least, most) {
    const span = most - least || Math.max(1, Math.abs(most) / 10);
    const power = 10 ** Math.floor(Math.log10(span / 4));
    const step = [1, 2, 5, 10].map((each) => each * power).find((each) => span / each <= 5);
    const first = Math.floor(least / step);
    const last = Math.ceil(most / step);
    return Array.from({ length: Math.max(2, last - first + 1) }, (_, at) => (first + at) * step);
}

/**
 * Draws the curve of a project into an element, and a dot at the chosen length.
 * @param {HTMLElement} host
 * @param {Curve} curve
 * @param {Length} length
 */
export function drawCurve(host, curve, length) {
    const points = [...curve.points].reverse();
    const hasTotal = points.some(({ work, total }) => work !== total);
    const amounts = [length, ...points].flatMap(({ work, total }) => [Number(work), Number(total)]);
    const ticks = scaleOf(Math.min(...amounts), Math.max(...amounts));
    const [low, high] = [ticks[0], ticks[ticks.length - 1]];
    const span = curve.longest - curve.shortest || 1;
    const x = (units) => (units - curve.shortest) / span;
    const y = (amount) => 1 - (Number(amount) - low) / (high - low);
    const texts = ticks.map((tick) => grouped(Math.round(tick)));
    const margin = 18 + 7 * Math.max(...texts.map((text) => text.length));
    const labels = drawing("svg", { class: "labels", width: margin, height: HEIGHT + 44, "aria-hidden": "true" });
    const plot = drawing("svg", { class: "plot", width: "100%", height: HEIGHT + 44, "aria-hidden": "true" });
    ticks.forEach((tick, at) => {
        const top = y(tick) * HEIGHT;
        labels.append(drawing("text", { x: margin - 8, y: top, dy: 4, "text-anchor": "end" }, texts[at]));
        plot.append(drawing("line", { class: "grid", x1: 0, x2: "100%", y1: top, y2: top }));
    });
    if (curve.contract !== null) drawContract(plot, curve.contract, x);
    const lines = drawing("svg", { width: "100%", height: HEIGHT, viewBox: `0 0 ${BOX} ${BOX}`, preserveAspectRatio: "none" });
    const line = (name) => points.map((point) => `${x(point.units) * BOX},${y(point[name]) * BOX}`).join(" ");
    lines.append(drawing("polyline", { class: "line curve", points: line("work") }));
    if (hasTotal) lines.append(drawing("polyline", { class: "line total", points: line("total") }));
    plot.append(lines, drawing("circle", { class: "dot chosen", cx: `${x(length.units) * 100}%`, cy: y(length.work) * HEIGHT, r: 5.5 }));
    drawLengths(plot, points, x);
    host.setAttribute("aria-label", `Least cost by length: ${length.days} days cost ${length.work}`);
    host.replaceChildren(labels, plot);
}

function drawContract(plot, { units, name }, x) {
    const share = x(units);
    if (share < 0 || share > 1) return;
    const at = `${share * 100}%`;
    plot.append(drawing("line", { class: "vertical", x1: at, x2: at, y1: 0, y2: HEIGHT }));
    plot.append(drawing("text", { class: "vertical-name", x: at, y: -6, "text-anchor": anchorOf(share) }, name));
}

function anchorOf(share) {
    return share < 0.1 ? "start" : share > 0.9 ? "end" : "middle";
}

// Writes lengths and dates below the chart: both ends, and what has room between them.
function drawLengths(plot, points, x) {
    const last = points[points.length - 1];
    let taken = -1;
    for (const point of points) {
        const share = x(point.units);
        const isEnd = point === last;
        if (!isEnd && (share - taken < 0.22 || 1 - share < 0.22) && point !== points[0]) continue;
        taken = share;
        const at = `${share * 100}%`;
        plot.append(drawing("line", { class: "tick", x1: at, x2: at, y1: HEIGHT, y2: HEIGHT + 5 }));
        const group = drawing("g", { class: point !== points[0] && !isEnd ? "minor" : null });
        group.append(drawing("text", { class: "strong", x: at, y: HEIGHT + 18, "text-anchor": anchorOf(share) }, point.days));
        group.append(drawing("text", { x: at, y: HEIGHT + 33, "text-anchor": anchorOf(share) }, dayText(point.end)));
        plot.append(group);
    }
}
