// Draws tasks and links as a network: each task to the right of all that it comes after. Only what is in view is in the page.
import { dayText, drawing, onFrame } from "./dom.js";

const BOX = { width: 168, height: 46 };
const STEP = { x: 216, y: 62 };
const EDGE = 24; // pixels around the drawing
const MARGIN = 400; // pixels around the view that are drawn too
const SWEEPS = 4;

// Returns tasks by layers: a task is in the layer after the last of those that it comes after.
export function layersOf(links) {
    const layer = new Map();
    const waiting = new Map([...links].map(([key, { before }]) => [key, before.length]));
    const ready = [...links.keys()].filter((key) => waiting.get(key) === 0);
    for (const key of ready) layer.set(key, 0);
    while (ready.length > 0) {
        const key = ready.pop();
        for (const next of links.get(key).after) {
            layer.set(next, Math.max(layer.get(next) ?? 0, layer.get(key) + 1));
            waiting.set(next, waiting.get(next) - 1);
            if (waiting.get(next) === 0) ready.push(next);
        }
    }
    const layers = [];
    for (const key of links.keys()) {
        const at = layer.get(key) ?? 0;
        while (layers.length <= at) layers.push([]);
        layers[at].push(key);
    }
    return layers;
}

// Orders each layer by the middle of the neighbours in the layer before, then after, so that few links cross.
function placesOf(layers, links) {
    const place = new Map();
    const settle = (layer) => layer.forEach((key, at) => place.set(key, at));
    layers.forEach(settle);
    for (let sweep = 0; sweep < SWEEPS; sweep += 1) {
        const side = sweep % 2 === 0 ? "before" : "after";
        for (const layer of sweep % 2 === 0 ? layers : [...layers].reverse()) {
            const middle = new Map(layer.map((key) => [key, middleOf(links.get(key)[side], place, place.get(key))]));
            layer.sort((one, other) => middle.get(one) - middle.get(other));
            settle(layer);
        }
    }
    return place;
}

function middleOf(keys, place, otherwise) {
    if (keys.length === 0) return otherwise;
    return keys.reduce((sum, key) => sum + place.get(key), 0) / keys.length;
}

export class Network {
    /**
     * @param {HTMLElement} host an empty element, which scrolls
     * @param {(key: string) => void} open what Enter or a double click does at a task
     * @param {(text: string) => void} say
     */
    constructor(host, open, say) {
        this.host = host;
        this.open = open;
        this.say = say;
        this.nodes = new Map();
        this.edges = [];
        this.scale = 1;
        /** @type {string | null} */
        this.at = null;
        this.links = drawing("g");
        this.boxes = drawing("g");
        this.svg = drawing("svg", { role: "img", "aria-label": "Network of the tasks" }, this.links, this.boxes);
        host.append(this.svg);
        host.addEventListener("scroll", onFrame(() => this.draw()));
        host.addEventListener("keydown", (event) => this.press(event));
        host.addEventListener("click", (event) => this.point(event));
        host.addEventListener("dblclick", () => this.at !== null && this.open(this.at));
        new ResizeObserver(onFrame(() => this.draw())).observe(host);
        addEventListener("beforeprint", () => this.draw(true));
        addEventListener("afterprint", () => this.draw());
    }

    /** Shows tasks. @param {NetworkTask[]} tasks */
    show(tasks) {
        const links = new Map(tasks.map(({ key }) => [key, { before: [], after: [] }]));
        for (const { key, before } of tasks) {
            for (const other of new Set(before)) {
                if (!links.has(other)) continue;
                links.get(key).before.push(other);
                links.get(other).after.push(key);
            }
        }
        this.neighbours = links;
        this.layers = layersOf(links);
        const place = placesOf(this.layers, links);
        this.nodes = new Map();
        const named = new Map(tasks.map((task) => [task.key, task]));
        const highest = Math.max(1, ...this.layers.map((layer) => layer.length));
        this.layers.forEach((layer, column) => {
            const top = ((highest - layer.length) * STEP.y) / 2; // layers are about one middle
            for (const key of layer) this.nodes.set(key, { task: named.get(key), x: EDGE + column * STEP.x, y: EDGE + top + place.get(key) * STEP.y });
        });
        this.edges = tasks.flatMap(({ key }) => links.get(key).before.map((other) => ({ from: this.nodes.get(other), to: this.nodes.get(key) })));
        this.size = { width: 2 * EDGE + this.layers.length * STEP.x, height: 2 * EDGE + highest * STEP.y };
        if (this.at !== null && !this.nodes.has(this.at)) this.at = null;
        this.zoom(this.scale);
    }

    /** Draws in another scale. */
    zoom(scale) {
        this.scale = Math.max(0.2, Math.min(2, scale));
        const { width, height } = this.size;
        this.svg.setAttribute("viewBox", `0 0 ${width} ${height}`);
        this.svg.setAttribute("width", String(width * this.scale));
        this.svg.setAttribute("height", String(height * this.scale));
        this.draw();
    }

    draw(all = false) {
        const { scrollLeft, scrollTop, clientWidth, clientHeight } = this.host;
        const [left, right] = [scrollLeft / this.scale - MARGIN, (scrollLeft + clientWidth) / this.scale + MARGIN];
        const [top, bottom] = [scrollTop / this.scale - MARGIN, (scrollTop + clientHeight) / this.scale + MARGIN];
        const isSeen = (x1, x2, y1, y2) => all || (x2 > left && x1 < right && y2 > top && y1 < bottom);
        const edges = this.edges.filter(({ from, to }) => isSeen(from.x, to.x, Math.min(from.y, to.y), Math.max(from.y, to.y) + BOX.height));
        const nodes = [...this.nodes.values()].filter(({ x, y }) => isSeen(x, x + BOX.width, y, y + BOX.height));
        edges.sort((one, other) => Number(isCritical(one)) - Number(isCritical(other))); // the critical ones are on top
        this.links.replaceChildren(...edges.map(linkOf));
        this.boxes.replaceChildren(...nodes.map((node) => this.boxOf(node)));
    }

    boxOf({ task, x, y }) {
        const kind = `${task.isCritical ? " critical" : ""}${task.isDone ? " finished" : ""}${task.key === this.at ? " at" : ""}`;
        const dates = task.start === task.finish ? dayText(task.finish) : `${dayText(task.start)} \u2013 ${dayText(task.finish)}`;
        const group = drawing("g", { class: `node${kind}`, transform: `translate(${x} ${y})`, "data-key": task.key });
        group.append(drawing("title", {}, task.name));
        group.append(drawing("rect", { width: BOX.width, height: BOX.height, rx: 3 }));
        group.append(drawing("text", { x: 8, y: 18 }, task.name.length > 23 ? `${task.name.slice(0, 22)}\u2026` : task.name));
        group.append(drawing("text", { class: "dates", x: 8, y: 36 }, dates));
        return group;
    }

    // ---- The task with the keyboard

    point(event) {
        const group = event.target.closest("[data-key]");
        if (group !== null) this.choose(group.getAttribute("data-key"));
    }

    press(event) {
        if (event.ctrlKey || event.altKey || event.metaKey) return;
        const at = this.at ?? this.layers[0]?.[0];
        if (at === undefined) return;
        const { before, after } = this.neighbours.get(at);
        const layer = this.layers.find((keys) => keys.includes(at));
        const place = layer.indexOf(at);
        const next = { ArrowLeft: before[0], ArrowRight: after[0], ArrowUp: layer[place - 1], ArrowDown: layer[place + 1], Home: this.layers[0][0] };
        if (event.key === "Enter") this.open(at);
        else if (event.key in next) this.choose(this.at === null ? at : next[event.key] ?? at);
        else return;
        event.preventDefault();
    }

    /** Marks a task, and shows it. */
    choose(key) {
        this.at = key;
        const { task, x, y } = this.nodes.get(key);
        const { clientWidth, clientHeight } = this.host;
        const [middleX, middleY] = [(x + BOX.width / 2) * this.scale, (y + BOX.height / 2) * this.scale];
        if (Math.abs(middleX - this.host.scrollLeft - clientWidth / 2) > clientWidth / 2 - 90) this.host.scrollLeft = middleX - clientWidth / 2;
        if (Math.abs(middleY - this.host.scrollTop - clientHeight / 2) > clientHeight / 2 - 40) this.host.scrollTop = middleY - clientHeight / 2;
        this.draw();
        this.say(`${task.name}, ${dayText(task.start)} to ${dayText(task.finish)}, ${task.note}`);
    }
}

function isCritical({ from, to }) {
    return from.task.isCritical && to.task.isCritical;
}

function linkOf(edge) {
    const [x1, y1] = [edge.from.x + BOX.width, edge.from.y + BOX.height / 2];
    const [x2, y2] = [edge.to.x, edge.to.y + BOX.height / 2];
    const bend = Math.max(20, (x2 - x1) / 2);
    return drawing("path", { class: `link${isCritical(edge) ? " critical" : ""}`, d: `M${x1} ${y1}C${x1 + bend} ${y1} ${x2 - bend} ${y2} ${x2} ${y2}` });
}
