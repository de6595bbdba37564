// Makes elements, and writes dates and counts as words.py does.
const MONTHS = "Jan Feb Mar Apr May Jun Jul Aug Sep Oct Nov Dec".split(" ");
const DRAWING = "http://www.w3.org/2000/svg";
export const DAY = 86400000; // milliseconds

/** Returns the element with an id. */
export function $(id) {
    return document.getElementById(id);
}

/**
 * Returns a new element. An attribute that is null, undefined or false is left out.
 * @param {string} name
 * @param {Record<string, any>} [attributes]
 * @param {...(Node | string)} children
 */
export function element(name, attributes = {}, ...children) {
    return put(document.createElement(name), attributes, children);
}

/**
 * Returns a new element of a drawing.
 * @param {string} name
 * @param {Record<string, any>} [attributes]
 * @param {...(Node | string)} children
 */
export function drawing(name, attributes = {}, ...children) {
    return put(document.createElementNS(DRAWING, name), attributes, children);
}

function put(made, attributes, children) {
    for (const [name, value] of Object.entries(attributes)) {
        if (value === null || value === undefined || value === false) continue;
        if (name.startsWith("on")) made.addEventListener(name.slice(2), value);
        else made.setAttribute(name, value === true ? "" : String(value));
    }
    made.append(...children);
    return made;
}

/** Returns a function that runs another one with the next frame, once however often it is asked. */
export function onFrame(run) {
    let isAsked = false;
    const draw = () => {
        isAsked = false;
        run();
    };
    return () => {
        if (!isAsked) requestAnimationFrame(draw);
        isAsked = true;
    };
}

/** Returns a name of a user's file, kept apart from the direction of the text around it. */
export function title(text) {
    return element("bdi", {}, text);
}

/** Sets a text if it is another one, so that a reader is told only of changes. */
export function setText(target, text) {
    if (target !== null && target.textContent !== text) target.textContent = text;
}

/** Returns digits with commas between thousands. */
export function grouped(digits) {
    return String(digits).replace(/\B(?=(?:[0-9]{3})+(?![0-9]))/g, ",");
}

/** Returns a date as `8 Apr 2024`, or a dash. */
export function dayText(day) {
    if (!day) return "\u2013";
    const [year, month, number] = day.slice(0, 10).split("-").map(Number);
    return `${number} ${MONTHS[month - 1]} ${year}`;
}

/** Returns a count with its word: `1 task`, `30 tasks`. */
export function plural(count, word) {
    return `${grouped(count)} ${word}${Number(count) === 1 ? "" : "s"}`;
}

/**
 * Returns a table with a caption. A cell is a text or an element; columns of `numbers` are set to the right.
 * @param {(string | Node)[][]} rows
 */
export function table(caption, heads, rows, numbers = []) {
    const kind = (at) => (numbers.includes(at) ? "number" : at === 0 ? "" : "text");
    const head = element("tr", {}, ...heads.map((text, at) => element("th", { scope: "col", class: kind(at) }, text)));
    const lines = rows.map((cells) => {
        const made = cells.map((cell, at) => element(at === 0 ? "th" : "td", { scope: at === 0 ? "row" : null, class: kind(at) }, cell));
        return element("tr", {}, ...made);
    });
    const body = element("table", {}, element("caption", {}, caption), element("thead", {}, head), element("tbody", {}, ...lines));
    return element("div", { class: "wide", role: "region", "aria-label": caption, tabindex: "0" }, body);
}
