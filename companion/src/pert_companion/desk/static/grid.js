// A table of which only the rows in view are in the page, so that thousands of them stay usable. Moved in and edited by keyboard: the arrows move, Enter
// or F2 edits, Esc leaves a cell as it was, Tab goes on to the next cell that can be edited.
//
//     const grid = new Grid(host, { name: "Tasks", columns, edit: (row, column, text) => .., open: (row) => .. });
//     grid.show(rows);     // all rows, in order; again after what they show changed
//
// The focus stays at the grid itself, whose `aria-activedescendant` names the cell, so no row takes it along when it is scrolled out of view.
import { element, onFrame } from "./dom.js";

const ROW = 30; // pixels, as desk.css has it
const MARGIN = 8; // rows above and below those in view
const SHEET = 960; // pixels of a sheet of paper that lies, between its margins
const STEPS = { ArrowUp: [-1, 0], ArrowDown: [1, 0], ArrowLeft: [0, -1], ArrowRight: [0, 1], PageUp: [-15, 0], PageDown: [15, 0] };
let grids = 0;

export class Grid {
    /**
     * @param {HTMLElement} host an empty element, which scrolls
     * @param {GridWishes} wishes
     */
    constructor(host, wishes) {
        this.host = host;
        this.wishes = wishes;
        this.columns = [];
        /** @type {any[]} */
        this.rows = [];
        /** @type {Map<number, HTMLElement>} */
        this.lines = new Map(); // those in the page, by the place of the row
        this.at = { row: 0, column: 0 };
        this.editor = null;
        this.ask = onFrame(() => this.draw());
        grids += 1;
        this.id = `grid${grids}`;
        this.head = element("div", { class: "entry entry-head", role: "row", "aria-rowindex": 1 });
        this.body = element("div", { class: "entry-body", role: "rowgroup" });
        this.note = element("p", { class: "note", role: "alert", hidden: true });
        const names = { role: "grid", tabindex: 0, "aria-label": wishes.name };
        for (const [name, value] of Object.entries(names)) host.setAttribute(name, String(value));
        host.classList.add("rows");
        host.append(element("div", { role: "rowgroup", class: "entry-heads" }, this.head), this.body, this.note);
        this.setColumns(wishes.columns);
        this.listen();
    }

    /** Shows other columns. @param {GridColumn[]} columns */
    setColumns(columns) {
        this.close(true);
        this.columns = columns;
        this.at.column = Math.max(0, Math.min(this.at.column, columns.length - 1));
        const heads = columns.map(({ key, head, hint, kind }, at) => {
            return element("div", { role: "columnheader", "data-key": key, "aria-colindex": at + 1, class: kind ?? "text", title: hint }, head);
        });
        this.head.replaceChildren(...heads);
        this.host.setAttribute("aria-colcount", String(columns.length));
        const tracks = columns.map(({ width, grow }) => (grow ? `minmax(${width}px, ${grow}fr)` : `${width}px`));
        this.host.style.setProperty("--columns", tracks.join(" "));
        const least = columns.reduce((sum, { width }) => sum + width, 0);
        this.host.style.setProperty("--least", `${least}px`);
        this.host.style.setProperty("--shrink", String(Math.min(1, SHEET / least)));
        this.redraw();
    }

    /** Returns the heading of a column. @returns {HTMLElement | undefined} */
    headOf(key) {
        return /** @type {HTMLElement[]} */ ([...this.head.children]).find((head) => head.dataset.key === key);
    }

    listen() {
        this.host.addEventListener("scroll", this.ask);
        this.host.addEventListener("keydown", (event) => this.press(event));
        this.host.addEventListener("mousedown", (event) => this.point(event));
        this.host.addEventListener("dblclick", () => this.act());
        this.host.addEventListener("focus", () => this.mark());
        new ResizeObserver(this.ask).observe(this.host);
        addEventListener("beforeprint", () => this.draw(true));
        addEventListener("afterprint", () => this.draw());
    }

    // ---- Drawing

    /** Shows rows in place of those before. */
    show(rows) {
        if (this.editor !== null && rows[this.at.row]?.key !== this.editor.row.key) this.close(true);
        this.rows = rows;
        this.host.setAttribute("aria-rowcount", String(rows.length + 1));
        this.body.style.height = `${rows.length * ROW}px`;
        this.at.row = Math.max(0, Math.min(this.at.row, rows.length - 1));
        this.redraw();
    }

    /** Draws the rows in view again. */
    redraw() {
        this.draw();
        for (const [at, line] of this.lines) this.fill(line, at);
        this.mark();
    }

    /** Draws the rows that came into view, and removes those that left it. The row with the keyboard stays. */
    draw(isAll = false) {
        const { scrollTop, clientHeight } = this.host;
        const first = isAll ? 0 : Math.max(0, Math.floor(scrollTop / ROW) - MARGIN);
        const last = isAll ? this.rows.length - 1 : Math.min(this.rows.length - 1, Math.ceil((scrollTop + clientHeight) / ROW) + MARGIN);
        const wanted = new Set([this.at.row, ...Array.from({ length: Math.max(0, last - first + 1) }, (_, at) => first + at)]);
        for (const [at, line] of this.lines) {
            if (wanted.has(at) && at < this.rows.length) continue;
            line.remove();
            this.lines.delete(at);
        }
        const missing = [...wanted].filter((at) => at < this.rows.length && !this.lines.has(at));
        for (const at of missing) this.add(at);
        this.mark();
    }

    // Adds the line of a row, in the order in which a screen reader reads them.
    add(at) {
        const line = element("div", { role: "row" });
        line.style.top = `${at * ROW}px`;
        const after = [...this.lines.keys()].filter((other) => other > at);
        this.body.insertBefore(line, after.length === 0 ? null : this.lines.get(Math.min(...after)));
        this.lines.set(at, line);
        this.fill(line, at);
    }

    fill(line, at) {
        if (this.editor !== null && this.at.row === at) return; // it is drawn again when the editor closes
        const row = this.rows[at];
        line.className = `entry ${this.wishes.rowClass?.(row) ?? ""}`;
        line.setAttribute("aria-rowindex", String(at + 2));
        line.replaceChildren(...this.columns.map((column, place) => this.cell(row, column, at, place)));
    }

    cell(row, column, at, place) {
        const own = this.wishes.cellClass?.(row, column.key) ?? "";
        const role = column.kind === "name" ? "rowheader" : "gridcell";
        const made = element("div", { role, id: `${this.id}-${at}-${place}`, "aria-colindex": place + 1, class: `${column.kind ?? "text"} ${own}` });
        if (this.wishes.edit !== undefined) made.setAttribute("aria-readonly", String((column.input?.(row) ?? null) === null));
        if (column.text !== undefined) made.append(column.text(row));
        column.draw?.(row, made);
        if (this.wishes.note?.(row, column.key)) made.setAttribute("aria-invalid", "true");
        const hint = this.wishes.why?.(row, column.key) || (column.kind === "text" ? made.textContent : "");
        if (hint) made.title = hint;
        return made;
    }

    /** @returns {HTMLElement | null} */
    cellAt() {
        return /** @type {HTMLElement} */ (this.lines.get(this.at.row)?.children[this.at.column]) ?? null;
    }

    /** Marks the cell with the keyboard, and says what there is to say at it. */
    mark() {
        for (const old of this.body.querySelectorAll(".at")) old.classList.remove("at");
        const cell = this.cellAt();
        cell?.classList.add("at");
        if (cell === null) this.host.removeAttribute("aria-activedescendant");
        else this.host.setAttribute("aria-activedescendant", cell.id);
        const text = cell === null ? "" : this.wishes.note?.(this.rows[this.at.row], this.columns[this.at.column].key) ?? "";
        this.note.hidden = text === "";
        if (this.note.textContent !== text) this.note.textContent = text;
        if (text === "") return;
        this.note.style.top = `${(this.at.row + 1) * ROW + this.head.offsetHeight}px`;
        this.note.style.left = `${Math.max(this.host.scrollLeft + 4, Math.min(cell.offsetLeft, this.host.scrollLeft + this.host.clientWidth - 330))}px`;
    }

    // ---- Moving

    /** Goes to a cell, and shows it. */
    go(row, column = this.at.column) {
        this.close(true);
        this.at = { row: Math.max(0, Math.min(row, this.rows.length - 1)), column: Math.max(0, Math.min(column, this.columns.length - 1)) };
        this.draw();
        this.reveal();
    }

    reveal() {
        const cell = this.cellAt();
        if (cell === null) return;
        const [top, height] = [this.at.row * ROW, this.host.clientHeight - this.head.offsetHeight];
        if (top < this.host.scrollTop) this.host.scrollTop = top;
        else if (top + ROW > this.host.scrollTop + height) this.host.scrollTop = top + ROW - height;
        const fixed = this.at.column === 0 ? 0 : /** @type {HTMLElement} */ (this.head.children[0]).offsetWidth;
        const [left, right] = [cell.offsetLeft - fixed, cell.offsetLeft + Math.min(cell.offsetWidth, this.host.clientWidth - fixed)];
        if (this.at.column === 0 || left < this.host.scrollLeft) this.host.scrollLeft = left;
        else if (right > this.host.scrollLeft + this.host.clientWidth) this.host.scrollLeft = right - this.host.clientWidth;
    }

    point(event) {
        const cell = event.target.closest("[role='gridcell'], [role='rowheader']");
        if (cell === null || event.target.closest("input, button") !== null) return;
        const [, row, column] = cell.id.split("-").map(Number);
        event.preventDefault();
        this.go(row, column);
        this.host.focus({ preventScroll: true });
    }

    press(event) {
        if (event.target !== this.host || event.altKey || event.metaKey) return;
        if (this.pressKey(event.key, event.ctrlKey)) event.preventDefault();
    }

    // Returns whether a key has a meaning here.
    pressKey(key, hasControl) {
        const step = STEPS[key];
        if (key === "Home") this.go(hasControl ? 0 : this.at.row, 0);
        else if (key === "End") this.go(hasControl ? this.rows.length - 1 : this.at.row, this.columns.length - 1);
        else if (hasControl) return false;
        else if (step !== undefined) this.go(this.at.row + step[0], this.at.column + step[1]);
        else if (key === "Enter" || key === "F2") this.act();
        else if (key === "Delete" || key === "Backspace") return this.open("");
        else if (key.length === 1 && key !== " ") return this.open(key);
        else return false;
        return true;
    }

    // ---- Editing

    /** Edits the cell with the keyboard, or opens its row if it cannot be edited. */
    act() {
        if (this.rows.length === 0) return;
        if (!this.open(null)) this.wishes.open?.(this.rows[this.at.row], this.columns[this.at.column]);
    }

    // Opens an editor with a text, or with what the cell has. Returns whether the cell can be edited.
    open(text) {
        const row = this.rows[this.at.row];
        const column = this.columns[this.at.column];
        const now = row === undefined ? null : column.input?.(row) ?? null;
        if (now === null || this.wishes.edit === undefined) return false;
        this.close(true);
        this.reveal();
        const input = element("input", { class: "editor", "aria-label": `${column.hint ?? column.head}, ${row.name}`, autocomplete: "off", spellcheck: "false" });
        input.value = text ?? now;
        input.addEventListener("keydown", (event) => this.pressInEditor(event));
        input.addEventListener("blur", () => this.close(true));
        this.cellAt().replaceChildren(input);
        this.editor = { input, row, column, now };
        input.focus({ preventScroll: true });
        if (text === null) input.select();
        return true;
    }

    pressInEditor(event) {
        if (event.key === "Escape") this.close(false);
        else if (event.key === "Enter") this.go(this.at.row + (event.shiftKey ? -1 : 1));
        else if (event.key === "Tab") this.next(event.shiftKey ? -1 : 1);
        else return;
        event.preventDefault();
        event.stopPropagation();
    }

    // Goes on to the next cell that can be edited, in this row or another one, and opens it.
    next(step) {
        this.close(true);
        const count = this.columns.length;
        let place = this.at.row * count + this.at.column + step;
        while (place >= 0 && place < this.rows.length * count) {
            const [row, column] = [Math.floor(place / count), place % count];
            if ((this.columns[column].input?.(this.rows[row]) ?? null) !== null) {
                this.go(row, column);
                this.open(null);
                return;
            }
            place += step;
        }
    }

    /** Closes the editor, if there is one, and sends its text if that is another one. @param {boolean} isKept */
    close(isKept) {
        if (this.editor === null) return;
        const { input, row, column, now } = this.editor;
        const hadFocus = document.activeElement === input;
        this.editor = null;
        const text = input.value.trim();
        if (isKept && text !== now) this.wishes.edit(row, column, text);
        const line = this.lines.get(this.at.row);
        if (line !== undefined) this.fill(line, this.at.row);
        if (hadFocus) this.host.focus({ preventScroll: true });
        this.mark();
    }
}
