// The chosen length: the line of figures above all panels, and the panel with the curve, certain lengths and all breakpoints.
import { get } from "./api.js";
import { drawCurve } from "./chart.js";
import { $, dayText, element, grouped, plural, setText, table } from "./dom.js";

const signed = (amount) => (amount.startsWith("-") ? `\u2212${grouped(amount.slice(1))}` : `+${grouped(amount)}`);

/** The line of figures with the slider. */
export class Figures {
    /** @param {import("./model.js").Desk} desk */
    constructor(desk) {
        this.desk = desk;
        $("slider").addEventListener("input", () => desk.choose(Number($("slider").value)));
        $("days").addEventListener("change", () => this.chooseDays($("days").value));
        $("by").addEventListener("change", () => $("by").value && desk.chooseDay($("by").value));
        for (const form of document.querySelectorAll("form")) form.addEventListener("submit", (event) => event.preventDefault());
        desk.addEventListener("length", () => this.draw());
    }

    // Returns an amount with its currency.
    money(amount, sign = false) {
        const text = sign ? signed(amount) : grouped(amount).replace("-", "\u2212");
        return this.desk.project.currency ? `${text}\u00a0${this.desk.project.currency}` : text;
    }

    // Chooses a number of days: units are as many as days at every breakpoint.
    chooseDays(text) {
        const point = this.desk.project.curve.points[0];
        const days = Number(text.replace(",", "."));
        if (text.trim() !== "" && days >= 0) this.desk.choose(Math.round((days * point.units) / (Number(point.days) || 1)));
        this.draw();
    }

    draw() {
        const { length, project } = this.desk;
        const { curve, terms } = project;
        const slider = $("slider");
        [slider.min, slider.max] = [String(curve.shortest), String(curve.longest)];
        slider.disabled = curve.shortest === curve.longest;
        if (document.activeElement !== slider || Number(slider.value) !== length.units) slider.value = String(length.units);
        if (document.activeElement !== $("days")) $("days").value = length.days;
        setText($("end"), dayText(length.end));
        setText($("late"), length.late || (this.desk.chosen === null ? "nothing is shortened" : ""));
        setText($("work"), this.money(length.work));
        $("total-part").hidden = terms === null;
        setText($("total"), this.money(length.total));
        setText($("against"), this.money(length.against_today, true));
        setText($("next"), length.next === null ? "no length is shorter" : this.money(length.next, true));
        $("chance-part").hidden = length.chance === null;
        setText($("chance"), length.chance ?? "");
        const text = `${length.days} days, ends on ${dayText(length.end)}, costs ${this.money(length.total)}`;
        slider.setAttribute("aria-valuetext", text);
    }
}

/** The panel of lengths. */
export class Lengths {
    /** @param {import("./model.js").Desk} desk @param {Figures} figures */
    constructor(desk, figures) {
        this.desk = desk;
        this.figures = figures;
        this.version = -1;
        desk.addEventListener("length", () => this.draw());
        for (const field of /** @type {const} */ (["overhead", "bonus", "penalty", "target"])) {
            $(`terms-${field}`).addEventListener("change", (event) => {
                desk.editProject({ kind: "terms", field, value: event.target.value }, `${field}: ${event.target.value || "none"}`);
            });
        }
        $("contract").addEventListener("change", () => desk.editProject({ kind: "contract", value: $("contract").value }, `contract date: ${$("contract").value || "none"}`));
    }

    draw() {
        if ($("panel-length").hidden) return;
        const { length, project } = this.desk;
        drawCurve($("curve"), project.curve, length);
        $("curve-total").hidden = project.terms === null;
        $("length-hint").hidden = length.hint === "";
        setText($("length-hint"), length.hint);
        this.drawPoints();
        this.drawTerms();
        if (this.version !== project.version) this.drawOptions();
    }

    // Draws the table of breakpoints; a press on a length chooses it.
    drawPoints() {
        const { curve, terms } = this.desk.project;
        const { figures } = this;
        const rows = curve.points.map((point) => {
            const cells = [this.button(point.units, `${point.days} days`), dayText(point.end), figures.money(point.work)];
            if (terms !== null) cells.push(figures.money(point.total));
            return [...cells, point.day_less === null ? "\u2013" : figures.money(point.day_less, true)];
        });
        const heads = ["Length", "Ends on", "Work", ...(terms === null ? [] : ["In all"]), "Work of one day less"];
        $("points").replaceChildren(table(`${plural(rows.length, "breakpoint")} of the curve`, heads, rows, [2, 3, 4]));
    }

    button(units, text) {
        return element("button", { type: "button", class: "plain", onclick: () => this.desk.choose(units) }, text);
    }

    drawTerms() {
        const { terms, curve } = this.desk.project;
        for (const field of ["overhead", "bonus", "penalty", "target"]) {
            const input = $(`terms-${field}`);
            if (document.activeElement !== input) input.value = terms?.[field] ?? "";
        }
        const hasContract = curve.contract?.name === "contract date"; // others follow from the plan
        if (document.activeElement !== $("contract")) $("contract").value = hasContract ? curve.contract.day : "";
    }

    // Asks for certain lengths with their chances, which take longer.
    async drawOptions() {
        this.version = this.desk.project.version;
        await this.desk.reading(async () => {
            /** @type {Options} */
            const { options, sureness } = await get(`${this.desk.base}/options`);
            const { figures } = this;
            const hasChance = options.some(({ chance }) => chance !== null);
            const rows = options.map((option) => {
                const cells = [this.button(option.units, `${option.days} days: ${option.names.join(", ")}`), dayText(option.end), figures.money(option.total), figures.money(option.against_today, true)];
                cells.push(option.next === null ? "\u2013" : figures.money(option.next, true));
                return hasChance ? [...cells, option.chance ?? "\u2013"] : cells;
            });
            const heads = ["Length", "Ends on", "In all", "Against today\u2019s plan", "One day less", ...(hasChance ? ["Chance to end by then"] : [])];
            $("options").replaceChildren(table("Lengths to decide between", heads, rows, [2, 3, 4, 5]));
            setText($("sureness"), sureness);
        });
    }
}
