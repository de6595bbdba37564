// The panel of loads: cost and resources by week at the chosen length, how much of each resource there is, and what is above that.
import { get } from "./api.js";
import { $, dayText, element, grouped, plural, setText, table } from "./dom.js";

export class Load {
    /** @param {import("./model.js").Desk} desk @param {import("./length.js").Figures} figures */
    constructor(desk, figures) {
        this.desk = desk;
        this.figures = figures;
        this.shown = ""; // the version and the length that are shown
        this.codes = ""; // the resources that have a field
        $("capacities").addEventListener("submit", (event) => event.preventDefault());
    }

    async draw() {
        const { length, project } = this.desk;
        const wanted = `${project.version} ${length.units}`;
        if (this.shown === wanted) return;
        this.shown = wanted;
        await this.desk.reading(async () => {
            /** @type {LoadByWeek} */
            const load = await get(`${this.desk.base}/load?length=${length.units}`);
            if (this.shown !== wanted) return;
            setText($("load-length"), `At ${length.days} days, by periods of ${load.period}. A running project has the load of what is left.`);
            this.drawCapacities(load);
            this.drawAbove(load);
            this.drawWeeks(load);
        });
    }

    // Writes the capacities into their fields, but for the one in which somebody types.
    drawCapacities({ resources }) {
        const codes = resources.map(({ code }) => code).join(" ");
        if (codes !== this.codes) this.makeFields(resources);
        this.codes = codes;
        for (const { code, capacity } of resources) {
            const input = $(`capacity-${code}`);
            if (document.activeElement !== input) input.value = capacity;
        }
    }

    makeFields(resources) {
        const form = $("capacities");
        form.hidden = resources.length === 0;
        const lead = "How many work at once; for a material, how much of it an hour of work takes.";
        const fields = resources.map(({ code, name }) => {
            const input = element("input", { type: "text", id: `capacity-${code}`, inputmode: "decimal", size: "6" });
            input.addEventListener("change", () => this.desk.editProject({ kind: "capacity", resource: code, value: input.value }, `capacity of ${name}: ${input.value || "none"}`));
            return element("label", {}, element("bdi", {}, name), " ", input);
        });
        form.replaceChildren(element("h2", {}, "Capacities"), element("p", { class: "lead" }, lead), ...fields);
    }

    drawAbove({ resources, overloads }) {
        const isKnown = resources.some(({ capacity }) => capacity !== "");
        const none = isKnown ? "No resource is above its capacity." : resources.length > 0 ? "No capacity is known." : "The plan has no resources.";
        const rows = overloads.map((each) => [dayText(each.first), each.title, grouped(each.amount), grouped(each.available), each.most, each.capacity, plural(each.days, "day"), each.tasks.join(", ")]);
        const heads = ["From", "Resource", "Load", "Available", "Most at once", "Capacity", "On", "Tasks"];
        $("load-above").replaceChildren(rows.length > 0 ? table("Above capacity", heads, rows, [2, 3, 4, 5]) : element("p", {}, none));
    }

    drawWeeks({ periods, costs, resources }) {
        const rows = periods.map((day, period) => {
            const used = resources.map(({ amounts, above }) => amountOf(amounts[period], above.includes(period)));
            return [dayText(day), this.figures.money(costs[period]), ...used];
        });
        const heads = ["From", "Cost", ...resources.map(({ title }) => title)];
        const numbers = heads.map((_, at) => at).slice(1);
        $("load-weeks").replaceChildren(table("Load by week", heads, rows, numbers));
    }
}

// Returns an amount, marked if it is above the capacity.
function amountOf(amount, isAbove) {
    return isAbove ? element("strong", { class: "above", title: "above the capacity" }, `${grouped(amount)} !`) : grouped(amount);
}
