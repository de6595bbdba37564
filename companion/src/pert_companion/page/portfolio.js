// Sorts the table of projects by the column whose heading is pressed; pressed again, the other way round. Rows without a value stay at the end. Shows the projects with an alarm, or with a name.
"use strict";

(() => {
    const table = document.getElementById("projects");
    const body = table.tBodies[0];
    const key = (row, column) => row.cells[column]?.dataset.key ?? "";

    function compare(one, other, column, isNumber) {
        const [a, b] = [key(one, column), key(other, column)];
        if (a === "" || b === "") return null;
        if (!isNumber) return a < b ? -1 : a > b ? 1 : 0;
        const [x, y] = [BigInt(a), BigInt(b)];
        return x < y ? -1 : x > y ? 1 : 0;
    }

    function sort(head) {
        const column = head.cellIndex;
        const isNumber = head.dataset.kind === "number";
        const sign = head.getAttribute("aria-sort") === "ascending" ? -1 : 1;
        const rows = [...body.rows];
        rows.sort((one, other) => {
            const order = compare(one, other, column, isNumber);
            if (order !== null) return sign * order;
            return Number(key(one, column) === "") - Number(key(other, column) === "");
        });
        for (const it of table.tHead.rows[0].cells) it.removeAttribute("aria-sort");
        head.setAttribute("aria-sort", sign > 0 ? "ascending" : "descending");
        body.append(...rows);
    }

    for (const head of table.tHead.rows[0].cells) {
        const button = document.createElement("button");
        button.type = "button";
        const name = head.firstChild;
        button.textContent = name.textContent.trim();
        name.replaceWith(button, " ");
        button.addEventListener("click", () => sort(head));
    }

    const filters = document.getElementById("filters");
    const buttons = [...filters.querySelectorAll("button")];
    const name = document.getElementById("named");
    let only = "";

    function show() {
        const wanted = name.value.trim().toLowerCase();
        let count = 0;
        for (const row of body.rows) {
            const hasAlarm = only === "" || row.dataset.alarms.split(" ").includes(only);
            row.hidden = !(hasAlarm && row.cells[0].textContent.toLowerCase().includes(wanted));
            count += row.hidden ? 0 : 1;
        }
        document.getElementById("count").textContent = `${count} of ${body.rows.length} shown`;
    }

    for (const button of buttons) {
        button.addEventListener("click", () => {
            only = button.dataset.only;
            for (const it of buttons) it.setAttribute("aria-pressed", String(it === button));
            show();
        });
    }
    name.addEventListener("input", show);
    filters.hidden = false;
})();
