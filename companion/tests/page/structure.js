// What a screen reader or a keyboard would miss in the page.
(() => {
    const found = [];
    const controls = document.querySelectorAll("input, button, select, textarea, a, summary, [tabindex='0']");
    for (const control of controls) {
        const labels = control.labels === undefined || control.labels === null ? [] : [...control.labels];
        const named = (control.getAttribute("aria-labelledby") ?? "").split(" ").filter((id) => id !== "");
        const name = [control.getAttribute("aria-label"), control.textContent, ...labels.map((it) => it.textContent),
            ...named.map((id) => document.getElementById(id)?.textContent)].join("").trim();
        if (name === "") found.push(`no name: ${control.outerHTML.slice(0, 60)}`);
    }
    for (const [name, attribute] of [["aria-labelledby", "id"], ["aria-describedby", "id"]])
        for (const element of document.querySelectorAll(`[${name}]`))
            for (const id of element.getAttribute(name).split(" "))
                if (document.getElementById(id) === null) found.push(`${name} of nothing: ${id}`);
    const ids = [...document.querySelectorAll("[id]")].map((element) => element.id);
    ids.filter((id, at) => ids.indexOf(id) !== at).forEach((id) => found.push(`id twice: ${id}`));
    for (const link of document.querySelectorAll("a[href^='#']"))
        if (document.getElementById(link.getAttribute("href").slice(1)) === null) found.push(`link to nothing: ${link.getAttribute("href")}`);
    let level = 0;
    for (const heading of document.querySelectorAll("h1, h2, h3, h4")) {
        const now = Number(heading.localName[1]);
        if (now > level + 1) found.push(`heading skips a level: ${heading.textContent.trim()}`);
        level = now;
    }
    if (document.querySelectorAll("h1").length !== 1) found.push("not one h1");
    for (const table of document.querySelectorAll("table"))
        if (table.caption === null && !table.getAttribute("aria-label")) found.push("a table without a caption");
    for (const drawing of document.querySelectorAll("svg"))
        if (!drawing.closest("[aria-hidden='true'], [role='img']")) found.push("a drawing that is read out");
    for (const drawing of document.querySelectorAll("[role='img']"))
        if (!drawing.getAttribute("aria-label")) found.push("a picture without a label");
    return found;
})()
