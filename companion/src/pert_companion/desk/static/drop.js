// Lets files be dropped on a zone: they are chosen in its input, as if somebody had chosen them there. Elsewhere a dropped file opens nothing.
for (const name of ["dragover", "drop"]) document.addEventListener(name, (event) => event.preventDefault());

for (const zone of document.querySelectorAll("[data-drop]")) {
    const input = zone.querySelector("input[type='file']");
    zone.addEventListener("dragenter", () => zone.classList.add("over"));
    zone.addEventListener("dragover", () => zone.classList.add("over"));
    for (const name of ["dragleave", "drop"]) zone.addEventListener(name, () => zone.classList.remove("over"));
    zone.addEventListener("drop", (/** @type {DragEvent} */ event) => {
        if (event.dataTransfer.files.length === 0) return;
        /** @type {HTMLInputElement} */ (input).files = event.dataTransfer.files;
        input.dispatchEvent(new Event("change", { bubbles: true }));
    });
}
