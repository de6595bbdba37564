// What is wrong with the layout of the page in the window, each once: overlaps, cut texts, contrast.
(() => {
    const ROUNDING = 1;         // pixels by which boxes of letters may touch
    const SCROLLED = ".wide, .rows, .network";
    const found = [];
    const add = (what, text) => found.push(`${what}: ${text.trim().slice(0, 60)}`);

    function isShown(element) {
        if (element.closest(".unseen, .skip, script, style, title")) return false;
        for (let box = element; box !== null; box = box.parentElement)
            if (getComputedStyle(box).display === "none") return false; // drawings keep boxes of hidden texts
        return element.checkVisibility({ contentVisibilityAuto: false, visibilityProperty: true });
    }

    // ---- The lines of all texts that are seen
    const texts = [];
    const walker = document.createTreeWalker(document.body, NodeFilter.SHOW_TEXT);
    for (let node = walker.nextNode(); node !== null; node = walker.nextNode()) {
        if (node.data.trim() === "" || !isShown(node.parentElement)) continue;
        const range = document.createRange();
        range.selectNodeContents(node);
        const rects = [...range.getClientRects()].filter(({ width, height }) => width > 0 && height > 0);
        if (rects.length > 0) texts.push({ node, rects, element: node.parentElement });
    }

    // ---- Overlaps: boxes of letters are as high as the line, so the middle of each counts
    const lines = texts.flatMap(({ node, rects }) => rects.map((rect) => {
        const margin = rect.height * 0.22;
        return { node, left: rect.left, right: Math.min(rect.right, endOf(node)), top: rect.top + margin, bottom: rect.bottom - margin };
    }));
    lines.sort((a, b) => a.top - b.top);
    lines.forEach((one, at) => {
        for (let next = at + 1; next < lines.length && lines[next].top < one.bottom; next += 1) {
            const other = lines[next];
            if (other.node === one.node) continue;
            const across = Math.min(one.right, other.right) - Math.max(one.left, other.left);
            if (across > ROUNDING && !isScrolledAway(one) && !isScrolledAway(other))
                add("overlap", `${one.node.parentElement.closest("[class]")?.getAttribute("class")}: ${one.node.data.trim().slice(0, 25)} / ${other.node.data.trim().slice(0, 25)}`);
        }
    });

    // Returns where a text ends that is cut with an ellipsis.
    function endOf(node) {
        const box = node.parentElement.closest(".entry > div") ?? node.parentElement;
        return getComputedStyle(box).textOverflow === "ellipsis" ? box.getBoundingClientRect().right : Infinity;
    }

    // Whether a line is outside the part of a scrolled region that is seen.
    function isScrolledAway({ node, left, right, top, bottom }) {
        const region = node.parentElement.closest(SCROLLED);
        if (region === null) return false;
        const box = region.getBoundingClientRect();
        return right > box.right || left < box.left || bottom > box.bottom || top < box.top || isUnderFixed(node, region, left, top);
    }

    // Whether a text of a table is under the head or the column of names, which stay where they are.
    function isUnderFixed(node, region, left, top) {
        const fixed = node.parentElement.closest(".entry-heads, .entry > .name");
        if (fixed !== null || !region.matches(".rows")) return false;
        const head = region.querySelector(".entry-heads").getBoundingClientRect();
        const name = region.querySelector(".entry-heads .name").getBoundingClientRect();
        return top < head.bottom || left < name.right;
    }

    // ---- Touching texts: words of two elements with no space between them
    for (const { node, rects } of texts) {
        if (node.parentElement.namespaceURI.endsWith("svg")) continue;
        for (const other of texts) {
            if (other.node === node || other.element === node.parentElement) continue;
            if (!other.element.closest("td, th") || other.element.closest("td, th") === node.parentElement.closest("td, th")) continue;
            const touches = rects.some((a) => other.rects.some((b) =>
                Math.abs(a.top - b.top) < 4 && b.left >= a.right - 1 && b.left - a.right < 3));
            if (touches) add("touching", `${node.data.trim().slice(-20)} / ${other.node.data.trim().slice(0, 20)}`);
        }
    }

    // ---- Cut texts
    for (const { node, rects, element } of texts) {
        for (let box = element; box !== null && box !== document.documentElement; box = box.parentElement) {
            const style = getComputedStyle(box);
            if (box.matches(SCROLLED)) { // what is beyond its end cannot be scrolled to
                const { left } = box.getBoundingClientRect();
                const last = left - box.scrollLeft + box.scrollWidth;
                if (rects.some((rect) => rect.left < left - box.scrollLeft - ROUNDING || rect.right > last + ROUNDING)) add("cut", node.data);
                break;
            }
            const isClipped = style.textOverflow !== "ellipsis" && (style.overflowX === "hidden" || style.overflowX === "clip");
            if (!isClipped || box === document.body) continue;
            const { left, right } = box.getBoundingClientRect();
            if (rects.some((rect) => rect.left < left - ROUNDING || rect.right > right + ROUNDING)) add("cut", node.data);
        }
        if (element.closest(SCROLLED) === null && rects.some((rect) => rect.left < -ROUNDING || rect.right > innerWidth + ROUNDING))
            add("outside the window", node.data);
    }

    // ---- Broken words
    for (const { node, element } of texts) {
        if (element.closest("code, .digest")) continue;
        for (const match of node.data.matchAll(/[\p{L}\p{N}.,]+/gu)) {
            const range = document.createRange();
            range.setStart(node, match.index);
            range.setEnd(node, match.index + match[0].length);
            const tops = new Set([...range.getClientRects()].map((rect) => Math.round(rect.top)));
            if (tops.size > 1 && match[0].length < 24) add("broken word", match[0]);
        }
    }

    // ---- Contrast
    const canvas = document.createElement("canvas").getContext("2d", { willReadFrequently: true });

    function channels(color) {
        canvas.clearRect(0, 0, 1, 1);
        canvas.fillStyle = color;
        canvas.fillRect(0, 0, 1, 1);
        return [...canvas.getImageData(0, 0, 1, 1).data];
    }

    function luminance(rgb) {
        const [r, g, b] = rgb.slice(0, 3).map((part) => {
            const share = part / 255;
            return share <= 0.04045 ? share / 12.92 : ((share + 0.055) / 1.055) ** 2.4;
        });
        return 0.2126 * r + 0.7152 * g + 0.0722 * b;
    }

    function groundOf(element) {
        for (let box = element; box !== null; box = box.parentElement) {
            const rgba = channels(getComputedStyle(box).backgroundColor);
            if (rgba[3] > 250) return rgba;
        }
        return [255, 255, 255, 255];
    }

    for (const { node, element } of texts) {
        const style = getComputedStyle(element);
        const isDrawn = element.namespaceURI.endsWith("svg");
        const ink = luminance(channels(isDrawn ? style.fill : style.color));
        const ground = luminance(groundOf(element));
        const ratio = (Math.max(ink, ground) + 0.05) / (Math.min(ink, ground) + 0.05);
        const size = parseFloat(style.fontSize);
        const isLarge = size >= 24 || (size >= 18.6 && Number(style.fontWeight) >= 700);
        if (ratio < (isLarge ? 3 : 4.5)) add(`contrast ${ratio.toFixed(1)}`, node.data);
    }

    const extra = document.documentElement.scrollWidth - document.documentElement.clientWidth;
    if (extra > 0) add("wider than the window", `${extra} pixels`);
    return [...new Set(found)];
})()
