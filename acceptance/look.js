// Writes what is wrong with a page as it is laid out into the element #found: texts that have too little contrast, are cut off,
// overlap or can't be selected, a page wider than its window, drawings without a text, and what no keyboard reaches.
(() => {
    const found = [];
    const tell = (what, node) => found.push(what + ": " + (node.textContent || node.id || "").trim().slice(0, 60));
    const parts = (color) => color.match(/[\d.]+/g).map(Number);
    const light = ([r, g, b]) => {
        const part = (v) => (v /= 255) <= 0.03928 ? v / 12.92 : ((v + 0.055) / 1.055) ** 2.4;
        return 0.2126 * part(r) + 0.7152 * part(g) + 0.0722 * part(b);
    };
    const ground = (element) => {
        for (; element; element = element.parentElement) {
            const color = parts(getComputedStyle(element).backgroundColor);
            if (color.length < 4 || color[3] > 0) return color;
        }
        return [255, 255, 255];
    };
    const contrast = (one, other) => {
        const [a, b] = [light(one), light(other)].sort((x, y) => y - x);
        return (a + 0.05) / (b + 0.05);
    };
    const boxes = [];
    let least = 99, texts = 0;
    const walk = document.createTreeWalker(document.body, NodeFilter.SHOW_TEXT);
    for (let node = walk.nextNode(); node; node = walk.nextNode()) {
        const parent = node.parentElement, style = getComputedStyle(parent);
        if (!node.textContent.trim() || parent.closest("script, title, desc, style") || !parent.checkVisibility()) continue;
        const range = document.createRange();
        range.selectNodeContents(node);
        const rects = [...range.getClientRects()].filter((rect) => rect.width > 1 && rect.height > 1);
        if (!rects.length) continue;
        texts += 1;
        const ratio = contrast(parts(parent instanceof SVGElement ? style.fill : style.color), ground(parent));
        least = Math.min(least, ratio);
        if (ratio < 4.5) tell("contrast " + ratio.toFixed(2), node);
        if (style.userSelect === "none") tell("can't be selected", node);
        const holder = parent.closest(".scroll");
        for (const rect of rects) {
            if (!holder && (rect.right > innerWidth + 1 || rect.left < -1)) tell("cut", node);
            boxes.push([rect, node]);
        }
        const drawing = parent.closest("svg");
        if (drawing) {
            const all = drawing.getBoundingClientRect();
            if (rects.some((rect) => rect.left < all.left - 1 || rect.right > all.right + 1)) tell("cut in a drawing", node);
        }
    }
    boxes.sort((one, other) => one[0].top - other[0].top);
    for (let i = 0; i < boxes.length; i++) {
        for (let j = i + 1; j < boxes.length && boxes[j][0].top < boxes[i][0].bottom; j++) {
            const [one, other] = [boxes[i][0], boxes[j][0]];
            const across = Math.min(one.right, other.right) - Math.max(one.left, other.left);
            const down = Math.min(one.bottom, other.bottom) - Math.max(one.top, other.top);
            if (across > 2 && down > 0.4 * Math.min(one.height, other.height) && boxes[i][1] !== boxes[j][1]) tell("overlaps", boxes[i][1]);
        }
    }
    if (document.documentElement.scrollWidth > innerWidth + 1) tell("wider than its window", document.querySelector("h1"));
    for (const drawing of document.querySelectorAll("svg, img")) {
        const named = drawing.alt || (drawing.querySelector("title") && drawing.querySelector("desc"));
        if (!named || (drawing.tagName === "svg" && drawing.getAttribute("role") !== "img")) tell("no text beside", drawing);
    }
    for (const bar of document.querySelectorAll(".bar")) {
        if (!bar.closest("[aria-hidden]")) tell("a bar that is read out", bar);
    }
    if (document.querySelectorAll("script:not(#look), link, iframe, [src], [href]").length) tell("something from elsewhere", document.body);
    for (const node of document.querySelectorAll("summary, .scroll")) {
        if (!node.checkVisibility()) continue;
        node.focus({focusVisible: true});
        if (document.activeElement !== node) tell("no keyboard reaches", node);
        if (node.matches(":focus-visible") && getComputedStyle(node).outlineStyle !== "solid") tell("nothing shows that the keyboard is at", node);
        if (node.matches(".scroll") && !node.getAttribute("aria-label") && !node.getAttribute("aria-labelledby")) tell("has no name", node);
    }
    for (const node of document.querySelectorAll("main *")) {
        if (node.scrollWidth > node.clientWidth + 1 && /auto|scroll/.test(getComputedStyle(node).overflowX) && node.tabIndex !== 0) tell("scrolls for a mouse alone", node);
    }
    const told = document.createElement("pre");
    told.id = "found";
    told.textContent = JSON.stringify({found, texts, least, ground: ground(document.body)});
    document.body.append(told);
})();
