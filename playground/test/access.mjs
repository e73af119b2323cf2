// usage: node access.mjs PAGE.html
// The page for a keyboard, a screen reader, a narrow screen and a dark one, in a headless Chromium.
import { Checks } from "./checks.mjs";
import { KEYS, open_page } from "./driver.mjs";

const page = await open_page(process.argv[2]);
const checks = new Checks();
const { keys, run } = page;
const LEAST_CONTRAST = 4.5; // of texts: WCAG 2.2, 1.4.3
const SHOWN = ["#e=mesa&at=14", "#e=disk&at=35", "#e=both-kinds&at=13", "#e=every-step&at=22", "#s=monitor_1&at=0"];

async function show(hash, { width = 1280, scheme = "light" } = {}) {
    const features = Object.entries({ "prefers-color-scheme": scheme, "prefers-reduced-motion": "reduce" });
    const screen = { width, height: 900, deviceScaleFactor: 1, mobile: false };
    await page.cdp("Emulation.setDeviceMetricsOverride", screen);
    await page.cdp("Emulation.setEmulatedMedia", { features: features.map(([name, value]) => ({ name, value })) });
    await page.go(hash);
}

// Returns the nodes of the accessibility tree that a screen reader meets: { role, name, description, ... properties }.
async function nodes() {
    const tree = await page.cdp("Accessibility.getFullAXTree", {});
    const properties = (it) => Object.fromEntries((it.properties ?? []).map(({ name, value }) => [name, value.value]));
    const node = (it) => ({
        ...properties(it), role: it.role.value, name: it.name?.value ?? "", description: it.description?.value ?? "",
    });
    return tree.nodes.filter((it) => !it.ignored).map(node);
}

// Each control has a name, and the chips, the steps, the pictures and the refused calls have theirs in words.
async function check_names() {
    await show("#e=priorities&at=7");
    const found = await nodes();
    const names = (role) => found.filter((it) => it.role === role).map((it) => it.name);
    const controls = found.filter((it) => it.focusable && !["RootWebArea", "main"].includes(it.role));
    checks.is(controls.length > 40, `${controls.length} controls`);
    checks.same(controls.filter((it) => it.name === ""), [], "controls without a name");
    const wanted = {
        button: ["Step 7: enter 3, answer 3", "One step on", "wait 3 0 0", "enter: refused 2: the monitor isn’t free"],
        group: ["Short scripts", "Which process calls?", "Enter and leave", "On condition 0"],
        list: ["Inside", "Outside", "Waiting on condition 0 (Hoare)"], textbox: ["The script"], slider: ["Step"],
        StaticText: ["place 2, priority 3", "place 0, priority 5"], RootWebArea: ["Hoare’s monitor, step by step"],
    };
    for (const [role, list] of Object.entries(wanted)) {
        checks.same(list.filter((it) => !names(role).includes(it)), [], `missing, of the role ${role}`);
    }
    checks.is(names("image")[0]?.startsWith("A chart of 15 rows"), `the picture: ${names("image")}`);
    const levels = found.filter((it) => it.role === "heading").map((it) => it.level);
    checks.is(levels[0] === 1 && levels.every((it, at) => at === 0 || it <= levels[at - 1] + 1), `headings ${levels}`);
    const described = found.find((it) => it.name === "wait 3 0 0")?.description;
    checks.same(described, "answer free", "what a button answers");
    checks.same(found.filter((it) => it.live === "polite" && it.role === "status").length, 4, "live regions");
}

const FOCUS = `
    const it = document.activeElement;
    const ring = (of) => of && getComputedStyle(of).outlineStyle !== 'none';
    window.stops ??= [document.documentElement];
    const follows = Boolean(window.stops.at(-1).compareDocumentPosition(it) & 4);
    const is_end = it === document.body || window.stops.includes(it);
    window.stops.push(it);
    return { name: it.ariaLabel || it.textContent.trim().slice(0, 30) || it.id, is_end,
        is_good: follows && it.getBoundingClientRect().width > 3 && Boolean(ring(it) || ring(it.closest('label'))) };`;

async function tabbed() {
    await keys([KEYS.tab]);
    return run(FOCUS);
}

// Tab goes through all controls, in the order of the page; each is seen and has a ring.
async function check_focus() {
    await show("#e=hand-off&at=4");
    const stops = [];
    for (let stop = await tabbed(); !stop.is_end && stops.length < 200; stop = await tabbed()) stops.push(stop);
    checks.same(stops[0]?.name, "To the monitor", "the first stop");
    checks.same(stops.filter((it) => !it.is_good), [], "out of order, unseen or without a ring");
    const all = await run(`
        const found = [...document.querySelectorAll('a[href], button:not([disabled]), input, textarea, summary')];
        return found.length - found.filter((it) => it.type === 'radio').length + 1;`);
    checks.is([0, 1].includes(stops.length - all), `${stops.length} stops, ${all} controls; a box that scrolls is one`);
}

// How wide each example is at each of its steps, and how many texts are cut there.
const WIDE = `
    const texts = 'button, .chip, .said, .note, td, .values, .owed, .clauses li, h1, h2, h3, p, dd';
    const is_wide = (it) => it.scrollWidth > it.clientWidth + 1 && it.clientWidth > 0;
    const is_cut = (it) => is_wide(it) && !it.closest('.chart, .unseen, .skip');
    const cut = () => [...document.querySelectorAll(texts)].filter(is_cut).length;
    const wide = () => [document.documentElement.scrollWidth, cut()];
    const on = () => document.querySelector('[data-control=on]');
    return [...document.querySelectorAll('#examples button')].flatMap((button) => {
        button.click();
        const found = new Set([wide().join()]);
        while (on().ariaDisabled !== 'true') {
            on().click();
            found.add(wide().join());
        }
        return [...found];
    });`;

// No sideways scroll of the page, and no text that is cut.
async function check_widths() {
    for (const width of [320, 1280]) {
        await show("", { width });
        checks.same([...new Set(await run(WIDE))], [`${width},0`], `${width} pixels`);
    }
}

// The contrast of the texts. A text's ground is the nearest opaque colour under it, in the lanes its box.
const CONTRAST = `
    const rgb = (it) => it.match(/[0-9.]+/g).map(Number);
    const linear = (it) => (it /= 255) <= 0.04045 ? it / 12.92 : ((it + 0.055) / 1.055) ** 2.4;
    const light = ([r, g, b]) => 0.2126 * linear(r) + 0.7152 * linear(g) + 0.0722 * linear(b);
    const ratio = (a, b) => (Math.max(light(a), light(b)) + 0.05) / (Math.min(light(a), light(b)) + 0.05);
    const is_opaque = (it) => (rgb(getComputedStyle(it).backgroundColor)[3] ?? 1) === 1;
    const ground = (it) => !it || is_opaque(it) ? rgb(it ? getComputedStyle(it).backgroundColor : '255 255 255')
        : ground(it.parentElement);
    const has = (a, b) => a.left <= b.left && a.right >= b.right && a.top <= b.top && a.bottom >= b.bottom;
    const box = (it) => [...it.ownerSVGElement.querySelectorAll('.inside, .waits, .called, .blank')]
        .find((of) => has(of.getBoundingClientRect(), it.getBoundingClientRect()));
    const under = (it) => it.closest('.lanes svg, .legend svg') ? rgb(getComputedStyle(box(it)).fill) : ground(it);
    const of_text = (it) => {
        const { fill, color } = getComputedStyle(it);
        return ratio(rgb(it.closest('svg') ? fill : color), under(it));
    };
    const walker = document.createTreeWalker(document.body, NodeFilter.SHOW_TEXT);
    const found = [];
    while (walker.nextNode()) {
        const it = walker.currentNode.parentElement;
        const text = walker.currentNode.data.trim();
        const is_text = text !== '' && !it.closest('script, style, noscript, .skip, .unseen');
        if (is_text && it.getClientRects().length > 0) found.push([of_text(it), text.slice(0, 40)]);
    }
    return { texts: found.length, low: found.filter(([it]) => it < arguments[0]) };`;

async function check_contrast() {
    for (const [hash, scheme] of SHOWN.flatMap((it) => [[it, "light"], [it, "dark"]])) {
        await show(hash, { scheme });
        const { texts, low } = await run(CONTRAST, LEAST_CONTRAST);
        checks.is(texts > 50, `${hash}, ${scheme}: ${texts} texts`);
        checks.same(low, [], `${hash}, ${scheme}: contrast`);
    }
}

for (const check of [check_names, check_focus, check_widths, check_contrast]) await check();
await page.close();
checks.end("names, focus, widths and contrast");
