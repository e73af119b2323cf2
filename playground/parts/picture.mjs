// The history as lanes, one for each place that does something: on the page, and as an SVG file of its own.
import { NOBODY, all, is_refused } from "./book.mjs";
import { answer_text, lines_of } from "./script.mjs";

export const ROW = 28; // the height of a row, in pixels
const CHARACTER = 8; // at most the width of a character
const GAP = 44; // between two boxes
const MARGIN = 16; // of a file
const SAMPLE = 84; // the width of a sample in a file's legend

// What the shapes mean: the class, the text of a sample, the meaning. An arrow has no text.
const LEGEND = [
    ["inside", "inside", "is inside"], ["waits", "c0 p5", "waits: condition, priority"],
    ["signals", "signals", "signalled, waits to return"], ["called", "called 1", "was notified; 1 resumes first"],
    ["arrow", "", "a waiter resumes"], ["arrow back", "", "a signaller returns"], ["arrow call", "", "a notification"],
];

// Returns what a place does in a state, as { kind, text }, or null if it is outside.
function doing(state, place) {
    if (state.inside === place) return { kind: "inside", text: "inside" };
    if (state.signallers.includes(place)) return { kind: "signals", text: "signals" };
    const called = state.called.indexOf(place);
    if (called >= 0) return { kind: "called", text: `called ${called + 1}` };
    const at = state.conditions.findIndex(({ waiting }) => waiting.some((it) => it.place === place));
    if (at < 0) return null;
    const { priority } = state.conditions[at].waiting.find((it) => it.place === place);
    return { kind: "waits", text: `c${at} p${priority}` };
}

// Returns what a place does after each row, one entry for a stretch of rows: [{ kind, text, from, to }].
function stretches(rows, place) {
    const found = [];
    for (const [at, state] of rows.entries()) {
        const now = doing(state, place);
        const last = found.at(-1);
        if (last && last.text === now?.text) last.to = at + 1;
        else found.push({ kind: now?.kind, text: now?.text, from: at, to: at + 1 });
    }
    return found.filter((it) => it.kind);
}

// Returns the lanes of the places that do something, from `left` on: [{ place, middle, half, boxes }].
function lanes_of(rows, places, left) {
    let edge = left;
    const lanes = [];
    for (let place = 0; place < places; place += 1) {
        const boxes = stretches(rows, place);
        if (boxes.length === 0) continue;
        const texts = boxes.map((it) => it.text.length + (it.kind === "called" ? 1 : 0));
        const half = (CHARACTER / 2) * Math.max(`place ${place}`.length, ...texts) + 6;
        lanes.push({ place, middle: edge + half, half, boxes });
        edge += 2 * half + GAP;
    }
    return lanes;
}

const rectangle = (kind, x, y, width, height) =>
    `<rect class="${kind}" x="${x}" y="${y}" width="${width}" height="${height}" rx="4"/>`;

// Returns the shapes of one box.
function box({ middle, half }, { kind, text, from, to }, top) {
    const [x, y, height] = [middle - half, top + ROW * from + 3, ROW * (to - from) - 6];
    const label = `<text class="${kind === "inside" ? "light" : "dark"}" x="${middle}" y="${y + 15}">${text}</text>`;
    const shapes = [rectangle(kind, x, y, 2 * half, height), label];
    if (kind !== "signals") return shapes;
    const quarter = Math.floor(half / 2);
    return [rectangle("blank", x, y, 2 * half, height), rectangle("half", x, y, 2 * quarter, height), ...shapes];
}

// Returns an arrow along a row, from the side of a box, or from a dot if the place is outside after the row.
function arrow(from, to, y, { is_back, is_call, is_gone }) {
    const way = to.middle > from.middle ? 1 : -1;
    const begin = from.middle + (is_gone ? 0 : way * from.half);
    const end = to.middle - way * to.half;
    const shaft = (kind, x) => `<path class="${kind}" d="M${x} ${y}H${end - 8 * way}"/>`;
    const tip = (kind) => `<path${kind} d="M${end} ${y}l${-9 * way}-5v10z"/>`;
    if (is_call) return [shaft("arrow call", begin) + tip(' class="tip"')];
    const line = shaft("edge", begin + 4 * way) + shaft(is_back ? "arrow back" : "arrow", begin) + tip("");
    return is_gone ? [`<circle cx="${from.middle}" cy="${y}" r="4"/>`, line] : [line];
}

// Returns the arrows of notifications to a lane.
function calls_to(lane, states, lane_of, y_of) {
    return states.slice(1).flatMap((after, row) => {
        const is_called = after.called.includes(lane.place) && !states[row].called.includes(lane.place);
        return is_called ? arrow(lane_of(after.inside), lane, y_of(row), { is_call: true }) : [];
    });
}

// Returns the arrow of a row by which the monitor went from one place to another.
function hand_off(before, after, lane_of, y) {
    const [from, to] = [before.inside, after.inside];
    if (from === NOBODY || to === NOBODY || from === to) return [];
    const is_back = before.signallers.includes(to);
    return arrow(lane_of(from), lane_of(to), y, { is_back, is_gone: !doing(after, from) });
}

// Returns { lanes, shapes }: the shapes as lines of an SVG, with the first box at `left` and the first row at `top`.
// Arrows are under the boxes if there are Mesa conditions, and over them if there are none.
function drawn(states, { places, mesa }, left, top) {
    const rows = states.slice(1);
    const lanes = lanes_of(rows, places, left);
    const lane_of = (place) => lanes.find((it) => it.place === place);
    const y_of = (row) => top + ROW * row + ROW / 2;
    const dashes = lanes.map(({ middle }) => `<path class="lane" d="M${middle} ${top}V${top + ROW * rows.length}"/>`);
    const calls = lanes.flatMap((it) => calls_to(it, states, lane_of, y_of));
    const boxes = lanes.flatMap((lane) => lane.boxes.flatMap((it) => box(lane, it, top)));
    const hands = rows.flatMap((after, row) => hand_off(states[row], after, lane_of, y_of(row)));
    const order = mesa === 0 ? [boxes, hands] : [hands, boxes];
    return { lanes, shapes: [dashes, calls, ...order].flat() };
}

const band = (row, top, width) => `<rect class="band" x="1" y="${top + ROW * row}" width="${width}" height="${ROW}"/>`;
const bands = (rows, top, width) => all(rows).filter((row) => row % 2 === 0).map((row) => band(row, top, width));
const size_of = (width, height) => `width="${width}" height="${height}" viewBox="0 0 ${width} ${height}"`;
const edge_of = (lanes) => (lanes.length > 0 ? lanes.at(-1).middle + lanes.at(-1).half : 0);
const name_of = (rows, lanes) =>
    `A chart of ${rows} rows, one for each step, and ${lanes.length} lanes, one for each place that enters.`;

// Returns { svg, lanes, width } for the page: `drawn` with bands under the rows, and marks that `mark` moves. The veil
// over the rows to come lies under the texts, so that these stay legible.
export function picture(states, sizes) {
    const { lanes, shapes } = drawn(states, sizes, 12, 0);
    const rows = states.length - 1;
    const [width, height] = [Math.max(80, edge_of(lanes) + 12), ROW * rows + 6];
    const name = `${name_of(rows, lanes)} The list of steps before it has each call with its answer.`;
    const veil = `<rect class="future" x="0" y="${height}" width="4000" height="${height}"/>`;
    const here = `<rect class="here" x="1" y="-99" width="${width - 2}" height="${ROW}" rx="4"/>`;
    const [texts, others] = [shapes.filter(is_text), shapes.filter((it) => !is_text(it))];
    const inner = [...bands(rows, 0, 4000), ...others, veil, ...texts, here];
    const says = `preserveAspectRatio="xMinYMin" role="img" aria-label="${name}"`;
    const tag = `<svg xmlns="http://www.w3.org/2000/svg" ${size_of(width, height)} ${says}>`;
    return { svg: `${tag}${inner.join("")}</svg>`, lanes, width };
}

const is_text = (shape) => shape.startsWith("<text");

// Marks the row of the last step that was done, and veils the rows after it.
export function mark(svg, at) {
    if (!svg) return;
    for (const it of svg.querySelectorAll("text")) it.classList.toggle("later", it.getAttribute("y") > at * ROW);
    svg.querySelector(".here").setAttribute("y", at === 0 ? -99 : (at - 1) * ROW);
    svg.querySelector(".future").setAttribute("y", at * ROW);
}

const word = (kind, x, y, inner) => `<text class="${kind}" x="${x}" y="${y}">${inner}</text>`;

// Returns the shapes of a sample of the legend, whose left top is at x and y.
function sample([kind, text], x, y) {
    const half = SAMPLE / 2 - 6;
    if (text) return box({ middle: x + half, half }, { kind, text, from: 0, to: 1 }, y);
    const ends = [{ middle: x, half: 0 }, { middle: x + 2 * half, half: 0 }];
    return arrow(...ends, y + ROW / 2, { is_back: kind === "arrow back", is_call: kind === "arrow call" });
}

// Returns the legend for the page: of each kind of shape a sample and its meaning.
export function legend() {
    const svg = (it) => `<svg ${size_of(SAMPLE, ROW)}>${sample(it, 2, 0).join("")}</svg>`;
    return LEGEND.map((it) => `<span>${svg(it)}${it[2]}</span>`).join("");
}

// Returns { shapes, width, height }: the legend of a file, of the kinds that are in `used`: boxes left, arrows right.
function legend_of(used, top) {
    const kinds = LEGEND.filter(([kind]) => used.some((it) => it.includes(`class="${kind}"`)));
    const columns = [kinds.filter(([, text]) => text), kinds.filter(([, text]) => !text)];
    const wide = (column) => 2 * MARGIN + SAMPLE + CHARACTER * Math.max(0, ...column.map(([, , it]) => it.length));
    const lefts = [MARGIN, wide(columns[0])];
    const entry = (it, row, left) => {
        const y = top + ROW * row;
        return [...sample(it, left, y), word("note", left + SAMPLE, y + 18, it[2])];
    };
    const shapes = columns.flatMap((column, at) => column.flatMap((it, row) => entry(it, row, lefts[at])));
    const width = columns[1].length > 0 ? lefts[1] + wide(columns[1]) - MARGIN : lefts[1];
    return { shapes, width, height: ROW * Math.max(...columns.map((it) => it.length)) };
}

// Returns a run as the text of an SVG file with this style, or null if nothing can be drawn of it.
export function file({ text, answers, sizes, state }, style) {
    if (answers.length === 0 || !state(0)) return null;
    const [header] = lines_of(text);
    const top = 44;
    const steps = answers.map((it) => `${it.text} → ${answer_text(it)}`);
    const left = MARGIN + CHARACTER * Math.max(...[header, ...steps].map((it) => it.length)) + MARGIN;
    const { lanes, shapes } = drawn(all(answers.length + 1).map(state), sizes, left, top);
    const foot = top + ROW * answers.length + 12;
    const meaning = legend_of(shapes, foot);
    const [width, height] = [Math.max(edge_of(lanes) + MARGIN, meaning.width), foot + meaning.height + 10];
    const kind = ({ code }) => (is_refused(code) ? "refused" : "step");
    const inner = [
        `<title>${header}: ${name_of(answers.length, lanes)}</title>`, `<style>\n${style.trim()}\n</style>`,
        `<rect class="ground" x="0.5" y="0.5" width="${width - 1}" height="${height - 1}" rx="8"/>`,
        word("title", MARGIN, 28, header), ...lanes.map((it) => word("head", it.middle, 28, `place ${it.place}`)),
        ...bands(answers.length, top, width - 2),
        ...steps.map((it, row) => word(kind(answers[row]), MARGIN, top + ROW * row + 18, it)),
        ...shapes, ...meaning.shapes,
    ];
    const tag = `<svg xmlns="http://www.w3.org/2000/svg" ${size_of(width, height)} role="img">`;
    return `${tag}\n${inner.join("\n")}\n</svg>\n`;
}
