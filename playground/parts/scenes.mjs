// A small picture of a scheduler's data, beside the words that say the same: cells in a row, or a line with marks. Each
// function returns the shapes of an SVG, WIDE by HIGH pixels.
export const WIDE = 300;
export const HIGH = 64;

const LEFT = 14; // of a line
const RIGHT = WIDE - LEFT;
const MIDDLE = 28; // of a line
const CELL = { width: 90, height: 30, gap: 9 };

const word = (text, x, y) => `<text x="${x}" y="${y}">${text}</text>`;

// Draws cells: of each, if it is full, and its word.
export function cells(list) {
    const { width, height, gap } = CELL;
    const cell = ([is_full, text], at) => {
        const x = 2 + (width + gap) * at;
        const kind = is_full ? "full" : "gap";
        const box = `<rect class="${kind}" x="${x}" y="17" width="${width}" height="${height}" rx="5"/>`;
        return box + word(text, x + width / 2, 36);
    };
    return list.map(cell).join("");
}

// Draws a line from 0 to `most`, the pointer `at` with the way that it goes (1, -1 or 0), and a dot for each of the
// waiting values, above the line or below it. Equal ones are stacked.
export function line(most, { at, way }, above, below = []) {
    const x_of = (value) => LEFT + ((RIGHT - LEFT) * value) / most;
    const dots = (list, side) => list.map((it, n) => {
        const before = list.slice(0, n).filter((other) => other === it).length;
        return `<circle class="due" cx="${x_of(it)}" cy="${MIDDLE + side * (13 + 9 * before)}" r="4"/>`;
    });
    const tip = way === 0 ? `v-9h-1v18h2v-9z` : `m${-6 * way} -7l${13 * way} 7l${-13 * way} 7z`;
    const axis = `<path class="axis" d="M${LEFT} ${MIDDLE}H${RIGHT}"/>`;
    const pointer = `<path class="pointer" d="M${x_of(at)} ${MIDDLE}${tip}"/>`;
    const ends = word("0", LEFT, HIGH - 2) + word(`${most}`, RIGHT, HIGH - 2);
    return [axis, ...dots(above, -1), ...dots(below, 1), pointer, ends].join("");
}
