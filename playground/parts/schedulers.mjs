// What the monitors of the examples state of their data: `rest` and `ready`, in the words of the specs of
// crates/plain_schedulers, timed_schedulers and sweep_schedulers. Each clause is a sentence and a test of it. A test
// reads the example's data, the waiting priorities `q` of each condition, the least first, and for `ready` the
// priority `p` of the resumed place, which is no longer among them. `show` gives the data in words, `draw` draws them,
// and `caption` explains what the drawing has that the words don't.

import { NOBODY, STEPS, all, is_refused } from "./book.mjs";
import { cells, line } from "./scenes.mjs";
import { capital } from "./words.mjs";

const clause = (text, is_true) => ({ text, is_true });
const waits = (list) => list.length > 0;
const every_from = (least, list) => list.every((it) => it >= least);

const SINGLE = {
    crate: "plain_schedulers", type: "Single", paper: "Introduction",
    conditions: ["nonbusy"],
    show: ({ item }) => `the item is ${item}`,
    draw: ({ item }) => cells([[item === "in", item === "in" ? "the item" : "out"]]),
    rest: [clause("if a process waits for the item, the item is out", (d, q) => !waits(q[0]) || d.item === "out")],
    ready: [[clause("the item is in", (d) => d.item === "in")]],
};

const FITS = clause("there are no more items than cells", (d) => d.items <= d.cells);
const NO_ITEM = clause("if a process waits for an item, there is none", (d, q) => !waits(q[0]) || d.items === 0);
const NO_ROOM = clause("if a process waits for room, no cell is free", (d, q) => !waits(q[1]) || d.items === d.cells);

const BUFFER = {
    crate: "plain_schedulers", type: "Buffer", paper: "Example: Bounded Buffer",
    conditions: ["nonempty", "nonfull"],
    show: (d) => `items: ${d.items}, cells: ${d.cells}`,
    draw: (d) => cells(all(d.cells).map((at) => [at < d.items, at < d.items ? "an item" : "free"])),
    rest: [FITS, NO_ITEM, NO_ROOM],
    ready: [
        [
            FITS,
            clause("there is an item", (d) => d.items > 0),
            clause("if others wait for an item, there is exactly one", (d, q) => !waits(q[0]) || d.items === 1),
            NO_ROOM,
        ],
        [
            FITS,
            clause("a cell is free", (d) => d.items < d.cells),
            clause("if others wait for room, exactly one cell is free",
                (d, q) => !waits(q[1]) || d.items === d.cells - 1),
            NO_ITEM,
        ],
    ],
};

const ALARM = {
    crate: "timed_schedulers", type: "Alarm", paper: "Scheduled Waits",
    conditions: ["wakeup"],
    show: ({ time }) => `time: ${time}`,
    draw: ({ time }, q) => line(3, { at: time, way: 0 }, q[0]),
    caption: "The bar is the clock; a dot is a sleeper, at the time when it is due.",
    rest: [clause("each waiting process is due later than now", (d, q) => every_from(d.time + 1, q[0]))],
    ready: [[
        clause("the resumed process is due now or later", (d, q, p) => d.time <= p),
        clause("it is due no later than the others", (d, q, p) => every_from(p, q[0])),
    ]],
};

const free = (d) => [d.b0, d.b1].filter((it) => it === "free").length;
const OWNED = clause("the owner of each buffer is a stream, 0 to 2",
    (d) => [d.b0, d.b1].every((it) => /^(free|[012])$/.test(it)));

const POOL = {
    crate: "timed_schedulers", type: "Pool", paper: "Further Examples: Buffer Allocation",
    conditions: ["nonfree"],
    show: ({ b0, b1 }) => `buffer 0: ${owner(b0)}, buffer 1: ${owner(b1)}`,
    draw: ({ b0, b1 }) => cells([b0, b1].map((it) => [it !== "free", owner(it)])),
    rest: [OWNED, clause("if a stream waits for a buffer, none is free", (d, q) => !waits(q[0]) || free(d) === 0)],
    ready: [[
        OWNED,
        clause("a buffer is free", (d) => free(d) > 0),
        clause("if others wait for a buffer, exactly one is free", (d, q) => !waits(q[0]) || free(d) === 1),
    ]],
};

function owner(it) {
    return it === "free" ? "free" : `of stream ${it}`;
}

// The cylinder of a request that waits for a sweep (0 up, 1 down) with priority p, and how many such requests are for
// the cylinder under the head.
const cylinder = (d, sweep, p) => (sweep === 0 ? p : d.last - p);
const present = (d) => (d.sweep === "up" ? 0 : 1);
const waiting_here = (d, list) => list.filter((p) => cylinder(d, present(d), p) === d.head).length;
const is_ahead = (d, sweep, p) => p <= d.last && (sweep === 0 ? p >= d.head : d.last - p <= d.head);
const ON_DISK = clause("the head is on the disk", (d) => d.head <= d.last);
const AHEAD = clause("each waiting request is ahead of the head in its sweep",
    (d, q) => q.every((list, sweep) => list.every((p) => is_ahead(d, sweep, p))));

const ready_of_sweep = (sweep, name) => [
    ON_DISK,
    clause("the drive is in", (d) => d.drive === "in"),
    AHEAD,
    clause(`the head sweeps ${name}, towards the resumed request`,
        (d, q, p) => d.sweep === name && is_ahead(d, sweep, p)),
    clause("no other request of this sweep is nearer", (d, q, p) => every_from(p, q[sweep])),
    clause("“due here” counts the requests of this sweep for the head’s cylinder, with the resumed one",
        (d, q, p) => d.due === waiting_here(d, [...q[sweep], p])),
];

const HEAD = {
    crate: "sweep_schedulers", type: "Head", paper: "Disk Head Scheduler",
    conditions: ["upsweep", "downsweep"],
    show: ({ drive, head, sweep, due }) => `drive: ${drive}, head at ${head}, sweeps ${sweep}, due here: ${due}`,
    draw: (d, q) => {
        const [up, down] = q.map((list, sweep) => list.map((p) => cylinder(d, sweep, p)));
        return line(d.last, { at: d.head, way: d.sweep === "up" ? 1 : -1 }, up, down);
    },
    caption:
        "The arrow is the head; a dot is a waiting request, above the line for the upsweep, below it for the " +
        "downsweep.",
    rest: [
        ON_DISK,
        clause("if a request waits, the drive is out", (d, q) => !q.some(waits) || d.drive === "out"),
        AHEAD,
        clause("while the drive is out, “due here” counts the requests of this sweep for the head’s cylinder",
            (d, q) => d.drive === "in" || d.due === waiting_here(d, q[present(d)])),
    ],
    ready: [ready_of_sweep(0, "up"), ready_of_sweep(1, "down")],
};

const ALONE = clause("at most 1,024 readers are in, and none while a writer is",
    (d) => d.readers <= (d.writer === "in" ? 0 : 1024));
const NO_WRITER = clause("no writer is in", (d) => d.writer === "out");

const READERS = {
    crate: "sweep_schedulers", type: "ReadersWriters", paper: "Readers and Writers",
    conditions: ["oktoread", "oktowrite"],
    show: ({ readers, writer }) => `readers in: ${readers}, writer: ${writer}`,
    draw: ({ readers, writer }) => {
        const list = readers === 0 ? [[false, "no reader"]] : all(readers).map(() => [true, "a reader"]);
        return cells([[writer === "in", writer === "in" ? "the writer" : "no writer"], ...list]);
    },
    rest: [
        ALONE,
        clause("if a process waits to write, a reader or a writer is in",
            (d, q) => !waits(q[1]) || d.writer === "in" || d.readers > 0),
        clause("if a process waits to read, a writer is in or waits",
            (d, q) => !waits(q[0]) || d.writer === "in" || waits(q[1])),
    ],
    ready: [[ALONE, NO_WRITER], [ALONE, NO_WRITER, clause("no reader is in", (d) => d.readers === 0)]],
};

// The single item with a Mesa condition. `rest` and `ready` can promise nothing of the item. `awaited` is what a waiter
// tests, which a notify doesn't owe.
const MESA_SINGLE = {
    ...SINGLE, type: null,
    rest: [clause("the item is in or out: no more is promised", (d) => ["in", "out"].includes(d.item))],
    ready: [],
    awaited: [SINGLE.ready[0][0]],
};

export const SCHEDULERS = { SINGLE, MESA_SINGLE, BUFFER, ALARM, POOL, HEAD, READERS };

// Returns the data at the start and after each step, of an example's notes: "item=in" sets one of them.
export function data_after(notes) {
    const value_of = (name, word) => (/^[0-9]+$/.test(word) && !/^b[0-9]$/.test(name) ? Number(word) : word);
    const states = [];
    for (const it of notes) {
        const pairs = it.split(" ").filter(Boolean).map((pair) => pair.split("="));
        const changed = Object.fromEntries(pairs.map(([name, word]) => [name, value_of(name, word)]));
        states.push({ ...states.at(-1), ...changed });
    }
    return states;
}

// Returns in words which place finds rest when the monitor is released, if one does.
function next_finds(before, { inside }, place) {
    if (inside === NOBODY) return "";
    if (before.signallers.includes(inside)) return ` ${capital(place(inside))}, which returns, finds it.`;
    return ` ${capital(place(inside))}, which was notified, finds it and tests its condition again.`;
}

// Returns the waiting priorities of each condition, the least first.
export const waiting_priorities = ({ conditions }) =>
    conditions.map((it) => it.waiting.map(({ priority }) => Number(priority)));

// Returns what a step owes or finds: { text, clauses: [{ text, is_true }], awaited }, with the clauses as they are
// after the step. `awaited` is what a notified place waits for, at the notify and when it resumes. `names` has `place`
// and `condition`.
export function owed(scheduler, data, answer, before, after, { place, condition }) {
    const q = waiting_priorities(after);
    const held = (clauses, p) => clauses.map(({ text, is_true }) => ({ text, is_true: is_true(data, q, p) }));
    if (!answer) return { text: "At the start rest holds, and no place waits:", clauses: held(scheduler.rest) };
    const { name, code, words: [first, second] } = answer;
    const nothing = (text) => ({ text, clauses: [] });
    if (is_refused(code)) return nothing("A refused call owes nothing.");
    if (!(name in STEPS)) return nothing("A question owes nothing.");
    const actor = capital(place(Number(first)));
    if (name === "enter") return { text: `${actor} enters, and finds rest:`, clauses: held(scheduler.rest) };
    const awaited = scheduler.awaited && held(scheduler.awaited);
    if (name === "notify" || name === "broadcast") {
        return { ...nothing(`A ${name} owes nothing of the data.`), awaited };
    }
    const [waiter] = name === "signal" || name === "pass" ? before.conditions[Number(second)].waiting : [];
    if (waiter) {
        const text = `${actor} signals, and owes ready of ${condition(Number(second))} to ${place(waiter.place)}:`;
        return { text, clauses: held(scheduler.ready[Number(second)], Number(waiter.priority)) };
    }
    if (name === "signal") return nothing("A signal that resumes nobody owes nothing.");
    const text = `${actor} releases the monitor, and owes rest.${next_finds(before, after, place)}`;
    return { text, clauses: held(scheduler.rest), awaited: before.called.includes(after.inside) ? awaited : undefined };
}
