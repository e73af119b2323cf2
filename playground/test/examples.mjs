// usage: node examples.mjs
// The examples, without a browser: each runs to its end, and rest and ready hold wherever a step owes them. Wrong data
// make each clause false. The sentences on a script with every kind of step were written by hand.
import { NOBODY } from "../parts/book.mjs";
import { EXAMPLES } from "../parts/examples.mjs";
import { SCHEDULERS, data_after, owed } from "../parts/schedulers.mjs";
import { run } from "../parts/script.mjs";
import { stored } from "../parts/scripts.mjs";
import { names_of } from "../parts/show.mjs";
import { describe } from "../parts/words.mjs";
import { Checks } from "./checks.mjs";

const module = await stored();
const checks = new Checks();

// Returns what each step of an example owes, from the start on, with the data that its notes say.
function all_owed({ scheduler, labels, data }, { answers, state }) {
    const names = names_of(labels, scheduler);
    const before = (at) => (at > 0 ? state(at - 1) : null);
    return data_after(data).map((it, at) => owed(scheduler, it, answers[at - 1], before(at), state(at), names));
}

// An example has no fault. With a scheduler each line has its note, each clause that a step owes is true, and some step
// owes each clause.
function check_example(example) {
    const { id, title, script, notes, scheduler } = example;
    const what = id ?? title;
    const ran = run(module, script);
    checks.same(ran.fault, null, `${what}: fault`);
    if (!scheduler) return;
    checks.same(notes.length, ran.answers.length, `${what}: notes`);
    const clauses = all_owed(example, ran).flatMap((it, at) => it.clauses.map((of) => ({ ...of, at })));
    for (const { text, at, is_true } of clauses) checks.is(is_true, `${what}, step ${at}: ${text}`);
    if (scheduler.awaited || example.twin) return;
    const used = new Set(clauses.map((it) => it.text));
    const unused = [scheduler.rest, ...scheduler.ready].flat().filter((it) => !used.has(it.text));
    checks.same(unused.map((it) => it.text), [], `${what}: clauses that no step owes`);
    const refused = ran.answers.filter((it) => it.code > NOBODY).length;
    checks.same([refused, ran.state(ran.answers.length).inside], [0, NOBODY], `${what}: its end`);
}

const items = (n) => ({ items: n, cells: 4 });
const pool = (b0, b1) => ({ b0, b1 });
const disk = (d) => ({ drive: "in", head: 60, sweep: "up", due: 0, last: 100, ...d });
const down = disk({ sweep: "down" });
const out = disk({ drive: "out" });
const shared = (readers, writer) => ({ readers, writer });

// Of each scheduler data, the waiting priorities of each condition, for `ready` of a condition its number and the
// resumed priority, and how the one clause begins that is false.
const WRONG = {
    SINGLE: [[{ item: "in" }, [[0]], "if a process waits"], [{ item: "out" }, [[]], "the item is in", 0, 0]],
    MESA_SINGLE: [[{ item: "lost" }, [[]], "the item is in or out"]],
    BUFFER: [
        [items(5), [[], []], "there are no more"], [items(1), [[0], []], "if a process waits for an item"],
        [items(3), [[], [0]], "if a process waits for room"], [items(0), [[], []], "there is an item", 0, 0],
        [items(2), [[0], []], "if others wait for an item", 0, 0],
        [items(4), [[], []], "a cell is free", 1, 0], [items(2), [[], [0]], "if others wait for room", 1, 0],
    ],
    ALARM: [
        [{ time: 3 }, [[3, 9]], "each waiting process is due later"],
        [{ time: 4 }, [[9]], "the resumed process is due now", 0, 3], [{ time: 3 }, [[4, 6]], "it is due no", 0, 5],
    ],
    POOL: [
        [pool("3", "2"), [[]], "the owner"], [pool("0", "free"), [[0]], "if a stream waits"],
        [pool("0", "1"), [[]], "a buffer is free", 0, 0], [pool("free", "free"), [[0]], "if others wait", 0, 0],
    ],
    HEAD: [
        [disk({ head: 101 }), [[], []], "the head is on"], [disk(), [[70], []], "if a request waits"],
        [out, [[59], []], "each waiting request"], [out, [[], [39]], "each waiting request"],
        [disk({ drive: "out", due: 1 }), [[60, 60], []], "while the drive"],
        [out, [[], []], "the drive is in", 0, 70], [disk(), [[], []], "the head sweeps up", 0, 59],
        [down, [[], []], "the head sweeps up", 0, 60], [disk(), [[69], []], "no other request", 0, 70],
        [disk({ due: 1 }), [[60], []], "“due here” counts", 0, 60], [down, [[], []], "the head sweeps down", 1, 39],
        [disk(), [[], []], "the head sweeps down", 1, 40], [down, [[], [69]], "no other request", 1, 70],
        [down, [[60], [40]], "“due here” counts", 1, 40],
    ],
    READERS: [
        [shared(1, "in"), [[], []], "at most 1,024"], [shared(1025, "out"), [[], []], "at most 1,024"],
        [shared(0, "out"), [[], [0]], "if a process waits to write"],
        [shared(1, "out"), [[0], []], "if a process waits to read"],
        [shared(0, "in"), [[], []], "no writer is in", 0, 0], [shared(1, "out"), [[], []], "no reader is in", 1, 0],
    ],
};

function check_wrong(name) {
    const { rest, ready } = SCHEDULERS[name];
    const begun = new Set();
    for (const [data, q, begin, condition, p] of WRONG[name]) {
        const failing = (ready[condition] ?? rest).filter((it) => !it.is_true(data, q, p)).map((it) => it.text);
        const begins = failing.map((it) => it.slice(0, begin.length));
        checks.same(begins, [begin], `${name}: ${JSON.stringify([data, q, p])}`);
        failing.forEach((it) => begun.add(it));
    }
    const never = [rest, ...ready].flat().filter((it) => !begun.has(it.text));
    checks.same(never.map((it) => it.text), [], `${name}: clauses that are never false`);
}

// What the notified wait for is true at the broadcast and at the notify, and false when they resume later. A signal of
// Hoare's owes the item to its waiter.
function check_mesa() {
    const example = EXAMPLES.find((it) => it.twin);
    const owes = (it, names) => {
        const ran = run(module, it.script);
        const shown = all_owed(it, ran).map((of, at) => [ran.answers[at - 1], of]);
        return shown.filter(([answer]) => names.test(answer?.text));
    };
    const awaited = owes(example.twin, /^(broadcast|leave|notify)/).filter(([, it]) => it.awaited);
    const wanted = [["broadcast 2 0", true], ["leave 2", true], ["leave 0", false], ["notify 0 0", true]];
    const seen = awaited.map(([{ text }, it]) => [text, it.awaited[0].is_true]);
    checks.same(seen, [...wanted, ["leave 0", false]], "mesa: what is awaited");
    const signals = owes(example, /^signal/).map(([{ code }, it]) => [code, ...it.clauses.map((of) => of.text)]);
    checks.same(signals, [[0, "the item is in"], [1, "the item is in"]], "hoare: ready is owed at each signal");
}

// Steps, with what the page says each did, why, and of some what it owes. Some only lead to others.
const SENTENCES = `
monitor 5 2 1
enter 0 | Place 0 enters. | The monitor was free. | Place 0 enters, and finds rest:
enter 1 | Refused: the monitor isn’t free. | A refusal changes nothing. | A refused call owes nothing.
signal 0 0 | Place 0 signals condition 0. No place waits there, so it continues. | A signal isn’t stored: a later waiter
    doesn’t find it. | A signal that resumes nobody owes nothing.
queue 0 | Does any place wait on condition 0? No. | A question changes nothing. A notified place no longer waits.
wait 0 0 3 | Place 0 releases the monitor and waits on condition 0 with priority 3. | No signaller waits and no notified
    place does, so the monitor is free. | Place 0 releases the monitor, and owes rest.
enter 1
wait 1 0 2
first 0 | On condition 0 the first waiter has priority 2. | A question changes nothing.
enter 2
signal 2 0 | Place 2 hands the monitor to place 1, which waited on condition 0. It has the least priority; of equal ones
    the longest waiting is first. | Place 2 waits as a signaller, and returns before any entering process.
pass 1 0 | Place 1 hands the monitor to place 0, which waited on condition 0. | The signal was its last act: place 1 is
    outside.
wait 0 1 7 | Place 0 releases the monitor and waits on condition 1 with priority 7. | Place 2, the signaller, returns,
    before any notified or entering process. | Place 0 releases the monitor, and owes rest. Place 2, which returns,
    finds it.
pass 2 0 | Place 2 signals condition 0 and leaves in one step. No place waits there. | No signaller waits and no
    notified place does, so the monitor is free.
enter 1
wait 1 1 8
enter 3
broadcast 3 1 | Place 3 notifies place 0 and place 1, and stays inside. | A notified place resumes later: after the
    signallers, before any entering process. It has to test its condition again.
leave 3 | Place 3 leaves. | No signaller waits, so place 0 resumes, which was notified first. No entering process is
    before it. | Place 3 releases the monitor, and owes rest. Place 0, which was notified, finds it and tests its
    condition again.
notify 0 1 | Place 0 notifies nobody: no place waits on condition 1. | It stays inside.`;

function check_sentences() {
    const lines = SENTENCES.trim().replace(/\n +/g, " ").split("\n");
    const rows = lines.map((it) => it.split("|").map((part) => part.trim()));
    const { answers, state } = run(module, rows.map(([line]) => line).join("\n"));
    for (const [at, [line, ...wanted]] of rows.entries()) {
        if (wanted.length === 0) continue;
        const step = [answers[at - 1], state(at - 1), state(at), names_of()];
        const { said, why } = describe(...step);
        const { text } = owed(SCHEDULERS.SINGLE, { item: "in" }, ...step);
        checks.same([said, why, text].slice(0, wanted.length), wanted, `the sentences of ${line}`);
    }
}

// The drawn data of each scheduler: full cells and gaps with their words; the pointer, and dots above and below a line.
function check_scenes() {
    const drawn = {
        SINGLE: [[{ item: "out" }], "gap out"], BUFFER: [[{ items: 1, cells: 2 }], "full an item, gap free"],
        POOL: [[pool("free", "2")], "gap free, full of stream 2"],
        READERS: [[shared(2, "out")], "gap no writer, full a reader, full a reader"],
        ALARM: [[{ time: 1 }, [[2, 2]]], "due 195 15, due 195 6, pointer 104v"],
        HEAD: [[disk({ head: 50 }), [[70], [80]]], "due 204 15, due 68 41, pointer 150m-6"],
    };
    for (const [name, [state, wanted]] of Object.entries(drawn)) {
        const svg = SCHEDULERS[name].draw(...state);
        const cells = [...svg.matchAll(/class="(full|gap)".*?<text[^>]*>([^<]*)/g)].map(([, ...it]) => it.join(" "));
        const dots = [...svg.matchAll(/class="due" cx="([0-9]+)[^"]*" cy="([0-9]+)"/g)].map(([, x, y]) => `due ${x} ${y}`);
        const pointer = svg.match(/class="pointer" d="M([0-9]+)[^a-z]*([a-z](-6)?)/);
        const line = pointer ? [`pointer ${pointer[1]}${pointer[2]}`] : [];
        checks.same([...cells, ...dots, ...line].join(", "), wanted, `the drawing of ${name}`);
    }
}

for (const it of EXAMPLES.flatMap((example) => [example, example.twin ?? []]).flat()) check_example(it);
checks.same(Object.keys(SCHEDULERS), Object.keys(WRONG), "the schedulers");
Object.keys(WRONG).forEach(check_wrong);
check_mesa();
check_sentences();
check_scenes();
checks.end(`${EXAMPLES.length} examples`);
