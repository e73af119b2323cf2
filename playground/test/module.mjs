// usage: node module.mjs
// The module, and what the page reads of it, without a browser: the worked rows of scripts, states that were worked out
// by hand, faults, links, and modules that lie. Tests also that the stored pictures are what playground/picture draws.
import { execFileSync, spawnSync } from "node:child_process";
import { readFileSync } from "node:fs";
import { fileURLToPath } from "node:url";
import { NOBODY, answer_all, look } from "../parts/book.mjs";
import { address_of, read_address } from "../parts/link.mjs";
import { answer_text, run } from "../parts/script.mjs";
import { stored } from "../parts/scripts.mjs";
import { Checks } from "./checks.mjs";

const top = fileURLToPath(new URL("../../", import.meta.url));
const module = await stored();
const checks = new Checks();
const lines_of = (steps) => steps.replaceAll("; ", "\n");

// A worked row: a name, and lines with their answers. A line that begins with `= ` is the fault that the last line has.
function check_row(block) {
    const [name, ...lines] = block.split("\n").filter((it) => it && !it.startsWith("#"));
    const wanted = lines.find((it) => it.startsWith("= "))?.match(/fault \d+ (\w+) line (\d+)/);
    const rows = lines.filter((it) => !it.startsWith("= ")).join(" ").split("; ").map((it) => it.split(" -> "));
    const { answers, fault } = run(module, rows.map(([line]) => line).join("\n"));
    const steps = wanted ? rows.slice(1, -1) : rows.slice(1);
    checks.same(answers.map((it) => [it.text, answer_text(it)]), steps, `row ${name}`);
    checks.same([fault?.name, fault && `${fault.line}`], [wanted?.[1], wanted?.[2]], `row ${name}: fault`);
}

// Scripts, and the place inside, the signallers, the notified places and each condition's waiters after them.
const STATES = [
    ["monitor 2 1", NOBODY, [], [], [[]]],
    [
        "monitor 5 1; enter 0; wait 0 0 5; enter 1; wait 1 0 5; enter 2; wait 2 0 3; enter 3",
        3, [], [], [["2 p3", "0 p5", "1 p5"]],
    ],
    ["monitor 4 2; enter 0; wait 0 0 0; enter 1; wait 1 1 0; enter 2; signal 2 0; signal 0 1", 1, [2, 0], [], [[], []]],
    [
        "monitor 4 2 1; enter 0; wait 0 1 0; enter 1; wait 1 0 0; enter 2; notify 2 1; signal 2 0; enter 3",
        1, [2], [0], [[], []],
    ],
    [
        "monitor 5 1 1; enter 0; wait 0 0 2; enter 1; wait 1 0 1; enter 2; wait 2 0 1; enter 3; broadcast 3 0",
        3, [], [1, 2, 0], [[]],
    ],
    [
        "monitor 6 2 1; enter 0; wait 0 1 9; enter 1; wait 1 1 8; enter 2; wait 2 0 0; enter 4; wait 4 0 1; enter 3; " +
            "notify 3 1; signal 3 0; signal 2 0", 4, [3, 2], [1], [[], ["0 p9"]],
    ],
];

function check_state([script, ...wanted]) {
    const { answers, state } = run(module, lines_of(script));
    const { inside, signallers, called, conditions } = state(answers.length);
    const waiting = conditions.map((it) => it.waiting.map(({ place, priority }) => `${place} p${priority}`));
    checks.same([inside, signallers, called, waiting], wanted, `the state after ${script}`);
}

// Texts, each with the fault that ends it and its line.
const FAULTS = [
    ["", "NoHeader", 1], ["\n", "BadHeader", 1], ["monitor 65 8", "BadHeader", 1], ["monitor 1 9", "BadHeader", 1],
    ["monitor 2 1 2", "BadHeader", 1], ["monitor 01 1", "BadHeader", 1], ["monitor 1 1\nenter  0", "BadLine", 2],
    ["monitor 1 1\nenter 0\nenter 0 ", "BadLine", 3], ["monitor 1 1\nenter 0\n\n", "BadLine", 3],
    ["monitor 1 1\nenter 0\r\n", "BadLine", 2], ["monitor 1 1\nwait 0 0", "BadLine", 2],
    [`monitor 1 1\n${"e".repeat(256)}`, "BadLine", 2], [`monitor 1 1\n${"é".repeat(129)}`, "LineTooLong", 2],
    [`monitor 1 1${"\nenter 0".repeat(401)}`, "TooLong", 402], ["monitor 1 1\nmonitor 1 1", "BadLine", 2],
];

function check_faults() {
    for (const [text, ...wanted] of FAULTS) {
        const { fault } = run(module, text);
        checks.same([fault?.name, fault?.line], wanted, JSON.stringify(text.slice(0, 40)));
    }
    for (const [sizes, is_large] of [["64 1", true], ["1 8", true], ["63 7", undefined]]) {
        const ran = run(module, `monitor ${sizes}\n`);
        checks.same([ran.fault, ran.answers, ran.is_large], [null, [], is_large], `monitor ${sizes}`);
    }
}

// A link is the script and the step that it was made of; what isn't well formed is none.
function check_links() {
    for (const text of ["monitor 2 1\nenter 0", "monitor 1 1\n_;%5F\nenter_0;leave 0", "a&at=3#e=f\n=\u00e9+\n\ny "]) {
        const hash = address_of({ text: `${text}\n`, at: 1 });
        checks.same(read_address(hash), { text, at: 1 }, `the link of ${JSON.stringify(text)}`);
        checks.is(/^[!-~]+$/.test(hash), `the letters of ${hash}`);
    }
    checks.same(address_of({ text: "monitor 2 1\nenter 0\n", at: 1 }), "#s=monitor_2_1;enter_0&at=1", "a link");
    checks.same(["", "#proof", "#at=3", "#s=%E9"].map(read_address), Array(4).fill(null), "no links");
}

// What a module lies about. Each lie gets a call's name, its words, its result, and the number of such calls before it.
// It returns the result that the page sees.
const put = (number) => new DataView(module.calls.memory.buffer).setBigUint64(Number(module.base + 32n), number, true);
const LIES = {
    "nothing": (name, words, it) => it,
    "a step of a replay": (name, words, it) => (name === "wait" ? 0 : it),
    "the place inside": (name, words, it, before) => (name === "now" && before === 0 ? NOBODY : it),
    "two places outside": (name, words, it, before) => (name === "outside" && [0, 3].includes(before) ? 1 - it : it),
    "the watcher, which is outside": (name, [place], it) => (name === "outside" && place === 4 ? 0 : it),
    "a place that waits": (name, [condition], it) => (name === "queue" && condition === 1 ? 1 : it),
    "how many places wait": (name, words, it, before) => (name === "count" && before === 0 ? put(1n) : it),
    "the first priority": (name, words, it, before) => (name === "first" && before === 0 ? put(9n) ?? it : it),
};

// Returns the fault that the page finds in a module that lies.
function found_in(lie, sizes, done) {
    const asked = {};
    const call = (name, ...words) => {
        asked[name] = (asked[name] ?? -1) + 1;
        return lie(name, words, module.call(name, ...words), asked[name]);
    };
    try {
        look(Object.assign(Object.create(module), { call }), sizes, done);
        return "none";
    } catch ({ message }) {
        return message.split(" ").slice(0, 2).join(" ");
    }
}

function check_lies() {
    const sizes = { places: 4, conditions: 2, mesa: 0 };
    const steps = [["enter", 0], ["wait", 0, 0, 3], ["enter", 1], ["wait", 1, 0, 2], ["enter", 2]];
    const done = answer_all(module, sizes, steps.map(([name, ...words]) => ({ name, words }))).value;
    for (const [what, lie] of Object.entries(LIES)) {
        const wanted = { nothing: "none", "a step of a replay": "a replay" }[what] ?? "two books";
        checks.same(found_in(lie, sizes, done), wanted, `a module that lies about ${what}`);
    }
}

function check_pictures() {
    const names = ["called_resume", "hand_over", "signallers_return", "waiters_taken"].map((it) => `examples/${it}`);
    for (const name of [...names, "docs/pictures/hang"]) { // those of the pages
        const drawn = execFileSync(`${top}playground/picture`, [`${top}${name}.script`], { encoding: "utf8" });
        checks.is(drawn === readFileSync(`${top}${name}.svg`, "utf8"), `${name}.svg is what playground/picture draws`);
    }
    for (const [input, says] of [
        ["monitor 2 1\nenter 0\nenter\n", 'picture: line 3: "enter": BadLine, expected “enter K”'],
        ["monitor 64 1\nenter 0", "picture: draws at most"], ["monitor 1 1", "picture: the script has no step"],
    ]) {
        const { status, stdout, stderr } = spawnSync(`${top}playground/picture`, { input, encoding: "utf8" });
        checks.same([status, stdout, stderr.slice(0, says.length)], [2, "", says], `the picture of ${input}`);
    }
}

const blocks = readFileSync(`${top}tests/script_rows/answers.txt`, "utf8").split("\n== ").slice(1);
const rows = blocks.filter((it) => !it.includes("\n! ")); // those with `! ` have no answers
rows.forEach(check_row);
STATES.forEach(check_state);
for (const check of [check_faults, check_links, check_lies, check_pictures]) check();
checks.end(`the module, ${rows.length} worked rows, and the pictures`);
