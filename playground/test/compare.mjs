// usage: node compare.mjs MODULE.wasm [LIBRARY.a]
// Compares the module's results with those of the native library (without a name the archive for this machine), in
// random scripts. Prints how many results were compared; the status is 1 if one differs. Needs a C compiler.
import { execFileSync } from "node:child_process";
import { mkdtempSync, rmSync } from "node:fs";
import { machine, tmpdir } from "node:os";
import { fileURLToPath } from "node:url";
import { NOBODY } from "../parts/book.mjs";
import { stored } from "../parts/scripts.mjs";

const SCRIPTS = 2000;
const LENGTH = 100; // of a script
const WORDS = { enter: 1, leave: 1, wait: 3, signal: 2, pass: 2, notify: 2, broadcast: 2 };
const NAMES = [...Object.keys(WORDS), "enter", "wait", "signal"];
const top = fileURLToPath(new URL("../../", import.meta.url));
const [file, library = `${top}bindings/lib/${machine()}-linux/libzaulinte.a`] = process.argv.slice(2);
const module = await stored(file);
const [calls, results] = [[], []];

let seed = 1;
const below = (n) => (seed = (seed * 48271) % 2147483647) % n;

// Does a call of the module, and notes it with its result and with the number that it writes.
function ask(name, ...words) {
    const is_written = name === "first" || name === "count";
    const answer_at = module.base + 32n;
    const memory = new DataView(module.calls.memory.buffer);
    memory.setBigUint64(Number(answer_at), 0n, true);
    const code = module.call(name, ...words, ...(is_written ? [answer_at] : []));
    calls.push([name, ...words, 0, 0, 0].slice(0, 4).join(" "));
    results.push(`${code} ${memory.getBigUint64(Number(answer_at), true)}`);
    return code;
}

// One step, mostly of the place inside, and the questions after it.
function draw_step(places, conditions) {
    const name = NAMES[below(NAMES.length)];
    const now = ask("now");
    const k = name !== "enter" && now < NOBODY && below(5) > 0 ? now : below(places + 1);
    const c = below(conditions + (conditions === 0 || below(8) === 0 ? 1 : 0));
    const p = below(4) > 0 ? below(3) : 2n ** 64n - 1n - BigInt(below(2));
    ask(name, ...[k, c, p].slice(0, WORDS[name]));
    ask("outside", below(places + 1));
    for (const question of ["queue", "first", "count"]) ask(question, below(conditions + 1));
}

// Each eighth script has sizes that may be refused; then there is no book.
function draw_script(script) {
    const is_wide = script % 8 === 0;
    const [places, conditions] = is_wide ? [below(67), below(10)] : [1 + below(6), 1 + below(3)];
    ask("make", places, conditions, below(conditions + (is_wide ? 2 : 1)));
    ask("places");
    ask("conditions");
    for (let step = 0; step < LENGTH; step += 1) draw_step(places, conditions);
    ask("free");
    ask("free");
    ask("enter", 0);
}

// Returns the results of the native library.
function native() {
    const work = mkdtempSync(`${tmpdir()}/compare-`);
    const sources = ["playground/test/native.c", "bindings/c/zaulinte_malloc.c"].map((it) => top + it);
    const flags = ["-O1", "-Wall", "-Wextra", "-Werror", `-I${top}bindings/c`, "-o", `${work}/native`];
    try {
        execFileSync("cc", [...flags, ...sources, library]);
        const text = execFileSync(`${work}/native`, { input: `${calls.join("\n")}\n`, maxBuffer: 2 ** 28 });
        return text.toString().trim().split("\n");
    } finally {
        rmSync(work, { recursive: true });
    }
}

for (let script = 0; script < SCRIPTS; script += 1) draw_script(script);
const wanted = native();
const at = results.findIndex((it, n) => it !== wanted[n]);
if (at >= 0) console.error(`compare: call ${at}, ${calls[at]}: ${results[at]}, and the native library ${wanted[at]}`);
console.log(results.length);
process.exit(at < 0 && results.length === wanted.length ? 0 : 1);
