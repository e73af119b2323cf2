// usage: node browser.mjs PAGE.html
// The page in a headless Chromium, as a visitor uses it: examples step by step, calls by mouse and keys, a script that
// is typed, a file, the saved picture, links and Undo.
import { execFileSync } from "node:child_process";
import { readFileSync } from "node:fs";
import { fileURLToPath } from "node:url";
import { Checks } from "./checks.mjs";
import { KEYS, open_page, pause } from "./driver.mjs";

const page = await open_page(process.argv[2]);
const checks = new Checks();
const { go, read, press, focus, keys, run, write } = page;
const WRITE_PAUSE = 500; // the address is written a quarter of a second after the last step
const control = (it) => press(`[data-control=${it}]`);
const call = (name, on = "") => press(`#buttons button[data-call="${name}"]${on && `[data-condition="${on}"]`}`);

// The first example, step by step, by mouse and by keys.
async function check_steps() {
    await go("");
    checks.same([(await read()).at, (await read()).inside], [4, [0]], "what a visitor sees first");
    await press('#examples [data-id="hand-off"]');
    const insides = [[], [0], [], [1], [0], [1], []];
    for (const [at, wanted] of insides.entries()) {
        const { inside, at: shown, signallers } = await read();
        checks.same([shown, inside, signallers], [at, wanted, at === 4 ? [1] : []], `step ${at}`);
        await control("on");
    }
    await focus("[data-control=back]");
    await keys([KEYS.enter, KEYS.space]);
    checks.same((await read()).at, 4, "Enter and Space on a button");
    const says = "signal 1 0: Place 1 hands the monitor to place 0, which waited on condition 0.";
    const moves = [
        [() => keys([KEYS.home]), 0], [() => keys([KEYS.right, KEYS.right]), 2], [() => keys([KEYS.end]), 6],
        [() => keys([KEYS.left]), 5], [() => control("back"), 4], [() => press(".steps li:nth-child(2) button"), 2],
        [() => focus("#text").then(() => keys([KEYS.home])), 2], [() => control("end"), 6], [() => control("begin"), 0],
    ];
    for (const [at, [move, wanted]] of moves.entries()) {
        await move();
        const { at: shown, live } = await read();
        checks.same(shown, wanted, `move ${at}`);
        if (shown === 4) checks.same(live, says, "what a screen reader reads");
    }
}

// The row of the present step is in sight in the chart, and the band over the lanes and the veil are where it ends.
async function check_marks() {
    for (const at of [1, 12, 35]) {
        await go(`#e=disk&at=${at}`);
        await pause(1000); // the chart scrolls
        const seen = await run(`
            const box = (it) => document.querySelector(it).getBoundingClientRect();
            const [chart, row, here, veil] = ['.chart', '[aria-current]', '.lanes .here', '.lanes .future'].map(box);
            const is_at = (a, b) => Math.abs(a - b) < 3;
            const is_seen = row.top >= chart.top && row.bottom <= chart.bottom;
            return [is_seen, is_at(here.top, row.top), is_at(veil.top, row.bottom)];`);
        checks.same(seen, [true, true, true], `the marks at step ${at}`);
    }
}

// Takes the example that is shown to its end. Returns how many steps it has, and how many clauses were false.
const TO_THE_END = `
    document.querySelector('#examples [data-id="' + arguments[0] + '"]').click();
    const on = document.querySelector('[data-control=on]');
    let [steps, fails] = [0, 0];
    for (; on.ariaDisabled !== 'true'; steps += 1) {
        on.click();
        fails += document.querySelectorAll('.clauses .fails').length;
    }
    return { steps, fails };`;

async function check_examples() {
    const ids = await run("return [...document.querySelectorAll('#examples button')].map((it) => it.dataset.id)");
    checks.same(ids.length, 13, "examples");
    for (const id of ids) {
        const { steps, fails } = await run(TO_THE_END, id);
        checks.is(steps > 0, `${id}: no steps`);
        checks.same(fails, id === "mesa" ? 2 : 0, `${id}: false clauses`);
    }
    await go("#e=mesa&at=9");
    const beside = await run(`
        const inside = (it) => [...it.querySelectorAll('.inside-zone .chip')].map((chip) => chip.dataset.place).join();
        const of_run = (it) => [inside(it), it.querySelectorAll('.fails').length];
        return [...document.querySelectorAll('.run')].map(of_run)`);
    checks.same(beside, [["", 0], ["1", 1]], "Hoare beside Mesa");
}

// The readers and writers: what a step owes, its data with a picture, play, and another call in the middle.
async function check_readers() {
    await press('#examples [data-id="readers"]');
    for (let step = 0; step < 11; step += 1) await control("on");
    const owed = "Writer 0 signals, and owes ready of oktoread to reader 1:";
    const clauses = "✓at most 1,024 readers are in, and none while a writer is: true✓no writer is in: true";
    checks.same((await read()).data, `Data: readers in: 0, writer: out ${owed} ${clauses}`, "what the signal owes");
    const scene = await run("return [...document.querySelectorAll('.scene text')].map((it) => it.textContent)");
    checks.same(scene, ["no writer", "no reader"], "the picture of the data");
    await control("play");
    await pause(1900);
    await control("play");
    await pause(1600);
    checks.same((await read()).at, 12, "a step played, and a pause");
    await call("leave");
    const seen = await read();
    checks.same([seen.at, seen.steps.at(-1)], [13, ["leave 2", "free"]], "another call in the middle");
    checks.same(seen.message, "15 later steps were dropped. Undo brings them back.", "its message");
    await press("#undo");
    checks.same([(await read()).at, (await read()).steps.length], [12, 27], "Undo");
    await press(".steps li:nth-child(26) button");
    await control("play");
    await pause(1900);
    const play = await run("return document.querySelector('[data-control=play]').textContent");
    checks.same([(await read()).at, play], [27, "▶ Play"], "play to the end");
}

// A new monitor, with calls by mouse and by keys, and a priority that is typed.
async function check_calls() {
    await go("#s=monitor_3_2_1;enter_0&at=1");
    await press("#priority");
    await keys(["7"]); // after the 0 that is there
    checks.is((await read()).message.startsWith("A priority is a number from 0 to"), "a priority that is none");
    await run("document.activeElement.select()");
    await keys([..."18446744073709551615"]);
    await call("wait", "0");
    await press('#places label:has([value="1"])');
    await focus('#buttons [data-call="enter"]');
    await keys([KEYS.enter]);
    checks.same((await read()).focus, "leave", "the focus, after its button is gone");
    await press("#priority");
    await run("document.activeElement.select()");
    await keys(["4"]);
    await call("wait", "1");
    checks.same((await read()).waiting, [["0 p18446744073709551615"], ["1 p4"]], "two waits");
    await press('#places label:has([value="2"])');
    await call("enter");
    await call("notify", "1");
    await call("signal", "0");
    await press('#places label:has([value="2"])');
    await call("enter");
    const seen = await read();
    const wanted = [[0], [2], [1], "enter 2 would be answered refused 2: the monitor isn’t free."];
    checks.same([seen.inside, seen.signallers, seen.called, seen.message], wanted, "a signaller and a notified place");
    const kinds = await run("return [...document.querySelectorAll('.condition-zone h3')].map((it) => it.textContent)");
    checks.same(kinds, ["Waiting on condition 0 (Hoare)", "Waiting on condition 1 (Mesa)"], "the kinds of conditions");
    await press("#new");
    checks.same((await read()).text, "monitor 3 1\n", "a new monitor");
}

// A script that is typed, with a fault, and Undo. On the page of two monitors it makes a page of one.
async function check_typing() {
    await go("#s=monitor_9_1&at=0");
    await press("#text");
    await run("document.querySelector('#text').select()");
    await keys(["monitor 2 1", "enter 0", "leave 0", "leave"].join(KEYS.enter));
    const { steps, fault, said } = await read();
    checks.same(steps, [["enter 0", "0"], ["leave 0", "free"]], "a typed script");
    checks.is(fault.startsWith("BadLine, line 4: expected “leave K”"), `a typed fault: ${fault}`);
    checks.is(said.endsWith("The script ends here: line 4 isn’t taken."), `what is said there: ${said}`);
    await press("#undo");
    await press("#text");
    await keys(["2"]);
    await press("#undo");
    checks.same((await read()).text, "monitor 9 1", "Undo of what was written, and of what was written later");
    await go("#e=mesa&at=0");
    await focus("#text");
    await run("document.querySelector('#text').setSelectionRange(999, 999)");
    await keys([KEYS.enter, ..."queue 0"]);
    const seen = await read();
    checks.same([seen.steps.at(-1), seen.focus], [["queue 0", "true"], "text"], "a line typed beside two monitors");
    await write("monitor 64 8\nenter 63");
    const large = (await read()).said;
    checks.is(large.includes("drawn for at most 63 places and 7 conditions"), `a large monitor: ${large}`);
}

// Puts a file into the field for files.
const OPEN = `
    const chosen = new DataTransfer();
    chosen.items.add(new File([arguments[0]], 'run.script'));
    const field = document.getElementById('open');
    field.files = chosen.files;
    field.dispatchEvent(new Event('change'));`;

// Saves the picture. Returns the name and the text of the file.
const SAVE = `
    const [make, click] = [URL.createObjectURL, HTMLAnchorElement.prototype.click];
    let name, blob;
    URL.createObjectURL = (it) => ((blob = it), make(it));
    HTMLAnchorElement.prototype.click = function () { name = this.download; };
    document.getElementById('save').click();
    [URL.createObjectURL, HTMLAnchorElement.prototype.click] = [make, click];
    return blob ? blob.text().then((text) => [name, text]) : null;`;

// A file is shown after its last step. Its saved picture is what playground/picture draws of it.
async function check_file() {
    await go("");
    for (const name of ["called_resume", "mixed", "hand_over"]) {
        const path = fileURLToPath(new URL(`../../examples/${name}.script`, import.meta.url));
        await run(OPEN, readFileSync(path, "utf8"));
        await pause(100);
        const drawn = execFileSync(fileURLToPath(new URL("../picture", import.meta.url)), [path], { encoding: "utf8" });
        const saved = await run(SAVE);
        checks.is(saved[0] === "monitor.svg" && saved[1] === drawn, `the saved picture of ${name}`);
    }
    checks.same([(await read()).at, (await read()).shared], [6, "The picture is saved."], "a file");
    await write("");
    checks.same([await run(SAVE), (await read()).shared], [null, "There is no picture to be saved."], "no picture");
}

// "Copy a link" puts the script and the step into the clipboard. A link to a part of the page leaves both as they are.
async function check_links() {
    await page.cdp("Browser.grantPermissions", { permissions: ["clipboardReadWrite", "clipboardSanitizedWrite"] });
    await go("#s=monitor_3_1;enter_0;wait_0_0_9;enter_1;signal_1_0;enter_2;enter;0&at=5");
    const before = await read();
    await focus("#share");
    await keys([KEYS.enter]);
    await pause(200);
    checks.same((await read()).shared, "The link is copied. It holds the script and the step.", "a copied link");
    const link = await run("return navigator.clipboard.readText()");
    await go(link.replace(page.url, ""));
    const after = await read();
    for (const it of ["text", "steps", "fault"]) checks.same(after[it], before[it], `the ${it} of a copied link`);
    const { inside, signallers, refused, at: shown } = after;
    checks.same([inside, signallers, refused, shown], [[0], [1], [2], 5], "the state of a copied link");
    await run("location.hash = '#e=disk&at=5'");
    await pause(WRITE_PAUSE);
    await press('a[href="#proof"]');
    await pause(WRITE_PAUSE);
    checks.same([(await read()).at, await run("return location.hash")], [5, "#e=disk&at=5"], "a link in the page");
    await press("#undo");
    checks.same((await read()).text, before.text, "Undo of a link");
    for (const [hash, at] of [["#e=disk&at=99", 35], ["#e=disk&at=-3", 0], ["#s=%&at=2", 4], ["#e=none&at=2", 4]]) {
        await go(hash);
        checks.same((await read()).at, at, `the address ${hash}`);
    }
}

// Nothing is loaded but the page, nothing may be, and nothing went wrong.
async function check_loaded() {
    checks.same(await run("return performance.getEntriesByType('resource').length"), 0, "resources");
    checks.same((await page.log()).map((it) => it.message), [], "the console");
    const asked = await run("return fetch('https://example.invalid/').then(() => 'sent', () => 'not sent')");
    checks.same(asked, "not sent", "a request");
    const refused = (await page.log()).some((it) => it.message.includes("Content Security Policy"));
    checks.is(refused, "the content policy refuses a request");
}

const shown = [check_steps, check_marks, check_examples, check_readers, check_calls, check_typing, check_file, check_links];
for (const check of [...shown, check_loaded]) await check();
await page.close();
checks.end("the page in Chromium");
