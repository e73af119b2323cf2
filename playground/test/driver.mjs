// The page in a headless Chromium, by WebDriver over HTTP.
import { spawn } from "node:child_process";
import { existsSync, mkdtempSync, rmSync } from "node:fs";
import { tmpdir } from "node:os";
import { join, resolve } from "node:path";

const TRIES = 100; // attempts to reach the driver, or the page
const BETWEEN = 200; // two attempts, in milliseconds
const ARGS = [
    "--headless=new", "--no-sandbox", "--disable-gpu", "--hide-scrollbars", "--disable-dev-shm-usage",
    "--window-size=1280,1000",
];

export const KEYS = {
    right: "\uE014", left: "\uE012", home: "\uE011", end: "\uE010", tab: "\uE004", enter: "\uE007", space: " ",
};
export const pause = (ms) => new Promise((it) => setTimeout(it, ms));

// Waits until `is_done` returns true.
async function until(is_done, what) {
    for (let tries = 0; tries < TRIES; tries += 1) {
        if (await is_done()) return;
        await pause(BETWEEN);
    }
    throw new Error(`${what} doesn't respond`);
}

// Starts a driver on this port, with a folder of its own. Returns what ends both.
function start(port) {
    const work = mkdtempSync(join(tmpdir(), "playground-"));
    const driver = spawn(process.env.CHROMEDRIVER ?? "chromedriver", [`--port=${port}`], {
        stdio: "ignore", detached: true, env: { ...process.env, TMPDIR: work },
    });
    const end = () => {
        try {
            process.kill(-driver.pid, "SIGKILL"); // with its browser
        } catch {} // it has ended
        rmSync(work, { recursive: true, force: true, maxRetries: 5 });
    };
    process.once("exit", end); // after a fault too
    for (const it of ["SIGINT", "SIGTERM", "SIGHUP"]) process.once(it, () => process.exit(1));
    return end;
}

async function ask(port, method, path, body) {
    const answer = await fetch(`http://127.0.0.1:${port}${path}`, { method, body: body && JSON.stringify(body) });
    const { value } = await answer.json();
    if (value?.error) throw new Error(`${value.error}: ${value.message.split("\n")[0]}`);
    return value;
}

// What is on the page, of the first monitor.
const READ = `
    const all = (it, from = document) => [...from.querySelectorAll(it)];
    const main = all('.run')[0];
    const places = (it) => all(it + ' .chip', main).map((chip) => Number(chip.dataset.place));
    const text = (id) => document.getElementById(id).textContent;
    const answer = (it) => it.querySelector('.answer').textContent.replace('→ ', '');
    const waiter = (it) => it.dataset.place + ' ' + it.querySelector('small').textContent;
    return {
        steps: all('.steps button', main).map((it) => [it.querySelector('.call').textContent, answer(it)]),
        at: all('.steps button', main).findIndex((it) => it.getAttribute('aria-current')) + 1,
        fault: text('fault'), said: main.querySelector('.banner').textContent, inside: places('.inside-zone'),
        text: document.getElementById('text').value, refused: places('.refused-zone'),
        signallers: places('.signallers-zone'), called: places('.called-zone'),
        waiting: all('.condition-zone', main).map((zone) => all('.chip', zone).map(waiter)),
        message: text('call-message'), live: text('live'), shared: text('shared'),
        data: all('.data > :not(figure)', main).map((it) => it.textContent).join(' '),
        focus: document.activeElement.id || document.activeElement.dataset.call || document.activeElement.tagName,
    };`;

// Begins a session of a browser. Returns its `call`, and `end`.
async function begin() {
    const port = 20000 + (process.pid % 20000);
    const end = start(port);
    await until(() => ask(port, "GET", "/status").then((it) => it.ready, () => false), "chromedriver");
    const binary = process.env.CHROMIUM ?? ["/usr/bin/chromium", "/usr/bin/google-chrome"].find((it) => existsSync(it));
    const wanted = {
        browserName: "chrome", "goog:loggingPrefs": { browser: "ALL" }, "goog:chromeOptions": { args: ARGS, binary },
    };
    const { sessionId } = await ask(port, "POST", "/session", { capabilities: { alwaysMatch: wanted } });
    return { end, call: (method, path, body) => ask(port, method, `/session/${sessionId}${path}`, body) };
}

// Opens a browser for the page in a file. Its calls return promises.
export async function open_page(file) {
    const { end, call } = await begin();
    const url = `file://${resolve(file)}`;
    const open = (it) => call("POST", "/url", { url: it });
    const run = (script, ...args) => call("POST", "/execute/sync", { script, args });
    const cdp = (cmd, params) => call("POST", "/goog/cdp/execute", { cmd, params });
    const typed = (keys) => [...keys].flatMap((value) => [{ type: "keyDown", value }, { type: "keyUp", value }]);
    return {
        url, open, run, cdp,
        // Opens the page at an address, and waits until it is up.
        go: async (hash) => {
            await open("about:blank");
            await open(url + hash);
            await until(() => run("return !document.getElementById('run').hidden"), "the page");
        },
        read: () => run(READ),
        log: async () => (await call("POST", "/se/log", { type: "browser" })).filter((it) => it.level !== "INFO"),
        keys: (keys) => call("POST", "/actions", { actions: [{ type: "key", id: "k", actions: typed(keys) }] }),
        focus: (what) => run("document.querySelector(arguments[0]).focus()", what),
        write: (text) => run(`
            const field = document.getElementById('text');
            field.value = arguments[0];
            field.dispatchEvent(new Event('input'));`, text),
        // Presses the left button of the mouse on an element.
        press: async (what) => {
            const [x, y] = await run(`
                const it = document.querySelector(arguments[0]);
                it.scrollIntoView({ block: 'center', behavior: 'instant' });
                const { left, top, width, height } = it.getBoundingClientRect();
                return [left + width / 2, top + height / 2];`, what);
            for (const type of ["mouseMoved", "mousePressed", "mouseReleased"]) {
                await cdp("Input.dispatchMouseEvent", { type, x, y, button: "left", clickCount: 1 });
            }
        },
        close: async () => {
            await call("DELETE", "").catch(() => {});
            end();
        },
    };
}
