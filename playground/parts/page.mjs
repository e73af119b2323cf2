// The page: a script, or two beside each other, at one of its steps.
import { load } from "./book.mjs";
import { Calls } from "./calls.mjs";
import { EXAMPLES, GROUPS } from "./examples.mjs";
import { MODULE, RECORD } from "./module.mjs";
import { address_of, read_address } from "./link.mjs";
import { FORMS, REFUSALS, lines_of, run } from "./script.mjs";
import { Show, make } from "./show.mjs";

const PLAY_PAUSE = 1500; // between two steps that are played, in milliseconds
const HASH_PAUSE = 250; // after the last step, before the address is written, in milliseconds
const FIRST_STEP = 4; // of the first example, which a visitor sees first
const $ = (id) => document.getElementById(id);
const example_of = (text) => EXAMPLES.find((it) => it.script === lines_of(text).join("\n"));

class Page {
    constructor(module) {
        this.module = module;
        this.calls = new Calls(module, (line) => this.act(line));
        this.undos = [];
        this.at = 0;
        this.timer = null;
        this.kept = [$("calls"), $("script")];
        this.controls = this.make_controls();
        $("loading").remove();
        $("run").hidden = false;
        $("examples").append(...GROUPS.map((it) => this.group(it)));
        const terms = (list) => list.flatMap(([it, text]) => [make("dt", { class: "mono" }, it), make("dd", {}, text)]);
        $("refusals").append(...terms(Object.entries(REFUSALS).map(([n, text]) => [`refused ${n}`, text])));
        $("lines").append(...terms(Object.values(FORMS)));
        $("text").addEventListener("focus", () => (this.is_noted = false));
        $("text").addEventListener("input", () => this.write());
        $("undo").addEventListener("click", () => this.undo());
        $("new").addEventListener("click", () => this.begin());
        $("share").addEventListener("click", () => this.share());
        $("open").addEventListener("change", () => this.open());
        $("save").addEventListener("click", () => this.save());
        addEventListener("keydown", (it) => this.key(it));
        addEventListener("hashchange", () => this.follow_link());
        this.read_hash();
    }

    group({ title, examples }) {
        const button = ({ id, title: name, script }) =>
            make("button", { type: "button", "data-id": id, onclick: () => this.replace(script) }, name);
        const tabs = make("div", { class: "tabs", role: "group", "aria-label": title }, ...examples.map(button));
        return make("div", { class: "group" }, make("h2", {}, title), tabs);
    }

    // Takes a script and a step from the address, else the first example.
    read_hash() {
        const { id, text, at } = read_address(location.hash) ?? {};
        const example = EXAMPLES.find((it) => it.id === id);
        if (text !== undefined) this.take(text, at);
        else this.take((example ?? EXAMPLES[0]).script, example ? at : FIRST_STEP);
    }

    // Takes a new address that names a script. One that names a part of the page has only moved the visitor there.
    follow_link() {
        if (location.hash === this.hash) return;
        if (!read_address(location.hash)) return this.write_hash();
        this.note();
        this.read_hash();
    }

    // Writes both into the address, soon: a browser takes only some 200 such changes in ten seconds.
    write_hash() {
        this.hash = address_of({ id: this.example?.id, text: this.text, at: this.at });
        clearTimeout(this.writing);
        this.writing = setTimeout(() => history.replaceState(null, "", this.hash), HASH_PAUSE);
    }

    // Notes the script and the step, for Undo.
    note() {
        this.undos.push({ text: this.text, at: this.at });
        $("undo").setAttribute("aria-disabled", "false");
    }

    // Takes another script in place of the present one, which Undo brings back.
    replace(text) {
        this.note();
        this.take(text, 0);
    }

    // Takes what the visitor writes. Undo brings back what was there when the field got the focus.
    write() {
        if (!this.is_noted) this.note();
        this.is_noted = true;
        this.take($("text").value, Infinity, { is_written: true });
    }

    // Takes a script, and shows it after `at` steps. `is_written`: the visitor writes it, so its field stays as it is.
    take(text, at, { is_written = false } = {}) {
        this.stop();
        this.text = text;
        this.example = example_of(text);
        if (!is_written) $("text").value = text;
        const { twin } = this.example ?? {};
        this.runs = [text, ...(twin ? [twin.script] : [])].map((it) => run(this.module, it));
        const { fault } = this.runs[0];
        $("fault").textContent = fault ? `${fault.name}, line ${fault.line}: expected ${fault.expected}.` : "";
        $("text").setAttribute("aria-invalid", fault ? "true" : "false");
        for (const it of $("examples").querySelectorAll("button")) {
            it.setAttribute("aria-pressed", it.dataset.id === this.example?.id);
        }
        this.show_about(this.example);
        if (this.shows?.length !== this.runs.length) this.lay_out(twin);
        for (const [i, it] of [this.example, twin].slice(0, this.runs.length).entries()) {
            this.shows[i].take(this.runs[i], it);
        }
        this.calls.take(this.runs[0], this.shows[0].names);
        this.range.max = this.last();
        this.go(at, false);
    }

    show_about(example) {
        const { crate, type, paper } = example?.scheduler ?? {};
        const from = type ? ` In the paper: ${paper}. Here: ${type} of crates/${crate}.` : "";
        $("about").replaceChildren(example?.about ?? "Your own script.", make("span", { class: "from" }, from));
    }

    // Lays the page out for one monitor, or for two beside each other. What has the focus keeps it.
    lay_out(twin) {
        const { kept, controls } = this;
        const [focused, { scrollTop }] = [document.activeElement, $("text")];
        const go = (at) => this.go(at);
        const none = { controls: [], under: [[], []], go };
        const one = { controls: [controls], under: kept.map((it) => [it]), go };
        const shows = twin ? [this.example.hoare_title, twin.title].map((title) => ({ ...none, title })) : [one];
        this.shows = shows.map((it) => new Show(it));
        const sections = this.shows.map((it) => it.section);
        $("runs").replaceChildren(...(twin ? [controls, ...sections, ...kept] : sections));
        $("runs").classList.toggle("two", Boolean(twin));
        $("calls-title").textContent = twin ? "Your call, in the first monitor" : "Your call";
        focused?.focus({ preventScroll: true });
        $("text").scrollTop = scrollTop;
    }

    last() {
        return Math.max(...this.runs.map((it) => it.answers.length));
    }

    make_controls() {
        const button = (id, label, sign, to) => {
            const name = { "data-control": id, "aria-label": label, title: label };
            return make("button", { type: "button", ...name, onclick: () => this.go(to()) }, sign);
        };
        const play = () => (this.timer ? this.stop() : this.start());
        this.play = make("button", { type: "button", class: "play", "data-control": "play", onclick: play }, "▶ Play");
        const slide = (it) => this.go(Number(it.target.value));
        const range = { type: "range", min: 0, step: 1 };
        this.range = make("input", { ...range, "aria-label": "Step", oninput: slide });
        this.ends = [
            button("begin", "To the start", "⇤", () => 0),
            button("back", "One step back", "◀", () => this.at - 1),
            button("on", "One step on", "▶", () => this.at + 1),
            button("end", "To the end", "⇥", () => this.last()),
        ];
        const [begin, back, on, end] = this.ends;
        const label = "Steps; the arrow keys, Home and End move too";
        const inner = [begin, back, this.play, on, end, this.range];
        return make("div", { class: "controls", role: "group", "aria-label": label }, ...inner);
    }

    // Shows the state after `at` steps. `is_moved`: the visitor sees the places move.
    go(at, is_moved = true, is_played = false) {
        if (!is_played) this.stop();
        this.at = Math.min(Math.max(at, 0), this.last());
        const steps = this.runs.map((it) => Math.min(this.at, it.answers.length));
        const said = this.shows.map((it, i) => it.show(steps[i], is_moved));
        $("live").textContent = said.join(" ");
        this.range.value = this.at;
        this.range.setAttribute("aria-valuetext", `step ${this.at} of ${this.last()}`);
        for (const [i, it] of this.shows.entries()) it.follow(steps[i]);
        const off = [this.at === 0, this.at === 0, this.at === this.last(), this.at === this.last()];
        this.ends.forEach((it, i) => it.setAttribute("aria-disabled", off[i]));
        this.calls.show(this.at);
        this.write_hash();
        $("asked").textContent = this.module.asked.toLocaleString("en");
    }

    start() {
        if (this.at === this.last()) this.go(0);
        this.play.textContent = "❚❚ Pause";
        this.timer = setInterval(() => {
            this.go(this.at + 1, true, true);
            if (this.at === this.last()) this.stop();
        }, PLAY_PAUSE);
    }

    stop() {
        clearInterval(this.timer);
        this.timer = null;
        this.play.textContent = "▶ Play";
    }

    key(it) {
        if (it.target.closest?.("textarea, input, select") || it.ctrlKey || it.metaKey || it.altKey) return;
        const to = { ArrowRight: this.at + 1, ArrowLeft: this.at - 1, Home: 0, End: this.last() }[it.key];
        if (to === undefined) return;
        it.preventDefault();
        this.go(to);
    }

    // Does a call now. The steps after this one are dropped.
    act(line) {
        const { text, at } = this;
        const dropped = this.runs[0].answers.length - at;
        this.note();
        this.take([...lines_of(text).slice(0, at + 1), line].join("\n"), at);
        this.go(at + 1);
        this.calls.focus();
        const steps = dropped === 1 ? "1 later step was" : `${dropped} later steps were`;
        if (dropped > 0) this.calls.say(`${steps} dropped. Undo brings them back.`);
    }

    undo() {
        if (this.undos.length === 0) return;
        const { text, at } = this.undos.pop();
        this.take(text, at);
        $("undo").setAttribute("aria-disabled", this.undos.length === 0);
    }

    begin() {
        const value = (id) => $(id).value.trim() || "0";
        const mesa = value("new-mesa");
        this.replace(`monitor ${value("new-places")} ${value("new-conditions")}${mesa === "0" ? "" : ` ${mesa}`}\n`);
        $("shared").textContent = $("fault").textContent ? "" : "A new monitor: choose its calls, or write them.";
    }

    // Takes the script of a file that the visitor chose, as a recording of a program, and shows it after its last step.
    async open() {
        const [file] = $("open").files;
        if (!file) return;
        this.note();
        this.take(await file.text(), Infinity);
        $("shared").textContent = `This is ${file.name}.`;
        $("open").value = ""; // so that the same file can be opened again
    }

    // Saves the lanes with the steps as an SVG file.
    save() {
        const svg = this.shows[0].file();
        $("shared").textContent = svg ? "The picture is saved." : "There is no picture to be saved.";
        if (!svg) return;
        const href = URL.createObjectURL(new Blob([svg], { type: "image/svg+xml" }));
        make("a", { href, download: "monitor.svg" }).click();
        URL.revokeObjectURL(href);
    }

    async share() {
        const link = location.href.replace(/#.*/, "") + this.hash;
        try {
            await navigator.clipboard.writeText(link);
            $("shared").textContent = "The link is copied. It holds the script and the step.";
        } catch {
            $("shared").textContent = link;
        }
    }
}

// Returns an entry of the record, with its thousands apart if it is a number.
function spelled(entry) {
    return /^[0-9]{1,15}$/.test(entry) ? Number(entry).toLocaleString("en") : entry;
}

// Shows why the page can't run.
function show_fault(fault) {
    console.error(fault);
    const notice = $("loading") ?? document.querySelector(".top").appendChild(make("p", { class: "notice" }));
    notice.className = "notice bad";
    notice.textContent = fault instanceof WebAssembly.CompileError
        ? "This browser has no WebAssembly with a 64-bit memory (Memory64), which the book needs. Chromium 156 and " +
            "Firefox 153 have it."
        : `The page has a fault: ${fault.message}`;
}

try {
    const bytes = Uint8Array.from(atob(MODULE), (it) => it.charCodeAt(0));
    const module = await load(bytes);
    for (const it of document.querySelectorAll("[data-record]")) it.textContent = spelled(RECORD[it.dataset.record]);
    new Page(module);
} catch (fault) {
    show_fault(fault);
}
