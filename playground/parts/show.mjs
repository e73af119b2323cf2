// One run of a script on the page: a sentence on the step, the data with rest and ready, the lists, and the lanes.
import { MOST_CONDITIONS, MOST_PLACES, NOBODY, all, is_refused } from "./book.mjs";
import { ROW, file, legend, mark, picture } from "./picture.mjs";
import { HIGH, WIDE } from "./scenes.mjs";
import { data_after, owed, waiting_priorities } from "./schedulers.mjs";
import { answer_text } from "./script.mjs";
import { capital, describe } from "./words.mjs";

const HEAD_LINE = 34; // the height of the line over the lanes, in pixels
const GLIDE = 620; // how long a place takes to its new list, in milliseconds

// Creates an element. Of its attributes `on..` are listeners; false and null ones are left out.
export function make(tag, attributes = {}, ...inner) {
    const made = document.createElement(tag);
    for (const [name, value] of Object.entries(attributes)) {
        if (name.startsWith("on")) made.addEventListener(name.slice(2), value);
        else if (value !== false && value !== null) made.setAttribute(name, value === true ? "" : value);
    }
    made.append(...inner);
    return made;
}

const is_calm = () => matchMedia("(prefers-reduced-motion: reduce)").matches;
const plural = (n, what) => `${n} ${what}${n === 1 ? "" : "s"}`;

// Returns how an example names places and conditions, by their numbers.
export function names_of(labels, scheduler) {
    const place = (at) => labels?.places?.[at] ?? `place ${at}`;
    const named = scheduler?.conditions;
    const condition = (at) => (named?.[at] ? named[at] : `condition ${at}`);
    const chip = (at) => labels?.chips?.[at] ?? labels?.places?.[at] ?? `${at}`;
    return { place, condition, chip };
}

// Returns the places that were refused an enter because the monitor wasn't free, and did nothing since.
function refused_at_enter(answers) {
    const found = new Set();
    for (const { name, words, code } of answers.filter((it) => !["queue", "first"].includes(it.name))) {
        const place = Number(words[0]);
        if (!is_refused(code)) found.delete(place);
        else if (name === "enter" && code === 102) found.add(place);
    }
    return [...found];
}

// Returns what a step owes as one line: its text, how many of its clauses are true, and those that are false.
function owed_line(text, clauses) {
    if (clauses.length === 0) return text;
    const fails = clauses.filter((it) => !it.is_true).map((it) => ` False: ${it.text}.`);
    return `${text} ${clauses.length - fails.length} of ${plural(clauses.length, "clause")} true.${fails.join("")}`;
}

// Returns one clause, with a mark and a word that say if it holds.
function clause_item({ text, is_true }) {
    const sign = make("span", { class: "sign", "aria-hidden": "true" }, is_true ? "✓" : "✗");
    const word = make("b", {}, is_true ? "true" : "false");
    return make("li", { class: is_true ? "holds" : "fails" }, sign, `${text}: `, word);
}

// Returns the picture of a scheduler's data. The words before it say the same.
function scene({ draw, caption }, data, state) {
    const figure = make("figure", { class: "scene", "aria-hidden": "true" });
    const size = `viewBox="0 0 ${WIDE} ${HIGH}" width="${WIDE}" height="${HIGH}"`;
    figure.innerHTML = `<svg xmlns="http://www.w3.org/2000/svg" ${size}>${draw(data, waiting_priorities(state))}</svg>`;
    figure.append(...(caption ? [make("figcaption", {}, caption)] : []));
    return figure;
}

export class Show {
    // `go(at)` is called to show another step. `under` has the elements put under the left and the right column.
    constructor({ title, controls, go, under }) {
        this.go = go;
        this.banner = make("div", { class: "banner" });
        this.data = make("div", { class: "data" });
        this.stage = make("div", { class: "stage" });
        this.steps = make("ol", { class: "steps", "aria-label": "Steps and answers" });
        this.lanes = make("div", { class: "lanes" });
        this.heads = make("div", { class: "heads", "aria-hidden": "true" });
        const corner = make("div", { class: "corner", "aria-hidden": "true" }, "step", make("span", {}, "answer"));
        this.scroll = make("div", { class: "card chart" }, corner, this.heads, this.steps, this.lanes);
        const meaning = make("p", { class: "legend", "aria-hidden": "true" });
        meaning.innerHTML = legend();
        const first = make("div", {}, this.banner, ...controls, this.data, this.stage);
        const left = make("div", { class: "column" }, first, ...under[0]);
        const right = make("div", { class: "column" }, make("div", {}, this.scroll, meaning), ...under[1]);
        const heading = make("h2", { class: title ? "run-title" : "unseen" }, title ?? "The monitor");
        this.section = make("section", { class: "run", "aria-label": title ?? "The monitor" }, heading, left, right);
        this.chips = new Map();
    }

    // Takes a run and its example's labels, notes and data: the lists, the steps and the lanes are made anew.
    take(ran, { labels, notes, data, scheduler } = {}) {
        this.ran = ran;
        this.names = names_of(labels, scheduler);
        this.notes = notes;
        this.scheduler = scheduler;
        this.values = scheduler && data_after(data);
        this.banner.classList.toggle("has-notes", Boolean(notes));
        this.data.hidden = !scheduler;
        this.chips.clear();
        this.stage.replaceChildren();
        this.steps.replaceChildren(...ran.answers.map((it, at) => this.step_item(it, at)));
        if (!ran.state(0)) this.show_nothing();
        else this.build();
    }

    step_item(it, at) {
        const text = answer_text(it);
        const kind = `answer${is_refused(it.code) ? " refused" : ""}`;
        const parts = [["n", `${at + 1}`], ["call", it.text], [kind, `→ ${text}`]];
        const spans = parts.map(([name, inner]) => make("span", { class: name }, inner));
        const label = `Step ${at + 1}: ${it.text}, answer ${text}`;
        const go = () => this.go(at + 1);
        return make("li", {}, make("button", { type: "button", "aria-label": label, onclick: go }, ...spans));
    }

    // Shows why there are no lists and no lanes.
    show_nothing() {
        const { fault, is_large } = this.ran;
        const none = "No monitor yet. A script begins with “monitor P C”: choose an example, or “New monitor” below.";
        const large =
            `The steps have the book’s answers. Lists and lanes are drawn for at most ${MOST_PLACES} places and ` +
            `${MOST_CONDITIONS} conditions: the page keeps one of each for its experiments.`;
        const kind = is_large ? "said" : "said fault";
        const text = is_large ? large
            : fault.name === "NoHeader" ? none : `The first line isn’t taken: expected ${fault.expected}.`;
        this.columns = [];
        this.data.hidden = true;
        this.heads.replaceChildren();
        this.lanes.replaceChildren();
        this.banner.replaceChildren(make("p", { class: kind }, text));
    }

    build() {
        const { answers, sizes } = this.ran;
        const states = all(answers.length + 1).map((at) => this.ran.state(at));
        const { svg, lanes, width } = picture(states, sizes);
        const head = ({ place, middle }) => make("span", { style: `left:${middle}px` }, `place ${place}`);
        this.columns = lanes;
        this.heads.style.width = `${width}px`;
        this.heads.replaceChildren(...lanes.map(head));
        if (answers.length > 0) this.lanes.innerHTML = svg;
        else this.lanes.replaceChildren(make("p", { class: "hint none" }, "No step yet. Choose a call, or write one."));
        this.build_stage();
    }

    // Returns the text of an SVG file, or null.
    file() {
        return file(this.ran, document.getElementById("picture-style").textContent);
    }

    // Returns the zone of a list of places, with a heading, and keeps the list.
    zone(kind, heading, more = "") {
        const list = make("ul", { class: "chips", role: "list", "aria-label": `${heading}${more}` });
        this.lists[kind] = [...(this.lists[kind] ?? []), list];
        const head = make("h3", {}, heading, make("span", { class: "kind" }, more));
        return make("div", { class: `zone ${kind}-zone` }, head, list);
    }

    build_stage() {
        const { sizes } = this.ran;
        this.lists = {};
        const order = " (in order)";
        const kind = (at) => (at >= sizes.conditions - sizes.mesa ? "(Mesa)" : "(Hoare)");
        const waiting = (at) => this.zone("condition", `Waiting on ${this.names.condition(at)}`, ` ${kind(at)}`);
        const outside = [this.zone("outside-places", "Outside"), this.zone("refused", "Refused at enter")];
        const next = [this.zone("signallers", "Signallers, return first", order)];
        if (sizes.mesa > 0) next.push(this.zone("called", "Notified, resume next", order));
        const monitor = [
            this.zone("inside", "Inside"), make("div", { class: `next${sizes.mesa > 0 ? "" : " alone"}` }, ...next),
            make("div", { class: "conditions" }, ...all(sizes.conditions).map(waiting)),
        ];
        this.stage.append(make("div", { class: "outside" }, ...outside), make("div", { class: "monitor" }, ...monitor));
    }

    // Returns the chip of a place. It shows a short name, and `p` before a priority; a screen reader has both in words.
    chip(place, kind, priority = null) {
        if (!this.chips.has(place)) this.chips.set(place, make("li", { "data-place": place }));
        const chip = this.chips.get(place);
        chip.className = `chip ${kind}`;
        const text = this.names.chip(place);
        const label = kind === "inside" && text === `${place}` ? `place ${text}` : text;
        const full = text === `${place}` ? `place ${text}` : text;
        const spoken = make("span", { class: "unseen" }, priority === null ? full : `${full}, priority ${priority}`);
        const more = priority === null ? [] : [make("small", { "aria-hidden": "true" }, `p${priority}`)];
        chip.replaceChildren(spoken, make("span", { class: "name", "aria-hidden": "true" }, label), ...more);
        return chip;
    }

    // Shows the state after `at` steps. Returns the sentences on it.
    show(at, is_moved) {
        const state = this.ran.state(at);
        for (const [i, it] of [...this.steps.children].entries()) {
            it.classList.toggle("later", i >= at);
            if (i === at - 1) it.firstChild.setAttribute("aria-current", "step");
            else it.firstChild.removeAttribute("aria-current");
        }
        if (!state) return at > 0 ? `${this.steps.children[at - 1].textContent}.` : "";
        mark(this.lanes.querySelector("svg"), at);
        const on_page = [...this.chips].filter(([, it]) => it.isConnected);
        const old = new Map(on_page.map(([place, it]) => [place, it.getBoundingClientRect()]));
        this.fill(state, refused_at_enter(this.ran.answers.slice(0, at)).filter((it) => state.outside.includes(it)));
        const said = [this.tell(at, state), ...(this.scheduler ? [this.show_data(at, state)] : [])];
        if (is_moved && !is_calm()) this.glide(old);
        return said.join(" ");
    }

    fill(state, refused) {
        const put = (places, kind, zone, at = 0, empty = "none") => {
            const chips = places.map((it) => this.chip(it.place ?? it, kind, it.priority ?? null));
            const shown = chips.length > 0 ? chips : [make("li", { class: "empty" }, empty)];
            this.lists[zone]?.[at].replaceChildren(...shown);
        };
        put(state.outside.filter((it) => !refused.includes(it)), "out", "outside-places");
        put(refused, "refused", "refused");
        put(state.inside === NOBODY ? [] : [state.inside], "inside", "inside", 0, "none: the monitor is free");
        put(state.signallers, "signals", "signallers");
        put(state.called, "called", "called");
        state.conditions.forEach((it, at) => put(it.waiting, "waits", "condition", at));
    }

    // Shows the data, and what of rest and ready the step owes. Returns that as one line.
    show_data(at, state) {
        const { ran, scheduler, names } = this;
        const data = this.values[at];
        const before = at > 0 ? ran.state(at - 1) : null;
        const { text, clauses, awaited } = owed(scheduler, data, ran.answers[at - 1], before, state, names);
        const list = clauses.length > 0 ? [make("ul", { class: "clauses" }, ...clauses.map(clause_item))] : [];
        const awaits = awaited?.map((it) => ({ ...it, text: `what the notified wait for: ${it.text}` })) ?? [];
        const more = awaits.length > 0 ? [make("ul", { class: "clauses awaited" }, ...awaits.map(clause_item))] : [];
        const values = make("p", { class: "values" }, make("b", {}, "Data: "), scheduler.show(data));
        const picture = scene(scheduler, data, state);
        this.data.replaceChildren(values, picture, make("p", { class: "owed" }, text), ...list, ...more);
        return owed_line(text, [...clauses, ...awaits]);
    }

    // Moves each place from the list where it was.
    glide(old) {
        for (const [place, chip] of this.chips) {
            const from = old.get(place);
            if (!from || !chip.isConnected) continue;
            const to = chip.getBoundingClientRect();
            const [x, y] = [from.left - to.left, from.top - to.top];
            if (Math.abs(x) + Math.abs(y) < 2) continue;
            chip.style.zIndex = 3;
            const bend = `translate(${x * 0.4 + (y > 0 ? 26 : -26)}px, ${y * 0.5}px)`;
            const start = { transform: `translate(${x}px, ${y}px)` };
            const path = [start, { transform: bend, offset: 0.55 }, { transform: "none" }];
            const moved = chip.animate(path, { duration: GLIDE, easing: "cubic-bezier(.3,.1,.25,1)" });
            moved.onfinish = () => (chip.style.zIndex = "");
        }
    }

    // Says what the step did. Returns that as one line.
    tell(at, state) {
        const { ran, names } = this;
        const count = make("p", { class: "at" }, at === 0 ? "At the start" : `Step ${at} of ${ran.answers.length}`);
        if (at === 0) return this.tell_start(count);
        const answer = ran.answers[at - 1];
        const { said, why, is_refused: is_no } = describe(answer, ran.state(at - 1), state, names);
        const note = this.notes?.[at - 1];
        const told = make("span", { class: `answer${is_no ? " refused" : ""}` }, ` → ${answer_text(answer)}`);
        const end = `The script ends here: line ${ran.fault?.line} isn’t taken.`;
        const ends = ran.fault && at === ran.answers.length ? [end] : [];
        this.banner.replaceChildren(
            count, make("p", { class: "step" }, answer.text, told),
            make("p", { class: "said" }, said), make("p", { class: "why" }, why),
            ...(note ? [make("p", { class: "note" }, note)] : []),
            ...ends.map((it) => make("p", { class: "fault" }, it)),
        );
        return `${answer.text}: ${said}${note ? ` ${note}` : ""}`;
    }

    tell_start(count) {
        const { places, conditions, mesa } = this.ran.sizes;
        const last = mesa === 1 ? "is a Mesa condition" : `${mesa} are Mesa conditions`;
        const which = mesa === 0 ? "" : `, of which the last ${last}`;
        const sizes = `${plural(places, "place")} and ${plural(conditions, "condition")}${which}`;
        const said = `A monitor with ${sizes}. No place is inside.`;
        const header = make("p", { class: "step" }, this.ran.text.split("\n")[0]);
        this.banner.replaceChildren(count, header, make("p", { class: "said" }, said));
        return said;
    }

    // Scrolls the row of a step, and the lane of the place inside, into view in their own box.
    follow(at) {
        const state = this.ran.state(at);
        if (!state) return;
        const { scrollTop, scrollLeft, clientHeight, clientWidth } = this.scroll;
        const top = Math.max(0, (at - 1) * ROW);
        const is_seen = top >= scrollTop && top + 2.5 * ROW <= scrollTop + clientHeight - HEAD_LINE;
        const lane = this.columns.find((it) => it.place === state.inside);
        const wide = clientWidth - this.steps.offsetWidth;
        const is_at_left = lane && lane.middle - lane.half < scrollLeft;
        const is_beside = is_at_left || (lane && lane.middle + lane.half > scrollLeft + wide);
        if (is_seen && !is_beside) return;
        this.scroll.scrollTo({
            top: is_seen ? scrollTop : top - clientHeight / 3, left: is_beside ? lane.middle - wide / 2 : scrollLeft,
            behavior: is_calm() ? "auto" : "smooth",
        });
    }
}
