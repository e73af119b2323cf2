// The calls that a visitor can choose as the next step: a button for each call of the chosen place, and for each
// question. A call that would be refused has a button that is off and shows its refusal. Each is tried on a book of its
// own.
import { NOBODY, STEPS, all, is_refused, try_each } from "./book.mjs";
import { make } from "./show.mjs";
import { MOST_WORD, REFUSALS, answer_text, number } from "./script.mjs";

const ON_CONDITION = ["signal", "pass", "notify", "broadcast"];
const QUESTIONS = ["queue", "first"];
const $ = (id) => document.getElementById(id);

const condition_of = ({ name, words }) => (name in STEPS ? words[1] : words[0]) ?? null;

export class Calls {
    // `act(line)` is called to do a call.
    constructor(module, act) {
        this.module = module;
        this.act = act;
        this.priority = "0";
        this.chosen = null;
        $("priority").addEventListener("input", () => this.take_priority());
    }

    // Takes a run and how its places and conditions are named.
    take(ran, names) {
        Object.assign(this, { ran, names, chosen: null });
    }

    // Shows the calls after `at` steps. The acting place is `place`, else the one inside, else one outside.
    show(at, place = null) {
        this.at = at;
        const state = this.ran.state(at);
        $("places").querySelectorAll("label").forEach((it) => it.remove());
        $("buttons").replaceChildren();
        this.say("");
        $("acting").hidden = !state;
        if (!state) return;
        const kept = state.outside.includes(this.chosen) ? this.chosen : (state.outside[0] ?? 0);
        this.chosen = place ?? (state.inside === NOBODY ? kept : state.inside);
        $("places").append(...all(this.ran.sizes.places).map((it) => this.radio(it)));
        this.show_buttons();
    }

    radio(place) {
        const choose = () => {
            this.show(this.at, place);
            $("places").querySelector(`input[value="${place}"]`).focus();
        };
        const input = make("input", { type: "radio", name: "place", value: place, onchange: choose });
        input.checked = place === this.chosen;
        return make("label", {}, input, this.names.place(place));
    }

    show_buttons() {
        const { sizes, answers } = this.ran;
        const actor = this.chosen;
        const calls_on = (at) => [
            { name: "wait", words: [actor, at, this.priority] },
            ...ON_CONDITION.map((name) => ({ name, words: [actor, at] })),
            ...QUESTIONS.map((name) => ({ name, words: [at] })),
        ];
        const first = [{ name: "enter", words: [actor] }, { name: "leave", words: [actor] }];
        const rows = [first, ...all(sizes.conditions).map(calls_on)];
        const answered = try_each(this.module, sizes, answers.slice(0, this.at), rows.flat()).values();
        $("buttons").replaceChildren(...rows.map((row, at) => this.row(row.map(() => answered.next().value), at - 1)));
    }

    // A row of buttons; `condition` is -1 for the calls on none.
    row(calls, condition) {
        const { sizes } = this.ran;
        const name = condition < 0 ? "Enter and leave" : `On ${this.names.condition(condition)}`;
        const kind = condition >= sizes.conditions - sizes.mesa ? " (Mesa)" : "";
        const head = condition < 0 ? [] : [make("span", { class: "of", "aria-hidden": "true" }, name + kind)];
        const label = { class: "call-row", role: "group", "aria-label": name + kind };
        return make("div", label, ...head, ...calls.map((it) => this.button(it)));
    }

    button(it) {
        const { name, words, code } = it;
        const is_no = is_refused(code);
        const answer = is_no ? `refused ${code - 100}: ${REFUSALS[code - 100]}` : answer_text(it);
        const line = [name, ...words].join(" ");
        const says = `${line} would be answered ${answer}.`;
        const hint = () => this.hint(says, is_no);
        const onclick = () => (is_no ? this.say(says, true) : this.act(line));
        const does = { onfocus: hint, onmouseenter: hint, onclick };
        const data = { "data-call": name, "data-condition": condition_of(it) };
        const label = is_no
            ? { "aria-disabled": "true", "aria-label": `${name}: ${answer}` }
            : { "aria-label": line, "aria-description": `answer ${answer}` };
        const small = is_no ? [make("small", {}, `refused ${code - 100}`)] : [];
        return make("button", { type: "button", ...data, ...label, ...does }, name, ...small);
    }

    take_priority() {
        const { value } = $("priority");
        const is_good = number(value) !== null;
        $("priority").setAttribute("aria-invalid", !is_good);
        this.say(is_good ? "" : `A priority is a number from 0 to ${MOST_WORD}, without a 0 before it.`, true);
        if (!is_good) return;
        this.priority = value;
        this.show_buttons();
    }

    // Shows the outcome of a visitor's act; a screen reader reads it too.
    say(text, is_no = false) {
        $("call-hint").textContent = "";
        $("call-message").textContent = text;
        $("call-message").classList.toggle("refused", is_no);
    }

    // Shows what the call of a button would return. A screen reader reads it with the button's name.
    hint(text, is_no) {
        $("call-hint").textContent = text === $("call-message").textContent ? "" : text;
        $("call-hint").classList.toggle("refused", is_no);
    }

    // Moves the focus to the first button that is on: the button that had it is gone.
    focus() {
        $("buttons").querySelector("button:not([aria-disabled])")?.focus({ preventScroll: true });
    }
}
