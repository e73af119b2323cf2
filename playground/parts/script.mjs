// The text of a script: its grammar, which is that of crates/hoare_script, and its answers as that program spells them.
import { MOST_CONDITIONS, MOST_PLACES, NOBODY, STEPS, answer_all, is_refused, look } from "./book.mjs";

const MOST_STEPS = 400; // a limit of this page, which replays the whole script for each state that it shows
const MOST_BYTES = 256; // in a line
export const MOST_WORD = 18446744073709551615n; // the greatest number of 64 bits

const WIDTHS = { ...STEPS, queue: 1, first: 1 };

// The form of each line, and what it means.
export const FORMS = {
    monitor: ["monitor P C M", "the first line: P places, C conditions, the last M (or none) of them Mesa conditions"],
    enter: ["enter K", "place K enters"],
    wait: ["wait K C P", "K waits on condition C with priority P: the least resumes first"],
    signal: ["signal K C", "K hands the monitor to the first waiter on C, and returns later"],
    pass: ["pass K C", "the same as K’s last act: K is outside then"],
    leave: ["leave K", "K leaves"],
    notify: ["notify K C", "K notifies the first waiter on the Mesa condition C, and stays inside"],
    broadcast: ["broadcast K C", "K notifies every waiter on it"],
    queue: ["queue C", "does any place wait on C?"],
    first: ["first C", "the priority of the first waiter on C"],
};
const HEADER =
    "“monitor P C” or “monitor P C M”: P 1 to 64 places, C 1 to 8 conditions, the last M of them Mesa conditions";

export const REFUSALS = {
    1: "no such place",
    2: "the monitor isn’t free",
    3: "the place isn’t outside: it waits",
    4: "the place isn’t inside",
    5: "no such condition",
    6: "the condition is of the other kind",
};

// Returns the number of a word, or null.
export function number(word) {
    if (!/^(0|[1-9][0-9]*)$/.test(word)) return null;
    const value = BigInt(word);
    return value > MOST_WORD ? null : value;
}

function numbers(words) {
    const found = words.map(number);
    return found.includes(null) ? null : found;
}

function parse_command(line) {
    const [name, ...rest] = line.split(" ");
    if (!Object.hasOwn(WIDTHS, name) || rest.length !== WIDTHS[name]) return null;
    const words = numbers(rest);
    return words && { name, words };
}

function parse_header(line) {
    const [name, ...rest] = line.split(" ");
    if (name !== "monitor" || rest.length < 2 || rest.length > 3) return null;
    const words = numbers(rest);
    return words && { places: words[0], conditions: words[1], mesa: words[2] ?? 0n };
}

function expected(line) {
    const [name] = line.split(" ");
    if (name === "monitor") return "a step: only the first line is a “monitor”";
    if (Object.hasOwn(FORMS, name)) return `“${FORMS[name][0]}”, with one space between and no 0 before a number`;
    return "enter, wait, signal, pass, leave, notify, broadcast, queue or first, and its numbers";
}

// Returns the fault of a line that has too many bytes, or null.
function too_long(text, line) {
    const bytes = new TextEncoder().encode(text).length;
    return bytes > MOST_BYTES ? { name: "LineTooLong", line, expected: `at most ${MOST_BYTES} bytes` } : null;
}

// Returns the fault of a line after the first, or null.
function fault_of(text, line, command) {
    const fault = too_long(text, line);
    if (fault) return fault;
    if (!command) return { name: "BadLine", line, expected: expected(text) };
    if (line > MOST_STEPS + 1) {
        return { name: "TooLong", line, expected: `at most ${MOST_STEPS} steps, which is a limit of this page` };
    }
    return null;
}

// Returns the lines of a text. What follows the last line end is a line if it isn't empty.
export function lines_of(text) {
    const lines = text.split("\n");
    return lines.at(-1) === "" ? lines.slice(0, -1) : lines;
}

// Returns the fault of the first line, or null.
function fault_of_header(header, sizes) {
    if (header === undefined) return { name: "NoHeader", line: 1, expected: "“monitor P C” in the first line" };
    return too_long(header, 1) ?? (sizes ? null : { name: "BadHeader", line: 1, expected: HEADER });
}

// Returns a script: { sizes, commands: [{ name, words, line, text }], fault }. `fault` is null or
// { name, line, expected }; the commands end before it.
function parse(text) {
    const [header, ...lines] = lines_of(text);
    const sizes = parse_header(header ?? "");
    const first_fault = fault_of_header(header, sizes);
    if (first_fault) return { sizes: null, commands: [], fault: first_fault };
    const commands = [];
    for (const [at, it] of lines.entries()) {
        const command = parse_command(it);
        const fault = fault_of(it, at + 2, command);
        if (fault) return { sizes, commands, fault };
        commands.push({ ...command, line: at + 2, text: it });
    }
    return { sizes, commands, fault: null };
}

// Returns the answer as hoare_script prints it.
export function answer_text({ name, code, priority }) {
    if (is_refused(code)) return `refused ${code - 100}`;
    if (name === "queue") return code === 1 ? "true" : "false";
    if (name === "first") return code === 1 ? `${priority}` : "none";
    return code === NOBODY ? "free" : `${code}`;
}

// Runs a script. Returns what `parse` does, with `answers`, and `state(at)`, the state after `at` steps (null if there
// is no monitor). The sizes are numbers then. `is_large` is true if the page has no place or no condition left for its
// experiments: then there are answers, and no states.
export function run(module, text) {
    const script = parse(text);
    const nothing = { ...script, text, answers: [], state: () => null };
    if (!script.sizes) return nothing;
    const { code, value: answers } = answer_all(module, script.sizes, script.commands);
    if (code !== 0) return { ...nothing, fault: { name: "BadHeader", line: 1, expected: HEADER } };
    const sizes = Object.fromEntries(Object.entries(script.sizes).map(([name, it]) => [name, Number(it)]));
    if (sizes.places > MOST_PLACES || sizes.conditions > MOST_CONDITIONS) {
        return { ...nothing, sizes, answers, is_large: true };
    }
    const states = [];
    const state = (at) => (states[at] ??= look(module, sizes, answers.slice(0, at)));
    return { ...script, sizes, text, answers, state };
}
