// What a step did, in plain words. The sentences compare the states before and after it, which are the book's.
import { NOBODY, is_refused } from "./book.mjs";
import { REFUSALS } from "./script.mjs";

const UNCHANGED = "A question changes nothing.";

export const list = (words) =>
    words.length < 2 ? words.join("") : `${words.slice(0, -1).join(", ")} and ${words[words.length - 1]}`;
export const capital = (text) => text.slice(0, 1).toUpperCase() + text.slice(1);

// Returns which place has the monitor after another released it, and why.
function successor(before, after, place) {
    const next = after.inside;
    if (next === NOBODY) return "No signaller waits and no notified place does, so the monitor is free.";
    if (before.signallers.includes(next)) {
        const first = before.signallers.length > 1 ? ", the signaller that waited longest," : ", the signaller,";
        return `${capital(place(next))}${first} returns, before any notified or entering process.`;
    }
    return `No signaller waits, so ${place(next)} resumes, which was notified first. No entering process is before it.`;
}

function of_question({ name, code, priority }, condition) {
    if (name === "queue") {
        const said = `Does any place wait on ${condition}? ${code === 1 ? "Yes." : "No."}`;
        return { said, why: "A question changes nothing. A notified place no longer waits." };
    }
    const said = code === 1
        ? `On ${condition} the first waiter has priority ${priority}.`
        : `No place waits on ${condition}.`;
    return { said, why: UNCHANGED };
}

// A signal, or a pass, which is a signal joined with the leave.
function of_signal(name, actor, on, before, after, { place, condition }) {
    const is_pass = name === "pass";
    const { count } = before.conditions[on];
    if (count === 0 && is_pass) {
        const said = `${actor} signals ${condition(on)} and leaves in one step. No place waits there.`;
        return { said, why: successor(before, after, place) };
    }
    if (count === 0) {
        const said = `${actor} signals ${condition(on)}. No place waits there, so it continues.`;
        return { said, why: "A signal isn’t stored: a later waiter doesn’t find it." };
    }
    const chosen = count > 1 ? " It has the least priority; of equal ones the longest waiting is first." : "";
    const said = `${actor} hands the monitor to ${place(after.inside)}, which waited on ${condition(on)}.${chosen}`;
    const why = is_pass
        ? `The signal was its last act: ${actor.toLowerCase()} is outside.`
        : `${actor} waits as a signaller, and returns before any entering process.`;
    return { said, why };
}

// A notify or a broadcast.
function of_notify(actor, on, before, after, { place, condition }) {
    const notified = after.called.filter((it) => !before.called.includes(it)).map(place);
    if (notified.length === 0) {
        return { said: `${actor} notifies nobody: no place waits on ${condition(on)}.`, why: "It stays inside." };
    }
    const why =
        "A notified place resumes later: after the signallers, before any entering process. It has to test its " +
        "condition again.";
    return { said: `${actor} notifies ${list(notified)}, and stays inside.`, why };
}

// Returns { said, why, is_refused } of an answered command. `names` has `place` and `condition`, which name a number.
export function describe(answer, before, after, names) {
    const { name, code } = answer;
    if (is_refused(code)) {
        return { said: `Refused: ${REFUSALS[code - 100]}.`, why: "A refusal changes nothing.", is_refused: true };
    }
    const [first, second] = answer.words.map(Number);
    if (name === "queue" || name === "first") return of_question(answer, names.condition(first));
    const actor = capital(names.place(first));
    if (name === "enter") return { said: `${actor} enters.`, why: "The monitor was free." };
    if (name === "leave") return { said: `${actor} leaves.`, why: successor(before, after, names.place) };
    if (name === "wait") {
        const on = `${names.condition(second)} with priority ${answer.words[2]}`;
        const said = `${actor} releases the monitor and waits on ${on}.`;
        return { said, why: successor(before, after, names.place) };
    }
    if (name === "signal" || name === "pass") return of_signal(name, actor, second, before, after, names);
    return of_notify(actor, second, before, after, names);
}
