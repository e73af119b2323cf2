// The calls of the proved book. Nothing in this file decides which place is next: each result is the module's.
//
// The sixteen calls report which place is inside, which are outside, and how many wait on a condition. They don't
// report an order. `look` finds the orders by experiment: it takes further books through the same steps, lets every
// place resume and leave, and notes which comes after which. Such a book has one more place, the watcher's, and
// one has one more Hoare condition.

export const NOBODY = 64; // the result if no place is inside; a greater one is a refusal
export const MOST_PLACES = 63; // of the book's 64 the watcher has one
export const MOST_CONDITIONS = 7; // of the book's 8 the watcher has one

// How many numbers each step has.
export const STEPS = { enter: 1, leave: 1, wait: 3, signal: 2, pass: 2, notify: 2, broadcast: 2 };

export const is_refused = (code) => code > NOBODY;
export const all = (n) => [...Array(n).keys()];

// Compiles the bytes of a module. Throws WebAssembly.CompileError if the browser has no 64-bit memory.
export async function load(bytes) {
    const { instance } = await WebAssembly.instantiate(bytes, {});
    return new Module(instance.exports);
}

class Module {
    constructor(calls) {
        this.calls = calls;
        this.base = BigInt(calls.__heap_base.value); // free from here on: a book's 24 bytes, an answer's 8 at 32
        this.asked = 0; // calls made so far
    }

    call(name, ...words) {
        this.asked += 1;
        return Number(this.calls[`zaulinte_book_${name}`](this.base, ...words.map((it) => BigInt(it))));
    }

    // Makes a book of these sizes, hands it to `body`, and frees it. Returns { code, value }: if code is not 0 there
    // was no book, and `body` didn't run. The module has room for one book at a time.
    with_book({ places, conditions, mesa }, body) {
        const code = this.call("make", places, conditions, mesa);
        if (code !== 0) return { code };
        try {
            return { code, value: body(new Book(this)) };
        } finally {
            this.call("free");
        }
    }
}

class Book {
    constructor(module) {
        this.module = module;
        this.answer_at = module.base + 32n;
    }

    // Returns the place inside after a step, 64 if no place is, or a refusal, 101 to 107.
    step({ name, words }) {
        return this.module.call(name, ...words);
    }

    now() {
        return this.module.call("now");
    }

    is_outside(place) {
        return this.module.call("outside", place) === 1;
    }

    queue(condition) {
        return this.module.call("queue", condition);
    }

    // Returns { code, priority }: 1 and the priority of the first waiter, 0 if no place waits, or 105.
    first(condition) {
        const code = this.module.call("first", condition, this.answer_at);
        return { code, priority: code === 1 ? this.answer() : null };
    }

    count(condition) {
        this.module.call("count", condition, this.answer_at);
        return Number(this.answer());
    }

    answer() {
        return new DataView(this.module.calls.memory.buffer).getBigUint64(Number(this.answer_at), true);
    }
}

// Takes a book through steps whose results are known. Refused steps changed nothing and are left out. Throws if a
// result differs from the known one.
function replay(book, done, changed = (it) => it) {
    for (const it of done.filter(({ name, code }) => name in STEPS && !is_refused(code))) {
        const code = book.step(changed(it));
        if (code !== it.code) throw new Error(`a replay of ${it.name} answered ${code}, and not ${it.code}`);
    }
}

function answer(book, it) {
    if (it.name === "queue") return { ...it, code: book.queue(it.words[0]) };
    if (it.name === "first") return { ...it, ...book.first(it.words[0]) };
    return { ...it, code: book.step(it) };
}

// Runs commands, one after the other, in one book. Returns { code, value: [{ name, words, code, priority }] }.
export function answer_all(module, sizes, commands) {
    return module.with_book(sizes, (book) => commands.map((it) => answer(book, it)));
}

// Returns each command with the book's answer to it, if that command is the next one after `done`.
export function try_each(module, sizes, done, commands) {
    const tried = (command) =>
        module.with_book(sizes, (book) => {
            replay(book, done);
            return answer(book, command);
        }).value;
    return commands.map(tried);
}

// Returns the places that resume, in order, if `place`, which is inside, leaves, and each of them leaves at once.
function leaving(book, place) {
    const order = [];
    let next = book.step({ name: "leave", words: [place] });
    while (next < NOBODY) {
        order.push(next);
        next = book.step({ name: "leave", words: [next] });
    }
    return order;
}

// Returns the waiters of a condition, in the order in which they would resume. No place is inside before or after.
function waiters(book, watcher, condition, is_mesa) {
    const count = book.count(condition);
    if (count === 0) return [];
    const list = [];
    let inside = book.step({ name: "enter", words: [watcher] });
    while (list.length < count) {
        const { priority } = book.first(condition);
        inside = book.step({ name: is_mesa ? "notify" : "pass", words: [inside, condition] });
        list.push({ place: inside, priority });
    }
    const order = leaving(book, inside);
    return is_mesa ? list.map(({ priority }, at) => ({ place: order[at], priority })) : list;
}

// Returns what the calls report: the place inside, those outside, and each condition's kind, count and first priority.
function reported(book, { places, conditions, mesa }) {
    return {
        inside: book.now(),
        outside: all(places).filter((it) => book.is_outside(it)),
        conditions: all(conditions).map((it) => ({
            is_mesa: it >= conditions - mesa,
            count: book.count(it),
            queue: book.queue(it) === 1,
            first: book.first(it).priority,
        })),
    };
}

// Returns the orders, found in a second book by emptying it: first the places that resume without a further signal
// (signallers, then notified ones), then each condition's waiters.
function emptied(module, sizes, done, { inside, conditions }) {
    const watcher = sizes.places;
    return module.with_book({ ...sizes, places: watcher + 1 }, (book) => {
        replay(book, done);
        const resuming = inside === NOBODY ? [] : leaving(book, inside);
        const waiting = conditions.map(({ is_mesa }, at) => waiters(book, watcher, at, is_mesa));
        return { resuming, waiting, are_out: all(watcher + 1).every((it) => book.is_outside(it)) };
    }).value;
}

// Returns a step for a book with one more condition, at number `added`.
function shifted({ name, words: [place, condition, ...rest] }, added) {
    if (condition === undefined) return { name, words: [place] };
    return { name, words: [place, Number(condition) + (condition >= added ? 1 : 0), ...rest] };
}

// Returns how many of the places that resume are signallers. In a third book the watcher waits on a condition of its
// own since before the first step. The place inside signals it, and so becomes the last of the signallers: those
// before it are signallers, those after it were notified.
function count_signallers(module, { places, conditions, mesa }, done, inside) {
    const [watcher, added] = [places, conditions - mesa]; // Hoare conditions come before Mesa ones
    const order = module.with_book({ places: places + 1, conditions: conditions + 1, mesa }, (book) => {
        book.step({ name: "enter", words: [watcher] });
        book.step({ name: "wait", words: [watcher, added, 0] });
        replay(book, done, (it) => shifted(it, added));
        book.step({ name: "signal", words: [inside, added] });
        return leaving(book, watcher);
    }).value;
    return order.indexOf(inside);
}

// Returns the state of the monitor after the steps `done`: { inside, outside, signallers, called, conditions }, where
// `called` are the places that were notified and haven't resumed, and each condition has its `waiting` in order.
// Throws if two books report different things.
export function look(module, sizes, done) {
    const seen = module.with_book(sizes, (book) => {
        replay(book, done);
        return reported(book, sizes);
    }).value;
    const { resuming, waiting, are_out } = emptied(module, sizes, done, seen);
    const signallers = resuming.length === 0 ? 0 : count_signallers(module, sizes, done, seen.inside);
    const state = {
        ...seen,
        signallers: resuming.slice(0, signallers),
        called: resuming.slice(signallers),
        conditions: seen.conditions.map((it, at) => ({ ...it, waiting: waiting[at] })),
    };
    if (!are_out || !is_whole(state, sizes.places) || !state.conditions.every(is_counted)) {
        throw new Error("two books of the same steps report different things");
    }
    return state;
}

// Returns true if each place is in exactly one list.
function is_whole(state, places) {
    const inside = state.inside === NOBODY ? [] : [state.inside];
    const waiting = state.conditions.flatMap((it) => it.waiting.map(({ place }) => place));
    const everybody = [...inside, ...state.outside, ...state.signallers, ...state.called, ...waiting];
    return everybody.length === places && new Set(everybody).size === places;
}

// Returns true if a condition's list fits what the calls report of it.
function is_counted({ waiting, count, queue, first }) {
    const is_first = count === 0 || waiting[0].priority === first;
    return waiting.length === count && queue === count > 0 && is_first;
}
