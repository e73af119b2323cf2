// The examples. The short ones are scripts of the folder examples. Those of Hoare's schedulers follow the procedures of
// the three crates: each line is a call, with the data that it leaves if they change, and what the process does.
import { SCHEDULERS } from "./schedulers.mjs";
import { SCRIPTS } from "./scripts.mjs";

// A line that begins with a space continues the one before.
const one_line = (text) => text.replace(/\n +/g, " ");

// Takes lines "call | data | note" apart.
const told = (text) => {
    const lines = one_line(text.trim()).split("\n").map((it) => it.split("|").map((part) => part.trim()));
    return {
        script: lines.map(([line]) => line).join("\n"),
        data: lines.map(([, data]) => data ?? ""),
        notes: lines.slice(1).map(([, , note]) => note ?? ""),
    };
};

// Of each short script its file, its title, and what it is about.
const RULES = Object.entries({
    "hand-off": [SCRIPTS.hand_over, "Hand-off", `A signal hands the monitor to the waiter at once: no process enters
        between. The signaller returns when the waiter leaves.`],
    "priorities": [SCRIPTS.waiters_taken, "Priorities", `The waiter of least priority resumes first. Of two equal
        ones the longer waiting is first: place 0 before place 1.`],
    "two-signallers": [SCRIPTS.signallers_return, "Two signallers", `A resumed process may signal too. Two
        signallers then wait, and return in the order in which they signalled.`],
    "broadcast": [SCRIPTS.broadcast, "Broadcast", `On a Mesa condition a broadcast notifies every waiter. They
        resume later, one after the other, before any entering process.`],
    "both-kinds": [SCRIPTS.called_resume, "Both kinds", `Condition 0 is Hoare’s, condition 1 is a Mesa condition.
        The signaller, place 3, returns before the two notified places resume.`],
    "every-step": [SCRIPTS.mixed, "Every step", `Signals, passes, waits with priorities, questions and refusals on
        two Hoare conditions.`],
}).map(([id, [script, title, about]]) => ({ id, title, script, about: one_line(about) }));

const SINGLE = {
    id: "single", title: "Single resource", scheduler: SCHEDULERS.SINGLE,
    about: one_line(`One item, for one process at a time. A process that calls acquire while the item is out waits
        on nonbusy.`),
    ...told(`
monitor 3 1 | item=in
enter 0 | | Place 0 calls acquire. The item is in.
leave 0 | item=out | It takes the item out, and leaves.
enter 1 | | Place 1 calls acquire. The item is out.
wait 1 0 0 | | So it waits on nonbusy.
enter 2 | | Place 2 calls acquire.
wait 2 0 0 | | It waits too, after place 1.
enter 0 | | Place 0 calls release.
pass 0 0 | item=in | It puts the item in, and signals as its last act.
leave 1 | item=out | Place 1 takes the item out, without testing again.
enter 1 | | Place 1 calls release.
pass 1 0 | item=in | It puts the item in, and signals.
leave 2 | item=out | Place 2 takes the item out.
enter 2 | | Place 2 calls release.
pass 2 0 | item=in | No place waits, so the pass is a plain leave.`),
};

const BUFFER = {
    id: "buffer", title: "Bounded buffer", scheduler: SCHEDULERS.BUFFER,
    labels: { places: ["consumer 0", "producer 1", "producer 2"] },
    about: one_line(`A buffer of two cells. A consumer waits on nonempty while there is no item, a producer on
        nonfull while no cell is free.`),
    ...told(`
monitor 3 2 | items=0 cells=2
enter 0 | | The consumer calls remove. There is no item.
wait 0 0 0 | | So it waits on nonempty.
enter 1 | | Producer 1 calls append.
pass 1 0 | items=1 | It puts an item in, and signals nonempty.
pass 0 1 | items=0 | The consumer takes the item, and signals nonfull. No producer waits.
enter 1 | | Producer 1 calls append.
pass 1 0 | items=1 | It puts an item in.
enter 1 | | It calls append again.
pass 1 0 | items=2 | The buffer is full now.
enter 1 | | It calls append once more.
wait 1 1 0 | | No cell is free, so it waits on nonfull.
enter 2 | | Producer 2 calls append.
wait 2 1 0 | | It waits too, after producer 1.
enter 0 | | The consumer calls remove.
pass 0 1 | items=1 | It takes the oldest item, and signals nonfull.
pass 1 0 | items=2 | Producer 1 puts its item in, without testing again.
enter 0 | | The consumer calls remove.
pass 0 1 | items=1 | It takes the oldest item, and signals nonfull.
pass 2 0 | items=2 | Producer 2 puts its item in.`),
};

const ALARM = {
    id: "alarm", title: "Alarm clock", scheduler: SCHEDULERS.ALARM,
    labels: { places: ["sleeper 0", "sleeper 1", "sleeper 2", "clock 3"] },
    about: one_line(`A sleeper waits on wakeup with the time at which it is due as its priority. Each process that
        wakes signals the next sleeper, which waits again if it isn’t due.`),
    ...told(`
monitor 4 1 | time=0
enter 0 | | Sleeper 0 calls wakeme(2): it is due at 2.
wait 0 0 2 | | It waits with the priority 2.
enter 1 | | Sleeper 1 calls wakeme(1): it is due at 1.
wait 1 0 1 | | It is the first now: its priority is less.
enter 2 | | Sleeper 2 calls wakeme(2).
wait 2 0 2 | | Its priority is that of sleeper 0, which has waited longer.
enter 3 | | The clock calls tick.
pass 3 0 | time=1 | It sets the next time, and signals the first sleeper.
pass 1 0 | | Sleeper 1 is due. Its last act is to signal the next.
wait 0 0 2 | | Sleeper 0 isn’t due at 1: it waits again, now after sleeper 2.
enter 3 | | The clock calls tick.
pass 3 0 | time=2 | It sets the next time, and signals the first sleeper.
pass 2 0 | | Sleeper 2 is due, and signals the next.
pass 0 0 | | Sleeper 0 is due, and signals. No place waits.`),
};

const POOL = {
    id: "pool", title: "Buffer pool", scheduler: SCHEDULERS.POOL,
    labels: { places: ["stream 0", "stream 1", "stream 2"] },
    about: one_line(`Two buffers, shared by three streams. A stream waits on nonfree with the number of buffers that
        it holds as its priority: the one that holds the fewest resumes first.`),
    ...told(`
monitor 3 1 | b0=free b1=free
enter 0 | | Stream 0 calls take.
leave 0 | b0=0 | It takes buffer 0.
enter 1 | | Stream 1 calls take.
leave 1 | b1=1 | It takes buffer 1.
enter 0 | | Stream 0 calls take again. No buffer is free.
wait 0 0 1 | | It holds one buffer, so it waits with the priority 1.
enter 2 | | Stream 2 calls take.
wait 2 0 0 | | It holds none, so it waits with the priority 0, before stream 0.
enter 1 | | Stream 1 calls give for buffer 1.
pass 1 0 | b1=free | It frees the buffer, and signals nonfree.
leave 2 | b1=2 | Stream 2 takes buffer 1, without testing again.
enter 2 | | Stream 2 calls give for buffer 1.
pass 2 0 | b1=free | It frees the buffer, and signals.
leave 0 | b1=0 | Stream 0 takes buffer 1. It holds both now.
enter 0 | | Stream 0 calls give for buffer 0.
pass 0 0 | b0=free | No place waits, so the pass is a plain leave.`),
};

const HEAD = {
    id: "disk", title: "Disk head", scheduler: SCHEDULERS.HEAD,
    labels: { chips: ["50", "70", "60", "20", "50", "60"].map((it, at) => `${at} to ${it}`) },
    about: one_line(`The head sweeps up, then down, over cylinders 0 to 100. A request waits for the upsweep with
        its cylinder as its priority, for the downsweep with 100 less its cylinder.`),
    ...told(`
monitor 6 2 | drive=in head=0 sweep=up due=0 last=100
enter 0 | | Place 0 requests cylinder 50. The drive is in.
leave 0 | drive=out head=50 | It takes the drive out, with the head at 50.
enter 1 | | Place 1 requests cylinder 70.
wait 1 0 70 | | The drive is out. 70 is above 50, so it waits for the upsweep.
enter 2 | | Place 2 requests cylinder 60.
wait 2 0 60 | | It waits for the upsweep, before place 1.
enter 3 | | Place 3 requests cylinder 20.
wait 3 1 80 | | 20 is below 50, so it waits for the downsweep, with 100 − 20.
enter 4 | | Place 4 requests cylinder 50, which is under the head.
wait 4 1 50 | | It waits for the other sweep, so that such requests can’t hold the head.
enter 5 | | Place 5 requests cylinder 60.
wait 5 0 60 | | It waits for the upsweep, after place 2.
enter 0 | | Place 0 calls release.
queue 0 | drive=in | It puts the drive in. Does any request wait for the present sweep?
pass 0 0 | | One does, so it signals upsweep.
leave 2 | drive=out head=60 due=1 | Place 2 takes the drive out, at 60. One more request is due there.
enter 2 | | Place 2 calls release.
queue 0 | drive=in | It puts the drive in, and asks again for the present sweep.
pass 2 0 | | A request waits, so it signals upsweep.
leave 5 | drive=out due=0 | Place 5 takes the drive out. The head is at 60 already.
enter 5 | | Place 5 calls release.
queue 0 | drive=in | It puts the drive in.
pass 5 0 | | A request waits, so it signals upsweep.
leave 1 | drive=out head=70 | Place 1 takes the drive out, at 70.
enter 1 | | Place 1 calls release.
queue 0 | drive=in | It puts the drive in. No request waits for the upsweep.
pass 1 1 | sweep=down | So the head turns, and it signals downsweep.
leave 4 | drive=out head=50 | Place 4 takes the drive out, at 50.
enter 4 | | Place 4 calls release.
queue 1 | drive=in | It puts the drive in.
pass 4 1 | | A request waits, so it signals downsweep.
leave 3 | drive=out head=20 | Place 3 takes the drive out, at 20.
enter 3 | | Place 3 calls release.
queue 1 | drive=in | It puts the drive in. No request waits for the downsweep.
pass 3 0 | sweep=up | So the head turns. No place waits, so the pass is a plain leave.`),
};

const READERS = {
    id: "readers", title: "Readers and writers", scheduler: SCHEDULERS.READERS,
    labels: { places: ["writer 0", "reader 1", "reader 2", "writer 3"] },
    about: one_line(`Readers share, a writer is alone; both read and write outside the monitor. No reader overtakes
        a waiting writer, and the readers that wait when a writer ends go before the next writer.`),
    ...told(`
monitor 4 2 | readers=0 writer=out
enter 0 | | Writer 0 calls start_write. Nobody reads or writes.
leave 0 | writer=in | It is in as the writer.
enter 1 | | Reader 1 calls start_read. A writer is in.
wait 1 0 0 | | So it waits on oktoread.
enter 3 | | Writer 3 calls start_write.
wait 3 1 0 | | It waits on oktowrite.
enter 2 | | Reader 2 calls start_read.
wait 2 0 0 | | It waits on oktoread, after reader 1.
enter 0 | | Writer 0 calls end_write.
queue 0 | writer=out | It is out. Does any process wait to read?
pass 0 0 | | One does, so it signals oktoread.
pass 1 0 | readers=1 | Reader 1 is in, and resumes the next reader.
pass 2 0 | readers=2 | Reader 2 is in. No reader waits, so the pass is a plain leave.
enter 1 | | Reader 1 calls end_read.
leave 1 | readers=1 | A reader is still in, so no writer may resume.
enter 1 | | Reader 1 calls start_read again.
queue 1 | | Does a writer wait?
wait 1 0 0 | | One does, so it waits on oktoread.
enter 2 | | Reader 2 calls end_read.
pass 2 1 | readers=0 | It was the last reader, so it signals oktowrite.
leave 3 | writer=in | Writer 3 is in.
enter 3 | | Writer 3 calls end_write.
queue 0 | writer=out | It is out. Does any process wait to read?
pass 3 0 | | One does, so it signals oktoread.
pass 1 0 | readers=1 | Reader 1 is in. No reader waits.
enter 1 | | Reader 1 calls end_read.
pass 1 1 | readers=0 | It was the last reader. No writer waits.`),
};

// The same story under both rules. At the broadcast, and at the notify, the condition is true; it is false when place 1
// resumes.
const BESIDE_MESA = {
    id: "mesa", title: "Hoare beside Mesa", scheduler: SCHEDULERS.SINGLE,
    about: one_line(`Two processes wait for one item. Hoare: a signal resumes a waiter at once, and the waiter finds
        the item in. Mesa: a notified waiter resumes later. After the broadcast another waiter has taken the item by
        then; after the notify the notifier itself has. Each waiter has to test again.`),
    hoare_title: "With a Hoare condition",
    ...told(`
monitor 4 1 | item=out
enter 0 | | Place 0 needs the item. It is out.
wait 0 0 0 | | So it waits.
enter 1 | | Place 1 needs the item too.
wait 1 0 0 | | It waits.
enter 2 | | Place 2 brings the item back.
signal 2 0 | item=in | It puts the item in, and signals. Place 0 is inside at once, and finds the item in.
enter 3 | | Place 3 can’t enter: the monitor isn’t free.
leave 0 | item=out | Place 0 takes the item out. An “if” around its wait is enough. Place 2 returns.
leave 2 | | Place 1 still waits, and the cause of its wait still holds: the item is out.
enter 0 | | Place 0 brings the item back.
signal 0 0 | item=in | It puts the item in, and signals. Place 1 is inside at once, and finds the item in.
leave 1 | item=out | Place 1 takes the item out. Place 0 returns.
wait 0 0 0 | | Place 0 needs the item again. It is out, so place 0 waits.`),
    twin: {
        title: "With a Mesa condition", scheduler: SCHEDULERS.MESA_SINGLE,
        ...told(`
monitor 4 1 1 | item=out
enter 0 | | Place 0 needs the item. It is out.
wait 0 0 0 | | So it waits.
enter 1 | | Place 1 needs the item too.
wait 1 0 0 | | It waits.
enter 2 | | Place 2 brings the item back.
broadcast 2 0 | item=in | It puts the item in, and notifies both. What they wait for is true now.
leave 2 | | Place 0 resumes. The item is still in.
enter 3 | | Place 3 can’t enter: the notified resume first. With POSIX or Java conditions it could have entered before
    place 0, and taken the item.
leave 0 | item=out | Place 0 takes the item out, and place 1 resumes. What it was notified of was true then, and is
    false now. If it had tested with “if”, it would take an item that is gone.
wait 1 0 0 | | Its wait is in a loop: it tests again, and waits again.
enter 0 | | Place 0 brings the item back.
notify 0 0 | item=in | It puts the item in, and notifies place 1. What place 1 waits for is true now, but place 0 stays
    inside.
leave 0 | item=out | Place 0 needs the item again, and takes it out before it leaves. Place 1 resumes, and what it waits
    for is false again.
wait 1 0 0 | | It waits again. Hoare’s signal would have given it the item.`),
    },
};

export const GROUPS = [
    { title: "Short scripts", examples: [...RULES, BESIDE_MESA] },
    { title: "Hoare’s six schedulers", examples: [SINGLE, BUFFER, ALARM, POOL, HEAD, READERS] },
];
export const EXAMPLES = GROUPS.flatMap((it) => it.examples);
