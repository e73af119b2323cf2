// Counts checks, and prints those that fail.
const MOST_SHOWN = 8;
const spelled = (it) => JSON.stringify(it, (_, value) => (typeof value === "bigint" ? `${value}` : value));

export class Checks {
    passed = 0;
    failed = 0;

    is(is_good, what) {
        if (is_good) this.passed += 1;
        else this.failed += 1;
        if (!is_good && this.failed <= MOST_SHOWN) console.log(`FAILED ${what}`);
    }

    same(got, wanted, what) {
        this.is(spelled(got) === spelled(wanted), `${what}: ${spelled(got)}, and not ${spelled(wanted)}`);
    }

    // Prints a line, and ends the program: with status 0 if something was checked and nothing failed.
    end(what) {
        console.log(`playground: ${what}: ${this.passed} passed, ${this.failed} failed`);
        process.exit(this.failed === 0 && this.passed > 0 ? 0 : 1);
    }
}
