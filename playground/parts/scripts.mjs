// What is stored beside the parts, for node: the scripts of the folder examples, the module, and the style of a
// picture. `build` puts the scripts into the page in place of this file.
import { readFileSync, readdirSync } from "node:fs";
import { setFlagsFromString } from "node:v8";
import { load } from "./book.mjs";

const read = (path) => readFileSync(new URL(path, import.meta.url), "utf8");
const names = readdirSync(new URL("../../examples/", import.meta.url)).filter((it) => it.endsWith(".script"));

export const SCRIPTS = Object.fromEntries(
    names.map((it) => [it.replace(".script", ""), read(`../../examples/${it}`).trim()]),
);
export const style = () => read("picture.css");

// Returns a module, as `load` does.
export function stored(file = new URL("../book.wasm", import.meta.url)) {
    setFlagsFromString("--experimental-wasm-memory64"); // which node 20 has behind this flag
    return load(readFileSync(file));
}
