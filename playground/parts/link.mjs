// The part of the page's address after "#": an example's name or a script, and a step. In a script "_" is a space and
// ";" is the end of a line; these two characters themselves are written as "%5F" and "%3B".
import { lines_of } from "./script.mjs";

// Returns the address of the example `id`, or of the script `text` if there is none, after `at` steps.
export function address_of({ id, text, at }) {
    const line = (it) => encodeURIComponent(it.toWellFormed()).replaceAll("_", "%5F").replaceAll("%20", "_");
    return `#${id ? `e=${id}` : `s=${lines_of(text).map(line).join(";")}`}&at=${at}`;
}

// Returns { id, text, at } of an address: `id` or `text` is undefined. Returns null if the address names neither, or
// isn't well formed.
export function read_address(hash) {
    const entry = (it) => [it.split("=", 1)[0], it.slice(it.indexOf("=") + 1)];
    const said = new Map(hash.slice(1).split("&").map(entry));
    if (!said.has("e") && !said.has("s")) return null;
    const line = (it) => decodeURIComponent(it.replaceAll("_", " "));
    const at = Math.trunc(Number(said.get("at"))) || 0;
    try {
        return { id: said.get("e"), text: said.get("s")?.split(";").map(line).join("\n"), at };
    } catch {
        return null;
    }
}
