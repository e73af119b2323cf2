#!/usr/bin/env python3
"""Prints a hash of the sources of crates and of all crates below them: tests/source_hash.py CRATE ..

What counts: the files in src, specs and proofs of each of these crates, without comments and empty lines, what a program
stores in stdin and stdout, and their lines of crates.txt. The kit's version doesn't count.

The records of the archives and the programs (tests/archives) and of the page's module (playground/build) have this
hash, and tools/program compares it.
"""
import hashlib
import pathlib
import re
import sys

CRATES = pathlib.Path(__file__).resolve().parent.parent / 'crates'
# of each language a literal in quotes, which is kept, or else a comment
COMMENTS = {'.rt': re.compile(rb'("(?:\\.|[^"\\])*"|\'(?:\\.|[^\'\\\n])\')|//[^\n]*', re.S),
            '.antt': re.compile(rb'("(?:\\.|[^"\\\n])*")|(?<!\S)--[^\n]*')}
FILE_NAME = re.compile(r'[\w-][\w.-]*')  # an editor's own files have other names
CRATE_LINE = re.compile(r'^(\w+)([^:#\n]*):([^#\n]*)', re.M)


def listed():
    """Returns, of each crate, the options before the colon of its line of crates.txt, and the libraries after it."""
    lines = CRATE_LINE.findall((CRATES.parent / 'crates.txt').read_text())
    return {crate: (options.split(), libraries.split()) for crate, options, libraries in lines}


def and_below(crates):
    """Returns the crates and all crates below them, sorted. A library that crates.txt doesn't list is the kit's."""
    lines, found, wanted = listed(), set(), set(crates)
    if wanted - lines.keys():
        sys.exit(f'source_hash: crates.txt lists no {", ".join(sorted(wanted - lines.keys()))}')
    while wanted:
        found |= wanted
        wanted = {library for crate in wanted for library in lines[crate][1]} & lines.keys() - found
    return sorted(found)


def files_of(crate):
    """Returns the names and the paths of the crate's files that count, sorted."""
    folder = CRATES / crate
    paths = [folder / 'stdin', folder / 'stdout']
    for part in ('src', 'specs', 'proofs'):
        paths += (folder / part).rglob('*')
    files = [path for path in paths if path.is_file() and FILE_NAME.fullmatch(path.name)]
    return sorted((str(path.relative_to(CRATES.parent)), path) for path in files)


def code_of(path):
    """Returns the bytes of a file without what its prover doesn't read: comments and empty lines."""
    data, comments = path.read_bytes(), COMMENTS.get(path.suffix)
    if not comments:
        return data
    lines = comments.sub(lambda found: found[1] or b'', data).splitlines()
    return b''.join(line.rstrip() + b'\n' for line in lines if line.strip())


def add(digest, name, data):
    """Adds a name and its bytes to a digest, with their length, so that no other names and bytes read the same."""
    digest.update(f'{name}\0{len(data)}\0'.encode() + data)


def hash_of_crate(crate, line):
    """Returns a hash of the crate's line of crates.txt, of its sources, specs and proofs, and of its stored run."""
    digest = hashlib.sha256()
    add(digest, crate, repr(line).encode())
    for name, path in files_of(crate):
        add(digest, name, code_of(path))
    return digest.digest()


def hash_of(crates):
    """Returns a hash of the crates and all crates below them, as it is recorded."""
    digest, lines = hashlib.sha256(), listed()
    for crate in and_below(crates):
        add(digest, crate, hash_of_crate(crate, lines[crate]))
    return digest.hexdigest()[:16]


if __name__ == '__main__':
    if len(sys.argv) < 2 or sys.argv[1].startswith('-'):
        print(__doc__.strip())
        sys.exit(0 if sys.argv[1:] == ['--help'] else 2)
    print(hash_of(sys.argv[1:]))
