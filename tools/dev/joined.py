"""Lowers several programs at once: one crate calls the `main` of each, so that what they stand on is read and lowered a single time.

Most of a try is the front end over the kit's libraries and the crates that all programs list. So this makes a folder of crates in which each
program is a library, and one more crate, JOINED, that calls them; `rt try` compiles that crate, and the module is kept in place of running it.
A function of a program is the same text in it; tools/dev/unchecked.py takes each program out of the module again.

Python's standard library alone.
"""

from __future__ import annotations

from pathlib import Path

import kit as kits

JOINED = "joined_programs"
# What the compiler's words end with in a try.
TRIED = ["-O0", "-fsanitize=address"]
# Takes the place of clang: it keeps the module of the try and the words that it was called with, and ends the try.
KEEPER = """#!/bin/sh
for word do
    if [ "$word" = -fsanitize=address ]; then
        for each do printf '%s\\n' "$each"; done > '{room}/words'
        cp module.bc '{room}/module.bc'
        exit 1
    fi
done
exec '{clang}' "$@"
"""
HEAD = "\nfn main(rt: HostRuntime) -> ExitCode {\n"


def entry(names: list[str]) -> str:
    """Returns the source of the crate that calls each program. It is never run, so the conditions only keep each call in the module."""
    branches = [f"if env::args(&rt).is_err() {{\n        {name}::main(rt)\n    }} else " for name in names[:-1]]
    body = "".join(branches) + (f"{{\n        {names[-1]}::main(rt)\n    }}" if branches else f"{names[-1]}::main(rt)")
    return f"#![tactic(auto)]\n\nuse std::env;\nuse std::process::ExitCode;\n{HEAD}    {body}\n}}\n"


def crates(top: Path, names: list[str], at: Path) -> Path:
    """Makes the folder of crates at `at`, and returns that of the crate to try."""
    listed = kits.crates(top)
    lines = []
    for name in kits.below(listed, *names):
        lines.append(f"{name}: {' '.join(listed[name])}")
        source, made = top / "crates" / name / "src", at / "crates" / name
        made.mkdir(parents=True)
        if name not in names:
            (made / "src").symlink_to(source)
            continue
        (made / "src").mkdir()
        for part in source.iterdir():
            if part.name != "main.rt":
                (made / "src" / part.name).symlink_to(part)
        main = (source / "main.rt").read_text(encoding="utf-8")
        if main.count(HEAD) != 1:
            raise kits.Failed(f"crates/{name}/src/main.rt has no line '{HEAD.strip()}'")
        (made / "src" / "lib.rt").write_text(main.replace(HEAD, HEAD.replace("\nfn", "\npub fn")), encoding="utf-8")
    made = at / "crates" / JOINED
    (made / "src").mkdir(parents=True)
    (made / "src" / "main.rt").write_text(entry(names), encoding="utf-8")
    (at / "crates.txt").write_text("\n".join([*lines, f"{JOINED}: {' '.join(names)}", ""]), encoding="utf-8")
    return made


def lowered(top: Path, kit: Path, names: list[str], room: Path) -> tuple[list[str], Path]:
    """Returns the words for clang and the file of the module that a try of the joined crate makes."""
    keeper = KEEPER.format(room=room, clang=kit / "toolchain/bin/clang")
    made = kits.links(kit, room, {"toolchain/bin/clang": keeper})
    tried = kits.run([made / "bin/rt", "try"], cwd=crates(top, names, room / "top"))
    if not (room / "words").is_file():
        raise kits.Failed(f"`rt try` does not compile {', '.join(names)}:\n{tried.text().strip()}")
    words = (room / "words").read_text(encoding="utf-8").splitlines()
    if words[-len(TRIED):] != TRIED or "module.bc" not in words:
        raise kits.Failed(f"this kit calls clang in another way than the one that this script was written for: {' '.join(words)}")
    return words[:-len(TRIED)], room / "module.bc"
