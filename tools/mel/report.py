#!/usr/bin/env python3
"""Makes one HTML page of a campaign: verdicts, failed expectations, sweeps as pictures, explored states, and links to coverage.

    tools/mel/report.py FOLDER [--decks FOLDER] [--title TEXT] > REPORT.html

FOLDER is a campaign as docs/LABORATORY.md makes it: `JOB.verdicts` with a line `STATUS DECK` for each run, and what that run wrote at
`DECK.JOB`, where JOB is expect, sweep, explore or prove. Decks are looked for from the working folder on, or from --decks. Coverage is linked if
it lies in FOLDER: `coverage/index.html`, and LCOV records `DECK.cover` or `DECK.info`. The page stands alone: it has no script, and loads
nothing.

If a deck has a draft of its name beside it, a dump that was not as expected names its bytes, as `meldesk names` has them.

It needs Python 3.9. It ends with 1 if a job did not hold, and with 2 if it cannot read what it is given or a text is of another deck.
"""

import argparse
import json
import sys
from html import escape
from pathlib import Path
from typing import Dict, Iterator, List, Tuple

import card
import fits
import labtexts
import prove_html
import sweep_svg
from labtexts import BadText, Job
from tear import Names, name_at

JOBS = ("expect", "sweep", "explore", "prove")
STYLE = """
:root { color-scheme: light; }
body { font: 15px/1.5 system-ui, sans-serif; color: #222; background: #fff; max-width: 1180px; margin: 0 auto; padding: 16px; }
h1 { font-size: 1.5em; } h2 { font-size: 1.2em; border-bottom: 1px solid #ddd; margin-top: 2em; } h3 { font-size: 1em; margin: 1em 0 .3em; } p { margin: .2em 0; }
.wide { overflow-x: auto; }
table { border-collapse: collapse; } th, td { text-align: left; padding: 4px 12px; border-bottom: 1px solid #e5e5e5; vertical-align: top; }
code, pre, td.text { font: 13px/1.4 monospace; } pre { background: #f6f6f6; padding: 8px; overflow-x: auto; }
.good { color: #1d6b2a; } .bad { color: #a01b1b; font-weight: 600; } .look { color: #8a5200; }
.sums { display: flex; flex-wrap: wrap; gap: 8px 32px; padding: 0; list-style: none; } .sums b { font-size: 1.4em; margin-right: .3em; }
svg { display: block; }
"""
GOOD, LOOK, BAD = "good", "look", "bad"


def count_of(count: int, what: str) -> str:
    """A number of things."""
    return f"{count} {what}" if count == 1 else f"{count} {what}s"


def explored_verdict(text: labtexts.Text) -> Tuple[str, str]:
    """What is said of an exploration: that it is not all, or that a rule fits nothing, wants a look."""
    sums = text.last.partition(" ")[2]
    if text.broken:
        return f"broken: {text.broken}", BAD
    if text.silent:
        return f"{sums}, {count_of(len(text.silent), 'rule')} silent", LOOK
    return sums, GOOD if sums.endswith("all") else LOOK


def verdict(job: Job) -> Tuple[str, str]:
    """What is said of a job in a few words, and whether it is good."""
    text = job.text
    if text.refused is not None:
        return f"refused: line {text.refused[0]} {text.refused[1]}{labtexts.draft_hint(text.refused, job.lines)}", BAD
    if job.status not in (0, 1, 6) or text.kind == "" or not text.is_whole:
        meaning = labtexts.MEANINGS.get(job.status, "ended by a signal")
        return f"status {job.status}: {meaning}" if job.status not in (0, 1, 6) else "its text has no end", BAD
    if text.kind == "expect":
        count = text.last.split()[1]
        return (f"{len(text.failed)} of {count} failed", BAD) if text.failed else (f"{count} held", GOOD)
    if text.kind == "explore":
        return explored_verdict(text)
    if text.kind == "prove":
        return (text.last, GOOD) if text.last.startswith("proved") else (f"{text.last}: {count_of(len(text.unproved), 'line')}", BAD)
    torn, between = (sum(it.has(word) for it in text.swept) for word in ("torn", "between"))
    broken = sum(it.is_broken for it in text.swept)
    if torn or broken:
        return f"{count_of(torn, 'line')} torn" if torn else f"{count_of(broken, 'line')} not whole", BAD
    if text.unswept:
        return f"{count_of(len(text.unswept), 'mark')} of no swept line", BAD
    lines = f"{count_of(len(text.swept), 'line')}, {count_of(sum(it.writes for it in text.swept), 'write')}"
    return (f"{lines}, {between} between", LOOK) if between else (lines, GOOD)


def coverage_of(folder: Path, stem: str) -> str:
    """A link to the coverage of a deck, with its sums, or nothing."""
    found = next((it for it in (folder / f"{stem}.cover", folder / f"{stem}.info") if it.is_file()), None)
    if found is None:
        return ""
    hits = [line[3:].split(",")[1] for line in found.read_text(encoding="utf-8").splitlines() if line.startswith("DA:")]
    return f'<a href="{escape(found.name)}">{sum(hit != "0" for hit in hits)} of {count_of(len(hits), "line")}</a>'


def table(jobs: List[Job], folder: Path) -> Iterator[str]:
    """The verdicts, a row for each deck."""
    by_deck: Dict[str, Dict[str, Job]] = {}
    for job in jobs:
        by_deck.setdefault(job.deck, {})[job.name] = job
    names = [name for name in JOBS if any(job.name == name for job in jobs)]
    covers = {deck: coverage_of(folder, Path(deck).stem) for deck in by_deck}
    heads = ["deck", *names, *(["coverage"] if any(covers.values()) else [])]
    yield '<div class="wide"><table><tr>' + "".join(f"<th>{escape(head)}</th>" for head in heads) + "</tr>"
    for deck, found in by_deck.items():
        yield f"<tr><td><code>{escape(deck)}</code></td>"
        for name in names:
            said, kind = verdict(found[name]) if name in found else ("", GOOD)
            link = f'<a class="{kind}" href="#{escape(found[name].stem)}.{name}">{escape(said)}</a>' if name in found else ""
            yield f"<td>{link}</td>"
        yield (f"<td>{covers[deck]}</td>" if any(covers.values()) else "") + "</tr>"
    yield "</table></div>"


def head_of(job: Job) -> str:
    """The head of what is said of a job."""
    said, kind = verdict(job)
    # What holds has nothing more to show than a line, but for a picture.
    tag = "p" if kind == GOOD and job.name == "expect" else "h3"
    return f'<{tag} id="{escape(job.stem)}.{job.name}"><code>{escape(job.deck)}</code>: <span class="{kind}">{escape(said)}</span></{tag}>'


def names_by_aid(job: Job) -> Dict[str, Names]:
    """The names of static bytes by application, if the deck has a draft of its name beside it."""
    draft = job.source.with_suffix(".draft")
    found: Dict[str, Names] = {}
    for it in card.names_of(card.text_of(draft)) if draft.is_file() else []:
        if it.get("register") == "SB":
            found.setdefault(it["aid"], []).append((it["offset"], it["size"], it["name"]))
    return found


def names_in(failed: labtexts.Failed, names: Dict[str, Names]) -> str:
    """The names of the bytes at which a dump is not as expected, if the draft names any."""
    fields, wanted, was = failed.statement.split(), failed.wanted.replace(" ", "").lower(), failed.was.replace(" ", "").lower()
    if fields[:1] != ["dump"] or not wanted.startswith("static") or len(wanted) != len(was):
        return ""
    places = [place for place in range((len(was) - 6) // 2)
              if any(a not in ("?", b) for a, b in zip(wanted[6 + 2 * place:8 + 2 * place], was[6 + 2 * place:8 + 2 * place]))]
    return ", ".join(dict.fromkeys(name_at(place, names.get(fields[1].upper(), [])) for place in places))


def expectations(job: Job) -> Iterator[str]:
    """The failed expectations of a deck."""
    if job.text.failed:
        names = names_by_aid(job)
        head = "<th>bytes</th>" if names else ""
        yield f'<div class="wide"><table><tr><th>line</th><th>statement</th><th>expected</th><th>was</th>{head}</tr>'
        for number, failed in sorted(job.text.failed.items()):
            shown = (failed.statement, failed.wanted, failed.was, *([names_in(failed, names)] if names else []))
            cells = "".join(f'<td class="text">{escape(it)}</td>' for it in shown)
            yield f"<tr><td>{number}</td>{cells}</tr>"
        yield "</table></div>"


def sweeps(job: Job) -> Iterator[str]:
    """The picture of a sweep."""
    if job.text.swept:
        yield '<div class="wide">'
        yield from sweep_svg.picture(job.text.swept, job.text.last if job.text.is_whole else None, job.lines)
        yield "</div>"


def states(depths: List[Tuple[int, int]]) -> Iterator[str]:
    """The new states of each depth, as a picture."""
    most, step, height = max(count for _, count in depths), 34, 120
    width = 20 + step * len(depths)
    yield (f'<div class="wide"><svg width="{width}" height="{height + 40}" viewBox="0 0 {width} {height + 40}" font-family="monospace" '
           'font-size="11">')
    for place, (depth, count) in enumerate(depths):
        x, tall = 10 + step * place, round(height * count / max(most, 1))
        yield (f'<rect x="{x}" y="{16 + height - tall}" width="{step - 8}" height="{tall}" fill="#4c78a8">'
               f"<title>depth {depth}: {count} new states</title></rect>")
        yield f'<text x="{x + (step - 8) // 2}" y="{12 + height - tall}" text-anchor="middle">{count}</text>'
        yield f'<text x="{x + (step - 8) // 2}" y="{height + 32}" text-anchor="middle" fill="#777">{depth}</text>'
    yield "</svg></div>"


def explored(job: Job) -> Iterator[str]:
    """The states that were explored, and the lines that break a rule."""
    if job.text.depths:
        yield "<p>New states at each depth.</p>"
        yield from states(job.text.depths)
    if job.text.path:
        yield "<p>These lines behind the deck break it.</p>"
        yield "<pre>" + escape("\n".join(job.text.path)) + "</pre>"
    for number in job.text.silent:
        rule = job.lines[number - 1] if number <= len(job.lines) else ""
        yield f'<p class="{LOOK}">No event of any try fits line {number}: <code>{escape(rule)}</code></p>'


def proved(job: Job) -> Iterator[str]:
    """The rules that were not proved, with the ways to them, and the keys between commands as a matrix."""
    text = labtexts.read(str(job.path)) if job.path.is_file() else ""
    draft = job.source.with_suffix(".draft")
    yield from prove_html.faults(text)
    yield from prove_html.matrix(text, prove_html.names_in(card.text_of(draft)) if draft.is_file() else [])


def mutants(folder: Path) -> Iterator[str]:
    """The mutants that survived, by line, of each draft for which `tools/mel/mutate.py --into` left a record."""
    for path in sorted(folder.glob("*.mutants")):
        rows = [json.loads(line) for line in labtexts.read(str(path)).splitlines()]
        left = [it for it in rows if it["found"] is None]
        yield (f'<h3><code>{escape(path.stem)}</code>: <span class="{LOOK if left else GOOD}">{len(left)} of {len(rows)} survive</span></h3>')
        if left:
            yield '<div class="wide"><table><tr><th>line</th><th>instruction</th><th>changed</th><th>why no job found it</th></tr>'
            for it in left:
                cells = "".join(f'<td class="text">{escape(it[key])}</td>' for key in ("text", "what", "reason"))
                yield f"<tr><td>{it['line']}</td>{cells}</tr>"
            yield "</table></div>"


SECTIONS = {"expect": ("Expectations", expectations), "sweep": ("Sweeps", sweeps), "explore": ("Explored", explored), "prove": ("Proved", proved)}


def page(title: str, jobs: List[Job], folder: Path, front: str = "") -> Iterator[str]:
    """The whole page. `front` is what stands between its sums and its verdicts."""
    kinds = [verdict(job)[1] for job in jobs]
    yield f'<!DOCTYPE html>\n<html lang="en"><head><meta charset="utf-8"><title>{escape(title)}</title>'
    yield f'<meta name="viewport" content="width=device-width, initial-scale=1"><style>{STYLE}{prove_html.STYLE}</style></head><body>'
    yield f"<h1>{escape(title)}</h1>"
    writes, decks = sum(it.writes for job in jobs for it in job.text.swept), len({job.deck for job in jobs})
    sums = [(decks, "deck" if decks == 1 else "decks", ""), (len(jobs), "run" if len(jobs) == 1 else "runs", ""),
            (writes, "write swept" if writes == 1 else "writes swept", ""),
            (kinds.count(BAD), "did not hold", BAD if BAD in kinds else GOOD)]
    yield '<ul class="sums">' + "".join(f'<li class="{kind}"><b>{count:,}</b>{what}</li>' for count, what, kind in sums) + "</ul>"
    if front:
        yield front
    if (folder / "coverage" / "index.html").is_file():
        yield '<p><a href="coverage/index.html">Coverage of all decks</a></p>'
    if jobs:
        yield from table(jobs, folder)
    for name, (head, section) in SECTIONS.items():
        found = [job for job in jobs if job.name == name]
        if found:
            yield f"<h2>{head}</h2>"
            for job in sorted(found, key=lambda job: verdict(job)[1] != BAD):
                yield head_of(job)
                yield from section(job)
    survivors = list(mutants(folder))
    if survivors:
        yield "<h2>Mutants</h2>"
        yield from survivors
    yield "</body></html>"


def main() -> int:
    words = argparse.ArgumentParser(description="Makes one HTML page of a campaign.")
    words.add_argument("folder", help="the campaign")
    words.add_argument("--decks", default=".", help="the folder from which decks are named (the working folder)")
    words.add_argument("--title", help="the title of the page")
    given = words.parse_args()
    folder = Path(given.folder)
    try:
        jobs = fits.campaign_of(folder, Path(given.decks))
    except (OSError, BadText) as error:
        print(f"report.py: {error}", file=sys.stderr)
        return 2
    labtexts.end_with_reader()
    labtexts.write("".join(f"{line}\n" for line in page(given.title or f"Campaign {folder.resolve().name}", jobs, folder)))
    return 1 if any(verdict(job)[1] == BAD for job in jobs) else 0


if __name__ == "__main__":
    sys.exit(main())
