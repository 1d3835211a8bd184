"""Rounds of trials: what passes is chosen, written, checked once more, and put back where it fails there."""

from __future__ import annotations

import json
import re
from pathlib import Path

from make.shorten.bodies import merged
from make.shorten.checks import Asked, Fault, Said, Trial, check
from make.shorten.proofs import Proofs
from make.shorten.reading import lemmas_of, whole_word
from make.shorten.tactics import Made


def best_of(made: list[Made], seen: set[tuple[str, str]]) -> Made | None:
    """The shortest copy of a lemma among those that passed, where it is shorter than the lemma."""
    found = [it for it in made if it.kind not in ("merge", "without")]
    one = merged(made[0].lemma, [it for it in made if it.kind == "merge"])
    if one is not None and one.text not in seen:
        found.append(one)
    best = min(found, key=lambda it: (len(it.lines), it.cost), default=None)
    return best if best is not None and len(best.lines) < len(best.lemma.lines) else None


def without_some(passed: list[Made], taken: set[tuple[Path, str]]) -> list[Made]:
    """Copies by which small lemmas are cited nowhere any more, of lemmas that aren't taken."""
    groups: dict[str, dict[tuple[Path, str], Made]] = {}
    for it in passed:
        if it.without:
            here = groups.setdefault(it.without.name, {})
            if it.lemma.key not in here or it.cost < here[it.lemma.key].cost:
                here[it.lemma.key] = it
    chosen: list[Made] = []
    for here in sorted(groups.values(), key=len):
        said = [it.without for it in here.values() if it.without]
        longer = sum(len(it.lines) - len(it.lemma.lines) for it in here.values())
        if not taken & set(here) and longer < 2 and sum(it.here for it in said) == said[0].everywhere:
            chosen += here.values()
            taken |= set(here)
    return chosen


def choose(passed: list[Made], seen: set[tuple[str, str]]) -> list[Made]:
    """One copy for each lemma that gets shorter."""
    by_lemma: dict[tuple[Path, str], list[Made]] = {}
    for it in passed:
        by_lemma.setdefault(it.lemma.key, []).append(it)
    chosen = [best for made in by_lemma.values() if (best := best_of(made, seen))]
    return chosen + without_some(passed, {it.lemma.key for it in chosen})


def put(before: dict[Path, str], chosen: list[Made]) -> None:
    """Writes the files as they were before, with the chosen copies in them. Grind's bound was for the trial alone."""
    for path, text in before.items():
        lines = text.split("\n")
        for it in sorted((it for it in chosen if it.lemma.path == path), key=lambda it: -it.lemma.first):
            unbound = re.sub(r"\s+steps\s+\d+", "", "\n".join(it.lines))
            lines[it.lemma.first : it.lemma.end] = it.lemma.laid_in(unbound.split("\n"))
        path.write_text("\n".join(lines), encoding="utf-8")


def restore(before: dict[Path, str]) -> None:
    for path, text in before.items():
        path.write_text(text, encoding="utf-8")


class Rounds:
    """The rounds of one crate."""

    def __init__(self, asked: Asked, anew: bool) -> None:
        self.asked, self.proofs = asked, Proofs(asked.root, asked.crate)
        self.failed = asked.work / "failed.json"
        self.seen: set[tuple[str, str]] = set()
        asked.work.mkdir(parents=True, exist_ok=True)
        if self.failed.is_file() and not anew:
            try:
                self.seen = {(name, text) for name, text in json.loads(self.failed.read_text(encoding="utf-8"))}
            except ValueError:
                raise Fault(f"{self.failed} can't be read: --anew begins without it") from None

    def keep_failed(self) -> None:
        self.failed.write_text(json.dumps(sorted(self.seen)), encoding="utf-8")

    def run(self, rounds: int, dry: bool) -> None:
        """Rounds until nothing changes, or so many."""
        for turn in range(rounds):
            chosen = choose(Trial(self.asked, self.proofs, self.seen).passed(), self.seen)
            self.keep_failed()
            for it in chosen:
                what = f"without {it.without.name}" if it.without else it.kind
                print(f"  {it.lemma.path.name} {it.lemma.name}: {what}, {len(it.lemma.lines)} to {len(it.lines)} lines", flush=True)
            if not chosen or dry:
                return
            was, texts = self.proofs.count(), self.proofs.texts()
            try:
                live, said = self.write(chosen)
                said = self.drop(said)
            except BaseException:
                restore(texts)
                raise
            finally:
                self.keep_failed()
            print(f"round {turn + 1}: {was} to {self.proofs.count()} lines, checked in {said.seconds:.0f} s", flush=True)
            if not live:
                return

    def write(self, chosen: list[Made]) -> tuple[list[Made], Said]:
        """Writes what is chosen, except for what the crate's own check refuses."""
        texts = self.proofs.texts()
        before, live = {it.lemma.path: texts[it.lemma.path] for it in chosen}, list(chosen)
        while True:
            put(before, live)
            said = check(self.asked, self.proofs.folder, "kept-real")
            if said.status == 0:
                return live, said
            bad = self.refused(said, live) or self.cited(said, live)
            if not bad:
                raise Fault(f"the check fails elsewhere, and all of this round is put back: {said.text.strip()[-1000:]}")
            for it in bad:
                print(f"  put back: {it.lemma.name} ({it.kind})", flush=True)
                self.seen.add(it.text)
            live = [it for it in live if it not in bad]

    def refused(self, said: Said, live: list[Made]) -> list[Made]:
        """Those of the copies of which the check tells an error."""
        wrong: set[tuple[Path, str]] = set()
        paths = {it.lemma.path for it in live}
        for error in said.errors():
            path = self.proofs.folder / error.file
            if error.is_own and path in paths:
                wrong |= {it.key for it in lemmas_of(path) if it.first < error.line <= it.end}
        return [it for it in live if it.lemma.key in wrong]

    def cited(self, said: Said, live: list[Made]) -> list[Made]:
        """Those of the copies whose lemmas are cited where the check tells an error: what cites them computed with the old text."""
        citing = []
        for error in said.errors():
            path = self.proofs.folder / error.file
            if error.is_own and path.is_file():
                citing += [it for it in lemmas_of(path) if it.first < error.line <= it.end]
        return [it for it in live if any(whole_word(it.lemma.name).search("\n".join(lemma.lines)) for lemma in citing)]

    def drop(self, said: Said) -> Said:
        """Takes out what nobody cites any more, and checks that."""
        gone = self.proofs.drop()
        if not gone:
            return said
        print(f"  cited no more: {', '.join(gone)}", flush=True)
        said = check(self.asked, self.proofs.folder, "kept-real")
        if said.status:
            raise Fault(f"without what nobody cites the check fails, and all of this round is put back: {said.text.strip()[-1000:]}")
        return said
