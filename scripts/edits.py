#!/usr/bin/env python3
"""Tries the wrong bodies of crates/*/must-fail, many in one check, and prints which are refused, and last `N passed, M failed`.

usage: scripts/edits.py [NAME..]
       scripts/edits.py --follow JOBS FOLDER
       scripts/edits.py --fits

It tries those of the crates that are named, or of all. The crates' libraries are those that `rt ci` leaves in crates/NAME/out. With --follow the
output of `rt ci` comes on standard input, and the edits of a crate, which are in its folder FOLDER, are tried once it is proved or its proof was kept:
those of two crates side by side as long as `rt ci` runs, and then of JOBS; else of as many as there are processors, up to four. With --fits nothing is tried: the status
is 0 if the kit is one that this script knows, else 1.

`rt must-fail` checks the whole crate for each edit, and most of such a check is the same each time. Here the edits of a crate that change different
functions are made in one copy of it, and checked together. A function is proved from its own body and from the contracts of what it calls, so its
goals are those that it has where its edit is made alone. The check names the functions of which a goal of their own isn't proved, and an edit is
refused if the function that it changes is among them. Edits of one function are in checks one after the other. Where the output of `rt ci` tells the
names of a crate's functions, only those that are changed are checked, and what they call.

An edit is tried alone if it changes something else than functions, such as a table; then the functions of its file are checked. So is one of a
function in a cycle of calls, whose proof is that of the cycle. `rt must-fail`'s own way is taken for an edit that isn't found refused so, and for all
edits of a check in which a function fails that none of them changes. At the end the functions without edits must be proved over what the checks kept.

The status is 0 if every edit is refused, 1 if one isn't, and 2 if a name is that of no crate with edits.
"""
import importlib.machinery
import importlib.util
import inspect
import os
import re
import shutil
import sys
import tempfile
import threading
from concurrent.futures import ThreadPoolExecutor

ROOT = os.path.dirname(os.path.dirname(os.path.realpath(__file__)))
FLAGS = ["--jobs", "1"]
# How many crates are worked on while the checks of `rt ci` go first.
BESIDE = 2


def load_rt():
    """Returns rt as a module: it knows the words of a check, and how an edit is read and tried alone."""
    loader = importlib.machinery.SourceFileLoader("rt", os.path.realpath(shutil.which("rt") or "rt"))
    made = importlib.util.module_from_spec(importlib.util.spec_from_loader("rt", loader))
    sys.dont_write_bytecode = True
    loader.exec_module(made)
    made.rtlib.Crate = made.Crate
    made.Crate.cuts_libraries = True
    return made


rt = load_rt()


def fits():
    """Returns whether this kit's rt has what is called here, as it is called."""
    wanted = {"checked": 4, "must_fail": 4, "unread": 2, "handles_of": 1}
    has = lambda name, count: callable(getattr(rt, name, None)) and len(inspect.signature(getattr(rt, name)).parameters) == count
    return sys.version_info >= (3, 9) and all(has(*it) for it in wanted.items()) and hasattr(rt.rtlib, "crates_below") and hasattr(rt.rtlib, "guarded")


FUNCTION = re.compile(r"(?m)^( *)(?:pub(?:\([^)]*\))? )?(?:const )?(?:unsafe )?fn (\w+)")
OF_TYPE = re.compile(r"(?m)^impl(?:<.*?>)? (\w+)(?:<.*>)? (?:\{|where)")
SEARCHED = re.compile(r"(?m)^fn (\S+): no proof: expected answers in .*; `search` did not prove ")
ANSWERED = re.compile(r"(?m)^fn (\S+): not proved\b")
UNPROVED = re.compile(r"(?m)^fn \S+: (?:no proof|not proved).*$")
# What a function's own proof says of it. An error that only names what isn't proved is about another function.
OWN_ERROR = r"(?m)^(?:\./)?proofs/{}/\w+\.antt:\d+:\d+: error: (?!.*was not admitted).*$"
LOST_NAMES = re.compile(r"has no field|is not in scope|has no `")


def function_at(text, path, at):
    """Returns the function in whose text this place is, by its file, its type where it is one of a type's own, and its name; None if there is none, or
    it is one of a cycle of calls."""
    found = None
    for found in FUNCTION.finditer(text, 0, at):
        pass
    if not found or at > text.find(f"\n{found[1]}}}", found.start()):
        return None
    if "#[cycle(" in text[: found.start()].rpartition("\n\n")[2]:
        return None
    block = OF_TYPE.match(text, text.rfind("\nimpl", 0, found.start()) + 1) if found[1] else None
    return path, block[1] if block else "", found[2]


class Edit:
    """An edit: its file, its pairs of texts, and the functions that it changes; none if it changes something else."""

    def __init__(self, file, crate):
        self.file, self.name, self.pairs, self.functions = file, f"{crate.name}/{os.path.basename(file)}", [], set()
        path = old = ""
        with open(file, encoding="utf-8") as lines:
            for line in lines.read().split("\n"):
                if line.startswith("file: "):
                    path = line[len("file: ") :].strip()
                elif line.startswith("old: "):
                    old = line[len("old: ") :]
                elif line.startswith("new:"):
                    self.pairs.append((path, old, line[len("new:") :].removeprefix(" ")))
        for path, old, _ in self.pairs:
            with open(f"{crate.folder}/{path}", encoding="utf-8") as it:
                text = it.read()
            # (the text that a later pair changes may be made by an earlier one)
            if old in text:
                self.functions.add(function_at(text, path, text.find(old) + len(old)))
        if None in self.functions:
            self.functions = set()

    def made_in(self, texts, folder):
        """Returns these texts of files with the edit made in them, or None if an old text doesn't stand there once."""
        made = dict(texts)
        for path, old, new in self.pairs:
            if path not in made:
                with open(f"{folder}/{path}", encoding="utf-8") as it:
                    made[path] = it.read()
            if made[path].count(old) != 1:
                return None
            made[path] = made[path].replace(old, new)
        return made


def module_of(path, crate):
    """Returns the names of the module that is in this file, the crate's first."""
    names = path.removeprefix("src/").removesuffix(".rt").split("/")
    return [crate.name, *(names if names not in (["lib"], ["main"]) else [])]


def is_in(function, module):
    """Returns whether the name by which a check calls a function is that of one in this module."""
    return function.split("::")[: len(module)] == module


def is_of(function, changed, crate):
    """Returns whether the name by which a check calls a function is that of one that is changed. A type's own functions have the type's path, in
    whatever file they are, and others that of their file."""
    path, owner, name = changed
    names, module = function.split("::"), module_of(path, crate)
    if is_in(function, module) and name in names[len(module) :]:
        return True
    return owner in names and name in names[names.index(owner) + 1 :]


def are_alike(one, other):
    """Returns whether two functions could be taken for one another by their names."""
    return one[2] == other[2] and (one[0] == other[0] or one[1] == other[1] != "")


def own_failures(said):
    """Returns the functions of which a goal of their own isn't proved, each with the line that says so."""
    failed = {it[1]: it[0] for it in SEARCHED.finditer(said)}
    for it in ANSWERED.finditer(said):
        errors = re.findall(OWN_ERROR.format(re.escape("/".join(it[1].split("::")[1:]))), said)
        if errors:
            failed[it[1]] = min(errors, key=lambda error: bool(LOST_NAMES.search(error)))
    return failed


def refused(line):
    """Returns what is said of an edit that is refused with this line of the prover."""
    weak = " (only because a proof file names what the edit took away: change a value and keep the names)" if LOST_NAMES.search(line) else ""
    return f"refused, as it must be{weak}: {line[:160]}"


class Trial:
    """The edits of a crate in a folder of it, and what is said of each. `known` are the names of the crate's functions, where they are known."""

    def __init__(self, crate, folder):
        self.crate, at = crate, f"{crate.folder}/{folder}"
        names = sorted(os.listdir(at)) if os.path.isdir(at) else []
        self.edits = [Edit(f"{at}/{it}", crate) for it in names if not it.endswith(".md")]
        self.known, self.lines, self.failed, self.checks = [], [], 0, 0

    def say(self, edit, is_refused, text):
        self.lines.append(f"must-fail {edit.name}: {text}")
        self.failed += not is_refused

    def beside(self, path):
        """Returns the names of the functions in a file's module, or in the nearest one around it that has some."""
        module = module_of(path, self.crate)
        while module and not any(is_in(it, module) for it in self.known):
            module.pop()
        return [it for it in self.known if is_in(it, module)]

    def named(self, edits):
        """Returns the names of the functions that these edits change, or that are beside what they change."""
        changed = [it for edit in edits for it in edit.functions]
        beside = {it for edit in edits if not edit.functions for path, _, _ in edit.pairs for it in self.beside(path)}
        return [it for it in self.known if it in beside or any(is_of(it, one, self.crate) for one in changed)]

    def check(self, texts, edits, kept):
        """Checks the crate with these texts; only the functions that the edits are about, where their names are known."""
        self.checks += 1
        only = [word for it in self.named(edits) for word in ("--only", it.partition("::")[2])]
        return rt.checked(self.crate, texts, [*FLAGS, *only], kept)

    def together(self, waiting):
        """Returns the edits that can be made beside one another, from the first on, and the texts with them."""
        texts, taken, edits = {}, [], []
        for edit in waiting:
            is_taken = any(are_alike(one, other) for one in edit.functions for other in taken)
            made = None if is_taken else edit.made_in(texts, self.crate.folder)
            if made is not None:
                texts, taken = made, [*taken, *edit.functions]
                edits.append(edit)
        return edits, texts

    def refusal(self, texts, edits, kept):
        """Returns what the prover says of these texts if it refuses them; nothing if it doesn't, or the check didn't come so far."""
        ran = self.check(texts, edits, kept)
        last = ran.stdout.rstrip().rpartition("\n")[2]
        if ran.returncode != 1 or not last.startswith(("logic=not-proved", "only=")) or any(rt.unread(it, texts) for it in ran.stdout.split("\n")):
            return ""
        return ran.stdout

    def try_together(self, edits, texts, kept):
        """Returns the edits that are refused beside one another, each with the line that says so; none if a function fails that none of them changes."""
        failed, found, explained = own_failures(self.refusal(texts, edits, kept)), {}, set()
        for edit in edits:
            own = [it for it in failed if any(is_of(it, one, self.crate) for one in edit.functions)]
            if own:
                found[edit] = failed[own[0]]
            explained.update(own)
        return found if explained == {*failed} else {}

    def alone(self, edit, kept):
        """Tries an edit of something else than functions, or of a function of a cycle: one of the functions beside it must not be proved."""
        texts = edit.made_in({}, self.crate.folder)
        said = self.refusal(texts, [edit], kept) if texts and self.named([edit]) else ""
        line = UNPROVED.search(said)
        if line:
            self.say(edit, True, refused(line[0]))
        else:
            self.as_rt_does(edit, kept)

    def as_rt_does(self, edit, kept):
        """Tries an edit by a check of the whole crate, and once more from nothing if it isn't refused over what was kept."""
        self.checks += 1
        is_refused, text = rt.must_fail(self.crate, edit.file, FLAGS, kept)
        if not is_refused:
            self.checks += 1
            is_refused, text = rt.must_fail(self.crate, edit.file, FLAGS)
        self.say(edit, is_refused, text.partition(": ")[2])

    def run(self):
        waiting, missed = [it for it in self.edits if it.functions], []
        with tempfile.TemporaryDirectory(prefix="edits-") as kept:
            while waiting:
                edits, texts = self.together(waiting)
                found = self.try_together(edits, texts, kept) if edits else {}
                for edit, line in found.items():
                    self.say(edit, True, refused(line))
                # (one whose old text isn't there is made beside no other, and rt says why)
                missed += [it for it in edits or waiting if it not in found]
                waiting = [it for it in waiting if it not in edits] if edits else []
            for edit in self.edits:
                if not edit.functions:
                    self.alone(edit, kept)
            for edit in missed:
                self.as_rt_does(edit, kept)
            if self.check({}, self.edits, kept).returncode:
                self.lines.append(f"must-fail {self.crate.name}: the crate itself is not proved over what its edits kept")
                self.failed += 1


def followed(lines, trials):
    """Yields the names of crates with edits as `rt ci` says that they are proved, and prints its lines on that. Notes the names of their functions."""
    for line in lines:
        line = line.rstrip("\n")
        function = re.fullmatch(r"fn ((\w+)::\S+): proved", line)
        if function and function[2] in trials:
            trials[function[2]].known.append(function[1])
        elif re.match(r"rt: .*(proved|NOT PROVED|is kept: .*)$", line):
            print(line, flush=True)
        found = re.fullmatch(r"rt: (\w+) (?:proved|is kept: .*)", line)
        if found and found[1] in trials:
            yield found[1]


def main():
    words = sys.argv[1:]
    if words == ["--fits"]:
        return 0 if fits() else 1
    os.chdir(ROOT)
    rt.rtlib.guarded()
    rt.Crate.allowed = rt.handles_of(ROOT)
    follows = words[:1] == ["--follow"]
    jobs, folder = (int(words[1]), words[2]) if follows else (min(4, len(os.sched_getaffinity(0))), "must-fail")
    trials = [Trial(it, folder) for it in rt.rtlib.crates_below(ROOT)]
    trials = {it.crate.name: it for it in trials if it.edits}
    unknown = [it for it in words if it not in trials and not follows]
    if unknown:
        print(f"{unknown[0]} is no crate with edits", file=sys.stderr)
        return 2
    room = threading.Semaphore(min(BESIDE, jobs) if follows else jobs)

    def work(trial):
        with room:
            print(f"{trial.crate.name}: trying its {len(trial.edits)} must-fail edits", flush=True)
            trial.run()
            print(f"{trial.crate.name}: its must-fail edits were tried in {trial.checks} checks, {trial.failed} failed", flush=True)

    tried = []
    with ThreadPoolExecutor(jobs) as pool:
        for name in followed(sys.stdin, trials) if follows else words or trials:
            tried.append((trials[name], pool.submit(work, trials[name])))
        for _ in range(jobs - BESIDE if follows else 0):
            room.release()
    for trial, ran in tried:
        ran.result()
        print("\n".join(trial.lines))
    untried = [it for it in trials if follows and trials[it] not in [trial for trial, _ in tried]]
    for name in untried:
        print(f"{name}: its must-fail edits were not tried, because it was not proved")
    failed = sum(trial.failed for trial, _ in tried) + len(untried)
    passed = sum(len(trial.edits) - trial.failed for trial, _ in tried)
    print(f"{passed} passed, {failed} failed")
    return 1 if failed else 0


if __name__ == "__main__":
    sys.exit(main())
