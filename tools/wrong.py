"""Wrong programs: how crates/CRATE/must-fail holds them, and what the prover says of them.

must-fail/RUN.edit holds one wrong program, named RUN; or several, each begun by a line `wrong: LABEL` and with `file:` lines of
its own. rt makes all replacements of a file at once. why/RUN.why says for which fact each is refused by itself: one line
`FILE: MESSAGE`; or for each, in the same order, `LABEL: FILE: MESSAGE`.
"""
import re
from collections import namedtuple

from sources import text

# A wrong program: its run, its label, the lines of its edit, and the file and message of its fact.
Wrong = namedtuple("Wrong", "run label lines file message")
Error = namedtuple("Error", "file line message")


# ---- runs

def blocks(edit):
    """The wrong programs of a RUN.edit, each as its label and its lines; under None what stands before the first `wrong:`."""
    found = [(None, [])]
    for line in text(edit).splitlines():
        if line.startswith("wrong: "):
            found.append((line[7:].strip(), []))
        else:
            found[-1][1].append(line)
    return found if found[1:] else [(edit.stem, found[0][1])]


def steps(lines):
    """The replacements in lines of an edit, each as file, old and new, read as rt reads them."""
    file, old, found = "", "", []
    for line in lines:
        if line.startswith("file: "):
            file = line[6:].strip()
        elif line.startswith("old: "):
            old = line[5:]
        elif line.startswith("new:"):
            found.append((file, old, line[4:].removeprefix(" ")))
            old = ""
    return found


def why_of(edit):
    return edit.parent.parent / "why" / (edit.stem + ".why")


def facts(edit, labels):
    """The file and message for each label of a RUN.edit, from its .why; None where that has another form."""
    *lines, last = text(why_of(edit)).split("\n")
    heads = [""] if labels == [None] else [label + ": " for label in labels]
    if last or len(lines) != len(heads) or not all(line.startswith(head) for line, head in zip(lines, heads)):
        return None
    found = [line[len(head):].split(": ", 1) for line, head in zip(lines, heads)]
    return found if all(len(fact) == 2 for fact in found) else None


def run_of(edit):
    """The wrong programs of a run; without facts where its .why has not the form that it must have."""
    held = blocks(edit)
    labels = [label for label, _ in held[1:]] or [None]
    said = facts(edit, labels) or [(None, None)] * len(labels)
    return [Wrong(edit.stem, label, tuple(lines), *fact) for (label, lines), fact in zip(held[1:] or held, said)]


def edits(crate):
    return sorted(crate.glob("must-fail/*.edit"))


def runs(crate):
    return {edit.stem: run_of(edit) for edit in edits(crate)}


def labels(crate):
    return [label for edit in edits(crate) for label, _ in blocks(edit) if label]


def stray(edit):
    """Whether a RUN.edit has replacements that are no wrong program's: before its first `wrong:`, or without a `file:`."""
    held = blocks(edit)
    return bool(held[1:] and steps(held[0][1])) or any(not file for _, lines in held for file, _, _ in steps(lines))


def edited(crate, held):
    """Each file that wrong programs change, applied one after the other, as it becomes."""
    became = {}
    for file, old, new in (step for wrong in held for step in steps(wrong.lines)):
        before = became.get(file, text(crate / file))
        if not old or before.count(old) != 1:
            raise ValueError(f"an 'old:' text is not in {file}, or more than once")
        became[file] = before.replace(old, new)
    if all(text(crate / file) == after for file, after in became.items()):
        raise ValueError("it changes nothing")
    return became


# ---- what the prover says

AT = re.compile(
    r"^(?:note: what antt said of .* in the proof that rattle made: )?(?:\./)?(?P<file>[^\s:]+):(?P<line>\d+):\d+: error: (?P<says>.*)")
# Of an answer that Rattle looks for itself and does not find: the goal, values at which it is false, or only where it stands.
GOAL = re.compile(r"^note: (?P<goal>`[^`]*`) of (?P<file>\S+) (?P<says>(?:must prove|may be false): .*)")
UNPROVED = re.compile(r"^note: (?:\./)?(?P<file>src/[^\s:]+):(?P<line>\d+):\d+: (?P<says>it is not proved that .*)")


def errors(log):
    """What a check tells of what fails, each on one line."""
    found, open_ = [], False
    for line in log.splitlines():
        m = AT.match(line) or UNPROVED.match(line)
        goal = GOAL.match(line)
        if m:
            found.append([m["file"], int(m["line"]), m["says"]])
        elif goal:
            found.append([goal["file"], 0, f"{goal['goal']}: {goal['says'].split(': help: ')[0]}"])
        elif open_ and line[:1].isspace():
            found[-1][2] += " " + line
        open_ = bool(m) or (open_ and line[:1].isspace())
    return [Error(file, line, " ".join(message.split())) for file, line, message in found]


UNREAD = re.compile(r"is not in scope|has no field|is no name|operand is missing|expected the end|cannot continue")


def broken(log, files):
    """The first error that only says that a text which is changed, or stands in src/ or specs/, cannot be read: as rt sees it."""
    for line in log.splitlines():
        m = re.match(r"(?:\./)?(\S+?):\d+:\d+: error: (`[^`]*`: )?(.*)", line)
        if m and (m[1] in files or m[1].startswith(("src/", "specs/"))):
            if not m[2] or UNREAD.search(re.sub(r"`[^`]*`", "", m[3])):
                return line
    return None


# ---- facts

NO_FACT = re.compile(r"has no `|is not in scope|was not admitted|no occurrence|has no field|(?i:parse error|syntax error)")
ALLOWED = re.compile(r"may be false: the known facts allow `[^`]*` = `[^`]*`")
COMPUTED = re.compile(r"computed as far as they go, the two types (?:differ|first differ|are).*?\(expected\).*?\(found\)")
PRINTED = re.compile(r"as printed, the two types (?:first )?differ.*?\(expected\).*?\(found\)")
STATED = re.compile(r"expected type `[^`]*`,? but this has type `[^`]*`")
COUNTEREXAMPLE = re.compile(r"`omega`: .*?does not follow from what it read\..*?fails, at (?:`[^`]*` = \d+|0 for every atom)")
NOT_FOUND = re.compile(r"`(?:search|grind)`: no proof of `[^`]*`|must prove: .{1,300}(?= |$)|it is not proved that [^;]*")
KINDS = (ALLOWED, COMPUTED, PRINTED, STATED, COUNTEREXAMPLE, NOT_FOUND)


def is_fact(message):
    return not NO_FACT.search(message) and any(kind.search(message) for kind in KINDS)


def candidates(found):
    """The facts that fail in errors, as a .why can say them, those that speak of values first."""
    ranked = []
    for file, _, message in found:
        cuts = (kind.search(message) for kind in KINDS)
        cut = next(filter(None, cuts), None)
        if not cut or NO_FACT.search(message):
            continue
        name = re.match(r"`[^`]*`: ", message)
        fact = message[0 if name and name.end() == cut.start() else cut.start():cut.end()]
        told = ALLOWED.search(fact) or re.search(r"`\d+` \(expected\) .*`\d+` \(found\)|`Path \S*ℕ \d+ \d+`|`c\.args[^`]*` = \d+$", fact)
        returns = name and name[0].startswith("`returns")
        ranked.append((bool(NOT_FOUND.search(fact)), not told, not returns, len(fact) > 400, len(ranked), f"{file}: {fact}"))
    return [line for *_, line in sorted(ranked)]


def matching(wrong, found):
    return [error for error in found if error.file == wrong.file and wrong.message and wrong.message in error.message]
