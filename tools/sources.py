"""How the tools read the tree: the functions of the code, and the declarations of antt."""
import re
from collections import namedtuple
from functools import lru_cache
from pathlib import Path

ROOT = Path(__file__).resolve().parent.parent


@lru_cache(maxsize=None)
def text(path):
    """What a file holds, read once; nothing where there is none."""
    return path.read_text(encoding="utf-8", errors="replace") if path.is_file() else ""


def crates(root=ROOT):
    return [src.parent for src in sorted(root.glob("crates/*/src"))]


# ---- functions

IGNORED_RT = re.compile(r'extern "C"|b?"(?:\\.|[^"\\])*"|b?\'(?:\\.|[^\'\\])\'|//[^\n]*|/\*.*?\*/', re.S)
ITEM = re.compile(
    r"\b(?:impl\b\s*(?:<[^>]*>)?\s*(?:(?:\w+::)*(?P<trait>\w+)(?:<(?P<at>[^{;]*?)>)?\s+for\s+)?(?P<impl>\w+)[^{;]*\{"
    r"|mod\s+(?P<mod>\w+)\s*\{)"
    r"|(?P<marks>(?:#\[[^\]]*\]\s*)*)(?P<sees>(?:\bpub\b(?:\s*\([^)]*\))?\s+)?)"
    r'(?P<kind>(?:\b(?:const|unsafe|extern)\b\s*(?:"[^"]*"\s*)?)*)\bfn\s+(?P<fn>\w+)'
    r"|(?P<brace>[{}])"
)
# The next clause of a head, or the function's body.
CLAUSE = re.compile(r"\b(?P<kind>requires|ensures)\b[^{;]*\{|\{")
# A function: its file, its path (modules, type, name), whether it is public, its head with its clauses, its body, and
# what stands between it and the next.
Function = namedtuple("Function", "file path public head body behind")


def closed(code, start):
    """Where the brace that opens at a place of a text is closed."""
    depth = 0
    for brace in re.compile(r"[{}]").finditer(code, start):
        depth += 1 if brace[0] == "{" else -1
        if not depth:
            return brace.end()
    return len(code)


def parts(code):
    """Of a function's text, from its name on, each clause of its head as kind and what it says; and where its body begins."""
    found, at = [], 0
    while (m := CLAUSE.search(code, at)) and m["kind"]:
        at = closed(code, m.end() - 1)
        found.append((m["kind"], code[m.end():at - 1]))
    return found, m.start() if m else -1


def clauses(head):
    return parts(head)[0]


def cut(code):
    """A function's text, from its name on, as head, body and what is behind."""
    start = parts(code)[1]
    if start < 0:
        return code, "", ""
    end = closed(code, start)
    return code[:start], code[start:end], code[end:]


def plain(source):
    """A text of Rattle without its comments, and each literal as one word: no brace in it counts, and no two are the same."""
    return IGNORED_RT.sub(lambda m: " " if m[0][0] == "/" else m[0] if m[0][0] == "e" else m[0].encode().hex(), source)


@lru_cache(maxsize=None)
def functions_in(file, source):
    """The functions of a file of src/, given by its path in the crate and its text."""
    code = plain(source)
    modules = Path(file).relative_to("src").with_suffix("").parts
    if modules[-1] in ("lib", "main", "mod"):
        modules = modules[:-1]
    items, around, found = list(ITEM.finditer(code)), [], []
    heads = [m.start("fn") for m in items if m["fn"]] + [len(code)]
    for m in items:
        if m["fn"]:
            path = (*modules, *filter(None, around), m["fn"])
            public = m["sees"].strip() == "pub" or "extern" in m["kind"] or "no_mangle" in m["marks"]
            found.append(Function(file, path, public, *cut(code[m.start("fn"):min(h for h in heads if h > m.start("fn"))])))
        elif m["brace"] == "}":
            del around[-1:]
        else:
            at = "".join(word[0].upper() + word[1:] for word in re.findall(r"\w+", m["at"] or "")) # as in FramingTryFromU64
            around.append((m["impl"] or "") + (m["trait"] or "") + at or m["mod"])
    return found


def members(source):
    """What each ghost member of a text of src/ says: of a trait's impl what it promises, of a type what holds of its values."""
    code = plain(source)
    return [code[m.end():closed(code, m.end() - 1) - 1] for m in re.finditer(r"\bghost \w+(?::| =) \{", code)]


def files(crate, part, suffix):
    return [(file.relative_to(crate).as_posix(), text(file)) for file in sorted((crate / part).rglob("*" + suffix))]


@lru_cache(maxsize=None)
def functions(crate):
    return [f for file, source in files(crate, "src", ".rt") for f in functions_in(file, source)]


# ---- declarations

IGNORED_ANTT = re.compile(r"\{-.*?-\}|(?<![^\s(){},;])--[^\n]*", re.S)
DECLARES = re.compile(
    r"^ *(?P<marks>(?:(?:abbrev|unfoldable|pub) )*)"
    r"(?:(?P<kind>data|record) (?P<type>[^\s(){},;:]+)|(?P<name>[^\s(){},;:]+) :(?=\s|$))", re.M
)
# A declaration: its name, all names that it makes (fields and constructors among them), its first and last line, the
# headers of the sections around it, its text, and its type: what another declaration sees of it that does not unfold it.
Declaration = namedtuple("Declaration", "name made first last around text type")


@lru_cache(maxsize=None)
def bare(code):
    """A text of antt without its comments, line by line as it was."""
    return IGNORED_ANTT.sub(lambda m: "\n" * m[0].count("\n"), code)


def declared(code):
    """The names that a text of antt without comments declares, fields and constructors among them."""
    return {m["type"] or m["name"] for m in DECLARES.finditer(code)}


def words_of(code):
    return set(re.split(r"[\s(){},;.]+", code))


def depth(line):
    return len(line) - len(line.lstrip())


@lru_cache(maxsize=None)
def declarations(source):
    """The declarations of a text of antt, those in sections among them."""
    lines, sections, starts = bare(source).splitlines(), [], []
    for number, line in enumerate(lines):
        if not line.strip():
            continue
        if sections and not re.search(r"\bwhere\s*$", sections[-1]):
            sections[-1] += " " + line  # a header that goes on
            continue
        while sections and depth(line) <= depth(sections[-1]):
            sections.pop()
        if line.lstrip().startswith("module _"):
            sections.append(line)
            starts.append((number, None))
        elif DECLARES.match(line) and depth(line) == (depth(sections[-1]) + 2 if sections else 0):
            starts.append((number, tuple(sections)))
        elif depth(line) == 0 and line.startswith(("use ", "pub mod ", "infix")):
            starts.append((number, None))
    ends = [number for number, _ in starts[1:]] + [len(lines)]
    return [declaration(lines[first:end], first + 1, around) for (first, around), end in zip(starts, ends) if around is not None]


def declaration(lines, first, around):
    head, body = DECLARES.match(lines[0]), "\n".join(lines)
    clauses = next((i for i, line in enumerate(lines[1:], 1) if line.strip() and depth(line) <= depth(lines[0])), len(lines))
    unfolds = "abbrev" in head["marks"] or "unfoldable" in head["marks"]
    name = head["type"] or head["name"]
    made = declared(body) if head["kind"] else {name}
    return Declaration(name, made, first, first + len(lines) - 1, around, body, body if unfolds else "\n".join(lines[:clauses]))
