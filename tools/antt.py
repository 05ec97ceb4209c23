"""What the scripts beside this file know of .antt files: their top-level definitions and lemmas, and what each cites."""
import pathlib
import re

# A word of antt: an identifier or an operator, with its places.
WORD = re.compile(r"[^\s(){}\[\],;.:λ∀]+")
HEAD = re.compile(
    r"^(?P<indent> *)(?:abbrev +)?(?:pub +)?(?:(?P<kind>data|record|ruleset|syntax) +)?(?P<name>[^\s(){}\[\],;.:=⟦⟧]+)(?P<rest> .*|)$"
)
SIGNATURE = re.compile(r"^(?: *[({][^:]*.*)? *:|^ *:=|^$")


class Block:
    """A definition or a lemma: its file, its names (a mutual group has several), its comment and its lines."""

    def __init__(self, file, kind, name, comment, first, is_exported_lemma):
        self.file, self.kind, self.name, self.comment = file, kind, name, comment
        # a `pub` lemma of proofs/, which the prover's search takes by its conclusion, whether or not a file names it
        self.is_exported_lemma = is_exported_lemma
        self.first, self.last = first, first
        self.lines = []

    @property
    def words(self):
        found = set()
        for line in self.lines:
            found.update(WORD.findall(line.split("--")[0] if line.lstrip().startswith("--") else line))
        return found


class File:
    """A file of specs/ or proofs/: what it imports and its blocks."""

    def __init__(self, path, top):
        self.path = path
        parts = path.relative_to(top / "crates").with_suffix("").parts
        self.crate, self.module = parts[0], ".".join(parts)
        self.text = path.read_text()
        self.imports = imports_of(self.text)
        # what the headers of modules cite: their parameters are no part of a block
        self.header_words = set()
        self.blocks = list(blocks_of(self))


def imports_of(text):
    """The pairs of a module and a name that the `use` lines of a text name."""
    found = set()
    for line in text.splitlines():
        use = re.match(r"\s*(?:ghost +|pub +)*use +(?:Rattle\.)?(\S+?)(?:\.\{(.*)\})?;?\s*$", line)
        if not use:
            continue
        if use.group(2) is None:
            module, _, name = use.group(1).rpartition(".")
            found.add((module, name))
        else:
            for name in use.group(2).split(","):
                found.add((use.group(1), name.strip().split(" as ")[0]))
    return found


def blocks_of(file):
    """The blocks of a file, in order: heads stand at the left, or inside a `module` or a `mutual` group."""
    block, comment, allowed, in_header = None, [], {0}, False
    for number, line in enumerate(file.text.splitlines(), 1):
        bare = line.strip()
        indent = len(line) - len(line.lstrip(" "))
        if not bare:
            comment = []
            continue
        if bare.startswith("--"):
            comment.append(bare[2:].strip())
            continue
        if re.match(r"(use|pub use|mod|pub mod|open)\b", bare):
            comment = []
            continue
        if in_header or re.match(r"(pub +)?(module\b|(abbrev +)?mutual$)", bare):
            # what is inside stands two places further in; the header of a module may take several lines
            if not in_header:
                if block:
                    yield block
                block, allowed = None, {i for i in allowed if i <= indent} | {indent + 2}
            file.header_words.update(WORD.findall(bare))
            in_header = bare.startswith(("module", "pub module")) and not bare.endswith("where") or in_header and not bare.endswith("where")
            comment = []
            continue
        head = HEAD.match(line) if indent in allowed else None
        if head and (head.group("kind") or is_signature(head)):
            allowed = {i for i in allowed if i <= indent}
            if block:
                yield block
            exported = bare.startswith("pub ") and not head.group("kind") and ".proofs." in file.module
            block = Block(file, head.group("kind") or "", head.group("name"), " ".join(comment), number, exported)
        comment = []
        if block:
            block.lines.append(line)
            block.last = number
    if block:
        yield block


def is_signature(head):
    """Whether the line names what follows it: `name : type` or `name (x : A) : type`, and no clause `name x = ..`."""
    rest = head.group("rest").strip()
    return rest.startswith(":") and not rest.startswith(":=")


def all_files(top):
    """The files of specs/ and proofs/ of all crates, but for those that prove one function."""
    files = []
    for path in sorted((top / "crates").glob("*/specs/*.antt")) + sorted((top / "crates").glob("*/proofs/*.antt")):
        if path.name != "Lib.antt":
            files.append(File(path, top))
    return files
