"""What the crates' sources have, for .ci/promises and bench/definitions: definitions of specs/; types, constants,
functions and their clauses of src/. It knows how the files are laid out and not the language."""
import os
import re

TOP = os.path.dirname(os.path.dirname(os.path.abspath(__file__)))
CRATES = os.path.join(TOP, "crates")
USE = re.compile(r"^ *(?:ghost )?use Rattle\.([a-z_0-9]+)\.specs\.([A-Za-z_0-9.]+?)(?:\.\{([^}]*)\}| as ([a-z_]+))",
                 re.M)
HEAD = re.compile(r"(?:(?:abbrev|unfoldable|opaque|private|alias|pub|record|data) +)+"
                  r"(?:\(.*?\) *)?([^\s:(]+) *(?:\(.*)?:")
TYPE = re.compile(r"(?:pub(?:\([a-z]+\))? )?(?:struct|enum|trait) (\w+)")
CONSTANT = re.compile(r"(?:pub(?:\([a-z]+\))? )?(?:const|static) ([A-Z]\w*) *:")
OWNER = re.compile(r"(?:pub )?(?:impl(?:<[^>]*>)? (?:\w+(?:<.*>)? for )?|trait )(\w+)")
FUNCTION = re.compile(r" *(pub(?:\([a-z]+\))? )?(?:const |extern \"C\" )?fn (\w+)")
CLAUSE = re.compile(r" *ensures(?: (\w+))? \{")
RUST_USE = re.compile(r"^(?:pub )?use ([a-z_0-9]+)((?:::[a-z_0-9]+)*)::(\{[^}]*\}|\w+);", re.M)
FIELD = re.compile(r" +(?:pub )?([a-z_]\w*) *:")


class Function:
    """A function: the type or trait that it is of, or None; its line; whether others may call it; its clauses by name,
    the empty one where a clause has none, with the line and the text of each."""

    def __init__(self, name, owner, line, public):
        self.name, self.owner, self.line, self.public, self.clauses = name, owner, line, public, {}


class Part:
    """A file of specs/ or src/: its path in the crate, its definitions, its functions, what it imports."""

    def __init__(self, crate, path):
        self.crate, self.path = crate, path
        self.definitions, self.functions, self.names, self.aliases, self.text = {}, [], {}, {}, ""
        file = os.path.join(CRATES, crate, path)
        if os.path.exists(file):
            with open(file, encoding="utf-8") as source:
                self.text = source.read()
            for other, module, listed, alias in USE.findall(self.text):
                if alias:
                    self.aliases[alias] = other, module
                for word in filter(None, listed.split(",")):
                    name, _, own = word.strip().partition(" as ")
                    self.names[own or name] = other, module, name
            (self.read_specs if path.endswith(".antt") else self.read_code)(self.text.split("\n"))

    def read_specs(self, lines):
        """Definitions, a head at the line's begin and what is indented below it."""
        last = None
        for number, line in enumerate(lines, 1):
            head = HEAD.match(line)
            if head and not line.startswith(" "):
                last = self.definitions.setdefault(head[1], (number, []))[1]
            elif line.startswith(("--", "use ", "ghost ")):
                last = None
            if last is not None and line.strip():
                last.append(line)

    def read_code(self, lines):
        """Types and constants, to the brace or the semicolon that ends them; functions with their clauses."""
        for other, _, listed in RUST_USE.findall(self.text):
            for word in listed.strip("{}").split(","):
                name, _, own = word.strip().partition(" as ")
                self.names[own or name] = (self.crate if other == "crate" else other), None, name
        at, owner, clause = 0, None, None
        while at < len(lines):
            line = lines[at]
            head = TYPE.match(line) or CONSTANT.match(line)
            if head and "trait " not in line:
                end = at
                while not (lines[end].startswith(("}", "]")) or lines[end].rstrip().endswith(";")):
                    end += 1
                kept = [it for it in lines[at:end + 1] if it.strip() and not it.strip().startswith(("//", "#["))]
                self.definitions[head[1]] = at + 1, kept
                at = end
            elif OWNER.match(line):
                owner = OWNER.match(line)[1], "trait" in line.split("{")[0].split()[:2]
                if owner[1]:
                    self.definitions[owner[0]] = at + 1, [line]
            elif line == "}":
                owner = clause = None
            elif FUNCTION.match(line):
                found = FUNCTION.match(line)
                public = found[1] == "pub " or bool(owner and owner[1])
                self.functions.append(Function(found[2], owner and owner[0], at + 1, public))
                clause = None
            elif CLAUSE.match(line) and self.functions:
                name = CLAUSE.match(line)[1] or ""
                clause = self.functions[-1].clauses.setdefault(name, (at + 1, []))[1]
            elif line.strip() == "{" or line.strip().startswith(("requires", "//")):
                clause = None
            if clause is not None:
                clause.append(line)
            at += 1


def part_of(crate, path, known={}):
    """A file, read once."""
    if (crate, path) not in known:
        known[crate, path] = Part(crate, path)
    return known[crate, path]


def crates():
    """The names of all crates."""
    return sorted(it for it in os.listdir(CRATES) if os.path.isdir(os.path.join(CRATES, it, "src")))


def parts_in(crate, folder):
    """The files of a crate's folder, `src` or `specs`, tests left out."""
    top = os.path.join(CRATES, crate)
    for root, folders, files in os.walk(os.path.join(top, folder)):
        folders.sort()
        for file in sorted(files):
            if file.endswith((".rt", ".antt")) and "tests" not in file:
                yield part_of(crate, os.path.relpath(os.path.join(root, file), top))


def in_code(crate, name, passed=()):
    """The place of a type or a constant of a crate, which may pass on that of another one; or None."""
    for part in parts_in(crate, "src"):
        if name in part.definitions:
            return crate, part.path, name
    other = part_of(crate, "src/lib.rt").names.get(name, (crate,))[0]
    if other != crate and other not in passed and os.path.isdir(os.path.join(CRATES, other)):
        return in_code(other, name, (*passed, crate))
    return None


def place_of(crate, module, name):
    """The crate, the file in it and the name of what a module of the specifications calls so; or None."""
    words = module.split(".")
    if words[0] != "declared":
        path = "specs/%s.antt" % "/".join(words)
        return (crate, path, name) if name in part_of(crate, path).definitions else None
    if words[-1] in ("TheVariants", "TheFields"):
        name, words = words[-2], words[:-1]
    path = "src/%s.rt" % ("/".join(words[1:-1]) or "lib")
    return (crate, path, name) if name in part_of(crate, path).definitions else in_code(crate, name)
