"""Reads specs/ and src/ of the crates as text: definitions, what each cites, and the customers' entries.

Used by scripts/reading and scripts/trace.
"""
import re
from functools import lru_cache
from pathlib import Path

root = Path(__file__).resolve().parent.parent
crates = root / "crates"


@lru_cache(None)
def read(path):
    return path.read_text(encoding="utf-8")


def order():
    """the crates as crates.txt has them, the lowest first"""
    return re.findall(r"^(\w+)[^:\n]*:", read(root / "crates.txt"), re.M)


class Def:
    """a name of specs/, or a type or function of src/: its lines, and how many comment lines stand directly above"""

    def __init__(self, crate, file, name, lines, first, last):
        self.crate, self.file, self.name, self.first = crate, file, name, first
        self.text = "\n".join(lines[first : last + 1])
        self.above = 0
        while first > self.above and re.match(r"\s*(-- (?!----)|//)", lines[first - self.above - 1]):
            self.above += 1
        self.section = None  # the `module _ .. where` that it stands in

    def size(self):
        return self.above + sum(1 for line in self.text.split("\n") if line.strip())

    def __repr__(self):
        return f"{self.crate}/{self.file} {self.name}"


# ---- texts


def imports(text, word):
    """for each imported name, as it is called here: the module, and the name there; a list of names may go over lines"""
    found = {}
    head = rf"^ *(?:unfoldable )?(?:pub )?{word} "
    lists = re.findall(head + r"(\S+)\.\{([^}]*)\};?$", text, re.M)
    modules = re.findall(head + r"([^\s{]+) as (\w+);?$", text, re.M)
    if len(lists) + len(modules) != len(re.findall(head, text, re.M)):
        raise SystemExit(f"an import is not read, of those that start with `{word}` in the text that begins:\n{text[:200]}")
    for module, names in lists:
        for item in re.split(r",\s*", names.strip().rstrip(",")):
            there, _, here = item.partition(" as ")
            found[here or there] = (module, there)
    # of a module that is imported under a name, each of its names that the text has
    for module, here in modules:
        for there in re.findall(rf"(?<![\w.]){here}\.([^\s(){{}};,]+)", plain(text)):
            found[f"{here}.{there}"] = (module, there)
    return found


def plain(text):
    """a text without comments, quoted text and the field names of records that it builds"""
    text = re.sub(r"(^|\s)--.*", "", text)
    text = re.sub(r'"[^"]*"', "", text)
    return re.sub(r"([{;]\s*)[^\s={}]+ =", r"\1 =", text)


def words(text):
    """the names in a text, without fields and numerals; of A.B also A"""
    for word in re.findall(r"[^\s(){};,⌜⌝λ]+", text):
        word = word.rstrip(".")
        if word and word[0] != "." and not word[0].isdigit():
            yield word
            if "." in word:
                yield word.split(".")[0]


def variables(name, text):
    """the variables of a definition: they hide names of its file that are spelt alike"""
    found = set()
    for group in re.findall(r"[({]([^(){}:]+) : ", text) + re.findall(r"λ ([^.(]+)\.", text):
        found.update(group.split())
    for line in text.split("\n"):
        head = re.match(r"\s*" + re.escape(name) + r" (.*?) =(?: |$)", line)
        if head:
            found.update(words(head[1]))
    return found


def cited(text, known):
    """which of the known names a text has, in order: where `◌∷◌` is known, ∷ is that"""
    short = {part: name for name in known if "◌" in name for part in name.split("◌") if part}
    found = (word if word in known else short.get(word) for word in words(text))
    return [name for name in dict.fromkeys(found) if name]


# ---- specs/


class Spec:
    """a file of specs/: its definitions in order"""

    def __init__(self, crate, file):
        self.crate, self.file, self.text = crate, file, read(crates / crate / file)
        self.lines = lines = self.text.rstrip("\n").split("\n")
        starts, section = [], None
        for at, line in enumerate(lines):
            if re.match(r"module _", line):
                section = at
            elif re.match(r"(abbrev |unfoldable )?pub ", line):
                section = None
            indent = "" if section is None else "  "
            found = re.match(indent + r"(?:abbrev |unfoldable )?pub (?!use |mod )(record |data )?([^\s:({]+)", line)
            if found:
                starts.append((at, section, found[1], found[2]))
        self.defs, self.known = [], {}
        for i, (at, section, kind, name) in enumerate(starts):
            last = (starts[i + 1][0] if i + 1 < len(starts) else len(lines)) - 1
            while re.match(r"\s*(--|module _|infix|$)", lines[last]):
                last -= 1
            d = Def(crate, file, name, lines, at, last)
            if section is not None:
                d.section = Def(crate, file, f"module _ {section}", lines, section, section)
            self.defs.append(d)
            self.known[name] = d
            if kind == "data ":
                for line in lines[at + 1 : last + 1]:
                    self.known.update((case, d) for case in line.split(" : ")[0].split())

    @property
    def is_inner(self):
        return self.file.split("/")[-1].startswith("Inner")

    @property
    def is_theorems(self):
        return self.file.endswith("Theorems.antt")


@lru_cache(None)
def spec(crate, file):
    return Spec(crate, file)


@lru_cache(None)
def spec_files():
    """the files of specs/ without the lists of modules: in the order of crates.txt, and of each crate's own list"""
    out = []
    for crate in order():
        listed = crates / crate / "specs" / "Lib.antt"
        if listed.exists():
            out += [spec(crate, f"specs/{name}.antt") for name in re.findall(r"^pub mod (\S+)", read(listed), re.M)]
    return out


def ours(module):
    """the crate and the path of a module of this repository's specs, or None where the module is the kit's"""
    found = re.match(r"Rattle\.(\w+)\.specs\.(.*)$", module)
    return (found[1], found[2]) if found and (crates / found[1]).exists() else None


def target(module, name):
    """what an imported name is: a definition of specs/, a type of src/, or the kit's, as (module, name)"""
    if not ours(module):
        return module, name
    crate, path = ours(module)
    path = path.removesuffix(".TheVariants").split(".")
    if path[0] == "declared":
        found = type_named(crate, path[-2] if len(path) > 2 else "", path[-1])
    else:
        file = f"specs/{'/'.join(path)}.antt"
        known = spec(crate, file).known if (crates / crate / file).exists() else {}
        passed = imports(spec(crate, file).text, "use") if known else {}
        found = known.get(name) or name in passed and target(*passed[name])
    if not found:
        raise SystemExit(f"there is no {name} in {module}")
    return found


@lru_cache(None)
def direct(d):
    """what a definition names itself: definitions, types, and the kit's names as pairs"""
    if not d.file.endswith(".antt"):
        return code_types(d)
    file = spec(d.crate, d.file)
    uses = imports(file.text, "use")
    text = plain(d.text + ("\n" + d.section.text if d.section else ""))
    hidden = {name for name in variables(d.name, text) if not is_case(file, uses, name)}
    names = [name for name in cited(text, {**uses, **file.known}) if name not in hidden]
    found = [file.known[name] if name in file.known else target(*uses[name]) for name in names]
    return [f for f in dict.fromkeys(found + [d.section] * (d.section is not None)) if f is not d]


def is_case(file, uses, name):
    """whether a name is that of a case: a pattern may hold it, and it is no variable"""
    if name in file.known:
        return file.known[name].name != name
    return name in uses and (uses[name][0].endswith(".TheVariants") or not ours(uses[name][0]))


def reached(starts):
    """all that is named by what is named .. by these definitions, with them"""
    found, todo = {}, list(starts)
    while todo:
        d = todo.pop()
        if d not in found:
            found[d] = True
            if isinstance(d, Def) and not d.name.startswith("module _"):
                todo += direct(d)
    return set(found)


# ---- src/


def sources(crate):
    return sorted(str(path.relative_to(crates / crate)) for path in (crates / crate / "src").rglob("*.rt"))


def items(crate, pattern, kind):
    """the items of a crate's code that start with a pattern: each to the line that closes it"""
    out = []
    for file in sources(crate):
        lines = read(crates / crate / file).split("\n")
        for at, line in enumerate(lines):
            found = re.match(r"( *)(?:pub(?:\(crate\))? )?" + pattern + r" (\w+)", line)
            if found:
                first = last = at
                while first > 0 and lines[first - 1].startswith(found[1] + "#["):
                    first -= 1
                # the last line of a trait's function may be its clause
                while not re.match(found[1] + r"((\S.*)?[;}]|\s+(requires|ensures) .*};)$", lines[last]):
                    last += 1
                out.append(kind(crate, file, found[2], lines, first, last))
    return out


@lru_cache(None)
def types(crate):
    return items(crate, "(?:struct|enum)", Def)


@lru_cache(None)
def constants(crate):
    return items(crate, "const", Def)


def code_imports(text):
    """for each name that a file of code imports, its path; those that it passes on by `pub use` are told by True"""
    found = {}
    for public, path, names in re.findall(r"^(pub )?use ([\w:]+)::(\w+|\{[^}]*\});", text, re.M):
        for name in re.findall(r"\w+", names):
            found[name] = (path, bool(public))
    return found


def type_named(crate, module, name):
    """the type of a crate's code by its name and its module, where that is given; also one that a `pub use` passes on"""
    for t in types(crate):
        if t.name == name and module in ("", Path(t.file).stem):
            return t
    for file in sources(crate):
        path, public = code_imports(read(crates / crate / file)).get(name, ("", False))
        if public:
            there, *inner = path.split("::")
            return type_named(crate if there == "crate" else there, "".join(inner[-1:]), name)


def code_types(d):
    """the types of the crates that a type or a function's signature names"""
    found = []
    uses = code_imports(read(crates / d.crate / d.file))
    for name in dict.fromkeys(re.findall(r"\b[A-Z]\w*", re.sub(r"//.*", "", getattr(d, "signature", d.text)))):
        crate, *inner = uses.get(name, ("crate", False))[0].split("::")
        crate = d.crate if crate == "crate" else crate
        if (crates / crate).exists():
            found.append(type_named(crate, "".join(inner[-1:]), name))
    return [t for t in found if t and t is not d]


class Function(Def):
    """a function of src/: the type or trait that it belongs to, its signature, its contract and its body"""

    def __init__(self, *place):
        super().__init__(*place)
        self.called = self.name
        self.owner = owner(place[3], self.first)
        at = closed(self.text, self.text.index("(", self.text.index("fn " + self.name)))
        self.signature = self.text[: self.text.index("\n", at) if "\n" in self.text[at:] else None]
        self.contract, clause = {"requires": "", "ensures": ""}, re.compile(r"[^{]*?\b(requires|ensures)\b[^{]*{")
        while clause.match(self.text, at):
            found = clause.match(self.text, at)
            at = closed(self.text, found.end() - 1)
            self.contract[found[1]] += self.text[found.end() : at - 1] + "\n"
        self.body = self.text[at:]

    def cites(self):
        """the definitions, types and kit's names that its promise names"""
        uses = imports(read(crates / self.crate / self.file), "ghost use")
        return list(dict.fromkeys(target(*uses[name]) for name in cited(plain(self.contract["ensures"]), uses)))


    def calls(self, other):
        """whether the body calls a function: by its name, by its type's or a type parameter's, or as a method"""
        if other.owner is None:
            before = r"(?<![.:\w])(?:[a-z_]\w*::)*"
        else:
            own = "|".join([other.owner, "[A-Z]"] + ["Self"] * (self.owner == other.owner))
            before = rf"(?:\.|\b(?:{own})::|\bas {other.owner}>::|<{other.owner} as \w+>::)"
        return bool(re.search(before + other.name + r"(?:::<[^<>]*>)?\(", self.body))

    def with_called(self):
        """the functions of its crate that it calls, but for entries, and those that they call, with itself"""
        found, todo = {}, [self]
        while todo:
            f = todo.pop()
            if f not in found:
                found[f] = True
                todo += [g for g in functions(self.crate) if g not in entries() and f.calls(g)]
        return list(found)


def owner(lines, at):
    """the type or trait in whose block a line stands, or None"""
    indent = re.match(r" *", lines[at])[0]
    for line in reversed(lines[:at] if indent else []):
        found = re.match(r"impl(?:<[^>]*>)? (?:.* for )?(\w+)|(?:pub )?trait (\w+)", line)
        if found:
            return found[1] or found[2]


def closed(text, at):
    """the place after the bracket that closes the one at a place"""
    depth = 0
    for place in range(at, len(text)):
        depth += (text[place] in "({") - (text[place] in ")}")
        if depth == 0:
            return place + 1
    raise SystemExit("a bracket is not closed: " + text[at : at + 60])


@lru_cache(None)
def functions(crate):
    return items(crate, '(?:extern "C" )?fn', Function)


def c_functions(crate):
    return [f for f in functions(crate) if "#[unsafe(no_mangle)]" in f.text]


# ---- the customers' entries


@lru_cache(None)
def entries():
    """the functions of the closed list in docs/PROMISES.md, in its order; a crate named there stands for its C functions"""
    page = read(root / "docs" / "PROMISES.md").split("## Entries offered to customers")[1].split("\n## ")[0]
    out = []
    for row in re.findall(r"^\| (.*?) \|", page, re.M):
        path = []
        for span in re.findall(r"`([^`]*)`", row):
            call = re.match(r"((?:\w+::)*)(\w+)\(", span)
            if call:
                path = call[1].split("::")[:-1] or path
                found = [f for f in functions(path[0]) if re.search(rf"\bpub fn {call[2]}\(", f.text)]
                if len(found) != 1:
                    raise SystemExit(f"docs/PROMISES.md: crates/{path[0]} has {len(found)} functions `pub fn {call[2]}`")
                found[0].called = "::".join(path + [call[2]])
                out += found
            elif (crates / span).is_dir():
                out += c_functions(span)
    return out
