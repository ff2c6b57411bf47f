"""The definitions in specs/ and the clauses of the code, with what each names: what tests/reading_lists reads."""

import bisect
import os
import re
from collections import namedtuple

TOP = os.path.dirname(os.path.dirname(os.path.abspath(__file__)))

# ---- texts as tokens

# a name with what is asked of it, as `self.new.rows`; a number; a text; brackets; or other signs
TOKEN = re.compile(r'«\w+»|λ|[^\W\d][\w\']*|\d\w*|"(?:[^"\\]|\\.)*"|\[\]|[(){}\[\];,.]|[^\s\w(){}\[\];,."]+')
COMMENT = re.compile(r"--(?=\s|-|$).*")
OPEN, CLOSE = "({[", ")}]"

Token = namedtuple("Token", "text at joined")


def tokens_of(text):
    """The tokens of a text without comments; `joined` tells whether one stands right behind the one before."""
    found, end = [], -1
    for it in TOKEN.finditer(text):
        found.append(Token(it.group(), it.start(), it.start() == end))
        end = it.end()
    return found


def is_name(text):
    return (text[0].isalpha() or text[0] in "_«") and text != "λ"


class Scope:
    """What the names of a file mean: a definition, something of the code, or something of the toolchain's library."""

    def __init__(self):
        self.names = {}
        self.modules = {}
        # operators by their first sign: those of the file
        self.signs = {}

    def child(self):
        it = Scope()
        it.names, it.modules, it.signs = dict(self.names), dict(self.modules), dict(self.signs)
        return it

    def bring(self, name, meaning):
        if not is_name(name.strip("◌")):
            self.signs[name.strip("◌")] = meaning
        elif "◌" in name:
            self.signs[next(part for part in name.split("◌") if part)] = meaning
        else:
            self.names[name] = meaning


def names_in(tokens, scope, bound, lookup):
    """The meanings of the names of these tokens that are not bound there. `lookup` finds a name in a module."""
    found = []
    scopes = [set(bound)]
    pending = []  # names that a group binds for what stands behind it
    i, count = 0, len(tokens)

    def is_bound(name):
        return any(name in it for it in scopes)

    def closing(at):
        depth = 0
        for k in range(at, count):
            if tokens[k].text in OPEN:
                depth += 1
            elif tokens[k].text in CLOSE:
                depth -= 1
                if depth == 0:
                    return k
        return count

    while i < count:
        text = tokens[i].text
        if text in OPEN:
            names, k = [], i + 1
            while k < count and is_name(tokens[k].text):
                names.append(tokens[k].text)
                k += 1
            binds = text in "({" and names and k < count and tokens[k].text == ":"
            pending.append(names if binds else [])
            scopes.append(set())
            i = k + 1 if binds else i + 1
        elif text in CLOSE:
            scopes.pop()
            if not scopes:
                scopes.append(set())
            if pending:
                scopes[-1].update(pending.pop())
            i += 1
        elif text == "λ":
            k = i + 1
            while k < count and tokens[k].text != ".":
                if is_name(tokens[k].text):
                    scopes[-1].add(tokens[k].text)
                    k += 1
                elif tokens[k].text in OPEN:
                    end = closing(k)
                    colon = next((n for n in range(k, end) if tokens[n].text == ":"), end)
                    found += names_in(tokens[colon + 1:end], scope, set().union(*scopes), lookup)
                    scopes[-1].update(it.text for it in tokens[k + 1:colon] if is_name(it.text))
                    k = end + 1
                else:
                    k += 1
            i = k + 1
        elif text == "do":
            # its lines stand for `>>=`
            if ">>=" in scope.signs:
                found.append(scope.signs[">>="])
            i += 1
        elif is_name(text) and i + 1 < count and tokens[i + 1].text == "←":
            scopes[-1].add(text)
            i += 2
        elif text == "let" and i + 1 < count and is_name(tokens[i + 1].text):
            scopes[-1].add(tokens[i + 1].text)
            i += 2
        elif is_name(text):
            after_dot = i > 0 and tokens[i].joined and tokens[i - 1].text == "." and tokens[i - 1].joined
            is_field = i + 1 < count and tokens[i + 1].text == "=" and i > 0 and tokens[i - 1].text in "{;"
            if after_dot or is_field:
                i += 1
                continue
            if text in scope.modules and not is_bound(text) and i + 2 < count and tokens[i + 1].text == "." and tokens[i + 1].joined:
                found.append(lookup(scope.modules[text], tokens[i + 2].text))
                i += 3
                continue
            if text in scope.signs:
                found.append(scope.signs[text])
            elif not is_bound(text) and text in scope.names:
                found.append(scope.names[text])
            i += 1
        else:
            if text in scope.signs:
                found.append(scope.signs[text])
            i += 1
    return [it for it in found if it]


# ---- the definitions of specs/

DECLARES = re.compile(r"(?:unfoldable pub|abbrev pub|abbrev|pub record|pub data|record|data|pub)\s+(\S+)")


class Definition:
    """A definition: where it stands, and what it names."""

    def __init__(self, file, name, kind, first):
        self.file, self.name, self.kind, self.first, self.last = file, name, kind, first, first
        self.lines = []
        self.around = ""  # the parameters of the module that it stands in
        self.names = []

    @property
    def key(self):
        return (self.file.path, self.name)

    @property
    def span(self):
        return f"{self.first}-{self.last}" if self.last > self.first else f"{self.first}"

    @property
    def size(self):
        """Its lines, with those of its comments."""
        return sum(1 for it in self.file.text[self.first - 1:self.last] if it.strip())


class SpecFile:
    """A file of definitions: its imports, and its definitions in order."""

    def __init__(self, crate, path):
        self.crate, self.path = crate, path
        self.module = os.path.basename(path)[:-len(".antt")]
        with open(f"{TOP}/{path}", encoding="utf-8") as it:
            self.text = it.read().splitlines()
        self.purpose = self.first_sentence()
        self.uses, self.definitions, self.owners = [], {}, {}
        self.passed = {}  # what the file passes on by `pub use`: where that is, and what it is called there
        self.split()

    def first_sentence(self):
        """What the file is for: the first sentence of the comment at its head."""
        lines = []
        for line in self.text:
            if not line.startswith("--"):
                break
            lines.append(line.lstrip("- "))
        text = " ".join(lines)
        end = re.search(r"[.:](?= |$)", text)
        return text[:end.start()] if end else text

    def split(self):
        """Splits the file into its definitions. A comment before one belongs to it."""
        inner = [(0, "")]  # how far a block is indented, and the parameters of its module
        current, comment, waits = None, None, False
        use = ""
        for number, line in enumerate(self.text, 1):
            code = COMMENT.sub("", line).rstrip()
            indent = len(line) - len(line.lstrip())
            if not line.strip():
                comment = None
                continue
            if not code.strip():
                if comment is None:
                    comment = number
                continue
            if use or code.startswith(("use ", "pub use ")):
                use += " " + code.strip()
                if "{" not in use or "}" in use:
                    use = use.strip()
                    if use.startswith("pub "):
                        use = use[len("pub "):]
                        path, names, _ = parts_of_use(use)
                        self.passed.update({new: (path, old) for old, new in names})
                    self.uses.append(use)
                    use = ""
                comment = None
                continue
            if waits:
                inner.append((indent, waits))
                waits = False
            while len(inner) > 1 and indent < inner[-1][0]:
                inner.pop()
            if indent == inner[-1][0] and code.lstrip().startswith("module "):
                waits = code.strip()[len("module _"):-len("where")].strip() or " "
                current, comment = None, None
                continue
            declares = DECLARES.match(code.strip()) if indent == inner[-1][0] else None
            if declares:
                before = code.split(declares[1])[0]
                kind = next((it for it in ("record", "data") if it in before), "definition")
                current = Definition(self, declares[1], kind, comment or number)
                current.around = inner[-1][1]
                self.definitions[current.name] = current
                self.owners[current.name] = current
            elif code.startswith("infix"):
                current = None
            if current:
                current.lines.append(line)
                current.last = number
                if current.kind == "data" and indent == inner[-1][0] + 2:
                    made = re.match(r"(\w+) :", code.strip())
                    if made:
                        self.owners[made[1]] = current
            comment = None


class Code:
    """What a definition names of the code: a type, or a constant."""

    def __init__(self, crate, modules, name):
        self.place, self.name = f"crates/{crate}/src/{'/'.join(modules)}.rt", name


class Library:
    """What a definition names of the toolchain's library."""

    def __init__(self, module, name):
        self.module, self.name = module, name


USE = re.compile(r"(?:ghost )?use\s+(?:Rattle\.)?([\w.]+?)(?:\.\{(.*)\}|\s+as\s+([\w«»]+))?;?$")


def parts_of_use(use):
    """The module of an import, its names with what each is called here, and the name of the module if it has one."""
    found = USE.match(use.strip())
    if not found:
        raise ValueError(f"an import that is not read: {use}")
    names = []
    for it in (found[2] or "").split(","):
        it = it.strip()
        if it:
            old, _, new = it.partition(" as ")
            names.append((old.strip(), (new or old).strip()))
    path = found[1]
    alias = found[3] or (None if found[2] else path.rsplit(".", 1)[1])
    return path, names, alias


class Specs:
    """All definitions, with what each names."""

    def __init__(self, crates):
        self.files = {}
        for crate in crates:
            folder = f"crates/{crate}/specs"
            for name in sorted(os.listdir(f"{TOP}/{folder}")) if os.path.isdir(f"{TOP}/{folder}") else []:
                if name.endswith(".antt") and name != "Lib.antt":
                    file = SpecFile(crate, f"{folder}/{name}")
                    self.files[f"{crate}.specs.{file.module}"] = file
        self.crates = set(crates)
        for file in self.files.values():
            self.read(file)

    def lookup(self, path, name):
        """What a name of a module means."""
        crate, _, rest = path.partition(".specs.")
        if crate not in self.crates:
            return Library(path, name)
        if rest.startswith("declared.") or rest.startswith("contracts."):
            parts = rest.split(".")[1:]
            if "TheConstants" in parts:
                at = parts.index("TheConstants")
                return Code(crate, parts[:at], "::".join([*parts[at + 1:], name]))
            if parts[-1] in ("TheVariants", "TheInside"):
                parts.pop()
            return Code(crate, parts[:-1], parts[-1])
        file = self.files.get(f"{crate}.specs.{rest}")
        if file and name in file.passed:
            return self.lookup(*file.passed[name])
        return file.owners.get(name) if file else None

    def bring(self, scope, use):
        path, names, alias = parts_of_use(use)
        if alias:
            scope.modules[alias] = path
        for old, new in names:
            meaning = self.lookup(path, old)
            if meaning is None:
                raise ValueError(f"an import of what is not there: {use}")
            scope.bring(new, meaning)

    def read(self, file):
        scope = Scope()
        for use in file.uses:
            self.bring(scope, use)
        for name, owner in file.owners.items():
            scope.bring(name, owner)
        for it in file.definitions.values():
            it.names = [found for found in self.names_of(it, scope) if found is not it]

    def names_of(self, it, scope):
        found = []
        bound = set()
        if it.around:
            around = tokens_of(it.around)
            found += names_in(around, scope, (), self.lookup)
            bound = self.bound_by(around)
        for part in pieces_of(it):
            left, right = part
            mine = set(bound)
            if left is not None:
                for k, token in enumerate(left):
                    text = token.text
                    if not is_name(text):
                        if text in scope.signs:
                            found.append(scope.signs[text])
                        continue
                    if k + 1 < len(left) and left[k + 1].text == "." and text in scope.modules:
                        continue
                    if k >= 2 and left[k - 1].text == "." and left[k].joined and left[k - 2].text in scope.modules:
                        found.append(self.lookup(scope.modules[left[k - 2].text], text))
                    elif text in scope.names and (text[0].isupper() or text in ("zero", "suc", "true", "false")):
                        found.append(scope.names[text])
                    else:
                        mine.add(text)
            found += names_in(right, scope, mine, self.lookup)
        return [one for one in found if one]

    @staticmethod
    def bound_by(tokens):
        """The names that groups as `(a b : T)` bind."""
        found, names, reading = set(), [], False
        for it in tokens:
            if it.text in "({":
                names, reading = [], True
            elif reading and it.text == ":":
                found.update(names)
                reading = False
            elif reading and is_name(it.text):
                names.append(it.text)
            else:
                reading = False
        return found


def pieces_of(definition):
    """The parts of a definition: its head, and each equation as what stands left and right of its sign."""
    text = [COMMENT.sub("", it) for it in definition.lines]
    base = min((len(it) - len(it.lstrip()) for it in text if it.strip()), default=0)
    if definition.kind in ("record", "data"):
        return [(None, fields_of(text, base, definition))]
    heads, current = [], []
    for line in text:
        if not line.strip():
            continue
        if current and len(line) - len(line.lstrip()) == base:
            heads.append(current)
            current = []
        current.append(line)
    heads.append(current)
    pieces = []
    for number, lines in enumerate(heads):
        tokens = tokens_of("\n".join(lines))
        if number == 0:
            colon = next((k for k, it in enumerate(tokens) if it.text == ":"), 0)
            pieces.append((None, tokens[colon + 1:]))
            continue
        depth, sign = 0, None
        for k, it in enumerate(tokens):
            depth += (it.text in OPEN) - (it.text in CLOSE)
            if it.text == "=" and depth == 0:
                sign = k
                break
        pieces.append((tokens[:sign], tokens[sign + 1:]) if sign is not None else (None, tokens))
    return pieces


def fields_of(text, base, definition):
    """A record or a data as one text in which each field is bound for those behind it: `(field : type)`."""
    out, opened = [], False
    head = True
    for line in text:
        if not line.strip():
            continue
        bare = line.strip()
        indent = len(line) - len(line.lstrip())
        if head:
            bare = re.sub(r"^(pub )?(record|data)\s+\S+", "", bare, count=1)
            if bare.endswith("where"):
                bare, head = bare[:-len("where")], False
            out.append(bare)
            continue
        field = re.match(r"(?:pub )?(\S+) : (.*)", bare)
        if field and indent == base + 2:
            if opened:
                out.append(")")
            out.append(f"({field[1]} : {field[2]}" if definition.kind == "record" else f"( {field[2]}")
            opened = True
        else:
            out.append(bare)
    if opened:
        out.append(")")
    return tokens_of("\n".join(out))


# ---- the clauses of the code

RUST = re.compile(
    r'//[^\n]*|/\*.*?\*/|b?"(?:[^"\\]|\\.)*"|b?\'(?:[^\'\\\n]|\\[^\n]{1,8}?)\'|«\w+»|[A-Za-z_][\w]*\'*|\'[a-z_]\w*|\d\w*'
    r'|[(){}\[\];,.]|->|=>|::|[^\s\w(){}\[\];,."\'/]+|/|\S',
    re.S,
)

Clause = namedtuple("Clause", "item kind name text scope bound public")


class Item:
    """A function, or a trait, of a crate, with its clauses."""

    def __init__(self, crate, name, file, line, public):
        self.crate, self.name, self.file, self.line, self.public = crate, name, file, line, public
        self.clauses = []
        # of a type parameter its bounds, and of a parameter the types that it is made of
        self.bounds, self.types = {}, {}
        self.is_trait = False


class CodeFile:
    """A .rt file: its items with their clauses, as far as the layout of `rt fmt` tells them."""

    def __init__(self, crate, path):
        self.crate, self.path = crate, path
        with open(f"{TOP}/{path}", encoding="utf-8") as it:
            self.text = it.read()
        self.tokens = [it for it in RUST.finditer(self.text) if not it.group().startswith(("//", "/*"))]
        self.words = [it.group() for it in self.tokens]
        self.uses = {}  # of a name that is imported its crate, and its name there
        self.said = []  # its clauses
        self.starts = [0, *(it.end() for it in re.finditer("\n", self.text))]

    def lines_of_code(self):
        """How many lines have something that runs: no comment, no clause, no ghost, no hint for the prover."""
        words, lines, i = self.words, set(), 0
        while i < len(words):
            word = words[i]
            if word in ("requires", "ensures") and "{" in words[i + 1:i + 4]:
                i = self.closing(self.until(i, "{")) + 1
            elif word == "ghost" and words[i + 1] == "use":
                i = self.until(i, ";") + 1
            elif word == "ghost" and is_name(words[i + 1]) and "{" in words[i + 2:i + 4]:
                i = self.closing(self.until(i, "{")) + 1
            elif word in ("#", "#!") and words[i + 1:i + 3] == ["[", "tactic"] or word == "#!" and words[i + 1] == "[":
                i = self.closing(i + 1) + 1
            else:
                if word not in ",;" or i > 0 and self.line_of(i - 1) == self.line_of(i):
                    lines.add(self.line_of(i))
                i += 1
        return len(lines)

    def line_of(self, i):
        return bisect.bisect_right(self.starts, self.tokens[i].start())

    def closing(self, i):
        """Where the bracket closes that opens here."""
        depth = 0
        for k in range(i, len(self.words)):
            if self.words[k] in OPEN:
                depth += 1
            elif self.words[k] in CLOSE:
                depth -= 1
                if depth == 0:
                    return k
        raise ValueError(f"{self.path}: a bracket that is not closed in line {self.line_of(i)}")

    def inside(self, i, end):
        """The text between the brackets at these places."""
        return self.text[self.tokens[i].end():self.tokens[end].start()]

    def until(self, i, sign):
        """Where that sign comes next, outside brackets that open before it."""
        while self.words[i] != sign:
            i = self.closing(i) + 1 if self.words[i] in OPEN else i + 1
        return i


class Crate:
    """What the root file of a crate makes public."""

    def __init__(self, name):
        self.name = name
        self.exported = set()
        self.is_program = not os.path.isfile(f"{TOP}/crates/{name}/src/lib.rt")
        self.items = []
        self.values = {}  # of a type: what contracts see of it
        self.traits = {}
        if not self.is_program:
            with open(f"{TOP}/crates/{name}/src/lib.rt", encoding="utf-8") as it:
                for found in re.finditer(r"^pub use ([^;]+);", it.read(), re.M):
                    group = found[1].partition("{")[2].rstrip("}").split(",") if "{" in found[1] else [found[1].rsplit("::", 1)[-1]]
                    self.exported.update(one.split("::")[-1].split(" as ")[0].strip() for one in group if one.strip())


class Sources:
    """The clauses of all crates. `below` has for each crate those that it stands on."""

    def __init__(self, specs, below):
        self.specs, self.below = specs, below
        self.crates = {name: Crate(name) for name in below}
        self.files = []
        for name in below:
            for folder, folders, files in os.walk(f"{TOP}/crates/{name}/src"):
                folders.sort()
                for file in sorted(files):
                    if file.endswith(".rt"):
                        self.files.append(CodeFile(self.crates[name], os.path.relpath(f"{folder}/{file}", TOP)))
        for file in self.files:
            self.items(file, 0, len(file.words), Scope(), None)

    def items(self, file, i, end, scope, owner):
        """Reads the items between these places. `owner` is what they belong to, if not to the file: its kind, its name, and about it."""
        words = file.words
        visible = False
        while i < end:
            word = words[i]
            if word in ("#", "#!"):
                i = file.closing(file.until(i, "[")) + 1
            elif word == "pub":
                visible = words[i + 1] != "("
                i += 1 if visible else file.closing(i + 1) + 1 - i
            elif word == "ghost" and words[i + 1] == "use":
                i = self.bring(file, i, scope)
                visible = False
            else:
                i = self.item(file, i, end, scope, owner, visible)
                visible = False

    def item(self, file, i, end, scope, owner, visible):
        """Reads what begins at this place, and returns where the next item begins."""
        words = file.words
        word = words[i]
        if word == "ghost":
            return self.ghost(file, i, scope, owner)
        if word == "use":
            stop = file.until(i, ";")
            self.use(file, file.text[file.tokens[i].end():file.tokens[stop].start()])
            return stop + 1
        if word == "fn":
            return self.function(file, i, end, scope, owner, visible)
        if word in ("struct", "enum"):
            return self.type(file, i, scope, visible)
        if word == "trait":
            return self.trait(file, i, scope, visible)
        if word == "impl":
            return self.implementation(file, i, scope)
        if word == "mod":
            return i + 3 if words[i + 2] == ";" else file.closing(i + 2) + 1
        if word in ("const", "static", "type") and words[i + 1] != "fn":
            stop = file.until(i, ";")
            if word == "type" and owner and owner[0] == "trait":
                owner[2]["types"][words[i + 1]] = [it for it in words[i + 2:stop] if it[0].isupper()]
            return stop + 1
        return i + 1

    def bring(self, file, i, scope):
        """Reads a `ghost use`."""
        stop = file.until(i, ";")
        self.specs.bring(scope, " ".join(file.text[file.tokens[i].start():file.tokens[stop].start()].split()))
        return stop + 1

    @staticmethod
    def say(item, *parts):
        """Notes a clause of an item."""
        clause = Clause(item, *parts)
        item.clauses.append(clause)
        item.file.said.append(clause)

    def use(self, file, text):
        """Notes the crate of each name of a Rust import."""
        text = " ".join(text.split())
        head, _, group = text.partition("{")
        crate = head.split("::")[0].strip()
        names = group.rstrip("} ").split(",") if group else [head.rsplit("::", 1)[-1]]
        for it in names:
            old, _, new = it.strip().split("::")[-1].partition(" as ")
            if old:
                file.uses[(new or old).strip()] = (file.crate.name if crate in ("crate", "super", "self") else crate, old.strip())

    def resolve(self, file, name):
        """The crate of a type that a file names."""
        return file.uses.get(name, (file.crate.name, name))

    def ghost(self, file, i, scope, owner):
        """Reads `ghost NAME = { .. };` or `ghost NAME: { .. };` of a trait, of its implementation, or of how contracts see a type."""
        words = file.words
        if "{" not in words[i:i + 4]:
            return file.until(i, ";") + 1
        name, opens = words[i + 1], file.until(i, "{")
        ends = file.closing(opens)
        text = file.inside(opens, ends)
        if owner:
            kind, title, about = owner
            names = names_in(tokens_of(text), scope, (), self.specs.lookup)
            about["ghosts"][name] = names
            if kind != "model":
                scope.names[name] = ("ghost", names)
            if kind == "model" and name == "Value":
                file.crate.values[title] = names
            if kind != "model" or name == "Value":
                self.say(about["item"], "ghost", name, text, scope, (), about["item"].public)
        return self.after_group(file, ends)

    @staticmethod
    def after_group(file, ends):
        """Where it goes on after a clause, with what proves it and a sign at its end."""
        words, k = file.words, ends + 1
        if words[k] == "by":
            k = file.closing(k + 1) + 1
        return k + 1 if words[k] in (";", ",") else k

    def bounds_of(self, file, i, end):
        """The type parameters between these places with their bounds."""
        found, words = {}, file.words
        for k in range(i, end):
            if words[k] == ":" and words[k - 1][0].isupper():
                stop, depth = k + 1, 0
                while stop < end and not (words[stop] in ",{;" and depth <= 0) and words[stop] not in ("requires", "ensures", "where"):
                    depth += (words[stop] in "(<[") - (words[stop] in ")>]")
                    if depth < 0:
                        break
                    stop += 1
                found.setdefault(words[k - 1], []).extend(it for it in words[k + 1:stop] if it[0].isupper())
        return found

    def function(self, file, i, end, scope, owner, visible):
        """Reads a function with its clauses."""
        words, crate = file.words, file.crate
        name = words[i + 1]
        kind, title, about = owner or ("", "", {})
        if kind in ("trait", "impl"):
            public = about["item"].public
        elif owner:
            public = visible and title in crate.exported
        else:
            public = visible and name in crate.exported or crate.is_program and name == "main"
        item = Item(crate, f"{title}::{name}" if owner else name, file, file.line_of(i), public)
        opens = file.until(i, "(")
        closes = file.closing(opens)
        k, head, clauses = closes + 1, None, []
        while k < end and words[k] not in "{;":
            if words[k] in ("requires", "ensures"):
                head = head or k
                opens_at = file.until(k, "{")
                label = next((it for it in words[k + 1:opens_at] if is_name(it)), "")
                ends_at = file.closing(opens_at)
                clauses.append((words[k], label, file.inside(opens_at, ends_at)))
                k = ends_at + 1
                if words[k] == "by":
                    k = file.closing(k + 1) + 1
            else:
                k = file.closing(k) + 1 if words[k] in OPEN else k + 1
        if clauses:
            item.types = self.types_of(file, opens, closes, title)
            item.types["result"] = [title if it == "Self" else it for it in words[closes + 1:head] if it[0].isupper()]
            item.bounds = {**about.get("bounds", {}), **self.bounds_of(file, i + 2, head)}
            for kind, label, text in clauses:
                self.say(item, kind, label, text, scope, {*item.types, *item.bounds}, public)
            crate.items.append(item)
        return file.closing(k) + 1 if words[k] == "{" else k + 1

    @staticmethod
    def types_of(file, opens, closes, owner):
        """The names of the parameters between these brackets, with the types that the type of each is made of."""
        words, found, k = file.words, {}, opens + 1
        while k < closes:
            stop, depth = k, 0
            while stop < closes and not (words[stop] == "," and depth == 0):
                depth += (words[stop] in "(<[{") - (words[stop] in ")>]}")
                stop += 1
            piece = words[k:stop]
            if "self" in piece[:4]:
                found["self"] = [owner]
            elif ":" in piece:
                colon = piece.index(":")
                types = [it for it in piece[colon + 1:] if it[0].isupper()]
                found.update((it, types) for it in piece[:colon] if is_name(it) and it != "mut")
            k = stop + 1
        return found

    def type(self, file, i, scope, visible):
        """Reads a struct or an enum, with the clauses among its fields."""
        words, crate = file.words, file.crate
        name = words[i + 1]
        opens = i + 2
        while words[opens] not in "{(;":
            opens += 1
        if words[opens] == ";":
            return opens + 1
        ends = file.closing(opens)
        if words[opens] == "(":
            return file.until(ends + 1, ";") + 1
        inner = scope.child()
        item = Item(crate, name, file, file.line_of(i), visible and name in crate.exported)
        fields = {words[k - 1] for k in range(opens + 1, ends) if words[k] == ":"}
        k = opens + 1
        while k < ends:
            if words[k] == "ghost" and words[k + 1] == "use":
                k = self.bring(file, k, inner)
            elif words[k] == "ghost":
                at = file.until(k, "{")
                closes = file.closing(at)
                self.say(item, "ghost", words[k + 1], file.inside(at, closes), inner, fields, item.public and words[k - 1] == "pub")
                k = closes + 1
            else:
                k = file.closing(k) + 1 if words[k] in OPEN else k + 1
        if item.clauses:
            crate.items.append(item)
        return ends + 1

    def trait(self, file, i, scope, visible):
        """Reads a trait with its methods."""
        words, crate = file.words, file.crate
        name, opens = words[i + 1], file.until(i, "{")
        ends = file.closing(opens)
        item = Item(crate, name, file, file.line_of(i), visible and name in crate.exported)
        item.is_trait = True
        crate.traits[name] = {"item": item, "types": {}, "ghosts": {}, "bounds": self.bounds_of(file, i + 1, opens)}
        crate.items.append(item)
        self.items(file, opens + 1, ends, scope.child(), ("trait", name, crate.traits[name]))
        return ends + 1

    def implementation(self, file, i, scope):
        """Reads an `impl`: of a type, of how contracts see one (`Model`), or of another trait."""
        words, crate = file.words, file.crate
        opens = file.until(i, "{")
        ends = file.closing(opens)
        head, k, depth = words[i + 1:opens], 0, 0
        while head[0] == "<" and (k == 0 or depth > 0):
            depth += head[k].count("<") - head[k].count(">") + (head[k] == "->")
            k += 1
        head = head[k:head.index("where") if "where" in head else len(head)]
        split = head.index("for") if "for" in head else None
        target = head if split is None else head[split + 1:]
        title = next((it for it in target if it[0].isupper()), target[0])
        kind = "type" if split is None else "model" if "Model" in head[:split] else "impl"
        item = Item(crate, title, file, file.line_of(i), title in crate.exported)
        about = {"item": item, "ghosts": {}, "bounds": self.bounds_of(file, i, opens)}
        if kind != "type":
            crate.items.append(item)
        self.items(file, opens + 1, ends, scope.child(), (kind, title, about))
        return ends + 1

    # -- what a clause names itself

    def names_of(self, clause):
        """The meanings of the names of a clause, and of what contracts see of its parameters."""
        tokens = tokens_of(COMMENT.sub("", clause.text))
        found = []
        for it in names_in(tokens, clause.scope, clause.bound, self.specs.lookup):
            found += it[1] if isinstance(it, tuple) else [it]
        item = clause.item
        file = item.file
        said = {it.text for it in tokens}
        bounds = item.bounds
        for name, types in item.types.items():
            if name in said:
                for it in types:
                    crate, real = self.resolve(file, it)
                    if crate in self.crates:
                        found += self.crates[crate].values.get(real, [])
        for k, it in enumerate(tokens):
            if it.text in bounds and k + 2 < len(tokens) and tokens[k + 1].text == ".":
                traits, at = bounds[it.text], k + 2
                while at < len(tokens):
                    abouts = [about for about in (self.about(file, one) for one in traits) if about]
                    name = tokens[at].text
                    for about in abouts:
                        found += about["ghosts"].get(name, [])
                    traits = [one for about in abouts for one in about["types"].get(name, [])]
                    if at + 2 < len(tokens) and tokens[at + 1].text == "." and tokens[at + 1].joined and traits:
                        at += 2
                    else:
                        break
        return found

    def premises_of(self, items):
        """The traits that items are proved over."""
        return sorted({it for item in items for traits in item.bounds.values() for it in traits if self.about(item.file, it)})

    def about(self, file, name):
        crate, real = self.resolve(file, name)
        if crate in self.crates and real in self.crates[crate].traits:
            return self.crates[crate].traits[real]
        return next((it.traits[name] for it in self.crates.values() if name in it.traits), None)
