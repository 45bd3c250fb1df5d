"""What a reader has to believe for some clauses: the definitions that they cite, transitively, in reading order.

A clause is named as CRATE::PATH::FUNCTION[:LABEL,LABEL..]. FUNCTION is `Type::method` or a free function, PATH the
modules of its file, as far as the name alone isn't enough; with no labels all of its `ensures` count. Its `requires`
always count. A record with no parameters is data: only those of its fields that the clauses and the definitions read
are followed. Words of the standard library are not followed.

It reads text and proves nothing: a name is looked up among the imports and the definitions of its own file.
"""
import os
import re
import sys
from collections import OrderedDict

WORD = re.compile(r"(?<![\w.'])([A-Za-z_][\w']*)")
READ = re.compile(r"\.([a-z_]\w*)")
HEAD = re.compile(r"^(?:(?:abbrev|unfoldable) )?(?:pub )?(?:(record|data) )?([A-Za-z_][\w'-]*)(?= |$)")


class Definition:
    def __init__(self, kind, module, name, comment, lines, path, at):
        self.kind, self.module, self.name = kind, module, name
        self.comment, self.lines, self.path, self.at = comment, lines, path, at

    def text(self):
        return "\n".join(self.lines)

    def size(self):
        return sum(1 for line in self.lines if line.strip() and not line.strip().startswith(("--", "//")))

    def is_data(self):
        first = self.lines[0]
        return self.kind == "code" or (self.kind == "record" and re.match(r"^(pub )?record [\w']+ :", first))

    def fields(self):
        """The fields of a record, or of a struct in the code: a name, and the text of its type."""
        found, name = [], None
        for line in self.lines[1:]:
            m = re.match(r"^\s+pub(?:\(crate\))? ([\w']+)\s*:(.*)", line)
            if m:
                name = m.group(1)
                found.append([name, m.group(2)])
            elif name and line.strip() and not line.strip().startswith(("--", "//")):
                found[-1][1] += " " + line
        return found


class Spec:
    """A file of specs/: its imports, its definitions in order, and the words of other files that it gives again."""

    def __init__(self, module, path):
        self.imports, self.names, self.inner, self.again = {}, OrderedDict(), {}, {}
        comment, current, margin = [], None, ""
        for number, line in enumerate(open(path, encoding="utf-8").read().split("\n"), 1):
            margin = "  " if line.startswith("module ") else margin  # (what has a module's parameters stands further in)
            line = line[len(margin):] if line.startswith(margin) else line
            if line.startswith("use "):
                read_import(line[4:], self.imports)
            elif line.startswith("pub use "):
                read_import(line[8:], self.again)
                self.imports.update(self.again)
                comment, current = [], None
            elif line.startswith("-- ----"):
                comment, current = [], None
            elif line.startswith("--"):
                comment.append(line)
                current = None
            elif not line.strip():
                comment = [] if current is None else comment
                current = None if current is None else current
            elif line[0] == " ":
                if current is not None:
                    current.lines.append(line)
                    inner = re.match(r"^  ([\w']+) :", line)
                    if inner and current.kind == "data":
                        self.inner[inner.group(1)] = current.name
            elif line.startswith("}"):
                # (the end of a record stands behind its last field)
                if current is not None:
                    current.lines[-1] += " " + line
            else:
                m = HEAD.match(line)
                if not m or line.startswith(("pub mod", "mod ")):
                    comment, current = [], None
                    continue
                name = m.group(2)
                if name in self.names:
                    current = self.names[name]
                    current.lines.append(line)
                else:
                    kind = m.group(1) or ("abbrev" if line.startswith(("abbrev", "unfoldable")) else "word")
                    current = Definition(kind, module, name, comment, [line], path, number)
                    self.names[name] = current
                comment = []


def read_import(text, into):
    text = text.strip().rstrip(";")
    m = re.match(r"^(\S+?)\.\{(.*)\}$", text)
    if m:
        for item in m.group(2).split(","):
            parts = item.strip().split(" as ")
            into[parts[-1].strip()] = (m.group(1), parts[0].strip())


class Repository:
    def __init__(self, top):
        self.top, self.specs, self.sources, self.views, self.traits = top, {}, {}, {}, {}
        crates = os.path.join(top, "crates")
        for crate in sorted(os.listdir(crates)):
            for folder, inside, files in os.walk(os.path.join(crates, crate)):
                inside[:] = [d for d in inside if d not in ("out", "proofs")]
                for file in files:
                    path = os.path.join(folder, file)
                    where = os.path.relpath(path, os.path.join(crates, crate))
                    if where.startswith("specs" + os.sep) and file.endswith(".antt"):
                        module = "Rattle." + crate + "." + where[:-5].replace(os.sep, ".")
                        self.specs[module] = Spec(module, path)
                    elif where.startswith("src" + os.sep) and file.endswith(".rt"):
                        self.read_source(crate, where[4:-3], path)

    def read_source(self, crate, where, path):
        text = open(path, encoding="utf-8").read()
        imports = {}
        for m in re.finditer(r"^ *ghost use ([^;]+);", text, re.M):
            read_import(m.group(1), imports)
        self.sources[(crate, where)] = (path, text, imports)
        for m in re.finditer(r"^impl(?:<.*>)? Model for (\w+)", text, re.M):
            block = braces(text, text.index("{", m.end()))
            value = re.search(r"ghost Value = (\{)", block)
            view = re.search(r"ghost view = (\{)", block)
            if value:
                lines = ["ghost Value = " + braces(block, value.start(1)) + ";"]
                lines += ("ghost view = " + braces(block, view.start(1)) + ";").split("\n") if view else []
                at = text[: m.start()].count("\n") + 1
                self.views[m.group(1)] = (
                    Definition("view", crate + "::" + where, m.group(1), [], lines, path, at), imports)
        for m in re.finditer(r"^pub trait (\w+)", text, re.M):
            block = braces(text, text.index("{", m.end()))
            ghosts = dict(re.findall(r"ghost (\w+): \{ (.*?) \};", block, re.S))
            self.traits[m.group(1)] = (ghosts, imports)

    def code(self, crate, name):
        """A type of the code: what `specs.declared` stands for."""
        for (other, where), (path, text, imports) in self.sources.items():
            item = r"^((?:///.*\n|#\[.*\n)*)pub(?:\(crate\))? (?:struct|enum) %s\b" % name
            m = other == crate and re.search(item, text, re.M)
            if m:
                start = m.end(1)
                end = text.index("{", start) if re.match(r"[^;(]*\{", text[start:]) else None
                item = text[start:end] + braces(text, end) if end else text[start : text.index(";", start) + 1]
                comment = [l for l in m.group(1).split("\n") if l.startswith("///")]
                at = text[:start].count("\n") + 1
                module = "Rattle.%s.specs.declared.%s" % (crate, name)
                return Definition("code", module, name, comment, item.split("\n"), path, at)
        return None

    def find(self, module, name):
        """The definition that a name of a module means, or None where it isn't the repository's."""
        parts = module.split(".")
        if parts[0] != "Rattle" or len(parts) < 3:
            return None
        if "declared" in parts:
            return self.code(parts[1], name if parts[-1] == name or parts[-1] != "TheVariants" else parts[-2])
        spec = self.specs.get(module)
        if spec is None:  # a constructor, imported from its type
            spec = self.specs.get(".".join(parts[:-1]))
            return spec and spec.names.get(parts[-1])
        if name in spec.again:
            return self.find(*spec.again[name])
        return spec.names.get(name) or spec.names.get(spec.inner.get(name))


def braces(text, at):
    depth = 0
    for i in range(at, len(text)):
        depth += {"{": 1, "}": -1}.get(text[i], 0)
        if depth == 0:
            return text[at : i + 1]
    raise ValueError("no end of a brace")


class Clause:
    def __init__(self, repository, wanted):
        name, _, labels = wanted.replace("::", "\0").partition(":")
        parts = name.split("\0")
        labels = [label for label in labels.split(",") if label]
        crate, function = parts[0], parts[-1]
        owner = parts[-2] if len(parts) > 2 and parts[-2][0].isupper() else None
        modules = "/".join(p for p in parts[1:-1] if p != owner)
        for (other, where), (path, text, imports) in repository.sources.items():
            if other != crate or (modules and not where.endswith(modules)):
                continue
            for m in re.finditer(r"^( *)pub fn %s\b" % function, text, re.M):
                before = text[: m.start()]
                impl = re.findall(r"^impl(<.*>)? (\w+)", before, re.M) if m.group(1) else []
                if (owner is None) != (not impl) or (impl and impl[-1][1] != owner):
                    continue
                end = re.compile(r"^%s\{" % m.group(1), re.M).search(text, m.end()).start()
                self.head = text[m.start() : end]
                self.owner, self.generics = owner, impl[-1][0] if impl else ""
                self.path, self.at, self.name = path, before.count("\n") + 1, name.replace("\0", "::")
                self.imports = imports
                self.clauses = OrderedDict()
                for c in re.finditer(r"^ *(requires|ensures)\*? ?([\w]*) ?(\{)", self.head, re.M):
                    body = braces(self.head, c.start(3))
                    if c.group(1) == "requires" or not labels or c.group(2) in labels:
                        self.clauses[(c.group(1) + " " + c.group(2)).strip()] = body
                missing = [label for label in labels if "ensures " + label not in self.clauses]
                if missing:
                    sys.exit("%s has no clause %s" % (self.name, ", ".join(missing)))
                return
        sys.exit("no function " + wanted)

    def text(self):
        return "\n".join("%s %s" % item for item in self.clauses.items())

    def signature(self):
        """What stands before the clauses: the function's name, its arguments and its answer."""
        return self.head[: re.compile(r"^ *(?:requires|ensures)", re.M).search(self.head).start()]

    def types(self):
        """The types of the arguments and of the answer, and the traits of the parameters that the clauses name."""
        signature = self.signature()
        text = self.text()
        arguments = signature[re.search(r"\(", signature).start() :]
        named = []
        for m in re.finditer(r"(\w+): (&(?:mut )?)?([\w<>:, ]+?)(?=[,)\n])", arguments):
            if re.search(r"\b%s\b" % m.group(1), text):
                named += re.findall(r"[A-Z]\w+", m.group(3).split("<")[0])
        if self.owner and re.search(r"\bself\b", text):
            named.append(self.owner)
        if re.search(r"\bresult\b", text) and "->" in arguments:
            named += [w for w in re.findall(r"[A-Z]\w+", arguments.split("->")[1])]
        bounds = dict(re.findall(r"([A-Z]\w*): (\w+)", signature + self.generics))
        ghosts = [(bounds[p], g) for p, g in re.findall(r"\b([A-Z])\.([a-z]\w*)", text) if p in bounds]
        return named, ghosts


class Closure:
    def __init__(self, repository):
        self.repository = repository
        self.found, self.std, self.read, self.lost = OrderedDict(), set(), set(), set()

    def words(self, text, imports, spec, own=()):
        text = re.sub(r"(--|//).*", "", text)
        self.read.update(READ.findall(text))
        self.read.update(re.findall(r"[{;,]\s*([a-z_]\w*) =(?![=])", text))
        bound = set(re.findall(r"λ \(?([\w' ]+?)(?: :|\.)", text)) | set(re.findall(r"let ([\w']+)", text))
        bound = {w for b in bound for w in b.split()} | set(own)
        for name in WORD.findall(text):
            if name in bound:
                continue
            if spec and (name in spec.names or name in spec.inner):
                yield spec.names.get(name) or spec.names[spec.inner[name]]
            elif name in imports:
                module, original = imports[name]
                found = self.repository.find(module, original)
                if found:
                    yield found
                elif module.split(".")[0] == "Rattle" and module.split(".")[1] in CRATES:
                    self.lost.add(module + "." + original)
                else:
                    self.std.add(module + "." + original)

    def add(self, definition, path=()):
        key = (definition.module, definition.name, definition.kind)
        if key in self.found or key in path:
            return
        path = path + (key,)
        spec = self.repository.specs.get(definition.module)
        if definition.kind == "view":
            imports = self.repository.views[definition.name][1]
            for other in self.words(definition.lines[0], imports, None):
                self.add(other, path)
        elif definition.is_data():
            for name, type_text in definition.fields():
                if name in self.read:
                    self.follow_type(definition, type_text, spec, path)
        else:
            own = [m for m in re.findall(r"^\s+pub ([\w']+)\s*:", definition.text(), re.M)]
            binders = [w for b in re.findall(r"[({]([\w' ]+) :", definition.text()) for w in b.split()]
            for other in self.words(definition.text(), spec.imports, spec, own + binders + [definition.name]):
                self.add(other, path)
        self.found.setdefault(key, definition)

    def follow_type(self, definition, type_text, spec, path):
        if definition.kind == "code":
            for word in re.findall(r"[A-Z]\w+", type_text):
                self.add_view(word, path)
        else:
            for other in self.words(type_text, spec.imports, spec):
                self.add(other, path)

    def add_view(self, type_name, path=()):
        if type_name in self.repository.views:
            self.add(self.repository.views[type_name][0], path)
        else:
            crates = [d for (c, w) in self.repository.sources for d in [self.repository.code(c, type_name)] if d]
            if crates:
                self.add(crates[0], path)

    def take(self, clauses):
        """Until no more fields are read than were known: what is read decides what is followed."""
        before = None
        while before != (len(self.read), len(self.found)):
            before = (len(self.read), len(self.found))
            self.found = OrderedDict()
            for clause in clauses:
                for other in list(self.words(clause.text(), clause.imports, None)):
                    self.add(other)
                named, ghosts = clause.types()
                for name in named:
                    self.add_view(name)
                for trait, ghost in ghosts:
                    types, imports = self.repository.traits.get(trait, ({}, {}))
                    for other in list(self.words(types.get(ghost, ""), imports, None)):
                        self.add(other)


    def types_of_unread(self):
        """The definitions of the repository that the fields have which nothing reads, in the order of these."""
        unread = OrderedDict()
        for definition in [it for it in self.found.values() if it.is_data()]:
            types = Closure(self.repository)
            for name, text in definition.fields():
                if name not in self.read:
                    types.follow_type(definition, text, self.repository.specs.get(definition.module), ())
            unread.update((key, it) for key, it in types.found.items() if key not in self.found)
        return list(unread.values())


CRATES = set()


def definitions_of(repository, clauses):
    """The definitions that the clauses cite, in reading order; those that their unread fields have; and the names that
    were found nowhere."""
    CRATES.update(crate for crate, _ in repository.sources)
    closure = Closure(repository)
    closure.take(clauses)
    return list(closure.found.values()), closure.types_of_unread(), sorted(closure.lost)
