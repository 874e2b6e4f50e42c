"""The crates' sources as text: modules, functions with their clauses and bodies, types with their methods, and what names lead to. It knows the items
that these crates have, and says so (Unclear) where it meets another. Imported by tools/contracts and tools/reached.

Public is what another crate or C can call: a `pub fn` of lib.rt or of a `pub mod`, one that is passed on by `pub use`, the `pub fn`s of a type
that is reached so (`Type::name`), in whichever module of the crate their `impl` stands, every function of an `impl` of one of these crates' traits,
and every `pub extern "C" fn`. A `pub fn` of a private module that nothing passes on is the crate's own, and so is a `pub(crate)` one.
A trait's function has clauses and no body, and that of an `impl` of it has these clauses: it is named as Rattle names it, by the type and then the
trait (`PosEcefFixedMessage::take`, `U8InBytes::read`).
"""
import os
import re

ROOT = os.path.dirname(os.path.dirname(os.path.abspath(__file__)))
CRATES = os.path.join(ROOT, "crates")
COMMENT_OR_TEXT = re.compile(r'(extern\s+"C")|//[^\n]*|b?"(?:\\.|[^"\\])*"|b?\'(?:\\.|[^\'\\])\'')
SKIPPED = re.compile(r"#!?\[[^\]]*\]|ghost\s+use\b[^;]*;|(?:pub(?:\([^)]*\))?\s+)?(?:type\b[^;]*|const\b[^=]*=[^;]*);")
CONST = re.compile(r"(?:pub(?:\([^)]*\))?\s+)?const\s+(\w+)")
USE = re.compile(r"(pub(?:\([^)]*\))?\s+)?use\s+([^;]*);")
MOD = re.compile(r"(pub\s+)?mod\s+(\w+)\s*;")
TYPE = re.compile(r"(?:pub(?:\([^)]*\))?\s+)?(?:struct|enum)\s+(\w+)")
IMPL = re.compile(r"impl(?:\s*<[^>]*>)?\s+(?:([\w:]+)(?:<[^>]*>)?\s+for\s+)?([\w:]+)[^{]*\{")
TRAIT = re.compile(r"(?:pub(?:\([^)]*\))?\s+)?trait\s+(\w+)[^{]*\{")
FN = re.compile(r'(pub(?:\([^)]*\))?\s+)?(extern\s+"C"\s+)?fn\s+(\w+)')
SPACE = re.compile(r"\s*")
# a clause has a name of its own, where there are several
CLAUSE = re.compile(r"\s*\b(requires|ensures|ghost)\b\*?(?:\s+\w+)?\s*(?=\{)")


class Unclear(Exception):
    """Text that is not read here."""


def past(text, at, pair):
    """The index past the bracket that closes the one at `at`."""
    depth = 0
    for i in range(at, len(text)):
        depth += (text[i] == pair[0]) - (text[i] == pair[1])
        if depth == 0:
            return i + 1
    raise Unclear("a bracket is not closed")


def paths(several):
    """The paths of a `use`."""
    if "*" in several or re.search(r"\bas\b", several):
        raise Unclear("`use %s`: name each thing, by its own name" % several)
    head, _, names = re.sub(r"\s", "", several).partition("{")
    return [head + name for name in names.rstrip("}").split(",") if name] if names else [head]


def past_generics(text, at):
    """The index past the parameters in angle brackets that begin at `at`, if any do; `->` closes none."""
    if not text.startswith("<", at):
        return at
    depth = 0
    for i in range(at, len(text)):
        depth += (text[i] == "<") - (text[i] == ">" and text[i - 1] != "-")
        if depth == 0:
            return i + 1
    raise Unclear("a bracket is not closed")


class Function:
    """A function's head, clauses and body, in its module, and of the type `of`, if it is a method; `end` is where it ends in the text. A trait's
    has no body; that of an `impl` of `trait` has the clauses that the trait gives it, which are put in once all crates are read."""

    def __init__(self, text, head, module, of=None, trait=None, bodiless=False):
        self.name = head.group(3)
        self.module, self.of, self.trait, self.promised = module, of, trait, None
        self.public = (head.group(1) or "").strip() == "pub"
        self.foreign = head.group(2) is not None
        starts = past_generics(text, SPACE.match(text, head.end()).end())
        self.generics = text[head.end():starts].strip()
        opens = text.index("(", starts)
        closes = past(text, opens, "()")
        body = re.compile(r"\b(?:requires|ensures|ghost)\b|[{;]" if bodiless else r"\b(?:requires|ensures|ghost)\b|\{").search(text, closes)
        self.parameters = text[opens + 1:closes - 1]
        self.result = text[closes:body.start()].strip()
        self.clauses, at = [], body.start()
        while clause := CLAUSE.match(text, at):
            at = past(text, clause.end(), "{}")
            self.clauses.append((clause.group(1), text[clause.end() + 1:at - 1].strip()))
        if bodiless:
            self.end = SPACE.match(text, at).end()
            if not text.startswith(";", self.end):
                raise Unclear("a trait's function with a body: %s" % self.name)
            self.end, self.body = self.end + 1, ""
            return
        if trait and self.clauses:
            raise Unclear("a function of an `impl` of a trait with clauses of its own: %s" % self.name)
        opens = text.index("{", at)
        self.end = past(text, opens, "{}")
        self.body = text[opens:self.end]

    def impl_name(self):
        """Rattle's name of the `impl` of a trait that it stands in."""
        kind = self.of.split("::")[-1]
        return kind[0].upper() + kind[1:] + self.trait.split("::")[-1]

    def full_name(self):
        """Its name, as Type::name where it is a type's, by Rattle's name of the `impl` where it is of a trait."""
        return "%s::%s" % (self.impl_name() if self.trait else self.of.split("::")[-1], self.name) if self.of else self.name

    def namesake(self, crates):
        """The function of the same name that it does nothing but call, with its own parameters in their order; else None."""
        names = re.findall(r"(?:^|,)\s*(\w+)\s*:", self.parameters)
        call = re.fullmatch(r"\{\s*(\w+::\w+)\(\s*([\w\s,]*)\)\s*\}", self.body)
        found = self.module.leads_to(call.group(1), crates) if call and re.findall(r"\w+", call.group(2)) == names else None
        return found if isinstance(found, Function) and found.name == self.name else None


class Module:
    """The items of a file. `uses` are the paths that it passes on, `brought` all that it names by `use`."""

    def __init__(self, path, crate, above=None):
        self.crate, self.above = crate, above
        self.root = above.root if above else self
        self.functions, self.methods, self.types, self.constants, self.uses, self.brought, self.modules = {}, [], set(), set(), [], {}, {}
        self.traits = {}
        with open(path, encoding="utf-8") as file:
            self.text = COMMENT_OR_TEXT.sub(r"\1", file.read()).strip()
        folder = path[:-len(".rt")] if above and os.path.basename(path) != "mod.rt" else os.path.dirname(path)
        at = 0
        while at < len(self.text):
            at = SPACE.match(self.text, self.item(self.text, at, folder)).end()

    def item(self, text, at, folder):
        if m := SKIPPED.match(text, at):
            if named := CONST.match(text, at):
                self.constants.add(named.group(1))
            return m.end()
        if m := USE.match(text, at):
            named = paths(m.group(2))
            self.brought.update((path.split("::")[-1], path) for path in named)
            self.uses += named if (m.group(1) or "").strip() == "pub" else []
        elif m := MOD.match(text, at):
            places = [os.path.join(folder, *name) for name in ((m.group(2) + ".rt",), (m.group(2), "mod.rt"))]
            self.modules[m.group(2)] = m.group(1) is not None, Module(next(filter(os.path.exists, places)), self.crate, self)
        elif m := TYPE.match(text, at):
            self.types.add(m.group(1))
            end = re.compile(r"[;({]").search(text, m.end()).start()
            if text[end] == "(":
                return text.index(";", past(text, end, "()")) + 1
            return end + 1 if text[end] == ";" else past(text, end, "{}")
        elif m := IMPL.match(text, at):
            end = past(text, m.end() - 1, "{}")
            self.methods += self.functions_in(text, m.end(), end, of=m.group(2), trait=m.group(1))
            return end
        elif m := TRAIT.match(text, at):
            end = past(text, m.end() - 1, "{}")
            self.traits[m.group(1)] = {function.name: function for function in self.functions_in(text, m.end(), end, of=m.group(1), bodiless=True)}
            return end
        elif m := FN.match(text, at):
            function = Function(text, m, self)
            self.functions[function.name] = function
            return function.end
        else:
            raise Unclear("an item that is not known here: %s" % text[at:at + 60].split("\n")[0])
        return m.end()

    def functions_in(self, text, inside, end, **where):
        """The functions of a block."""
        while head := FN.search(text, inside, end):
            function = Function(text, head, self, **where)
            inside = function.end
            yield function

    def everywhere(self):
        yield self
        for _, module in self.modules.values():
            yield from module.everywhere()

    def item_named(self, name, crates, inside=False):
        """What a name means in this module; inside: it is followed by a further name of a path, so that it is no function."""
        if name in self.functions and not inside:
            return self.functions[name]
        if name in self.types or name in self.traits:
            return self, name
        if name in self.modules:
            return self.modules[name][1]
        found = self.leads_to(self.brought[name], crates, True) if name in self.brought else None
        return None if inside and isinstance(found, Function) else found

    def leads_to(self, path, crates, used=False):
        """What a path means here: a function, a module, a type as (its module, its name), or None where it is of the kit, or nothing that is kept.
        crates has the libraries by name; used: it is the path of a `use`, which begins at the crate, at an item of this module or at a library."""
        head, *rest = path.split("::")
        if head in ("crate", "self", "super"):
            found = {"crate": self.root, "self": self, "super": self.above}[head]
        elif used and head not in self.modules and head not in self.types and head not in self.traits:
            found = crates.get(head)
        else:
            found = self.item_named(head, crates, bool(rest)) or crates.get(head)
        for place, name in enumerate(rest, 1):
            if isinstance(found, Module):
                found = found.item_named(name, crates, place < len(rest))
            elif isinstance(found, tuple):
                found = next((method for method in found[0].methods_of(found[1]) if method.name == name), None)
            else:
                return None
        return found

    def methods_of(self, name):
        """The methods of a type of this module, in all `impl`s of the crate; or a trait's functions."""
        if name in self.traits:
            return list(self.traits[name].values())
        return [method for module in self.root.everywhere() for method in module.methods if module.leads_to(method.of, {}) == (self, name)]

    def public_here(self, prefix=""):
        """The functions that a caller of the crate can name, with their names."""
        types = {(self, name) for name in (*self.types, *self.traits)}
        for name, function in self.functions.items():
            if function.public:
                yield prefix + name, function
        for path in self.uses:
            found, name = self.leads_to(path, {}), path.split("::")[-1]
            if isinstance(found, Function):
                yield prefix + name, found
            elif isinstance(found, tuple):
                types.add(found)
            elif not any(name in module.constants for module in self.root.everywhere()):
                raise Unclear("`pub use %s` names nothing of the crate" % path)
        for module, name in types:
            for method in module.methods_of(name):
                if method.public or name in module.traits:
                    yield "%s%s::%s" % (prefix, name, method.name), method
        for name, (public, module) in self.modules.items():
            if public:
                yield from module.public_here(prefix + name + "::")

    def public(self):
        """The same of a whole crate, and each `extern "C"` one; and the names of all other functions."""
        public, own = dict(self.public_here()), set()
        for module in self.everywhere():
            for method in module.methods:
                if not method.trait and not isinstance(module.leads_to(method.of, {}), tuple):
                    raise Unclear("an `impl` of `%s`, which is no type of the crate" % method.of)
            for function in [*module.functions.values(), *module.methods, *(one for trait in module.traits.values() for one in trait.values())]:
                name = function.full_name()
                if function.promised:
                    public[name] = function
                elif function.public and function.foreign:
                    public[name] = function
                elif function not in public.values():
                    own.add(name)
        return public, own


def crates(root="lib.rt"):
    """The names of the libraries, or with main.rt of the programs."""
    return sorted(crate for crate in os.listdir(CRATES) if os.path.exists(os.path.join(CRATES, crate, "src", root)))


def parsed(crate, root="lib.rt"):
    return Module(os.path.join(CRATES, crate, "src", root), crate)


def promise(libraries):
    """Gives each function of an `impl` of one of these crates' traits the clauses that the trait has for it."""
    for root in libraries.values():
        for module in root.everywhere():
            for method in module.methods:
                found = module.leads_to(method.trait, libraries) if method.trait else None
                if isinstance(found, tuple) and found[1] in found[0].traits:
                    method.promised = found[0].traits[found[1]].get(method.name)
                    if method.promised is None:
                        raise Unclear("%s: `%s` is no function of the trait" % (module.crate, method.full_name()))
                    method.clauses = method.promised.clauses
