"""Contracts of public functions, held against the record Settled, whose fields repeat each of them under `Settles`.

A contract is read as equations. Its left sides are what the call leaves, each once: the answer, or every field of it, and each slice
that was lent to be written, alone or gathered by a definition that makes a record of its arguments. Its right sides are definitions
of specs/ (or of the kit, KIT) over what the call was given. The field's equations, over its own variables, must have the contract's right
sides as an instance: what stands under `Settles` is then the contract's own text, and not something weaker. For that a lent slice is
called by its name (`x.now`, `x.old` and `x.entry` are `x`), an escaped name is the bare one, and a name is written without its module.

A left side may also be a definition of what the call leaves, each part of it an argument, beside what it was given: the number of what a Result refuses,
or what a change says of itself. Then the field has the same left side, of the type of what the call leaves, and its proof says that the definition
tells that. Or a statement says so of the definition, whatever it is equal to (`telling`), and the field has what it is equal to.

A field's variables are of types that are made of names: its own type variables too, and functions of such. One that stands for an input has the
type of that input, so a field of a function for any type is for any type; one that stands for what a trait has (`L.state_of`) has the type that the trait
gives it. One that its equations don't use would make the field say nothing if its type had no members: it has the type of one of the
function's inputs, or is a whole number or a type. `Settles` is that of the crate laws. What the static library hands out has the
contracts of other crates, word for word, by a check of its own (handed).

Public is what stands as `pub`, for a part of the crate too, what is handed to C, and what a type has of a trait that isn't the crates' own. What else a
module that its crate keeps to itself says of its own types is not, while nothing public names one of these types.
"""
import itertools
import re
import typing

import handed
import statements
from texts import APART, blanked, brings, declares, line, past

KIT = {"to_bits", "of_bits", "set", "sets", "min"}
MACHINE = "Rattle.laws.specs.Machine"  # where Settles is
ANSWER = "result"  # as clauses call what a call answers
NAME = f"{APART}+"
TOKEN = re.compile(rf"[(){{}};,@]|\.?(?:(?:{NAME}|«[^»]*»)\.)*(?:{NAME}|«[^»]*»)|\.|\S")


def tree(text, modules=(), parameters=()):
    """A term as nested lists of names; brackets around one thing are none, and what is projected stands in one with its fields, `(f x).a` as
    f, x, .a. A path begins with a capital or a name that the file gives a module: of it the last name counts; what a parameter has is no path."""
    stack, end = [[]], 0
    for m in TOKEN.finditer(text):
        tight, end = m.start() == end, m.end()
        bare = m[0].replace("«", "").replace("»", "")
        if bare in "({":
            stack.append([])
        elif bare in ")}" and len(stack) > 1:
            inner = stack.pop()
            stack[-1].append(inner[0] if len(inner) == 1 else inner)
        elif bare == "." or not bare.startswith("."):
            first, *rest = bare.split(".") if bare != "." else bare
            path = (first[:1].isupper() or first in modules) and first not in parameters
            stack[-1].append(bare.split(".")[-1] if path or not rest else [first, *(f".{field}" for field in rest)])
        elif tight and stack[-1]:
            fields = [f".{field}" for field in bare[1:].split(".")]
            stack[-1][-1] = [*(stack[-1][-1] if isinstance(stack[-1][-1], list) else [stack[-1][-1]]), *fields]
        else:
            stack[-1].append(bare)
    return stack[0]


def named_modules(text):
    """The names that a file gives modules."""
    return set(re.findall(rf"^\s*(?:ghost use|(?:unfoldable )?(?:pub )?use)\s+[^\s;{{}}]+\s+as\s+({NAME})", text, re.M))


def whole(term):
    return term[0] if isinstance(term, list) and len(term) == 1 else term


def parted(term, sign):
    """The parts of a list that a sign parts."""
    found = [[]]
    for item in term if isinstance(term, list) else [term]:
        if item == sign:
            found.append([])
        else:
            found[-1].append(item)
    return [whole(part) for part in found]


def leaves(term):
    return {term} if isinstance(term, str) else set().union(*map(leaves, term)) if term else set()


def replaced(term, given):
    """The term with names replaced."""
    if isinstance(term, str):
        return given.get(term, term)
    first, *rest = [replaced(item, given) for item in term] or [[]]
    projected = rest and isinstance(first, list) and all(isinstance(item, str) and item.startswith(".") for item in rest)
    return whole([*first, *rest] if projected else [first, *rest])


def called(term):
    """A contract's term with a lent slice by its name, and `x'` for what it holds after the call."""
    if isinstance(term, str):
        return term
    found = []
    for item in map(called, term):
        if len(found) == 1 and isinstance(found[0], str) and item in (".old", ".now", ".entry", ".new"):
            found[0] += "'" * (item == ".new")
        else:
            found.append(item)
    return whole(found)


def equations(term):
    """The equations that × joins, as (left, right), or None."""
    found = [parted(part, "≡") for part in parted(term, "×")]
    return [tuple(sides) for sides in found] if all(len(sides) == 2 for sides in found) else None


# ---- the public functions

class Function(typing.NamedTuple):
    """A function of the code: its inputs as (name, type), the type whose own it is, and its parameters with that type's, as {name: bound}."""

    at: int
    name: str
    inputs: list
    answer: str
    clauses: list
    own: str
    parameters: dict


def angled(text, at):
    """The place after the > that closes the < at `at`; the one of an arrow closes nothing."""
    depth = 0
    for i in range(at, len(text)):
        depth += (text[i] == "<") - (text[i] == ">" and text[i - 1] != "-")
        if depth == 0:
            return i + 1
    return len(text)


def parts(text, sign=","):
    """What a sign parts outside of brackets, without spaces around it."""
    found, depth, start = [], 0, 0
    for i, c in enumerate(text + sign):
        depth += (c in "([{<") - (c in ")]}" or c == ">" and text[i - 1] != "-")
        if c == sign and depth == 0:
            found.append(text[start:i].strip())
            start = i + 1
    return [part for part in found if part]


def bounds(text):
    """The parameters of a list of them, {name: bound}: of a number `const`, and of lifetimes none."""
    found = {}
    for part in parts(text.strip()[1:-1]):
        name, _, bound = part.partition(":")
        if not name.startswith("'"):
            found[name.removeprefix("const ").strip()] = "const" if name.startswith("const ") else bound.strip()
    return found


def implemented(text):
    """The impl blocks of a source, as (start, end, parameters, trait or '', type)."""
    for m in re.finditer(r"^([ \t]*)(?:unsafe\s+)?impl\b\s*", text, re.M):
        at = angled(text, m.end()) if text[m.end()] == "<" else m.end()
        head = re.compile(r"([^{]*)\{").match(text, at)
        end = re.compile(rf"^{m[1]}\}}", re.M).search(text, head.end())
        trait, _, kind = re.split(r"\bwhere\b", head[1])[0].strip().rpartition(" for ")
        yield m.start(), end.end() if end else len(text), bounds(text[m.end() : at]), trait.strip(), kind.strip()


def bare(kind):
    """The name of a type, without its module and what it is given."""
    return re.split(r"<", kind)[0].split("::")[-1].strip()


def functions(text, traits=()):
    """The public functions of a source, in part of the crate too, and what its public types have of traits that aren't these."""
    text = blanked(".rt", text)
    blocks = list(implemented(text))
    own_alone = set(re.findall(r"^(?:struct|enum) (\w+)", text, re.M))
    for m in re.finditer(r"(\bpub\s*(?:\([^)]*\)\s*|\s))?(?:\b(?:const|unsafe|async|extern\s+\"C\")\s+)*\bfn\s+(\w+)\s*(?=[<(])", text):
        _, _, of_type, trait, own = next((block for block in reversed(blocks) if block[0] < m.start() < block[1]), (0, 0, {}, "", ""))
        if not m[1] and (not trait or bare(trait) in traits or bare(own) in own_alone):
            continue
        at = angled(text, m.end()) if text[m.end()] == "<" else m.end()
        parameters = {**of_type, **bounds(text[m.end() : at])}
        at = text.index("(", at)
        end = past(text, at)
        inputs = [[part.strip() for part in re.split(r"(?<!:):(?!:)", given, maxsplit=1)] for given in parts(text[at + 1 : end - 1])]
        if lent := re.fullmatch(r"(&(?:'\w+\s+)?(?:mut\s+)?)?(?:mut\s+)?self", inputs[0][0] if inputs else ""):
            inputs[0] = ["self", (lent[1] or "") + own]
        inputs = [[given[0].removeprefix("mut "), given[-1]] for given in inputs]
        answer = re.compile(r"\s*->\s*([^{]*?)\s*(?=\b(?:ensures|requires)\b|\{)").match(text, end)
        at, clauses = answer.end() if answer else end, []
        while clause := re.compile(r"\s*(ensures|requires)(\*?)(?:\s+\w+)?\s*(?=\{)").match(text, at):
            at = past(text, clause.end())
            clauses.append((clause[1], clause[2] + text[clause.end() + 1 : at - 1]))
        yield Function(m.start(), m[2], inputs, answer[1] if answer else None, clauses, own, parameters)


def said_publicly(text):
    """What the public things of a source say to others: signatures, fields, what is passed on, and what types have of traits."""
    for m in re.finditer(r"^[ \t]*pub\b(?:\([^)]*\))?\s+(?:(use|mod|struct|enum|trait|type|const|static)\b(?!\s+fn\b)|[^;{]*?\bfn\b)", text, re.M):
        end = re.compile(r"[;{]" if m[1] else r"\b(?:ensures|requires)\b|[;{]").search(text, m.end())
        body = end and end[0] == "{" and m[1] in ("struct", "enum", "trait")
        yield text[m.start() : past(text, end.start()) if body else end.end() if end else len(text)]
    for start, end, _, trait, _ in implemented(text):
        if trait:
            yield text[start:end]


def kept_inside(path, sources):
    """The types of a module that its crate keeps to itself: the crate brings it by `mod`, and no public thing beside it names it or one of its types.
    None where it is no such module."""
    crate, name = path.split("/src/")[0], path.split("/")[-1].removesuffix(".rt")
    others = [text for there, text in sources.items() if there.startswith(f"{crate}/src/") and there != path]
    if not any(re.search(rf"^mod {name};", text, re.M) for text in others):
        return None
    types = set(re.findall(r"\b(?:struct|enum|trait|type|union)\s+(\w+)", sources[path]))
    inside = re.compile(rf"\b(?:{'|'.join([name, *types])})\b")
    return None if any(inside.search(said) for text in others for said in said_publicly(text)) else types


def public(files):
    """The functions of the crates that others may call, as (path, crate, function)."""
    sources = {path: blanked(path, text) for path, text in files.items() if re.match(r"crates/\w+/src/.*\.rt$", path)}
    traits = {name for text in sources.values() for name in re.findall(r"\btrait\s+(\w+)", text)}
    for path, text in sources.items():
        inside = kept_inside(path, sources)
        handed_out = set(re.findall(r"extern\s+\S+\s+fn\s+(\w+)", text))  # to C, whatever its module
        for function in functions(text, traits):
            if inside is None or function.name in handed_out or function.own and bare(function.own) not in inside:
                yield path, path.split("/")[1], function


def asking(files):
    """What a trait of the crates asks of its callers though others can call it, as (place, what): a function of it has a `requires`, which its callers must
    know to hold, and a public type has it."""
    sources = {path: blanked(path, text) for path, text in files.items() if re.match(r"crates/\w+/src/.*\.rt$", path)}
    asks = set()
    for path, text in sources.items():
        for m in re.finditer(r"\btrait\s+(\w+)[^{;]*(?=\{)", text):
            body = text[m.end() : past(text, m.end())]
            asks |= {m[1]} if re.search(r"\brequires\b", body) else set()
            for said in re.finditer(r"\bfn\s+(\w+)[^;]*;", body):
                if not re.search(r"\bensures\b", said[0]):
                    yield f"{path}:{line(text, m.end() + said.start())}", f"{said[1]} of {m[1]} has no ensures"
    for path, text in sources.items():
        for start, _, _, trait, kind in implemented(text):
            if bare(trait) in asks and not re.search(rf"^(?:struct|enum) {bare(kind)}\b", text, re.M):
                yield f"{path}:{line(text, start)}", f"{kind} has {trait}, of which a function has a requires, and others can have it"


# ---- types

NUMBERS = {"bool": "Bool", "f64": "Float", **dict.fromkeys(("u8", "u16", "u32", "u64", "usize"), "ℕ"), **dict.fromkeys(("i32", "i64"), "ℤ")}


def plain(kind, defined):
    """A type of antt, as a tree, in one form: what arrows part, what × parts, or a name with what it is given; abbreviations are written out."""
    if isinstance(kind, str):
        short = defined.get(kind)
        return plain(whole(short[1]), defined) if short and not short[0] and kind[:1].isupper() else kind
    for sign in "→", "×":
        found = kind[1:] if kind[0] == sign else parted(kind, sign)  # in this form already
        if len(found) > 1:
            found = [plain(part, defined) for part in found]
            return [sign, *found[:-1], *(found[-1][1:] if found[-1][0] == sign else found[-1:])]
    return whole([plain(item, defined) for item in kind])


def kind_of(said, function):
    """The type of antt, in that form, that a type of the code is; a text that isn't read stays one, and is no type."""
    said = (said or "()").strip()
    if kept := re.match(r"&'\w+\s+mut\s+", said):
        return ["MutBor", kind_of(said[kept.end() :], function)]
    said = re.sub(r"^&\s*(?:'\w+\s+)?(?:mut\s+)?", "", said)
    if said == "Self":
        return kind_of(function.own, function)
    if said == "()":
        return ["Unit", "0"]
    if said[0] == "[":
        return ["List", kind_of(parts(said[1:-1], ";")[0], function)]
    if said[0] == "(":
        return ["×", *(kind_of(part, function) for part in parts(said[1:-1]))]
    named = re.fullmatch(r"([\w:]+)\s*(?:<(.*)>)?", said, re.S)
    if not named:
        return said
    first, *_, name = named[1].split("::") if "::" in named[1] else ("", named[1])
    name = named[1] if first in function.parameters else NUMBERS.get(name, name)
    return whole([name, *(kind_of(part, function) for part in parts(named[2] or "") if not part.startswith("'"))])


STD = {"PartialEq": {"eq": ["→", "Self", "Self", "Bool"]}}


def members(files, defined):
    """What the traits of the crates, and those named above of std, have for their clauses, as {trait: {name: type}}, with a type of the implementor's as
    `Self::Name`."""
    found = dict(STD)
    for path, text in files.items():
        if re.match(r"crates/\w+/src/.*\.rt$", path):
            text = blanked(path, text)
            for m in re.finditer(r"\btrait\s+(\w+)[^{;]*(?=\{)", text):
                body = text[m.end() : past(text, m.end())]
                ghosts = re.findall(r"\bghost\s+(\w+)\s*:\s*\{([^}]*)\}", body)
                found[m[1]] = {name: plain(whole(tree(kind.replace("Self.", "Self::"))), defined) for name, kind in ghosts}
    return found


# ---- contracts

def contract(function, modules=()):
    """The contract's equations, or None."""
    found = []
    for word, said in function.clauses:
        if word == "ensures":
            sides = equations(tree(said, modules, function.parameters))
            if sides is None:
                return None
            found += [tuple(map(called, pair)) for pair in sides]
    return found or None


def definitions(files):
    """What specs/ defines, as {name: (arguments, body) or None where it is none of one clause}."""
    found = {}
    for path, text in files.items():
        if re.match(r"crates/\w+/specs/", path):
            text, modules = blanked(path, text), named_modules(text)
            for m in re.finditer(rf"^(?:unfoldable |abbrev )+pub ({NAME}|«[^»]*») :", text, re.M):
                name = m[1].strip("«»")
                clauses = re.findall(rf"^{re.escape(m[1])}((?: {NAME})*) =((?:.*\n)(?:[ \t].*\n)*)", text, re.M)
                found[name] = (clauses[0][0].split(), tree(clauses[0][1], modules)) if len(clauses) == 1 else None
    return found


def gathers(defined, name):
    """Whether a definition makes a record of its arguments, each in one field."""
    if not defined.get(name):
        return False
    arguments, body = defined[name]
    if len(body) != 2 or body[0] != "record":
        return False
    fields = [part for part in parted(body[1], ";") if part]
    return sorted(str(part[-1]) for part in fields) == sorted(arguments) and all(len(part) == 3 and part[1] == "=" for part in fields)


def left_by(function):
    """What a call leaves, as names: what it answers, and `x'` for each slice that was lent to be written."""
    written = {name + "'" for name, kind in function.inputs if kind.startswith("&mut")}
    return {ANSWER} if function.answer else set(), written


def gathered(defined, term, left):
    """What a left side speaks of, as names: the answer, a field of it, `x'`; None where it does something else to them."""
    if isinstance(term, str):
        return [term]
    if term[0] == ANSWER and len(term) == 2 and term[1].startswith("."):
        return ["".join(term)]
    if not isinstance(term[0], str) or term[0] not in defined:
        return None
    if gathers(defined, term[0]):
        found = [gathered(defined, part, left) for part in term[1:]]
    else:
        found = [gathered(defined, part, left) if isinstance(part, str) else None for part in term[1:] if leaves(part) & left]
    return None if None in found or not found else sum(found, [])


def instance(pattern, term, variables, given):
    """Whether a term is a pattern's instance; what its variables stand for is added to `given`."""
    if isinstance(pattern, str):
        return given.setdefault(pattern, term) == term if pattern in variables else pattern == term
    return isinstance(term, list) and len(pattern) == len(term) and all(instance(p, t, variables, given) for p, t in zip(pattern, term))


def opened(defined, term):
    """A statement with the definitions of `Put` and the like written out, so that its equations are seen."""
    while isinstance(term, list) and isinstance(term[0], str) and "≡" not in term and defined.get(term[0]):
        arguments, body = defined[term[0]]
        if len(arguments) != len(term) - 1:
            return term
        term = replaced(whole(body), dict(zip(arguments, term[1:])))
    return term


# ---- what stands under Settles

class Promise(typing.NamedTuple):
    """That any two answers are equal of which the equations hold: its variables with their types, the answer's name and type, the equations."""

    variables: dict
    bound: str
    kind: object
    sides: list

    def part(self, term):
        """Which part of the answer a term is, as the projections that lead to it, or None."""
        if term == self.bound:
            return ()
        return tuple(term[1:]) if isinstance(term, list) and term[0] == self.bound and all(str(item).startswith(".") for item in term[1:]) else None

    def kind_at(self, part):
        """The type of a part of the answer, or None."""
        kind = self.kind
        for step in part:
            place = int(step[1:]) + 1 if re.fullmatch(r"\.\d", step) else 0
            if not isinstance(kind, list) or kind[0] != "×" or not 0 < place < len(kind):
                return None
            kind = kind[place]
        return kind

    def apart(self, terms):
        """Whether these are parts of the answer of which none is in another."""
        found = [self.part(term) for term in terms]
        return None not in found and not any(a == b[: len(a)] for a, b in itertools.permutations(found, 2))


def promise(term, defined):
    """What a statement says, or None where it is none of this form: a hypothesis would make it say less."""
    *binders, body = parted(term, "→")
    groups = [group for binder in binders for group in (binder if isinstance(binder, list) and isinstance(binder[0], list) else [binder])]
    typed = [parted(group, ":") for group in groups if isinstance(group, list) and group.count(":") == 1]
    body = opened(defined, body)
    if len(typed) != len(groups) or not isinstance(body, list) or body[0] != "Settles" or not isinstance(body[1], list) or body[1][0] != "λ":
        return None
    variables = {name: plain(kind, defined) for names, kind in typed for name in leaves(names)}
    bound, kind = parted(body[1][1], ":")
    sides = equations(opened(defined, whole(body[1][3:])))
    return Promise(variables, bound, plain(kind, defined), sides) if sides and isinstance(bound, str) else None


def fields(text, defined):
    """The fields of the record Settled, as (name, promise or None)."""
    text, modules = blanked(".antt", text), named_modules(text)
    own = brings(text, MACHINE, "Settles")
    for record in re.findall(r"^pub record Settled : Type [01] where\n((?:  .*\n|\s*\n)+)", text, re.M):
        for m in re.finditer(r"^  pub (\S+) :((?:.*\n)(?:    .*\n)*)", record, re.M):
            yield m[1], promise(tree(m[2], modules), defined) if own else None


def telling(files, defined):
    """The definitions of which a statement says that they tell what they speak of, whatever they are equal to, as (left side, promise)."""
    for path, name, _ in statements.stated(files):
        text = blanked(path, files[path])
        arguments, body = defined.get(name) or ([None], None)
        said = promise(whole(body), defined) if not arguments and brings(text, MACHINE, "Settles") else None
        if not said or len(said.sides) != 1:
            continue
        left, right = said.sides[0]
        others = [item for item in left[1:] if said.part(item) is None] if isinstance(left, list) else []
        variables = [*others, right]
        if others and all(isinstance(item, str) and item in said.variables for item in variables) and len(variables) == len(set(variables)) \
                and said.apart([item for item in left[1:] if said.part(item) is not None]):
            yield left, said


def named_after(field, function):
    """Whether a field is called after a function: one name may have a crate's or a type's before it."""
    field = field.strip("«»").replace("-", "_")
    return f"_{function}".endswith(f"_{field}") or f"_{field}".endswith(f"_{function}")


def tells(pattern, said, left, kinds, given):
    """Whether a left side is the one of a promise: the same definition, each part of its answer what the call leaves, of the same type."""
    if not isinstance(pattern, list) or not isinstance(left, list) or len(pattern) != len(left) or pattern[0] != left[0]:
        return False
    for item, part in zip(pattern[1:], left[1:]):
        place = said.part(item)
        if place is None:
            if leaves(part) & kinds.keys() or not instance(item, part, said.variables, given):
                return False
        elif not isinstance(part, str) or part not in kinds or not instance(said.kind_at(place), kinds[part], said.variables, given):
            return False
    return said.apart([item for item in pattern[1:] if said.part(item) is not None])


class Contracts:
    """The contracts of the crates' public functions."""

    def __init__(self, files):
        self.files, self.defined = files, definitions(files)
        self.members, self.telling = members(files, self.defined), list(telling(files, self.defined))

    def known(self, function):
        """The types of what a contract may name: inputs, numbers and what traits have among the parameters."""
        found = {name: kind_of(kind, function) for name, kind in function.inputs}
        for name, bound in function.parameters.items():
            if bound == "const":
                found[name] = "ℕ"
            for trait in re.split(r"\s*\+\s*", bound):
                for member, kind in self.members.get(bare(trait), {}).items():
                    own = {word: name if word == "Self" else word.replace("Self::", f"{name}::") for word in leaves(kind)}
                    found[str([name, f".{member}"])] = replaced(kind, own)
        return found

    def repeats(self, said, function, sides):
        """Whether a field of Settled says what a contract does."""
        if not said or len(said.sides) != len(sides):
            return False
        answers, written = left_by(function)
        known, given = {name: plain(kind, self.defined) for name, kind in self.known(function).items()}, {}
        kinds = {ANSWER: plain(kind_of(function.answer, function), self.defined), **{name: known[name[:-1]] for name in written}}
        parts_there = []
        for (pattern, right_there), (left, right) in zip(said.sides, sides):
            if said.part(pattern) is not None:
                parts_there.append(pattern)
                whole_left = isinstance(left, str) or left[0] == ANSWER or gathers(self.defined, left[0])
                if not whole_left and not any(tells(other, there, left, kinds, {}) for other, there in self.telling):
                    return False
                kind = said.kind_at(said.part(pattern))  # of a record's field the right side alone tells it
                if left == ANSWER and kind and not instance(kind, kinds[ANSWER], said.variables, given):
                    return False
            elif tells(pattern, said, left, kinds, given):
                parts_there += [item for item in pattern[1:] if said.part(item) is not None]
            else:
                return False
            if not instance(right_there, right, said.variables, given):
                return False
        if not said.apart(parts_there):
            return False
        for name, kind in said.variables.items():
            if name not in given:
                if kind not in ("ℕ", ["Type", "0"]) and not any(instance(kind, other, said.variables, dict(given)) for other in known.values()):
                    return False
            elif kind != ["Type", "0"]:
                stands_for = given[name] if isinstance(given[name], str) else str(given[name])
                if stands_for in known:
                    if not instance(kind, known[stands_for], said.variables, given):
                        return False
                elif any(bound != "const" for bound in function.parameters.values()) or not (isinstance(kind, str) or kind[0] == "List" and isinstance(kind[1], str)):
                    return False
        return True

    def wrong(self, function, structs, sides):
        """What is wrong with a contract itself, or ''."""
        if not sides:
            return "its contract is no equations"
        answers, written = left_by(function)
        left = [gathered(self.defined, side, answers | written) for side, _ in sides]
        if None in left:
            return "a left side of its contract is more than what the call leaves"
        kind = function.own if function.answer == "Self" else function.answer or ""
        by_fields = {f"{ANSWER}.{field}" for field in structs.get(bare(kind), [])}
        there = sum(left, [])
        if len(there) != len(set(there)) or set(there) - written not in ([answers, by_fields] if by_fields else [answers]) or not written <= set(there):
            return f"its contract speaks of {there}, and the call leaves {sorted(answers | written)}"
        for _, right in sides:
            head = right if isinstance(right, str) else right[0]
            if ANSWER in leaves(right) or written & leaves(right):
                return "a right side of its contract names what the call leaves"
            if not isinstance(head, str) or head not in self.defined and head not in KIT:
                return f"a right side of its contract is no definition: {head}"
        return ""


def differences(files):
    """Each public contract is equations of what the call leaves with definitions, and stands under Settles in its own text."""
    contracts, settled = Contracts(files), {}
    for path, text in files.items():
        if re.match(r"crates/\w+/specs/", path):
            settled.setdefault(path.split("/")[1], []).extend(fields(text, contracts.defined))
            if not path.startswith("crates/laws/") and declares(blanked(path, text), "Settles"):
                yield f"{path}: declares a Settles of its own"
    for path, crate, function in public(files):
        if crate == handed.CRATE:
            continue
        sources = "".join(other for there, other in files.items() if there.startswith(f"crates/{crate}/src/"))
        structs = {m[1]: re.findall(r"pub (\w+):", m[2]) for m in re.finditer(r"struct (\w+)[^{;(]*\{([^}]*)\}", sources)}
        place = f"{path}:{line(files[path], function.at)}: {function.name}"
        sides = contract(function, named_modules(files[path]))
        wrong = contracts.wrong(function, structs, sides)
        if wrong:
            yield f"{place}: {wrong}"
        elif not any(named_after(field, function.name) and contracts.repeats(said, function, sides) for field, said in settled.get(crate, [])):
            yield f"{place}: no field of Settled has its contract's text under Settles"
