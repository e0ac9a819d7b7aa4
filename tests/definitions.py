"""The definitions of crates/NAME/specs and the types and traits of crates/NAME/src, and what the names in them stand for.

Of a type the declaration counts, and as what clauses take its values (`ghost Value` and `ghost view` of its `Model`); of a
trait all of it, since its clauses say what its ghost members are."""
import collections
import functools
import glob
import itertools
import os
import re

NAME = r"[^\W\d][\w'-]*"
TOKEN = re.compile(rf"(?<![\w.'])({NAME}(?:\.[\w'-]+)*)|([(){{}}\[\];:=.↦]|(?<!\|)\|(?!\|))")
BEGIN = re.compile(rf"( *)(?:(?:abbrev|unfoldable|pub|record|data) )+(?!use |mod )({NAME})")
CLAUSE = r"\b(?:ensures|requires)(?: \w+)? {|\bghost \w+(?: =|:) {"
DECLARATION = re.compile(r"(?:pub |pub\(crate\) )?(?:enum|struct|trait|const|type) (\w+)")

# A definition with the numbers of its lines, from 0; a name stands for one, or with none for something of the toolchain.
Definition = collections.namedtuple("Definition", "path name lines")
Target = collections.namedtuple("Target", "definition name")


@functools.cache
def read(path):
    with open(path, encoding="utf-8") as file:
        return file.read()


@functools.cache
def lines_of(path):
    return read(path).split("\n")


def text_of(definition):
    return "\n".join(lines_of(definition.path)[at] for at in definition.lines)


# ---- names in a text


def bare(text):
    """The text without comments and strings."""
    return re.sub(r'"[^"\n]*"', "", re.sub(r"(?:(?<=\s)|^)--(?: .*)?$", "", text, flags=re.M))


def names_before(sign, tokens, others=""):
    """The tokens up to a sign, where only names and these others stand before it."""
    names = list(itertools.takewhile(lambda token: token in others or re.match(NAME, token), tokens))
    return names if tokens[len(names) : len(names) + 1] == [sign] else []


def free_names(text, bound, is_variable=str.islower):
    """The names in a text that nothing binds there. What binds up to its end is added to `bound`.

    A bracket has a scope. (x : T), λ x. and let x = bind up to the end of the scope in which they stand, and the variables
    of a pattern before ↦ up to the next |."""
    tokens = [name or sign for name, sign in TOKEN.findall(bare(text))]
    scopes, binders, arguments, begin = [bound], [], None, 0
    for at, token in enumerate(tokens):
        if at < begin or token in (":", "=", "↦"):
            continue
        if token in ("(", "{", "["):
            scopes.append(set())
            binders.append(names_before(":", tokens[at + 1 :]))
            begin = at + 1 + len(binders[-1])
        elif token in (")", "}", "]"):
            scopes.pop()
            scopes[-1].update(binders.pop())
        elif token in (";", "|"):
            scopes[-1].clear()
        elif token in ("λ", "."):
            arguments = scopes[-1] if token == "λ" else None
        elif tokens[at - 1] == "let":
            scopes[-1].add(token)
        elif arguments is not None and not (binders and binders[-1]):
            arguments.add(token)
        elif tokens[at - 1] in ("{", ";") and tokens[at + 1 : at + 2] == ["="]:
            continue
        elif not any(token.split(".")[0] in scope for scope in scopes):
            yield token
        if token in ("[", "|"):
            pattern = names_before("↦", tokens[at + 1 :], "()")
            scopes[-1].update(name for name in pattern if name not in "()" and is_variable(name))


# ---- definitions of specs


def first_with_comments(lines, at):
    while lines[at - 1].lstrip().startswith("-- ") and not lines[at - 1].startswith("-- ----"):
        at -= 1
    return at


def last_of(lines, end):
    """Before `end`, the number of the line after the last one that is no comment and not empty."""
    while not lines[end - 1].strip() or lines[end - 1].lstrip().startswith("--"):
        end -= 1
    return end


def indent_of(line):
    return len(line) - len(line.lstrip())


def begins_in(lines):
    """Where modules and definitions begin, with the names of these, and of each the heads of the modules in which it stands."""
    heads = []
    for at, line in enumerate(lines):
        if line:
            del heads[indent_of(line) // 2 :]
        begin = BEGIN.match(line)
        if line.lstrip().startswith("module "):
            end = next(end for end in range(at, len(lines)) if lines[end].endswith(" where"))
            heads.append(range(first_with_comments(lines, at), end + 1))
            yield heads[-1][0], "", ()
        elif begin and len(begin[1]) == 2 * len(heads):
            yield first_with_comments(lines, at), begin[2], tuple(itertools.chain(*heads))


def names_inside(text):
    """The names of constructors, and of definitions that stand on one another."""
    is_one = re.search(r"^ *(?:pub data|data|abbrev mutual)\b", text, re.M)
    return re.findall(rf"^ +(?:pub )?({NAME}) : ", text, re.M) if is_one else []


@functools.cache
def definitions_of(path):
    """The definitions of a file by their names and by those inside them; the head of a module is of each in it."""
    lines, found = lines_of(path), {}
    begins = [*begins_in(lines), (len(lines), "", ())]
    for (first, name, head), (following, *_) in zip(begins, begins[1:]):
        last = last_of(lines, following)
        names = [name, *names_inside("\n".join(lines[first:last]))] if name else []
        names = names[1:] if name == "mutual" else names
        found.update((one, Definition(path, names[0], (*head, *range(first, last)))) for one in names)
    return found


def uses_in(text):
    """By each name that a `use` line gives the module and the name there, and for the name of a module no name."""
    given = {}
    for module, names, alias in re.findall(r"^ *(?:pub |ghost )?use ([\w.]+?)(?:\.{([^}]*)}| as (\w+));?$", text, re.M):
        for part in names.split(","):
            name, _, local = part.strip().partition(" as ")
            given[local or name or alias] = (module, name)
    return given


@functools.cache
def uses_of(path):
    return uses_in(read(path))


def at_module(module, name):
    """What a name of a module stands for."""
    _, crate, *parts = module.split(".")
    path = f"crates/{crate}/{'/'.join(parts)}.antt"
    target = meaning(path, name) if os.path.isfile(path) else None
    if os.path.isdir(f"crates/{crate}") and parts[:2] == ["specs", "declared"]:
        target = Target(declared_at(crate, parts[2:], name), name)
    return target or Target(None, f"{module}.{name}")


def by_uses(uses, dotted):
    first, _, rest = dotted.partition(".")
    module, name = uses.get(first, ("", ""))
    return at_module(module, name or rest.split(".")[0]) if module else None


def meaning(path, dotted):
    """What a name stands for in a file of specs."""
    own = definitions_of(path).get(dotted.split(".")[0])
    return Target(own, dotted) if own else by_uses(uses_of(path), dotted)


def is_variable_in(path, name):
    """In a pattern a name is a variable, unless it is that of a constructor."""
    target = meaning(path, name)
    return target is None or target.definition is not None and target.definition.name == target.name


def equation_of(definition, names):
    """How an equation begins: as far in as the definition, or as those do that stand on one another."""
    first = next(line for line in map(lines_of(definition.path).__getitem__, definition.lines[::-1]) if BEGIN.match(line))
    return rf" {{{indent_of(first)},{indent_of(first) + 2}}}(?:{names})(?![\w'-])"


def pieces_of(definition, equation):
    """The text, cut where the definition begins, and where an equation, a field or a constructor does."""
    begin = rf"^(?= *(?:abbrev|unfoldable|pub record|pub data) |{equation}| *(?:pub )?{NAME} :\s)"
    return re.split(begin, bare(text_of(definition)), flags=re.M)


def free_in_spec(definition):
    """The names that stand in a definition and that nothing binds there."""
    path, bound = definition.path, set()
    begin = equation_of(definition, "|".join(re.escape(name) for name, one in definitions_of(path).items() if one == definition))
    for piece in pieces_of(definition, begin):
        field = re.match(rf" *(?:pub )?({NAME}) :\s", piece)
        equation = None if field else re.match(rf"{begin}([^=]*)=", piece)
        scope = set(bound) if equation or re.match(r" *(?:abbrev|unfoldable) ", piece) else bound
        for name in re.findall(rf"(?<![\w.]){NAME}", equation[1]) if equation else ():
            if is_variable_in(path, name):
                scope.add(name)
            else:
                yield name
        rest = piece[(field or equation).end() :] if field or equation else piece
        yield from free_names(rest, scope, lambda name: is_variable_in(path, name))
        if field:
            bound.add(field[1])


# ---- declarations of sources


@functools.cache
def sources_of(crate):
    return sorted(glob.glob(f"crates/{crate}/src/**/*.rt", recursive=True))


def block_around(path, at):
    """The numbers of the lines of the item in which a line stands: from one without indent to that of its last brace."""
    lines = lines_of(path)
    first = next(n for n in range(at, -1, -1) if re.match(r"\w", lines[n]))
    if lines[first].endswith((";", "}")):
        return range(first, first + 1)
    return range(first, next((n for n in range(first + 1, len(lines)) if lines[n].startswith(("}", ")", "]"))), at) + 1)


def model_lines(path, name):
    """The numbers of the lines that say as what clauses take the values of a type."""
    head = re.search(rf"^impl.* Model for {name}\b", read(path), re.M)
    is_taken = False
    for at in block_around(path, read(path)[: head.start()].count("\n")) if head else ():
        is_taken = is_taken or re.match(r" *ghost (?:Value|view) = ", lines_of(path)[at]) is not None
        if is_taken:
            yield at
        is_taken = is_taken and not lines_of(path)[at].endswith("};")


@functools.cache
def declarations_of(path):
    """The types, traits and constants of a file by their names, with their comments and without attributes."""
    lines, found = lines_of(path), {}
    for at, line in enumerate(lines):
        begin = DECLARATION.match(line)
        if begin:
            first = at
            while lines[first - 1].startswith(("///", "#[")):
                first -= 1
            block = (*range(first, at), *block_around(path, at), *model_lines(path, begin[1]))
            taken = tuple(n for n in block if lines[n] and not lines[n].lstrip().startswith(("#[", "ghost use")))
            found[begin[1]] = Definition(path, begin[1], taken)
    return found


def declared_at(crate, parts, name):
    """The type that a path of modules leads to, by its name or by that of a variant."""
    for end in range(len(parts), 0, -1):
        path = f"crates/{crate}/src/{'/'.join(parts[:end])}.rt"
        if os.path.isfile(path):
            owner = (parts[end:] + [name])[0].removesuffix("_")
            return declarations_of(path).get(owner) or declarations_of(path).get(name)
    return None


@functools.cache
def rust_uses_of(path):
    """By each name that a `use` line of Rust gives the crate and the path of modules there."""
    given = {}
    for way, names, one in re.findall(r"^(?:pub )?use ((?:\w+::)+)(?:{([^}]*)}|(\w+));", read(path), re.M):
        crate, *parts = way.removesuffix("::").split("::")
        crate = path.split("/")[1] if crate == "crate" else crate
        if os.path.isdir(f"crates/{crate}"):
            given.update((name.strip(), (crate, parts)) for name in (names or one).split(","))
    return given


def exported_by(crate, name):
    """The type or the trait of this name in a crate, or in another one from which that has it."""
    found = [declarations_of(path)[name] for path in sources_of(crate) if name in declarations_of(path)]
    lib = f"crates/{crate}/src/lib.rt"
    if found or not os.path.isfile(lib) or rust_uses_of(lib).get(name, (crate,))[0] == crate:
        return found[0] if found else None
    return exported_by(rust_uses_of(lib)[name][0], name)


def declaration(path, name):
    """The type or the trait that a name stands for in a file of sources."""
    own = declarations_of(path).get(name)
    if own or name not in rust_uses_of(path):
        return own
    crate, parts = rust_uses_of(path)[name]
    return declared_at(crate, parts, name) or exported_by(crate, name)


def braced(text, at):
    """What stands in the braces that open at a place."""
    depth = 0
    for end in range(at, len(text)):
        depth += (text[end] == "{") - (text[end] == "}")
        if not depth:
            return text[at + 1 : end]
    return text[at + 1 :]
