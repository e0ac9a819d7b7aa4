"""The functions of the crates, as rt fmt writes them, and which of them are public."""
import collections
import glob
import os
import re

# A public function of which a body can be wrong needs a wrong body. `printed` is its path below the crate, as a check writes it,
# and `cycle` that of the cycle of calls in which it stands, if it does.
Function = collections.namedtuple("Function", "path name first last is_public may_be_wrong printed cycle")
# What of a crate the functions of one of its files depend on.
Surface = collections.namedtuple("Surface", "exported own_traits unpromised module_of")
# A disk that tells no story: its trait's clauses all speak of one, so no body of it is wrong.
TELLS_NOTHING = ("HostDisk",)


def read(path):
    with open(path, encoding="utf-8") as file:
        return file.read()


def exports_of(crate):
    """What lib.rt exports of the crate's own modules, by name."""
    lib = f"crates/{crate}/src/lib.rt"
    text = read(lib) if os.path.isfile(lib) else ""
    modules = re.findall(r"^mod (\w+);", text, re.M)
    used = re.findall(r"^pub use (\w+)::(?:\w+::)*([^:;]*);", text, re.M)
    return {name for module, names in used if module in modules for name in re.findall(r"\w+", names)}


def sources_of(crate):
    return sorted(glob.glob(f"crates/{crate}/src/**/*.rt", recursive=True))


def unpromised_in(text):
    """The functions of traits of the crate's own that have no clause there."""
    traits = re.findall(r"^(?:pub |pub\(crate\) )?trait (\w+)(.*?)^}", text, re.M | re.S)
    functions = [(trait, *found) for trait, block in traits for found in re.findall(r"^ *fn (\w+)([^;]*);", block, re.M)]
    return {(trait, name) for trait, name, rest in functions if "ensures" not in rest}


def after_brackets(text):
    """What stands between the angle brackets with which the text begins, if it does, and the rest."""
    depth = 0
    for at, letter in enumerate(text):
        depth += (letter == "<") - (letter == ">" and text[at - 1] != "-")
        if depth == 0:
            return text[1:at], text[at + (letter == ">") :]
    return "", text


def last_names(text):
    """The last name of a path, and that of its first argument: of `io::From<AllocFailed<T>>` these are From and AllocFailed."""
    path, _, arguments = text.partition("<")
    argument = re.match(r"(?:\w+::)*(\w+)", arguments)
    return path.split("::")[-1].strip(), argument[1] if argument else ""


def printed_type(line):
    """The name that a check gives to what an `impl` or a `trait` line begins: of a trait's impl the names of the type, the trait
    and the trait's argument joined, where a type that is a parameter has the name Any."""
    kind, rest = re.search(r"\b(impl|trait)\b *(.*?)(?: where\b.*)?(?: {.*)?$", line).groups()
    parameters, rest = after_brackets(rest)
    trait, _, owner = rest.partition(" for ")
    if kind == "trait" or not owner:
        return last_names(re.split(r"[: {]", trait.strip())[0] if kind == "trait" else trait)[0]
    owner, (name, argument) = last_names(owner)[0], last_names(trait)
    is_any = re.search(rf"(?:^|, ){owner}\b", parameters)
    return ("Any" if is_any else owner) + name + argument


def module_at(path):
    """The path of the module that a file is, below the crate."""
    return re.sub(r"crates/\w+/src/|(?:lib|main)?\.rt$", "", path).replace("/", "::")


def functions_of(path, surface):
    """The functions, as rt fmt writes them: a body ends at a brace right below the function's first letter.

    Public are an exported function, a function of an exported trait, and of an exported type what is `pub` or of a
    trait. The others are no concern of callers. A law has the body {}, a trait may leave the body to others, and a
    function outside of traits that has no `ensures` promises nothing, nor does one of a trait that has none there, or of
    a type that tells nothing: no body of these is wrong.
    """
    trait = owner = printed = cycle = ""
    name = None
    home = module_at(path)
    for at, line in enumerate(read(path).split("\n")):
        block = re.match(r"(?:pub |pub\(crate\) )?(impl|trait)\b", line)
        if block:
            plain = re.sub(r"<[^<>]*>", "", re.sub(r"<[^<>]*>", "", line))
            kind, trait, owner = re.search(r"(impl|trait) (?:([\w:]+) for )?([\w:]+)", plain).groups()
            trait = owner if kind == "trait" else trait
            printed = printed_type(line)
        cycle = (re.match(r" *#\[cycle\((\w+)\)\]", line) or ("", cycle))[1]
        begin = re.match(r"( *)(pub |pub\(crate\) )?(?:const )?fn (\w+)", line)
        if begin:
            indent, mark, name = begin.groups()
            first, has_begun = at, False
            promises = bool(indent and trait) and owner not in TELLS_NOTHING and (trait, name) not in surface.unpromised
        if name is None:
            continue
        promises = promises or not has_begun and line.lstrip().startswith("ensures ")
        has_begun = has_begun or re.match(rf"{indent}(\S.*)?{{$", line) is not None
        has_body = line == f"{indent}}}"
        if not has_body and line != f"{indent}{{}}" and (has_begun or not line.endswith(";")):
            continue
        if not indent:
            is_public = mark == "pub " and name in surface.exported
        elif trait:
            is_public = trait in surface.exported or owner in surface.exported and trait not in surface.own_traits
        else:
            is_public = mark == "pub " and owner in surface.exported
        own = f"{owner}::{name}" if indent else name
        # (a type's own functions are told where it is declared)
        at_home = surface.module_of.get(owner, home) if indent and not trait else home
        names = [part for part in (at_home, indent and printed, name) if part]
        yield Function(path, own, first, at, is_public, promises and has_body, "::".join(names), cycle and f"{home}::{cycle}")
        name, cycle = None, ""


def all_functions_of(crate):
    sources = sources_of(crate)
    text = "\n".join(map(read, sources))
    own_traits = re.findall(r"^(?:pub |pub\(crate\) )?trait (\w+)", text, re.M)
    types = re.compile(r"^(?:pub |pub\(crate\) )?(?:struct|enum) (\w+)", re.M)
    module_of = {name: module_at(path) for path in sources for name in types.findall(read(path))}
    surface = Surface(exports_of(crate), own_traits, unpromised_in(text), module_of)
    return [one for path in sources for one in functions_of(path, surface)]


def text_of(one):
    return "\n".join(read(one.path).split("\n")[one.first : one.last + 1])


def head_of(text):
    """The name, the parameters and the result."""
    return re.split(r"^ *(?:requires|ensures)\b|{|//", text, maxsplit=1, flags=re.M)[0]


def is_law(text):
    return re.search(r"^{}$", text, re.M) is not None
