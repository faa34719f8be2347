"""Divides the text of a program's module in two, which are compiled side by side: what answers lines, and all else, which is about
reading files and words.

A function of the repository's crates stands in one part, and is declared in the other where that calls it. A function of a library is
copied into each part that needs it, so what is inlined within a part, and how deep a question goes on the stack, stays as it is in one
module. Functions of a library that do the same for several types, word for word, are compiled once.
"""
import re
from typing import Dict, Iterable, List, Set, Tuple

# The crates that make up the first part. What is evaluated deep in the tree, by functions that call each other, is all here.
ANSWERING = ("at_class", "at_tree", "at_store", "at_body", "at_index", "at_cache", "at_evict", "at_evaluate", "at_solve", "at_search", "at_demand", "at_engine")
# The library that reads the command line. What it alone leads to runs at the start, and isn't optimized: that takes a third of the time.
PLAIN = "clap"
# The words by which each part is compiled. Only calls of small functions are inlined: so the compiler takes a fifth less time for the first
# part and a third less for the second, and the program a tenth more instructions.
WORDS = ("-O1", "-mllvm", "-inline-threshold=50")
# A slot on the stack that is made of bytes, and where one is filled with zeros. The compiler of `rt try` fills each at the beginning of
# its function, whatever comes into it later; what the sources fill is filled again behind that.
SLOT = re.compile(r"^  (%\w+) = alloca \[[1-9]\d* x i8\]", re.M)
FILLING = re.compile(r"  call void @llvm\.memset\.p0\.i64\(ptr (%\w+), i8 0, .*\n")
# What says of a value that it is known. What a variant of an enum leaves free isn't, once its slot isn't filled, and is copied with it.
KNOWN = re.compile(r", !noundef !\d+")
# What stands in front of the attributes in the first line of a function's definition.
ATTRIBUTES = re.compile(r"\) ([^()]*)\{$")
# A name of the module, and the crate at the beginning of a function's name.
NAME = re.compile(r'@("[^"]*"|[\w.$-]+)')
CRATE = re.compile(r'"?<?&?(?:mut )?(\w+)')


class Module:
    """The functions of a module by their names, each as its text, what each names, and all lines that stand outside of functions, with
    what these name."""

    def __init__(self, lines: Iterable[str]) -> None:
        self.functions: Dict[str, str] = {}
        self.named: Dict[str, Set[str]] = {}
        self.outside: List[str] = []
        taking = self.outside
        for line in lines:
            begins = line.startswith("define ")
            taking = [] if begins else taking
            taking.append(line)
            if line == "}" or begins and line.endswith("}"):
                self.add("\n".join(taking))
                taking = self.outside
        known = set(self.functions)
        self.named = {name: found & known for name, found in self.named.items()}
        self.named_outside = set(NAME.findall("\n".join(self.outside))) & known

    def add(self, text: str) -> None:
        """Takes a function, with all that it names: while the lines are still being made, so that it takes no time of its own."""
        name = name_of(text)
        self.functions[name], self.named[name] = text, set(NAME.findall(text))

    def merge(self, crates: Set[str]) -> None:
        """Leaves one of the functions that do the same, word for word, and names it in the place of the others, so that some that call
        these do the same, too. A function of these crates stands for no other crate's."""
        standing: Dict[Tuple[str, str], str] = {}
        changed = list(self.functions)
        while changed:
            same = self.doubles(changed, standing, crates)
            for name in same:
                del self.functions[name], self.named[name]
            changed = [name for name, others in self.named.items() if not same.keys().isdisjoint(others)]
            for name in changed:
                self.rename(name, same)

    def doubles(self, names: Iterable[str], standing: Dict[Tuple[str, str], str], crates: Set[str]) -> Dict[str, str]:
        """Those of these functions that do what one does that is `standing`, with its name, by the crate and the text without the name.
        The others are added there."""
        found: Dict[str, str] = {}
        for name in names:
            crate, text = crate_of(name), self.functions[name].replace(f"@{name}(", "@(")
            first = standing.setdefault((crate if crate in crates else "", text), name)
            if first != name and name not in self.named_outside and name != "main":
                found[name] = first
        return found

    def rename(self, name: str, same: Dict[str, str]) -> None:
        """Has the function name these others in the place of those that do the same."""
        self.functions[name] = NAME.sub(lambda it: f"@{same.get(it[1], it[1])}", self.functions[name])
        self.named[name] = {same.get(it, it) for it in self.named[name]}


def name_of(line: str) -> str:
    """The name of the function that is defined or declared in this line. ValueError where none is."""
    found = NAME.search(line)
    if found is None:
        raise ValueError(line)
    return found[1]


def without_filling(text: str) -> str:
    """The function without the first filling of each slot that is filled in its first block, which takes a sixth of the compiler's time,
    and a part of each run's."""
    first, blank, rest = text.partition("\n\n")
    slots = set(SLOT.findall(first))

    def kept(filling: "re.Match[str]") -> str:
        is_first = filling[1] in slots
        slots.discard(filling[1])
        return "" if is_first else filling[0]

    return KNOWN.sub("", FILLING.sub(kept, first) + blank + rest).replace("noundef ", "")


def crate_of(name: str) -> str:
    """The crate of a function, or '' where its name has none."""
    found = CRATE.match(name)
    return found[1] if found else ""


def needed(module: Module, roots: Set[str], but: Set[str]) -> Set[str]:
    """These functions, and those to which they lead otherwise than by the functions of `but`."""
    found, wanted = set(roots), list(roots)
    while wanted:
        new = module.named[wanted.pop()] - but - found
        found |= new
        wanted += new
    return found


def without_optimizing(line: str) -> str:
    """The first line of the definition of a function that isn't optimized."""
    return ATTRIBUTES.sub(r") noinline optnone \1{", line)


def declaration(line: str) -> str:
    """The declaration of the function whose definition begins with this line."""
    return line.replace("define internal ", "declare hidden ", 1).replace("noundef ", "").rpartition(" {")[0]


def text_of(module: Module, there: Set[str], shared: Set[str], plain: Set[str]) -> List[str]:
    """The lines of the part that has these functions. Those that are shared with the other part are known to it, too; those that are plain
    aren't optimized."""
    text = list(module.outside)
    for name, function in module.functions.items():
        first, _, rest = (without_filling(function) if name in there else function).partition("\n")
        if name in there:
            first = without_optimizing(first) if name in plain else first
            text += [first.replace("define internal ", "define hidden ", 1) if name in shared else first, rest]
        elif name in shared:
            text.append(declaration(first))
    return text


def divided(lines: Iterable[str], crates: Iterable[str]) -> List[List[str]]:
    """The lines of the two parts, by the module's lines and the names of the repository's crates."""
    module, known = Module(lines), set(crates)
    module.merge(known)
    own = {name for name in module.functions if crate_of(name) in known or name == "main"}
    answering = {name for name in own if crate_of(name) in ANSWERING}
    outside = module.named_outside
    parts = [needed(module, roots | outside - own, own) for roots in (answering, own - answering)]
    calls = [set[str]().union(outside, *(module.named[it] for it in part)) & own - part for part in parts]
    plain = module.functions.keys() - needed(module, own | outside, {it for it in module.functions if crate_of(it) == PLAIN})
    return [text_of(module, part, calls[0] | calls[1], plain) for part in parts]
