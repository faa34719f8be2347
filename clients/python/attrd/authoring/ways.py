"""The way round each form of JastAdd2 that is left out here, with the section of docs/FROM_JASTADD.md that shows it."""
from __future__ import annotations

import re
from typing import Dict, List, NamedTuple, Optional

PAGE = "FROM_JASTADD.md"
# The sections of that page, by their numbers.
SECTIONS: Dict[int, str] = {
    1: "Imports, Java types, sets as values", 2: "`ASTNode`, `List`, `Opt` and interfaces",
    3: "`getParent()`, `getChild()`, `getNumChild()`", 4: "Methods and fields", 5: "Bodies with `if`, `for` and local variables",
    6: "Parameters that are numbers", 7: "Computed texts as arguments", 8: "Overloading, and three parameters",
    9: "Inherited attributes of one name with two types", 10: "`refine`", 11: "Nonterminal attributes", 12: "Rewrites",
    13: "Collection attributes", 14: "Circular attributes", 15: "Small things"}


class Way(NamedTuple):
    """What to write instead, and the number of the section that shows it; 0 where none does."""

    hint: str
    section: int = 0


OTHERWISE = Way("There are `syn`, `inh` and `eq`, with `= E;` or `{ return E; }`; a method becomes a `syn` attribute.", 4)
_CHOICE = "A body is one `return E;`: `if (c) return a; return b;` is `{ return c ? a : b; }`."
_FOLD = "Go through a list by `exists`, `first` or `sum`: `exists (s : getStmtList()) { s.declares(n) }`."
_SET = "A value is an int, a boolean, a String or a node, with no types in brackets: have a node stand for a set or a list, or ask " \
       "whether something is in it: `syn boolean Block.has(String n)` in place of `syn Set<String> Block.names()`."
_CIRCULAR = "It stands once, behind the parameters, where the attribute is declared: `syn boolean Rule.nullable() circular [false] = " \
            "..;`. An `eq` says nothing of it."
# By what isn't taken: the sort of a declaration, or of a piece of one.
FORMS: Dict[str, Way] = {
    "import": Way("Java can't be called: take the line out.", 1),
    "class": Way("There are no classes of Java, and no constructors: a value is an int, a boolean, a String or a node. Have a node of the "
                 "tree stand for what the class holds, or let the client hold it.", 4),
    "interface": Way("Take it out: a value is an int, a boolean, a String or a node. Declare its methods by `syn` for a class above those "
                     "that would implement it.", 2),
    "implements": Way("Take it out, and declare the methods by `syn` for a class above those that would implement it.", 2),
    "method": Way("Declare a `syn` attribute in the place of a method, and an `eq` for each one that overrides it; it may have two "
                  "parameters.", 4),
    "void": Way("Nothing is changed by aspects, and nothing is printed: give the value by a `syn` attribute, and let the client act.", 4),
    "constructor": Way("Nodes are made by the client alone: take it out.", 4),
    "field": Way("What is computed is a `syn lazy` attribute, what is set from outside a token of the grammar.", 4),
    "coll": Way("Count or gather by folds: `sum (s : getStmtList()) { s.count() }`, class by class.", 13),
    "contributes": Way("The node that collects asks downwards: give an equation for each class that contributes.", 13),
    "refine": Way("Give the equation in a class below, or change it where it stands.", 10),
    "rewrite": Way("Let the client replace the node by `set`, or give the value by an attribute of the old one.", 12),
    "cache": Way("Declare the attribute `lazy` or not; each edit invalidates what depends on it.", 15),
    "nta": Way("Make it a child in the grammar, and let the client put the node there.", 11),
    "new": Way("Equations make no nodes, no sets and no objects. A node that is always there stands in the grammar, and the client puts it "
               "there; in place of a set ask whether something is in it.", 11),
    "kind": Way(_SET, 1),
    "parameter kind": Way("A parameter is a String or a node: pass the node that has what is looked for, or ask element by element.", 1),
    "modifier": Way("Take the word out: behind `syn` and `inh` stands `lazy` or nothing, and a parameter has its kind and its name.", 4),
    "reserved": Way("The word is reserved here, as it begins a fold: give the attribute another name, wherever it stands.", 15),
    "index": Way("Name the list: `eq Block.getStmt(int i).a() = i;`, an equation for each; `getChild()` is for all components, and has no "
                 "index.", 15),
    "circular": Way("A boolean one is read with `--forms circular`. Another one asks along a tree, or counts its rounds: give it a "
                    "parameter that is a node of a list, and have it ask itself with the next node, which ends with the list.", 14),
    "circular kind": Way("With `--forms circular` a boolean attribute is read. Have it take the element as its argument, and answer "
                         "whether it belongs to the set: `syn boolean Rule.begins(String sign) circular [false]`.", 14),
    "circular start": Way("It starts from a constant: `circular [false]` or `circular [true]`.", 14),
    "circular misplaced": Way(_CIRCULAR, 14),
    "if": Way(_CHOICE, 5),
    "return": Way(_CHOICE, 5),
    "for": Way(_FOLD, 5),
    "while": Way("A loop becomes a recursion from node to node: `next() == null ? 0 : 1 + next().count()`; where it may come back to a "
                 "node, a circular attribute.", 5),
    "local": Way("A local variable becomes an attribute of its own, which may be named twice: with `lazy` it is evaluated once.", 5),
    "statement": Way("Nothing is changed in a body, which is one `return E;`: what is assigned or added becomes the value of an "
                     "attribute.", 5),
    "empty": Way("A body is one `return E;`.", 5),
    "field of Java": Way("Java can't be called, and a node has no fields: a component or a token is asked by its accessor, as "
                         "`getName()`.", 1),
    "word": Way("There are `int` with `+ - * / %` and comparisons, `&&`, `||`, `!`, and texts between double quotes; characters, bits and "
                "annotations aren't there.", 15),
}
# By a name that isn't there, or that no attribute may have.
NAMES: Dict[str, Way] = {
    "getParent": Way("Have the node above say it: `inh Block Stmt.block(); eq Block.getStmt().block() = this;`.", 3),
    "getNumChild": Way("Ask each component by its own accessor: `getNumStmt()` for a list.", 3),
    "getChild": Way("Ask each component by its own accessor: `getStmt(i)` for a list, `getLeft()` for a child.", 3),
    "ASTNode": Way("Declare one abstract class above all others, and declare it for that one.", 2),
    "List": Way("A list is no node: ask the node that has it.", 2),
    "Opt": Way("An optional is no node: ask the node that has it, by `hasInit()` and `getInit()`.", 2),
    "super": Way("What `super` would call gets a name of its own: `syn int Expr.plainValue()`, which `value()` asks by default.", 10),
    "refined": Way("What `refined()` would call gets a name of its own: `syn int Expr.plainValue()`, which `value()` asks by default.", 10),
}
# Types of Java that aren't classes of a grammar.
JAVA_TYPES = frozenset("long float double char byte short void Object Integer Boolean Character Long Float Double Set HashSet TreeSet Map "
                       "HashMap TreeMap Collection ArrayList LinkedList Iterator Iterable StringBuilder".split())
OVERLOADED = Way("One name is declared once for a class and those below it, whatever its parameters are: take two names.", 8)
BY_KINDS = Way("Attributes of one name are told apart by how many parameters they have, and not by the kinds of these: take two names.", 8)
OTHER_KIND = Way("The kind is the one that is declared for the class above, or a class below it.", 4)
OVERRIDDEN = Way("An attribute is declared once for a class and those below it: override it by `eq`.", 15)
TWO_FORMS = Way("A name is `syn` for all classes or `inh` for all classes: give one of the two another name.", 9)
ONE_LINE = Way("On one line of classes a name is `syn` for all or `inh` for all: give one of the two another name.", 9)
TWO_TYPES = Way("All `inh` declarations of a name say the same types, and the same of `circular`: take two names, or one type above "
                "both.", 9)
NUMBERS = Way("A parameter is a String or a node: a number that is an index is the element, and one that grows on the way down is an "
              "inherited attribute.", 6)
TOO_MANY = Way("There are two parameters at most: of three one is mostly a node that can be asked, with the others as its arguments.", 8)
_LIST_WRITTEN = "`syn nta List<Num> Program.getOnesList() = new List<Num>().add(new Num(1));`"
LIST_CONSTANT = Way(f"A list is written down, and its name is `get..List`: {_LIST_WRITTEN} A body may have it in a local variable, "
                    "add each node by a statement `l.add(new Num(1));`, and return it; nothing else stands there.", 11)
OPT_CONSTANT = Way("An optional is none by itself: `syn nta Num Program.getOne() = new Num(1);` is always there, and what isn't there needs no "
                   "constant.", 11)
# Where a declaration has the name of a constant that fills a component between slashes, and isn't one; with that constant.
FILL = "The grammar has it between slashes: write `syn nta`, and behind it what always stands there, as `{}`"
FILLED_BY_NONE = "A component between slashes is filled by a constant of the aspects: `{}`"
NEVER_FILLED = Way("A component between slashes is filled by a constant of the aspects, `syn nta X C.getName() = new X();`: its class has to "
                   "have a finite tree, in which no node has that component.", 11)
KIND_OF_ANY = Way("`ASTNode` is no kind: name the class that is meant, or declare one abstract class above all others, and name that one.", 2)
EQUATION_OF_ANY = Way("What holds for all nodes stands with the declaration, `syn int ASTNode.size() = 1;`; a class overrides it by `eq`.", 2)
FIFTH = Way("There are four parameters at most: of five one is mostly a node that can be asked, with others as its arguments.", 8)
COMPUTED = Way("A String argument is a token, a parameter or a text that is written out: pass the node, and let the other side ask it.", 7)
OF_JAVA = Way("Java can't be called: what takes a library is computed by the client, which puts the result into the tree as a token.", 1)
OF_SETS = Way("A set is the question whether something is in it: have the attribute take the element as its argument, and answer a "
              "boolean.", 1)
OF_OBJECTS = Way("Equations make no sets and no objects of Java: in place of a set have an attribute take the element as its argument, and "
                 "answer a boolean.", 1)
OF_LISTS = Way("Have it go over a list of the tree; what isn't in one is asked for by a recursion from node to node.", 5)
AT_ROOT = Way("Give the class of the root an equation of its own, which asks for nothing from above.", 2)
BELOW_ROOT = Way("The root has no node above it: declare it for each of the other classes, and not for that of the root.", 2)
NO_VALUE = Way("The end of the body can be reached: have each way through it end in a `return`.", 5)
_WRITTEN = "`syn nta Decl Program.unknown() = new Decl(\"?\", new Opt());`: behind one `new` stand literals, `new Y(..)`, `new List()` with " \
           "`.add(new Y(..))`, and `new Opt()`."
# What helps with a constant, by what of it is refused.
OF_CONSTANTS: Dict[str, Way] = {
    "component": Way("A constant is a component of its class and of those below it: give it a name that none of these has, and at most 32 "
                     "components.", 11),
    "tree": Way("An argument stands for each component, inherited ones first, without constants: a literal for a token, `new Y(..)` for a "
                "child, `new List()` with `.add(new Y(..))` for a list, `new Opt()` or `new Opt(new Y(..))` for an optional.", 11),
    "class of a constant": Way("A constant is declared for a class of the grammar. What stands in all nodes is declared for one abstract class "
                               "above all others.", 11),
    "kind of tree": Way("The kind of a constant is a class of the grammar.", 11),
    "kind of component": Way("A constant that fills a component between slashes has just its kind, a class for `/X/` and a list for `/X*/`; the "
                             "node may be one of a class below.", 11),
    "filled": Way("One constant fills a component between slashes: take one of them out, or give it another name.", 11),
    "itself": Way("What is always there can't go on without an end: declare it for classes of which its own tree has none.", 11)}
OF_OTHERS = Way("A constant stands in the nodes of its class and of those below it: the equation is for one of these, or for all nodes below a "
                "node above, by `getChild()`.", 11)
_EVERYWHERE = "`syn String ASTNode.name() = \"\";`, and each class that would implement it has its own by `eq`."
# What helps where bodies of statements are read.
IN_JASTADD: Dict[str, Way] = {
    "interface": Way(f"Take it out, and declare its methods for all nodes: {_EVERYWHERE} In place of `instanceof` ask a boolean one.", 2),
    "implements": Way(f"Take it out: what the interface has is declared for all nodes, {_EVERYWHERE}", 2),
    "component": Way("Between slashes stands a class, with a name before it or a star behind it: `/Num/`, `/One:Num/`, `/Ones:Num*/`; a "
                     "constant of the aspects fills it, `syn nta Num Program.getOne() = new Num(1);`.", 11),
    "component token": Way("Between slashes stands a class, and no token: take it out, and have a `syn lazy` attribute answer its value.", 11),
    "component optional": Way("Between slashes stands no optional: what is always there is `/One:Num/`, and of what depends on the tree a `syn "
                              "lazy` attribute answers what would be asked of the node.", 11),
    "nta": Way(f"What is always there is written down: {_WRITTEN} What depends on the tree is an attribute that answers what would be asked "
               "of the node.", 11),
    "new": Way(f"Equations make no nodes. What is always there is a constant, {_WRITTEN}", 11),
    "if": Way("`if` and `else` are read, where each way ends in a `return`: a `switch` becomes a chain of them.", 5),
    "for": Way("A loop is read that looks for an element: `for (S s : getSList()) if (c) return e;`. Count by `sum (s : getSList()) { e }`. "
               "One with an index becomes a recursion: `n(int i)` asks `n(i + 1)`, where `i < getNumS()`.", 5),
    "statement": Way("Nothing is changed in a body: what is assigned or added becomes the value of an attribute.", 5)}
# Loops and choices that stand further on in a body.
_STATEMENT = re.compile(r"\b(if|for|while|switch)\b")


def section(number: int) -> str:
    """The heading of a section of the page; empty for 0."""
    return f"{number}. {SECTIONS[number]}" if number else ""


def way_of_body(sort: str, text: str, is_java: bool = False) -> Optional[Way]:
    """What helps where a body of statements begins with one of this sort, and goes on with others; None where it is no statement. Of
    JastAdd's own language an `if` needs none further on: it is read there."""
    if sort not in ("if", "return", "for", "while", "local", "statement", "empty"):
        return None
    known = {**FORMS, **IN_JASTADD} if is_java else FORMS
    further = ["if" if it == "switch" else it for it in _STATEMENT.findall(text) if not (is_java and it == "if")]
    hints: List[str] = list(dict.fromkeys(known[it].hint for it in (sort, *further)))
    return Way(" ".join(hints), known[sort].section)
