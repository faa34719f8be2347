"""Circular attributes by chance whose equations are written as statements: they mean what the same ones mean as expressions."""
from tools.of_the_program import test_circular
from tools.of_the_program.circular_aspects import COMMON, Aspects, Attribute, Expr


def search(fold: Expr, value: str) -> str:
    """A loop that returns the value where the fold holds."""
    of, test = fold.parts
    return f"for (Item {fold.word} : {of.text()}.getItemList()) {{ if ({test.text()}) return {value}; }}"


def asks(e: Expr) -> bool:
    """Whether it asks one of the attributes by chance, which may be circular: where a condition does, its answer is wanted at once."""
    return (e.form == "ask" and e.word[1:].isdigit()) or any(map(asks, e.parts))


def is_none(e: Expr) -> bool:
    """Whether it says that no element has something."""
    return e.form == "not" and e.parts[0].form == "exists"


def statements(e: Expr) -> str:
    """Statements that come to the expression."""
    if e.form == "if":
        return f"if ({e.parts[0].text()}) {{ {statements(e.parts[1])} }} else {{ {statements(e.parts[2])} }}"
    if e.form == "exists":
        return f"{search(e, 'true')} return false;"
    if is_none(e):
        return f"{search(e.parts[0], 'false')} return true;"
    return joined(e) if e.form in ("or", "and") else f"return {e.text()};"


def joined(e: Expr) -> str:
    """The same of `||` and `&&`: the first part ends it, where that can be said in front of the second."""
    first, second = e.parts
    if e.form == "or" and first.form == "exists":
        return f"{search(first, 'true')} {statements(second)}"
    if e.form == "and" and is_none(first):
        return f"{search(first.parts[0], 'false')} {statements(second)}"
    if asks(first):
        return f"return {e.text()};"
    ending = f"if ({first.text()}) {{ return true; }}" if e.form == "or" else f"if (!({first.text()})) return false;"
    return f"{ending} {statements(second)}"


def declared(attribute: Attribute) -> str:
    """The declaration of an attribute, with its equations as statements."""
    head, *_ = attribute.declared().splitlines(keepends=True)
    bodies = [f"  eq {of}.{attribute.name}({attribute.parameters}) {{ {statements(body)} }}\n" for of, body in attribute.equations.items()]
    return head + "".join(bodies)


class WrittenAspects(Aspects):
    """Attributes by chance, whose equations are written as statements."""

    def text(self) -> str:
        common = COMMON.replace("LAZY ", "lazy " if self.lazy_ways else "")
        return common + "aspect Chance {\n" + "".join(map(declared, self.attributes)) + "}\n"


class Written(test_circular.Circular):
    """The sessions of circular attributes over these."""

    forms, sort, sessions = ["--forms", "jastadd"], WrittenAspects, 16
