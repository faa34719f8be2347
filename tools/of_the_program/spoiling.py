"""Texts in which a token is spoiled by chance."""
import random
import re
from typing import Dict, List, Sequence

# What stands between tokens.
BLANKS = (" ",) * 9 + ("\n", "\n  ", "\t", " // if (\n", " /* for */ ", "\r\n")
TOKENS = re.compile(r'"[^"]*"|\w+|::=|==|!=|<=|>=|&&|\|\||\S')


def sort_of(token: str) -> str:
    """Whether the token is a word, a number, a text or another one."""
    return "word" if token[0].isalpha() else "number" if token[0].isdigit() else "text" if token[0] == '"' else "sign"


def spoiled_once(tokens: Sequence[str], others: Sequence[str], chance: random.Random) -> List[str]:
    """The tokens with one taken away, doubled or changed, with one of the others in front of it, behind the next one, or the last of all."""
    at = chance.randrange(len(tokens))
    front, it, behind = tokens[:at], tokens[at], tokens[at + 1:]
    other, like = chance.choice(others), chance.choice([one for one in others if sort_of(one) == sort_of(it)])
    ways: Dict[str, List[str]] = {
        "away": [*front, *behind], "twice": [*front, it, it, *behind], "other": [*front, other, *behind], "like": [*front, like, *behind],
        "between": [*front, other, it, *behind], "swap": [*front, *behind[:1], it, *behind[1:]], "end": [*front, it],
    }
    return ways[chance.choice(("away", "twice", "other", "like", "like", "between", "between", "swap", "end"))]


def spaced(tokens: Sequence[str], chance: random.Random) -> str:
    """The tokens as a text, with blanks and comments between them."""
    return "".join(it + chance.choice(BLANKS) for it in tokens)
