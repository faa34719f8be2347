"""Takes out of a source what only proofs read, so that a compiler that proves nothing has less to read. Blanks stand where it was, and
each line break stays, so that the compiler tells the line and the column of the real source.

What is taken out looks as follows; what looks otherwise stays. So do ghost items and fields: by those of a type's model the compiler
knows whether the type may be copied.

    requires|ensures [*] [NAME] {..}          of a function or closure
    ghost NAME: {..}                          of a function: nothing ends it
    [pub] ghost use ..;
"""
import re
from typing import Optional

# What is read as one: comments, strings and characters, in which braces and words mean nothing. A quote that is no character begins the
# name of a lifetime, or ends a name of the logic.
READ_AS_ONE = r"""//[^\n]*|/\*|\bb?r(?P<marks>\#*)"(?s:.*?)"(?P=marks)|"(?:[^"\\]|\\(?s:.))*"|(?<![\w'])b?'(?:[^'\\\n]|\\[^\n][^'\n]*)'"""
TOKEN = re.compile(READ_AS_ONE + r"|(?<![\w.])(?:(?P<clause>requires|ensures)|(?P<ghost>ghost))(?!\w)")
BRACE = re.compile(READ_AS_ONE + r"|[{}]")
END = re.compile(READ_AS_ONE + r"|;")
EDGE = re.compile(r"/\*|\*/")
# What stands behind the word that begins what is taken out, in front of the block.
CLAUSE = re.compile(r"\s*\*?\s*(?:\w[\w.']*\s*)?(?=\{)")
NAMED = re.compile(r"\s+\w+\s*:\s*(?=\{)")
USE = re.compile(r"\s+use\b")
# What is behind the block of an item or field, and not of a function's clause.
ITEM = re.compile(r"\s*(?:[;,}=]|by\b|\Z)")
PUBLIC = re.compile(r"\bpub(?:\s*\([^()]*\))?\s+\Z")
LONGEST_PUBLIC = 80
SHOWN = re.compile(r"[^\n]")


def end_of(match: "re.Match[str]") -> int:
    """Where the token ends that was matched: a comment that begins with `/*` with all that are nested in it."""
    if match[0] != "/*":
        return match.end()
    depth = 0
    for edge in EDGE.finditer(match.string, match.start()):
        depth += 1 if edge[0] == "/*" else -1
        if depth == 0:
            return edge.end()
    return len(match.string)


def block_end(text: str, begin: int) -> Optional[int]:
    """Where the block ends that begins here by `{`, behind its `}`."""
    depth, match = 0, BRACE.search(text, begin)
    while match is not None:
        depth += {"{": 1, "}": -1}.get(match[0], 0)
        if depth == 0:
            return match.end()
        match = BRACE.search(text, end_of(match))
    return None


def use_end(text: str, begin: int) -> Optional[int]:
    """Where the `ghost use` ends that is here, behind its `;`."""
    match = END.search(text, begin)
    while match is not None and match[0] != ";":
        match = END.search(text, end_of(match))
    return match.end() if match else None


def clause_end(word: "re.Match[str]") -> Optional[int]:
    """Where what is taken out ends that begins with this word; None where nothing does."""
    text = word.string
    if word["ghost"] and USE.match(text, word.end()):
        return use_end(text, word.end())
    head = (NAMED if word["ghost"] else CLAUSE).match(text, word.end())
    end = block_end(text, head.end()) if head else None
    return None if end is None or word["ghost"] and ITEM.match(text, end) else end


def begin_of(word: "re.Match[str]") -> int:
    """Where what is taken out begins by this word: with a `pub` in front of it."""
    begin = word.start()
    public = PUBLIC.search(word.string[max(0, begin - LONGEST_PUBLIC):begin]) if word["ghost"] else None
    return begin - len(public[0]) if public else begin


def stripped(text: str) -> str:
    """The source without what only proofs read."""
    kept, done = list[str](), 0
    match = TOKEN.search(text)
    while match is not None:
        at = end_of(match)
        end = clause_end(match) if match["clause"] or match["ghost"] else None
        if end is not None:
            begin = begin_of(match)
            kept += [text[done:begin], SHOWN.sub(" ", text[begin:end])]
            done = at = end
        match = TOKEN.search(text, at)
    return "".join([*kept, text[done:]])
