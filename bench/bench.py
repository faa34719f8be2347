#!/usr/bin/env python3
"""Speed of ./attrd, as ratios in one run. Each time is the best of a few runs; a ratio of 2 is linear."""
import os
import resource
import subprocess
import sys
import tempfile
import time
from pathlib import Path
from typing import IO, Callable, Dict, List, Sequence, Tuple, cast

from history import note

# Writes a file of the folder, by its name and its text, and gives the name back.
Put = Callable[[str, str], str]
# The seconds that lines take over these files.
Spent = Callable[[Sequence[str], str], float]
# A kind of edits: what they are, how many, and their lines.
Edits = Tuple[str, int, str]
# A run of the program tries: a tree and a line.
Try = Tuple[str, str]

PROGRAM = Path(__file__).resolve().parent.parent / "attrd"
TRIES = PROGRAM.parent / "crates" / "tries" / "out" / "tries"
RUNS = 5


def best_of_turns(folder: str, names: Sequence[str], inputs: Sequence[Path], runs: int, statuses: Sequence[int] = (0,)) -> List[float]:
    """The least time of so many runs over these files with each of these inputs, in seconds, by turns; the lines come through a pipe."""
    times: List[List[float]] = [[] for _ in inputs]
    texts = [Path(stdin).read_bytes() for stdin in inputs]
    for _ in range(runs):
        for lines, spent in zip(texts, times):
            with open(os.devnull, "wb") as out:
                began = time.perf_counter()
                status = subprocess.run([str(PROGRAM), *names], cwd=folder, input=lines, stdout=out, stderr=out).returncode
                spent.append(time.perf_counter() - began)
            if status not in statuses:
                sys.exit(f"attrd ended with status {status} on {names}")
    return [min(spent) for spent in times]


def best(folder: str, names: Sequence[str], stdin: Path, statuses: Sequence[int] = (0,)) -> float:
    """The least time of a few runs over these files, in seconds."""
    return best_of_turns(folder, names, [stdin], RUNS, statuses)[0]


def doubling_grammar(levels: int) -> str:
    """Classes C0 to C(levels-1), each with two children of the next, the last one a number: 2^levels - 1 nodes."""
    lines = [f"C{k} ::= L:C{k + 1} R:C{k + 1};" for k in range(levels - 1)]
    return "\n".join(lines + [f"C{levels - 1} ::= <V:int>;"]) + "\n"


def doubling_term(levels: int) -> str:
    """A term of that grammar with all its nodes."""
    text = f"C{levels - 1}(7)"
    for k in range(levels - 2, -1, -1):
        text = f"C{k}({text},{text})"
    return text


def flat_grammar(classes: int) -> str:
    """Classes of which each has a token and thirty children, but for the first, which the tree is of."""
    parts = " ".join(f"P{i}:C0" for i in range(30))
    return "C0 ::= <V:int>;\n" + "".join(f"C{k} ::= <V:int> {parts};\n" for k in range(1, classes))


def calculator(put: Put, statements: int, inner: int = 0) -> List[str]:
    """The sample grammar and aspects, over a block of that many statements, of which the last two are the sample's; behind them
    a block of so many inner ones, where there are any."""
    samples = PROGRAM.parent / "samples" / "calculator"
    filler = ",".join(f'Decl("f{i}",Num({i}))' for i in range(statements - 2))
    block = (filler + "," if filler else "") + 'Decl("x",Num(1)),Print(Add(Use("x"),Num(2)))'
    if inner:
        block += ",Block([" + ",".join(f'Decl("g{i}",-)' for i in range(inner)) + "])"
    return [put("calc.ast", (samples / "calc.ast").read_text()), put(f"tree{statements}_{inner}.txt", f"Program(Block([{block}]))"),
            put("calc.jrag", (samples / "calc.jrag").read_text())]


def source(mebibytes: int) -> str:
    """Names, signs, numbers, texts and comments; no grammar, so that reading ends where scanning does."""
    line = ';Größe ::= left:Name [right] <count:int> 1234567890 "a text \\" with \\n escapes" /* a comment */ // to the end\n'
    return (line * (mebibytes * (1 << 20) // len(line.encode())))


def operators(count: int) -> str:
    """An expression of that many operators, by turns minus, times and plus."""
    return " ".join(f"{k} {'+-*'[k % 3]}" for k in range(1, count + 1)) + f" {count + 1}"


def chained() -> str:
    """Aspects over the calculator's blocks: each statement counts those before it, and a block sums a one for each."""
    return ("aspect Counting {\n  inh lazy int Stmt.before();\n"
            "  eq Block.getStmt(int i).before() = i == 0 ? 0 : getStmt(i - 1).before() + 1;\n"
            "  eq Program.getBlock().before() = 0;\n"
            "  syn int Block.many() = sum (s : getStmtList()) { s.one() };\n  syn int Stmt.one() = 1;\n"
            "  syn int Program.long() = " + operators(60) + ";\n}\n")


def many_equations(classes: int, attributes: int, bodies: int) -> Tuple[str, str]:
    """A grammar of that many classes below one, and aspects with an equation of each class for each attribute, and as many more
    attributes with a body."""
    grammar = "Top ::= One:Base;\nabstract Base;\n" + "".join(f"C{k} : Base ::= <V:int>;\n" for k in range(classes))
    lines = [f"  syn int Base.a{j}();" for j in range(attributes)] + [f"  syn int Base.b{j}() = a{j % attributes}() + {j};" for j in range(bodies)]
    lines += [f"  eq C{k}.a{j}() = getV() + {j};" for k in range(classes) for j in range(attributes)]
    return grammar, "aspect Many {\n" + "\n".join(lines) + "\n}\n"


def long_aspects(size: int) -> str:
    """Aspects of that size, all of it in bodies."""
    body = " + ".join(["getLeft().getValue() * getRight().getValue()"] * 60)
    lines: List[str] = []
    length, k = 0, 0
    while length < size - 3000:
        lines.append(f"  syn int Sum.total{k}() = {body};")
        length, k = length + len(lines[-1]) + 1, k + 1
    return "aspect S {\n" + "\n".join(lines) + "\n}\n"


def edits_of(statements: int) -> List[Edits]:
    """Kinds of edits of a calculator's tree of that many statements and ten inner ones: what they are, how many, and their lines."""
    def spread(k: int, count: int) -> str:
        """The k-th of so many declarations, from the first one to the last."""
        return f"/Block/Stmt:{k * (statements - 1) // count}"

    right, inner, many = f"/Block/Stmt:{statements - 1}/Expr/Right", f"/Block/Stmt:{statements}", 100000
    return [("token edits, all over the tree", many, "".join(f"0 token {spread(k, many)}/Init Value {k}\n" for k in range(many))),
            ("small subtrees put under a plain child", many, f"0 set {right} Num(3)\n0 set {right} Use(\"x\")\n" * (many // 2)),
            ("small subtrees put in an optional, all over the tree", many, "".join(f"0 set {spread(k, many)}/Init Num({k})\n" for k in range(many))),
            ("subtrees of three nodes replaced, at a hundred places", many, "".join(f"0 set {spread(k, 100)}/Init Add(Num(1),Num(2))\n" for k in range(100)) * (many // 100)),
            ("drops from an optional and puts, by turns", many, "".join(f"0 drop {spread(k, many)}/Init\n0 put {spread(k, many)} Init Num(1)\n" for k in range(0, many, 2))),
            ("inserts and drops at the front of a list of ten, by turns", many, f"0 insert {inner} Stmt 0 Decl(\"y\",-)\n0 drop {inner}/Stmt:0\n" * (many // 2)),
            ("inserts and drops at the end of all statements, by turns", 10000, f"0 insert /Block Stmt {statements + 1} Block([])\n0 drop /Block/Stmt:{statements + 1}\n" * 5000),
            ("inserts and drops at the front of all statements, by turns", 2000, "0 insert /Block Stmt 0 Decl(\"y\",-)\n0 drop /Block/Stmt:0\n" * 1000),
            ("token edits, each with a question after it", many, "".join(f"0 token {spread(k, many)}/Init Value {k}\n0 ask {spread(k, many)} value()\n" for k in range(many)))]


def edits(files: Sequence[Sequence[str]], spent: Spent) -> None:
    """What edits cost on a tree of 61,000 nodes, each kind against the same on one of 4,000."""
    for (what, count, few), (_, _, many) in zip(edits_of(2000), edits_of(30500)):
        times = [spent(of, lines) for of, lines in zip(files, (few, many))]
        note(f"{what}: 61,000 nodes against 4,000", times[1] / times[0])
        print(f"{count:,} {what}: {times[0] * 1e6 / count:.2f} us each on 4,000 nodes, {times[1] * 1e6 / count:.2f} us on 61,000: ratio {times[1] / times[0]:.2f}")


def moves_of(elements: int) -> List[Tuple[str, str]]:
    """Kinds of moves in a tree whose third statement is a block of so many elements: what they are, and 1,000 lines of them."""
    many, behind = "/Block/Stmt:2", "/Block/Stmt:3"
    return [("from the front of a long list to its end", f"0 move {many}/Stmt:0 to {many} Stmt {elements - 1}\n" * 1000),
            ("from the end of a long list to the same index", f"0 move {many}/Stmt:{elements - 1} to {many} Stmt {elements - 1}\n" * 1000),
            ("from the front of a long list to that of a short one and back, by turns",
             f"0 move {many}/Stmt:0 to /Block Stmt 0\n0 move /Block/Stmt:0 to {behind} Stmt 0\n" * 500),
            ("of a block with a long list, to where it stands", f"0 move {many} to /Block Stmt 2\n" * 1000)]


def moves(put: Put, spent: Spent) -> None:
    """What moves cost in a list of 60,000 elements, each kind against the same in one of 30,000."""
    sizes = (30000, 60000)
    files = [calculator(put, 2, size) for size in sizes]
    for (what, few), (_, many) in zip(*map(moves_of, sizes)):
        times = [spent(of, lines) for of, lines in zip(files, (few, many))]
        note(f"moves {what}: 60,000 elements against 30,000", times[1] / times[0])
        print(f"1,000 moves {what}: {times[1] * 1e3:.0f} us each with 60,000 elements, against 30,000: ratio {times[1] / times[0]:.2f}")


def folding() -> str:
    """Aspects over the calculator's blocks: a block sums a one for each statement, and for each statement such a sum."""
    return ("aspect Folding {\n  syn int Block.many() = sum (s : getStmtList()) { s.one() };\n  syn int Stmt.one() = 1;\n"
            "  syn int Block.pairs() = sum (s : getStmtList()) { s.all() };\n  inh int Stmt.all();\n"
            "  eq Block.getStmt(int i).all() = sum (s : getStmtList()) { s.one() };\n  eq Program.getBlock().all() = 0;\n}\n")


def questions(folder: str, put: Put) -> None:
    """What a question takes in turns, by `wait` and at the end of the input, against `ask`; and how long an edit waits beside one."""
    aspects = put("folding.jrag", folding())
    nothing = Path(folder) / put("nothing", "")
    for size, count in ((1000, 90), (8000, 60), (30000, 30)):
        files = calculator(put, size)[:2] + [aspects]
        post = "0 post /Block many()\n"
        inputs = [nothing, Path(folder) / put("asked", "0 ask /Block many()\n" * count),
                  Path(folder) / put("awaited", "".join(f"{post}0 wait {k}\n" for k in range(1, count + 1))), Path(folder) / put("posted", post * count)]
        begun, asked, awaited, posted = best_of_turns(folder, files, inputs, RUNS)
        print(f"{count} folds over {size:,} elements: {(asked - begun) * 1000:.0f} ms by `ask`; by `wait` {(awaited - begun) / (asked - begun):.2f} times that, "
              f"at the end of the input {(posted - begun) / (asked - begun):.2f} times")
    files = calculator(put, 2000)[:2] + [aspects]
    one, *turns = (min(waited(folder, ["--slice", slice, *files], f"0 {word} /Block pairs()\n", word == "post") for _ in range(RUNS))
                      for word, slice in (("ask", "1"), ("post", "1"), ("post", "100")))
    print(f"an edit is answered {one * 1000:.0f} ms behind an `ask`, and behind a `post` of the same question {turns[0] * 1000:.2f} ms "
          f"with one turn behind each line, {turns[1] * 1000:.2f} ms with 100")


def waited(folder: str, names: Sequence[str], question: str, is_told: bool) -> float:
    """How long an edit waits for its reply that is sent behind this question, or, where that is told at once, behind its reply."""
    with subprocess.Popen([str(PROGRAM), *names], cwd=folder, stdin=subprocess.PIPE, stdout=subprocess.PIPE) as program:
        lines, replies = cast(IO[bytes], program.stdin), cast(IO[bytes], program.stdout)

        def tell(line: str) -> None:
            lines.write(line.encode())
            lines.flush()

        tell("0 version\n")
        replies.readline()
        tell(question)
        if is_told:
            replies.readline()
        began = time.perf_counter()
        tell("1 token /Block/Stmt:0 ID \"z\"\n")
        while not (reply := replies.readline()).startswith(b"1 "):
            if not reply:
                sys.exit(f"attrd told nothing of an edit behind {question}")
        spent = time.perf_counter() - began
        program.kill()
    return spent


def layers(put: Put, spent: Spent) -> None:
    """What the store, questions and rules cost, each against a smaller tree or half as much."""
    small, large = calculator(put, 2000, 10), calculator(put, 30500, 10)
    edits((small, large), spent)
    moves(put, spent)

    def halves(what: str, files: Sequence[Sequence[str]], lines: Sequence[str]) -> None:
        times = [spent(of, text) for of, text in zip(files, lines)]
        note(f"{what}: against half of it", times[1] / times[0])
        print(f"{what}: {times[1] * 1000:.0f} ms, against half of it: ratio {times[1] / times[0]:.2f}")

    halves("300,000 questions whose answer is kept", (small, small), ["0 ask /Block/Stmt:1 value()\n" * n for n in (150000, 300000)])
    cold = calculator(put, 10000)
    halves("10,000 questions, each for another node", (cold, cold), ["".join(f"0 ask /Block/Stmt:{k} value()\n" for k in range(n - 2)) for n in (5000, 10000)])
    counting = put("counting.jrag", chained())
    trees = [calculator(put, n)[:2] + [counting] for n in (5000, 10000, 15000, 30000)]
    halves("a chain of 10,000 instances", trees[:2], [f"0 ask /Block/Stmt:{n - 1} before()\n" for n in (5000, 10000)])
    halves("20 folds over 30,000 elements", trees[2:], ["0 ask /Block many()\n" * 20] * 2)
    halves("20,000 expressions of 60 operators", (trees[0], trees[0]), ["0 ask / long()\n" * n for n in (10000, 20000)])


def rules(put: Put, begun: Callable[[Sequence[str]], float]) -> None:
    """What rules cost, each against half as much."""
    times = []
    for classes in (500, 1000):
        grammar, aspects = many_equations(classes - 2, 20, 1980 * classes // 1000)
        times.append(begun([put("m.ast", grammar), put("m.txt", "Top(C0(1))\n"), put("m.jrag", aspects)]))
    print(f"2,000 declarations and 19,960 equations over 1,000 classes: {times[1] * 1000:.0f} ms, against half of it: ratio {times[1] / times[0]:.2f}")
    times = []
    for size in (2 << 20, 4 << 20):
        times.append(begun([put("sum.ast", "Sum ::= Left:Num Right:Num; Num ::= <Value:int>;\n"), put("sum.txt", "Sum(Num(3),Num(4))\n"), put("l.jrag", long_aspects(size))]))
    print(f"4 MiB of aspects: {times[1] * 1000:.0f} ms, against half of it: ratio {times[1] / times[0]:.2f}")


def by_turns(folder: str, files: Sequence[str], runs: Sequence[Try]) -> Dict[Try, float]:
    """The least processor time of each of these runs of `tries`, by turns; a run is a tree and a line, answered by a value."""
    times: Dict[Try, List[float]] = {run: [] for run in runs}
    for _ in range(2 * RUNS):
        for (tree, line), spent in times.items():
            began = resource.getrusage(resource.RUSAGE_CHILDREN).ru_utime
            done = subprocess.run([str(TRIES), *files, tree], cwd=folder, input=line.encode(), capture_output=True)
            spent.append(resource.getrusage(resource.RUSAGE_CHILDREN).ru_utime - began)
            if done.returncode or not done.stdout.startswith(b"value "):
                sys.exit(f"tries ended with status {done.returncode} on {line}")
    return {run: min(spent) for run, spent in times.items()}


def trials(folder: str, put: Put) -> None:
    """What a trial takes, against a plain recursion over the same equation and against half of it, in the same run."""
    files = [put("trials.ast", "Top ::= Item*; Item ::= <Value:int>;\n"),
             put("trials.jrag", f"aspect S {{\n  syn int Top.long() = {operators(60)};\n  syn int Top.half() = {operators(30)};\n"
                 "  syn int Top.total() = sum (i : getItemList()) { i.getValue() * 2 + 1 };\n}\n")]
    one, some, many = (put(f"items{n}.txt", "Top([" + ",".join(f"Item({k})" for k in range(n)) + "])\n") for n in (1, 15000, 30000))
    for what, rounds, half, whole in [("an expression of 60 operators", 50000, (one, "half"), (one, "long")),
                                      ("a fold over 30,000 elements", 50, (some, "total"), (many, "total"))]:
        runs = {(way, tree, name): [(tree, f"{way} {n} / {name}()\n") for n in (0, rounds)]
                for way in ("trial", "plain") for tree, name in (half, whole)}
        times = by_turns(folder, files, [run for pair in runs.values() for run in pair])
        taken = {of: times[full] - times[none] for of, (none, full) in runs.items()}
        trial, plain = (taken[way, *whole] for way in ("trial", "plain"))
        print(f"a trial of {what}: {trial / rounds * 1e6:.1f} us, {trial / plain:.2f} times a plain recursion; against half of it: "
              f"ratio {trial / taken['trial', *half]:.2f}, plain {plain / taken['plain', *half]:.2f}")


def main() -> None:
    if not PROGRAM.exists() or not TRIES.exists():
        sys.exit("make bench builds ./attrd and crates/tries/out/tries first")
    with tempfile.TemporaryDirectory() as folder:
        def put(name: str, text: str) -> str:
            (Path(folder) / name).write_text(text, encoding="utf-8")
            return name

        sum_files = [put("sum.ast", "Sum ::= Left:Num Right:Num; Num ::= <Value:int>;\n"),
                     put("sum.txt", "Sum(Num(3),Num(4))\n"),
                     put("sum.jrag", "aspect S { syn int Sum.total() = getLeft().getValue() + getRight().getValue() * 2; }\n")]
        nothing = Path(folder) / put("nothing", "")

        idle = best(folder, sum_files, nothing)
        print(f"start and end, no line: {idle * 1000:.1f} ms")

        for name, line in [("show /Right", "0 show /Right\n"), ("ask / total()", "0 ask / total()\n")]:
            half = best(folder, sum_files, Path(folder) / put("half", line * 100000)) - idle
            whole = best(folder, sum_files, Path(folder) / put("whole", line * 200000)) - idle
            print(f"200,000 lines `{name}`: {200000 / whole:,.0f} lines a second; against 100,000: ratio {whole / half:.2f}")

        def ratio(files: Sequence[str], what: str, lines: str, count: int) -> float:
            """What these lines cost, each as a multiple of a `version` line of the same run."""
            inputs = [nothing, Path(folder) / put("versions", "0 version\n" * count), Path(folder) / put("lines", lines)]
            begun, versions, spent = best_of_turns(folder, files, inputs, 3 * RUNS)
            versions, spent = versions - begun, spent - begun
            note(f"{what}: against `version` lines", spent / versions)
            print(f"{count:,} lines, {what}: {spent * 1000:.0f} ms, {spent / versions:.1f} times as many `version` lines")
            return spent

        small = calculator(put, 2)
        ratio(small, "a question whose answer is kept", "0 ask /Block/Stmt:1/Expr value()\n" * 100000, 100000)
        ratio(small, "the term of a leaf", "0 show /Block/Stmt:1/Expr/Right\n" * 100000, 100000)
        ratio(small, "a token edit and a question, by turns",
              "0 token /Block/Stmt:1/Expr/Right Value 5\n0 ask /Block/Stmt:1/Expr value()\n" * 50000, 100000)
        ends = [ratio(calculator(put, size), f"an insert and a drop at the front of {size:,} statements, by turns",
                      "0 insert /Block Stmt 0 Decl(\"y\",-)\n0 drop /Block/Stmt:0\n" * 1000, 2000) for size in (1000, 10000)]
        print(f"  ratio {ends[1] / ends[0]:.2f}, of lists ten times as long")

        times, written = [], []
        whole_tree = Path(folder) / put("whole_tree", "0 show /\n" * 40)
        for levels in (15, 16):
            files = [put(f"g{levels}.ast", doubling_grammar(levels)), put(f"t{levels}.txt", doubling_term(levels)),
                     put(f"a{levels}.jrag", "aspect A { }\n")]
            size = (Path(folder) / files[1]).stat().st_size
            times.append(best(folder, files, nothing) - idle)
            written.append((best(folder, files, whole_tree) - idle - times[-1]) / 40)
            print(f"a term of {2 ** levels - 1:,} nodes written: {written[-1] * 1000:.1f} ms, {size / written[-1] / 2 ** 20:.1f} MiB a second")
            print(f"a term of {2 ** levels - 1:,} nodes read and shaped: {times[-1] * 1000:.1f} ms, {size / times[-1] / 2 ** 20:.1f} MiB a second")
        print(f"  ratio {times[1] / times[0]:.2f}, written {written[1] / written[0]:.2f}")

        classes = [put("classes.ast", flat_grammar(1000)), put("classes.txt", "C0(1)\n"), put("classes.jrag", "aspect A { }\n")]
        print(f"a grammar of 1,000 classes with 31 components each: {(best(folder, classes, nothing) - idle) * 1000:.1f} ms")

        times = []
        for size in (2, 4):
            text = source(size)[: size * (1 << 20) - 200]
            files = [put(f"s{size}.ast", text[: text.rindex("\n") + 1]), sum_files[1], sum_files[2]]
            times.append(best(folder, files, nothing, statuses=(1,)) - idle)
            print(f"{size} MiB of source scanned: {times[-1] * 1000:.1f} ms, {size / times[-1]:.1f} MiB a second")
        print(f"  ratio {times[1] / times[0]:.2f}")

        layers(put, lambda files, lines: best(folder, files, Path(folder) / put("lines", lines)) - best(folder, files, nothing))
        questions(folder, put)
        rules(put, lambda files: best(folder, files, nothing) - idle)
        trials(folder, put)


if __name__ == "__main__":
    main()
