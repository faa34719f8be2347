"""What an operator has: a check before a restart, versions, figures as text and for Prometheus, who edited, and times in the log."""
from __future__ import annotations

import json
import os
import re
import socket
import subprocess
import sys
import tempfile
import time
import unittest
from contextlib import redirect_stderr
from pathlib import Path
from typing import Callable, Dict, List, Tuple
from unittest import mock

from at_length import at_length
from hub_support import CLIENTS, ENVIRONMENT, SECONDS, Hub, calculator, free_port, program, run_hub

import attrd_hub.language
import attrd_hub.main
from attrd_hub.checking import Check
from attrd_hub.prometheus import as_prometheus
from attrd_hub.records import head, record
from attrd_hub.status import BOUNDS, Counts, Waits, as_text
from attrd_hub.telling import Level, log, shown

VERSION = (CLIENTS.parent / "VERSION").read_text("utf-8").strip()
NAME = r"[a-zA-Z_:][a-zA-Z0-9_:]*"
SAMPLE = re.compile(rf'({NAME})(?:\{{((?:{NAME}="(?:[^"\\\n]|\\.)*",?)*)\}})? (-?[0-9.e+-]+|[+-]Inf|NaN)')
EDIT = '0 token /Block/Stmt:0 ID "y"'


def metrics(text: str) -> Dict[str, Tuple[str, List[Tuple[str, str, float]]]]:
    """The metrics of a text for Prometheus: the type of each, and its samples with their names and labels. Raises AssertionError where
    the text isn't as the format has it."""
    assert text.endswith("\n") and "\n\n" not in text, text
    found: Dict[str, Tuple[str, List[Tuple[str, str, float]]]] = {}
    name, has_help = "", ""
    for line in text[:-1].split("\n"):
        if line.startswith("# HELP "):
            has_help = line.split(" ", 3)[2]
            assert has_help not in found and line.split(" ", 3)[3], line
        elif line.startswith("# TYPE "):
            name, kind = line.split(" ")[2:]
            assert name == has_help and kind in ("counter", "gauge", "histogram"), line
            found[name] = (kind, [])
        else:
            sample = SAMPLE.fullmatch(line)
            assert sample is not None and re.sub("_(bucket|sum|count)$", "", sample[1]) in (name, sample[1]), line
            assert sample[1].startswith(name) and name, line
            found[name][1].append((sample[1], sample[2] or "", float(sample[3])))
    assert all(kind != "counter" or it.endswith("_total") for it, (kind, _) in found.items())
    return found


class Figures(unittest.TestCase):
    hub: Hub

    @classmethod
    def setUpClass(cls) -> None:
        cls.hub = Hub("--sync", "never")

    @classmethod
    def tearDownClass(cls) -> None:
        cls.hub.close()

    def figures(self) -> "dict[str, object]":
        status, told = run_hub("--status", self.hub.socket, "--json")
        self.assertEqual(status, 0, told)
        found: "dict[str, object]" = json.loads(told)
        return found

    def prometheus(self) -> Dict[str, Tuple[str, List[Tuple[str, str, float]]]]:
        status, told = run_hub("--status=prometheus", "--socket", self.hub.socket)
        self.assertEqual(status, 0, told)
        return metrics(told)

    @at_length
    def test_versions(self) -> None:
        figures = self.figures()
        self.assertEqual((figures["hub_version"], figures["program_version"]), (VERSION, VERSION))
        text = run_hub("--status", self.hub.socket)[1]
        self.assertRegex(text, rf"(?m)^version of the hub +{re.escape(VERSION)}$")
        self.assertRegex(text, rf"(?m)^version of the program +{re.escape(VERSION)}$")

    @at_length
    def test_refusals_are_counted_by_their_codes(self) -> None:
        before = dict(self.figures()["refused_codes"])  # type: ignore[call-overload]
        client = self.hub.client()
        lines = ["0 where u", "0 where v", "0 drop /Block/Stmt:9", "x", "1 mark / /", "0 show /", "3 where u"]
        client.send(*lines)
        told = [client.reply() for _ in lines]
        client.close()
        codes = [it.split()[2] for it in told if it.split()[1] == "refused"]
        self.assertEqual(codes, ["3", "3", "4", "1", "1", "3"])
        after = dict(self.figures()["refused_codes"])  # type: ignore[call-overload]
        self.assertEqual({it: after[it] - before.get(it, 0) for it in after}, {"3": 3, "4": 1, "1": 2})
        samples = {labels: value for _, labels, value in self.prometheus()["attrd_hub_refused_total"][1]}
        self.assertEqual(samples[f'socket="{self.hub.socket}",code="3"'], after["3"])
        self.assertRegex(run_hub("--status", self.hub.socket)[1], rf"(?m)^lines that were refused +{sum(after.values())}$")

    def test_waits(self) -> None:
        client = self.hub.client()
        for _ in range(20):
            client.ask("0 show /")
            time.sleep(0.002)
        client.close()
        figures = self.figures()
        self.assertGreater(float(str(figures["wait_median"])), 0.0)
        self.assertGreaterEqual(float(str(figures["wait_longest"])), float(str(figures["wait_median"])))
        kind, samples = self.prometheus()["attrd_hub_wait_seconds"]
        self.assertEqual(kind, "histogram")
        buckets = [value for name, _, value in samples if name.endswith("_bucket")]
        self.assertEqual(len(buckets), len(BOUNDS) + 1)
        self.assertEqual(buckets, sorted(buckets))
        self.assertGreaterEqual(buckets[-1], 10)
        self.assertEqual([value for name, _, value in samples if name.endswith("_count")], [buckets[-1]])

    def test_the_text_for_prometheus(self) -> None:
        found = self.prometheus()
        self.assertEqual(found["attrd_hub_up"], ("gauge", [("attrd_hub_up", f'socket="{self.hub.socket}"', 1.0)]))
        self.assertEqual(found["attrd_hub_info"][1][0][1], f'socket="{self.hub.socket}",hub="{VERSION}",program="{VERSION}"')
        figures = self.figures()
        self.assertEqual(found["attrd_hub_tree_version"][1][0][2], figures["version"])
        self.assertGreater(found["attrd_hub_resident_memory_bytes"][1][0][2], 1 << 20)
        for name in ("attrd_hub_lines_total", "attrd_hub_edits_total", "attrd_hub_connections_total"):
            self.assertEqual(found[name][0], "counter")

    @at_length
    def test_no_hub_for_prometheus(self) -> None:
        status, told = run_hub("--status=prometheus", "--socket", "/nowhere/s")
        self.assertEqual(status, 3)
        self.assertIn('attrd_hub_up{socket="/nowhere/s"} 0\n', told)
        status, told = run_hub("--status=prometheus")
        self.assertEqual(status, 2)
        self.assertIn("needs --socket", told)

    def test_a_path_with_other_characters(self) -> None:
        text = as_prometheus({"version": 7, "kept": None}, 'a"b\\c\nd')
        self.assertIn('attrd_hub_tree_version{socket="a\\"b\\\\c\\nd"} 7\n', text)
        metrics(text)

    def test_a_figure_that_isn_t_known_has_no_unit(self) -> None:
        lines = as_text({"wait_median": None, "wait_longest": 1.5, "hub_memory": None}).splitlines()
        self.assertIn("wait of a line, median            not known", lines)
        self.assertIn("wait of a line, longest           1.5 ms", lines)
        self.assertIn("cached values                     not known (no command of the program tells them)", lines)


class Counting(unittest.TestCase):
    def test_refusals_of_a_block(self) -> None:
        counts = Counts()
        counts.count_refused(b'0 = "x refused 3 mark"\n12 refused 13 attribute\n? refused 1 syntax\n'
                             b'999 refused 2 stale 7\n0 done 1 2 refused 13 x\n')
        self.assertEqual((counts.refused, dict(counts.refused_codes)), (3, {"13": 1, "1": 1, "2": 1}))

    def test_waits_are_counted_up_to_their_bounds(self) -> None:
        waits = Waits()
        self.assertIsNone(waits.figures()["wait_median"])
        for seconds in (0.0001, 0.0002, 0.004, 20.0):
            waits.add(seconds)
        figures = waits.figures()
        self.assertEqual(figures["wait_counts"], [1, 1, 0, 0, 0, 1, *[0] * 10, 1])
        self.assertEqual((figures["wait_median"], figures["wait_longest"], figures["wait_seconds"]), (2.1, 20_000.0, 20.0043))


class Editors(unittest.TestCase):
    def edited(self, *words: str) -> Hub:
        """A hub in which a process of its own has made an edit; `editor` is its number."""
        hub = Hub(*words)
        self.addCleanup(hub.close)
        code = ("import socket, sys; s = socket.socket(socket.AF_UNIX); s.connect(sys.argv[1]); "
                "s.sendall(sys.argv[2].encode() + b'\\n'); sys.exit(s.recv(100) != b'0 ok 1\\n')")
        child = subprocess.Popen([sys.executable, "-c", code, hub.socket, EDIT])
        self.editor = child.pid
        self.assertEqual(child.wait(timeout=SECONDS), 0)
        return hub

    def test_the_journal_says_who(self) -> None:
        hub = self.edited()
        line = (hub.state / "journal-0").read_bytes().splitlines()[1]
        self.assertEqual(line[9:].decode(), f'1 by {self.editor}:{os.getuid()}:{os.getgid()} token /Block/Stmt:0 ID "y"')
        self.assertNotIn("by pid", hub.told())
        hub.kill()
        hub.start()
        self.assertEqual(hub.client().ask("0 show /Block/Stmt:0"), '0 = Decl("y",Num(1))')

    @at_length
    def test_the_log_says_who_where_it_is_asked_to(self) -> None:
        hub = self.edited("--log-edits")
        who = f"pid {self.editor}, uid {os.getuid()}, gid {os.getgid()}"
        self.assertIn(f'version 1 by {who}: token /Block/Stmt:0 ID "y"\n', hub.told())

    @at_length
    def test_over_tcp_nobody_is_known(self) -> None:
        with tempfile.TemporaryDirectory() as folder:
            token, port = Path(folder) / "token", free_port()
            token.write_text("0123456789abcdef\n")
            hub = Hub("--tcp", str(port), "--token", str(token), "--log-edits")
            self.addCleanup(hub.close)
            with socket.create_connection(("127.0.0.1", port), timeout=SECONDS) as client:
                client.sendall(f"0123456789abcdef\n{EDIT}\n".encode())
                self.assertEqual(client.recv(100), b"0 ok 1\n")
        self.assertEqual((hub.state / "journal-0").read_bytes(), head(0) + record(1, EDIT[2:].encode()))
        self.assertIn("version 1 by a client over TCP: token", hub.told())

    def test_a_line_of_the_log_has_no_other_characters(self) -> None:
        self.assertEqual(shown(b"set / \x1b[2J\xff\xc3\xa9"), "set / \ufffd[2J\ufffdé")
        self.assertEqual(shown(b"x" * 201), "x" * 200 + " ..")


class Logs(unittest.TestCase):
    def told(self, journal: "Callable[[str], str] | None") -> List[str]:
        """What is told on a stream of this number, where this is what systemd says of its journal's."""
        with mock.patch.dict(os.environ), tempfile.TemporaryFile("w+") as lines, redirect_stderr(lines):
            os.environ.pop("JOURNAL_STREAM", None)
            if journal is not None:
                found = os.fstat(lines.fileno())
                os.environ["JOURNAL_STREAM"] = journal(f"{found.st_dev}:{found.st_ino}")
            log(Level.WARNING, "one\ntwo")
            lines.seek(0)
            return lines.read().splitlines()

    def test_times_where_the_system_s_journal_has_none(self) -> None:
        """Also where another stream is named: to what a terminal starts that is a service, or where a unit writes its errors to a file."""
        before = time.time()
        for journal in (None, lambda number: number + "7", lambda _: "8:1234"):
            lines = self.told(journal)
            for line, text in zip(lines, ("one", "two")):
                told, _, rest = line.partition(" ")
                self.assertEqual(rest, text)
                self.assertLess(abs(time.mktime(time.strptime(told[:19], "%Y-%m-%dT%H:%M:%S")) - before), 60.0)
                self.assertRegex(told[19:], r"^[+-][0-9]{4}$")
            self.assertEqual(len(lines), 2)

    def test_the_system_s_journal_gets_levels(self) -> None:
        self.assertEqual(self.told(lambda number: number), ["<4>one", "<4>two"])


class Checks(unittest.TestCase):
    def setUp(self) -> None:
        self.hub = Hub("--sync", "never")
        self.addCleanup(self.hub.close)
        self.assertEqual(self.hub.client().ask(EDIT), "0 ok 1")

    def check(self, *words: str) -> Tuple[int, List[str]]:
        """The status and the findings of a check; and that it changes nothing of the state."""
        before = {it.name: it.read_bytes() for it in self.hub.state.iterdir()}
        status, told = run_hub("--check", "--state", str(self.hub.state), *words, *map(str, self.hub.files))
        self.assertEqual({it.name: it.read_bytes() for it in self.hub.state.iterdir()}, before)
        lines = told.splitlines()
        for line in lines:
            self.assertRegex(line, "^(ok|warning|fault): ")
        return status, lines

    def faults(self) -> List[str]:
        return [it for it in self.check()[1] if it.startswith("fault: ")]

    def test_beside_a_hub_that_serves(self) -> None:
        status, lines = self.check("--socket", self.hub.socket)
        self.assertEqual(status, 0, lines)
        self.assertEqual(lines[0], f"ok: {program()} and the hub have version {VERSION}")
        self.assertIn("tree-0.txt: its check sum is right; behind it 1 edit, to version 1, and a hub has it now", lines[1])
        self.assertIn("fit tree-0.txt and its edits", lines[2])
        self.assertEqual(self.hub.client().ask("0 version"), "0 ok 1")
        self.hub.kill()
        self.assertNotIn("a hub has it now", self.check()[1][1])

    def test_an_aspect_that_is_refused(self) -> None:
        Path(self.hub.files[2]).write_text("aspect A { syn int Program.a() = b(); }", "utf-8")
        status, lines = self.check()
        self.assertEqual(status, 1)
        self.assertRegex(lines[-1], r"^fault: .*calc\.jrag:1:34: J3 unknown name")

    @at_length
    def test_a_grammar_that_the_term_doesn_t_fit(self) -> None:
        grammar = Path(self.hub.files[0])
        grammar.write_text(grammar.read_text("utf-8").replace("Decl", "Declaration"), "utf-8")
        status, lines = self.check()
        self.assertEqual(status, 1, lines)
        self.assertTrue(lines[-1].startswith("fault: "), lines)

    @at_length
    def test_edits_that_don_t_fit(self) -> None:
        self.hub.kill()
        (self.hub.state / "journal-0").write_bytes(head(0) + record(1, b"drop /Block/Stmt:7"))
        status, lines = self.check()
        self.assertEqual(status, 5)
        self.assertIn("an edit of the journal isn't accepted: 0 drop /Block/Stmt:7", lines[-1])

    def test_damage(self) -> None:
        """Beside a hub that has the tree still: a start would leave the edit out."""
        journal = self.hub.state / "journal-0"
        whole = journal.read_bytes()
        journal.write_bytes(whole[:-3] + b"z" + whole[-2:])
        status, lines = self.check()
        self.assertEqual(status, 4, lines)
        self.assertIn("fault: journal-0: it ends with version 0: the edit behind it is damaged: ", lines[2])
        journal.write_bytes(whole)
        self.assertEqual(self.check()[0], 0)

    @at_length
    def test_an_edit_that_was_cut_off(self) -> None:
        self.hub.kill()
        journal = self.hub.state / "journal-0"
        journal.write_bytes(journal.read_bytes()[:-4])
        status, lines = self.check()
        self.assertEqual(status, 0)
        self.assertIn("warning: journal-0: it ends with version 0: the edit behind it was cut off in the middle, and is left out", lines)

    @at_length
    def test_states_from_which_no_start_goes_on(self) -> None:
        self.hub.kill()
        for name, data in (("journal-0", b"attrd journal 9 from 0\n"), ("tree-0.txt", b"Program(Block([]))\n")):
            before = (self.hub.state / name).read_bytes()
            (self.hub.state / name).write_bytes(data)
            status, lines = self.check()
            self.assertEqual(status, 5)
            self.assertIn(name, lines[-1])
            (self.hub.state / name).write_bytes(before)

    @at_length
    def test_before_the_first_start(self) -> None:
        with tempfile.TemporaryDirectory() as name:
            files = list(map(str, calculator(Path(name))))
            state = Path(name) / "state"
            status, told = run_hub("--check", "--state", str(state), *files)
            self.assertEqual(status, 0, told)
            self.assertFalse(state.exists())
            self.assertEqual(run_hub("--check", *files)[0], 0)
            Path(files[1]).write_text("Program(Nix())", "utf-8")
            status, told = run_hub("--check", "--state", str(state), *files)
            self.assertEqual(status, 1, told)
            self.assertFalse(state.exists())

    def test_a_socket_at_which_another_server_answers(self) -> None:
        """It may be the one that is to be started again; that of the hub that has the state is so, and isn't told."""
        told = f"warning: {self.hub.socket}: another server answers there: no start succeeds before its end"
        self.assertNotIn(told, self.check("--socket", self.hub.socket)[1])
        with tempfile.TemporaryDirectory() as name:
            files = list(map(str, self.hub.files))
            status, lines = run_hub("--check", "--socket", self.hub.socket, "--state", str(Path(name) / "state"), *files)
            self.assertEqual(status, 0, lines)
            self.assertIn(told, lines.splitlines())
        self.hub.kill()
        self.assertNotIn(told, self.check("--socket", self.hub.socket)[1])

    @at_length
    def test_other_words(self) -> None:
        for words, wanted, part in (
                (["--group", "no-such-group"], 3, "no-such-group: there is no such group"),
                (["--program", "/nowhere/attrd"], 3, "/nowhere"), (["--socket", str(self.hub.files[0])], 3, "no socket"),
                (["--read-only-socket", str(self.hub.files[0])], 3, "no socket"),
                (["--socket", "/nowhere/s"], 3, "there is no folder /nowhere"),
                (["--socket", f"/tmp/{'x' * 98}"], 3, "the path of a socket has 107 bytes at most"),
                (["--tcp", "1", "--token", "/nowhere/token"], 3, "/nowhere/token")):
            status, lines = self.check(*words)
            self.assertEqual(status, wanted, lines)
            self.assertIn(part, "\n".join(it for it in lines if it.startswith("fault: ")))
        self.assertEqual(run_hub("--check", self.hub.files[0])[0], 2)


class Languages(unittest.TestCase):
    def test_the_words_of_the_unit(self) -> None:
        before = os.getcwd()
        self.addCleanup(os.chdir, before)
        with tempfile.TemporaryDirectory() as name:
            folder = Path(name) / "calc"
            folder.mkdir()
            calculator(folder)
            (folder / "files").write_text('# A language.\nFILES=calc.ast tree.txt calc.jrag\nOPTIONS="--sync second --half 5"\n', "utf-8")
            with mock.patch.object(attrd_hub.language, "FOLDER", name + "/{}"):
                words = attrd_hub.language.words_of("calc")
                self.assertEqual(os.path.realpath(os.getcwd()), os.path.realpath(folder))
                self.assertEqual(words, [
                    "--socket", "/run/attrd-hub/calc/socket", "--state", "/var/lib/attrd-hub/calc", "--program", "/usr/bin/attrd",
                    "--sync", "second", "--half", "5", "--", "calc.ast", "tree.txt", "calc.jrag"])
                with mock.patch("sys.stderr"), self.assertRaises(SystemExit) as ended:
                    attrd_hub.main.main(["--check", "--language", "typo"])
                self.assertEqual(ended.exception.code, 2)

    @at_length
    def test_a_socket_s_folder_is_made_by_the_unit(self) -> None:
        """So a check before it is started misses none; of what else is started it does."""
        before = os.getcwd()
        self.addCleanup(os.chdir, before)
        with tempfile.TemporaryDirectory() as name:
            folder = Path(name) / "calc"
            folder.mkdir()
            words = ["--check", "--program", program(), "--socket", f"{name}/run/calc/socket", *map(str, calculator(folder))]
            (folder / "files").write_text("FILES=calc.ast tree.txt calc.jrag\n", "utf-8")
            places = {"FOLDER": name + "/{}", "STATE": name + "/state/{}", "SOCKET": name + "/run/{}/socket", "PROGRAM": program()}
            told: List[str] = []
            with mock.patch.multiple(attrd_hub.language, **places), \
                    mock.patch("attrd_hub.main.Check", lambda settings, **named: Check(settings, told.append, **named)):
                self.assertEqual(attrd_hub.main.main(["--check", "--language", "calc"]), 0, told)
                self.assertEqual(attrd_hub.main.main(words), 3)

    def test_they_are_those_of_the_unit(self) -> None:
        unit = (CLIENTS.parent / "tools" / "package" / "attrd-hub@.service").read_text("utf-8")
        start = re.search(r"^ExecStart=/usr/bin/attrd-hub (.*)$", unit, re.M)
        assert start is not None
        self.assertEqual(start[1].replace("%i", "{}").split(), [
            "--socket", attrd_hub.language.SOCKET, "--state", attrd_hub.language.STATE, "--program", attrd_hub.language.PROGRAM,
            "$OPTIONS", "--", "$FILES"])
        self.assertIn(f"WorkingDirectory={attrd_hub.language.FOLDER.format('%i')}\n", unit)


class Versions(unittest.TestCase):
    @at_length
    def test_each_client_program_tells_its_version(self) -> None:
        paths = os.pathsep.join(str(CLIENTS / it) for it in ("python", "hub", "lsp", "page"))
        for module, name in (("attrd_hub", "attrd-hub"), ("attrd_lsp", "attrd-lsp"), ("attrd_page", "attrd-page"),
                             ("attrd_aspects", "attrd-aspects"), ("attrd", "python -m attrd")):
            told = subprocess.run([sys.executable, "-m", module, "--version"], env={**ENVIRONMENT, "PYTHONPATH": paths},
                                  capture_output=True, text=True, timeout=SECONDS, check=False)
            self.assertEqual((told.returncode, told.stdout, told.stderr), (0, f"{name} {VERSION}\n", ""), module)

    def test_another_version_of_the_program_is_told(self) -> None:
        with tempfile.TemporaryDirectory() as name:
            other = Path(name) / "attrd"
            other.write_text(f'#!/bin/sh\ntest "$1" = --version && echo "attrd 9.99" || exec {program()} "$@"\n', "utf-8")
            other.chmod(0o755)
            hub = Hub("--program", str(other))
            self.addCleanup(hub.close)
            self.assertIn(f"the program has version 9.99, and this library {VERSION}", hub.told())
            self.assertEqual(json.loads(run_hub("--status", hub.socket, "--json")[1])["program_version"], "9.99")


if __name__ == "__main__":
    unittest.main()
