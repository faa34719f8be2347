"""The package's scripts and its unit, as far as that can be tried without installing it (tools/boot.sh does so in a system of its own)."""
from __future__ import annotations

import os
import re
import shutil
import subprocess
import tempfile
import unittest
from pathlib import Path
from typing import Dict, List, Tuple

from hub_support import CLONE, SECONDS

from attrd_hub.main import LOST, REFUSED, UNFIT, WORDS

PACKAGE = CLONE / "tools" / "package"
UNIT = PACKAGE / "attrd-hub@.service"


class Scripts(unittest.TestCase):
    def setUp(self) -> None:
        folder = tempfile.TemporaryDirectory()
        self.addCleanup(folder.cleanup)
        self.folder = Path(folder.name)
        (self.folder / "system").mkdir()

    def run_script(self, name: str, statuses: Dict[str, int], *words: str) -> Tuple[int, str, List[str]]:
        """The status of a script, what it told, and what it called: systemctl, python3 and others stand for themselves, and end by
        the status that is given for their first words."""
        called = self.folder / "called"
        called.write_text("", "utf-8")
        commands = self.folder / "bin"
        commands.mkdir(exist_ok=True)
        for it in ("systemctl", "python3", "getent", "groupadd", "find"):
            cases = "".join(f'"{first}"*) exit {status};; ' for first, status in statuses.items())
            (commands / it).write_text(f'#!/bin/sh\necho "{it} $*" >> {called}\ncase "{it} $*" in {cases}esac\n', "utf-8")
            (commands / it).chmod(0o755)
        text = (PACKAGE / name).read_text("utf-8").replace("/run/systemd/system", str(self.folder / "system"))
        ended = subprocess.run(["sh", "-c", text, name, *words], env={**os.environ, "PATH": f"{commands}:/usr/bin:/bin"},
                               capture_output=True, text=True, timeout=SECONDS, check=False)
        return ended.returncode, ended.stderr, called.read_text("utf-8").splitlines()

    def test_services_go_on_with_the_new_version(self) -> None:
        status, told, called = self.run_script("attrd-hub.postinst", {}, "configure", "0.1")
        self.assertEqual((status, told), (0, ""))
        self.assertEqual(called, ["python3 -m compileall -q /usr/lib/attrd-hub", "systemctl daemon-reload",
                                  "systemctl try-restart attrd-hub@*.service"])

    def test_a_service_that_doesn_t_start_again_is_no_fault_of_the_package(self) -> None:
        status, told, _ = self.run_script("attrd-hub.postinst", {"systemctl try-restart": 1}, "configure", "0.1")
        self.assertEqual(status, 0)
        self.assertIn("a service hasn't started again", told)

    def test_nor_is_what_comes_before(self) -> None:
        status, told, called = self.run_script("attrd-hub.postinst", {"python3": 1, "systemctl daemon-reload": 1}, "configure")
        self.assertEqual(status, 0)
        self.assertEqual(called[-1], "systemctl try-restart attrd-hub@*.service")
        self.assertEqual(len(told.splitlines()), 2)
        self.assertEqual(self.run_script("attrd.postinst", {"systemctl": 1}, "configure")[0], 0)

    def test_they_are_scripts(self) -> None:
        for script in sorted(PACKAGE.glob("*.p*")):
            checked = subprocess.run(["sh", "-n", str(script)], timeout=SECONDS, capture_output=True, text=True, check=False)
            self.assertEqual((checked.returncode, checked.stderr), (0, ""), script.name)

    @unittest.skipUnless(shutil.which("dpkg-deb"), "dpkg-deb is missing")
    def test_a_package_of_them_can_be_made(self) -> None:
        control = self.folder / "made" / "DEBIAN"
        control.mkdir(parents=True)
        (control / "control").write_text("Package: attrd-hub\nVersion: 0\nArchitecture: all\nMaintainer: nobody <a@b>\nDescription: x\n")
        for name in ("postinst", "prerm", "postrm"):
            shutil.copy(PACKAGE / f"attrd-hub.{name}", control / name)
            (control / name).chmod(0o755)
        made = subprocess.run(["dpkg-deb", "--root-owner-group", "--build", str(control.parent), str(self.folder / "a.deb")],
                              timeout=SECONDS, capture_output=True, text=True, check=False)
        self.assertEqual(made.returncode, 0, made.stderr)


class Units(unittest.TestCase):
    def values(self, key: str) -> List[str]:
        return re.findall(rf"^{key}=(.*)$", UNIT.read_text("utf-8"), re.M)

    def test_statuses_that_stay_are_those_that_somebody_has_to_mend(self) -> None:
        self.assertEqual(self.values("RestartPreventExitStatus"), [f"{REFUSED} {WORDS} {UNFIT}"])
        self.assertNotIn(LOST, (REFUSED, WORDS, UNFIT, 0))
        for key, value in (("Restart", "always"), ("RestartSec", "1"), ("StartLimitIntervalSec", "0")):
            self.assertEqual(self.values(key), [value])

    def test_the_hub_sees_who_its_clients_are(self) -> None:
        """In users of its own the system would tell it of each that it is nobody."""
        self.assertEqual(self.values("PrivateUsers"), [])

    @unittest.skipUnless(shutil.which("systemd-analyze"), "systemd-analyze is missing")
    def test_systemd_reads_it(self) -> None:
        with tempfile.TemporaryDirectory() as folder:
            unit = Path(folder) / UNIT.name
            text = UNIT.read_text("utf-8").replace("/usr/bin/attrd-hub", "/bin/true")
            unit.write_text(re.sub(r" man:attrd\(1\)", "", text), "utf-8")
            found = subprocess.run(["systemd-analyze", "verify", "--man=no", str(unit)], timeout=SECONDS, capture_output=True, text=True,
                                   check=False)
        self.assertNotIn("Unknown", found.stderr)
        self.assertNotIn(UNIT.name.replace("@", "@i"), found.stderr)


if __name__ == "__main__":
    unittest.main()
