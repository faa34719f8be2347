"""The names of the packages, whose modules are loaded where they are asked for."""
import types
import unittest

import attrd
from attrd import authoring


class Names(unittest.TestCase):
    def test_each_name_is_there(self):
        for package in (attrd, authoring):
            for name in package.__all__:
                found = getattr(package, name)
                self.assertNotIsInstance(found, types.ModuleType, name)
                self.assertIs(getattr(package, name), found)

    def test_they_are_the_public_ones(self):
        for package in (attrd, authoring):
            self.assertEqual(sorted(package._MODULE_OF), sorted(package.__all__))
            self.assertLessEqual(set(package.__all__), set(dir(package)))

    def test_another_name(self):
        self.assertRaisesRegex(AttributeError, "module 'attrd' has no attribute 'nix'", getattr, attrd, "nix")
        self.assertRaisesRegex(AttributeError, "module 'attrd.authoring' has no attribute 'nix'", getattr, authoring, "nix")
