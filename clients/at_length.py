"""Tests that take long and find little that others don't. `make clients` and the gate run them; where the environment has ATTRD_SHORT, as
in `make quick`, they are left out, and how many these were is told."""
import os
import unittest

REASON = "it takes long"
at_length = unittest.skipIf("ATTRD_SHORT" in os.environ, REASON)
