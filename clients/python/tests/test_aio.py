"""The client in an event loop."""
import asyncio
import unittest

import attrd
from attrd import Code, Node, aio, commands
from support import CALCULATOR, PROGRAM


async def started():
    """A server over the calculator's files."""
    return await aio.start(CALCULATOR / "calc.ast", CALCULATOR / "tree.txt", CALCULATOR / "calc.jrag", program=PROGRAM)


class Loop(unittest.IsolatedAsyncioTestCase):
    async def asyncSetUp(self):
        asyncio.get_running_loop().set_debug(False)
        self.server = await started()
        self.session = self.server.session()

    async def asyncTearDown(self):
        await self.server.close()

    async def test_questions_and_edits(self):
        self.assertEqual(await self.session.value("/Block/Stmt:1/Expr", "value"), 3)
        self.assertEqual(await self.session.edit(commands.token("/Block/Stmt:1/Expr/Right", "Value", 5), at=0), 1)
        self.assertEqual(await self.session.value("/Block/Stmt:1/Expr", "value"), 6)
        self.assertEqual(await self.session.show("/Block/Stmt:0"), Node("Decl", "x", Node("Num", 1)))
        with self.assertRaises(attrd.Refused) as caught:
            await self.session.ask("/Nix", "value")
        self.assertEqual(caught.exception.code, Code.PATH)
        await self.session.edit(commands.drop("/Block/Stmt:0"))
        with self.assertRaises(attrd.NoValue):
            await self.session.value("/Block/Stmt:0/Expr/Left", "value")

    async def test_many_at_once_in_many_sessions(self):
        other = self.server.session()
        both = await asyncio.gather(*(session.value("/Block/Stmt:1/Expr", "value") for session in (self.session, other) for _ in range(200)))
        self.assertEqual(set(both), {3})
        replies = await self.session.replies([commands.ask("/Block/Stmt:1/Expr", "value")] * 20_000)
        self.assertEqual((len(replies), {str(it) for it in replies}), (20_000, {"= 3"}))

    async def test_a_long_question_that_is_posted(self):
        done, value = await asyncio.gather(self.session.posted("/Block/Stmt:1/Expr", "value"), self.session.value("/Block/Stmt:0", "value"))
        self.assertEqual((str(done.answer), value), ("= 3", 1))

    async def test_a_server_that_ends(self):
        self.server.connection._channel.process.kill()
        with self.assertRaises(attrd.ServerLost):
            await self.session.value("/", "value")
        with self.assertRaises(attrd.ServerLost):
            await self.session.show()


if __name__ == "__main__":
    unittest.main()
