"""What the hub reads of lines."""
from __future__ import annotations

import unittest

import hub_support  # noqa: F401
from attrd import ServerLost
from attrd_hub.hub import LONG_REPLY, Hub, NoSession, Route, pass_over
from attrd_hub.lines import Places, condition_moved, end_of_lines, first_lines, plain_session, split_line
from attrd_hub.member import Member
from attrd_hub.program import edit_lines


class Lines(unittest.TestCase):
    def test_the_session(self) -> None:
        for line, found in ((b"0 version", (b"0", b"version")), (b"999 x", (b"999", b"x")), (b"5", (b"5", b"")), (b"5 ", (b"5", b"")),
                            (b"1000 x", None), (b"05 x", None), (b"x", None), (b" 5 x", None), (b"5\tx", None)):
            self.assertEqual(split_line(line), found, line)

    def test_lines_that_change_nothing(self) -> None:
        for lines, session in ((b"0 where u\n", b"0"), (b"17 show /\n17 ask / a()\n17 where u\n", b"17"), (b"0 where u\n1 where u\n", None),
                               (b"0 drop /\n", None), (b"0 where u\n0 drop /\n", None), (b"0 at 1 show /\n", None), (b"\n", None),
                               (b"00 show /\n00 show /\n", None), (b"0 show /\n\n", None), (b"1000 show /\n1000 show /\n", None)):
            self.assertEqual(plain_session(lines, lines.count(b"\n")), session, lines)

    def test_first_lines(self) -> None:
        self.assertEqual([first_lines(b"a\n\nb\n", it) for it in range(5)], [b"", b"a\n", b"a\n\n", b"a\n\nb\n", b"a\n\nb\n"])

    def test_end_of_lines(self) -> None:
        """Where the first line is shorter or longer than those behind it, and with no more lines than asked for."""
        lines = b"a\nbbbbbbbb\ncc\n\nd\n"
        self.assertEqual([end_of_lines(lines, 0, it) for it in range(1, 7)], [(2, 1), (11, 2), (14, 3), (15, 4), (17, 5), (17, 5)])
        self.assertEqual([end_of_lines(lines, 2, it) for it in range(1, 6)], [(11, 1), (14, 2), (15, 3), (17, 4), (17, 4)])

    def test_conditions(self) -> None:
        self.assertEqual(condition_moved(b"at 7 drop /A", 5), b"at 2 drop /A")
        self.assertEqual(condition_moved(b"at 4 drop /A", 5), b"at 18446744073709551615 drop /A")
        self.assertEqual(condition_moved(b"show /", 5), b"show /")
        self.assertEqual(condition_moved(b"at 07 show /", 5), b"at 07 show /")

    def test_places_get_paths(self) -> None:
        edit = Places(b'set $u/Left Use("$u")')
        self.assertEqual(edit.marks, [b"u"])
        self.assertIsNone(edit.command())
        edit.found(b"u", b"/A/B:1")
        self.assertEqual(edit.command(), b'set /A/B:1/Left Use("$u")')
        move = Places(b"move $a to $b/X Part 3")
        self.assertEqual(move.marks, [b"a", b"b"])
        move.found(b"a", b"/L:0")
        move.found(b"b", b"/")
        self.assertEqual(move.command(), b"move /L:0 to /X Part 3")
        self.assertEqual(Places(b'token /A ID "$x y"').command(), b'token /A ID "$x y"')

    def test_a_path_that_is_too_long_is_marked_in_steps(self) -> None:
        path = b"/" + b"/".join([b"A" * 40_000] * 4)
        *marks, edit, first, second, third, last = edit_lines(b"drop " + path)
        self.assertEqual(edit, b"0 drop $a\n")
        self.assertEqual([it.split()[:3] for it in marks], [[b"0", b"mark", it] for it in (b"a0", b"a1", b"a2", b"a")])
        self.assertTrue(all(len(it) < 65_536 for it in marks))
        self.assertEqual(first + second + third + last, b"0 unmark a0\n0 unmark a1\n0 unmark a2\n0 unmark a\n")


class Sessions(unittest.TestCase):
    def test_a_session_with_an_open_question_is_no_other_s(self) -> None:
        hub = Hub()
        member = Member(hub, lambda: None, lambda session, form: None)
        taken = member.session(7)
        member.send(7, b"post / a()", pass_over)
        self.assertEqual(hub.lines(), b"%d post / a()\n" % taken)
        hub.feed(b"%d open 1\n" % taken)
        member.leave()
        self.assertEqual(hub.lines(), b"%d version\n" % taken)
        hub.feed(b"%d ok 0\n" % taken)
        others = {hub.take_session() for _ in range(998)}
        self.assertNotIn(taken, others)
        with self.assertRaises(NoSession):
            hub.take_session()
        hub.feed(b"%d done 1 0 = 3\n" % taken)
        self.assertEqual(hub.take_session(), taken)

    def test_replies_in_pieces(self) -> None:
        hub, told = Hub(base=5), []
        member = Member(hub, lambda: None, lambda session, form: told.append((session, form)))
        replies = b"0 refused 3 mark\n0 = A()\n71 = B()\n1 refused 2 stale 4\n"
        for length in (1, 2, 3, 5, 17, 18, 25, 33, len(replies)):
            hub.send_block(Route(member, b"0", b"0", told.append), b"0 where u\n0 show /\n", 2)
            hub.send_question(Route(member, b"5", b"71", told.append), b"5 show /B\n")
            member.send(3, b"at 7 drop /A", told.append)
            self.assertEqual(hub.lines(), b"0 where u\n0 show /\n71 show /B\n1 at 2 drop /A\n")
            self.assertEqual((hub.in_flight, member.unanswered), (4, 4))
            for at in range(0, len(replies), length):
                hub.feed(replies[at:at + length])
            self.assertEqual(b"".join(told), b"0 refused 3 mark\n0 = A()\n5 = B()\nrefused 2 stale 9", length)
            self.assertEqual((hub.in_flight, member.unanswered), (0, 0))
            told.clear()
        self.assertEqual(hub.answered, 36)

    def test_a_long_reply_goes_on_part_by_part(self) -> None:
        """Its first part has the client's session, the others go on as they are; its length is told with the last one."""
        long = b"= " + b"x" * 100_000 + b"5 y" * 20_000
        for length in (7_001, 40_000, 65_536):
            for in_a_block in (False, True):
                hub, told, parts = Hub(), [], []
                member = Member(hub, lambda: None, lambda session, form: None)
                route = Route(member, b"71", b"5", told.append, lambda data, whole, parts=parts: parts.append((data, whole)))
                if in_a_block:
                    hub.send_block(route, b"5 show /\n" * 3, 3)
                else:
                    for _ in range(3):
                        hub.send_question(route, b"71 show /\n")
                replies = b"5 = A()\n5 %b\n5 = B()\n" % long
                for at in range(0, len(replies), length):
                    hub.feed(replies[at:at + length])
                    self.assertLess(at - sum(len(data) for data, _ in parts), LONG_REPLY + length)
                self.assertEqual(b"".join(data for data, _ in parts), b"71 %b\n" % long)
                self.assertEqual([whole for _, whole in parts if whole], [len(long) + 3])
                self.assertEqual(b"".join(told), b"71 = A()\n71 = B()\n")
                self.assertEqual((hub.in_flight, hub.answered, member.unanswered), (0, 3, 0))

    def test_a_long_reply_that_nobody_takes_in_parts(self) -> None:
        """It is put together, as that of the hub's own lines, and of a line while a posted question is open."""
        hub, told = Hub(), []
        member = Member(hub, lambda: None, lambda session, form: None)
        route = Route(member, b"0", b"0", told.append, lambda data, whole: self.fail("a part"))
        form = b"= " + b"x" * 200_000
        hub.send(None, 0, b"show /", told.append)
        hub.feed(b"0 %b" % form[:100_000])
        hub.feed(form[100_000:] + b"\n")
        member.send(7, b"post / a()", told.append)
        hub.feed(b"1 open 1\n")
        hub.send_question(route, b"0 show /\n")
        hub.feed(b"0 %b" % form[:100_000])
        hub.feed(form[100_000:] + b"\n")
        self.assertEqual(told, [form, b"open 1", b"0 %b\n" % form])

    def test_plain_questions_while_a_posted_one_is_open(self) -> None:
        hub, told = Hub(), []
        member = Member(hub, lambda: None, lambda session, form: told.append(form))
        route = Route(member, b"0", b"0", told.append)
        member.send(7, b"post / a()", told.append)
        hub.send_question(route, b"0 show /\n")
        hub.send_question(route, b"0 show /B\n")
        hub.feed(b"1 open 1\n0 = A()\n1 done 1 0 = 3\n0 = B()\n")
        self.assertEqual(told, [b"open 1", b"0 = A()\n", b"done 1 0 = 3", b"0 = B()\n"])
        self.assertEqual((hub.in_flight, member.unanswered), (0, 0))

    def test_a_server_that_ends_with_plain_questions_under_way(self) -> None:
        hub = Hub()
        member = Member(hub, lambda: None, lambda session, form: None)
        route = Route(member, b"0", b"0", pass_over)
        hub.send_question(route, b"0 show /\n")
        hub.send_question(route, b"0 show /\n")
        hub.lose()
        self.assertEqual(member.unanswered, 0)
        with self.assertRaises(ServerLost):
            hub.send_question(route, b"0 show /\n")


if __name__ == "__main__":
    unittest.main()
