"""Connections of a real socket: what they share, and what becomes of each."""
import select

from tools.of_the_program.runs import SECONDS, THREE, ProgramTest, all_of, ended

WELL = (0, b"", b"")


class Connections(ProgramTest):
    """Connections that are served one after the other."""

    def test_connections_share_one_tree(self) -> None:
        received, end = self.served(THREE, [(b"0 token /Right Value 5\n", False), (b"1 version\n1 ask / total()\n", False)])
        self.assertEqual(received, [b"0 ok 1\n", b"1 ok 1\n1 = 13\n"])
        self.assertEqual(end, WELL)

    def test_edits_of_one_connection_are_seen_by_the_next(self) -> None:
        edits = b"0 mark p /Right\n0 set /Left Num(10)\n0 token $p Value 6\n"
        asked = b"0 ask / total()\n0 where p\n0 show /\n0 version\n"
        received, end = self.served(THREE, [(edits, False), (asked, False)])
        self.assertEqual(received, [b"0 ok 0\n0 ok 1\n0 ok 2\n", b"0 = 22\n0 = /Right\n0 = Sum(Num(10),Num(6))\n0 ok 2\n"])
        self.assertEqual(end, WELL)

    def test_marks_are_those_of_sessions(self) -> None:
        received, _ = self.served(THREE, [(b"0 mark m /Left\n", False), (b"0 where m\n1 where m\n", False)])
        self.assertEqual(received, [b"0 ok 0\n", b"0 = /Left\n1 refused 3 mark\n"])

    def test_the_end_of_a_connection_answers_its_questions(self) -> None:
        words = [*THREE, "more.jrag"]
        received, end = self.served(words, [(b"0 post / half()\n", False), (b"0 wait 1\n0 post / half()\n1 version\n", False)])
        second = b"0 refused 15 question\n0 open 2\n1 ok 0\n0 done 2 0 = 5\n"
        self.assertEqual(received, [b"0 open 1\n0 done 1 0 = 5\n", second])
        self.assertEqual(end, WELL)

    def test_half_a_line_is_a_line(self) -> None:
        received, end = self.served(THREE, [(b"0 vers", False), (b"0 version\n", False)])
        self.assertEqual(received, [b"0 refused 1 syntax\n", b"0 ok 0\n"])
        self.assertEqual(end, WELL)


class Leavers(ProgramTest):
    """Clients that go away, or come too late."""

    def test_a_client_that_goes_away_ends_its_connection_alone(self) -> None:
        edit = b"0 token /Right Value 5\n"
        received, end = self.served(THREE, [(b"0 version\n", False), (edit, True), (b"0 vers", False), (b"0 version\n", False)])
        self.assertEqual(received, [b"0 ok 0\n", b"0 refused 1 syntax\n", b"0 ok 1\n"])
        self.assertEqual(end, (3, b"", b"write fault\n"))

    def test_faults_of_connections_are_told_in_their_order(self) -> None:
        """A client that goes away before its reply is a write fault; one that goes away with its reply unread, a read fault."""
        line = b"0 version\n"
        run = self.serve("--connections", "4", *THREE)
        first, hasty, careless, last = (self.connect(run) for _ in range(4))
        hasty.sendall(line)
        hasty.close()
        careless.sendall(line)
        self.assertEqual(all_of(first), b"")
        select.select([careless], [], [], SECONDS)
        careless.close()
        last.sendall(line)
        self.assertEqual(all_of(last), b"0 ok 0\n")
        self.assertEqual(ended(run), (3, b"", b"read fault\nwrite fault\n"))

    def test_a_client_beyond_the_last_connection_is_turned_away(self) -> None:
        run = self.serve(*THREE)
        first, second = self.connect(run), self.connect(run)
        second.sendall(b"0 version\n")
        self.assertEqual(all_of(first), b"")
        self.assertEqual(ended(run), WELL)
        try:
            got = second.recv(10)
        except ConnectionResetError:
            got = b""
        self.assertEqual(got, b"")
