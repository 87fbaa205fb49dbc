"""A server that is started again has its old address: a page finds it, and what wasn't saved is saved, or offered where the cell has another text by now.
The address is kept for this user alone, and counts for processes of this user alone."""

import json
import os
import socket
import stat
import subprocess
import sys
import unittest
from typing import Any, Callable

import harness
from harness import PROGRAM, SPOKEN, Case, Page, PageCase, Server, needs_chromium, needs_program, opened, until_ended

sys.path[:0] = [harness.NOTEBOOK, harness.REPOSITORY + "/clients/python"]

from tmhost_notebook import address  # noqa: E402

SAYS = "document.querySelector('#cell-%d .text-state').textContent"
TEXT = "document.querySelector('#cell-%d textarea').value"
OUTPUT = "document.querySelector('#cell-%d .output pre').textContent"
IS_BAD = "document.querySelector('#connection').classList.contains('bad')"
NOBODY = 65534
# What another user's process gets: the status of the page's address, and of a call with the right cookie.
ASKS = """
import http.client, json, os, sys
user, host, token, path, cookie = sys.argv[1:]
host.encode("idna")  # so that it is loaded: another user may not read this user's Python
os.setuid(int(user))
reported = []
for method, place, body in (("GET", "/?token=" + token, None), ("POST", path + "call", '{"call":"reopen"}')):
    connection = http.client.HTTPConnection(host, timeout=60)
    connection.request(method, place, body, {"Cookie": cookie, "Origin": "http://" + host, "Content-Type": "application/json"})
    reported.append(connection.getresponse().status)
print(json.dumps(reported))
"""


@needs_program
@needs_chromium
class Again(PageCase):
    def begin(self, *words: str) -> None:
        super().begin(*words)
        for number in (1, 2, 3):
            self.page.call("new", session="s", text=f"say {number}", after=number - 1)
        self.page.call("eval_from", id=None)
        self.page.until_idle()
        self.tab = opened(self.browser, self.server)

    def kill(self) -> None:
        """Server and program."""
        program = self.server.program
        self.server.kill()
        until_ended(program)
        self.tab.until(IS_BAD, True)

    def again(self) -> None:
        old = self.server.address
        self.server = self.serve()
        self.assertEqual(self.server.address, old)
        self.tab.until(IS_BAD, False)

    def typed(self, id: int, text: str) -> None:
        self.tab.click(f"#cell-{id} .number")
        self.tab.key("Enter")
        self.tab.type(text)
        self.tab.key("Escape")

    def test_what_was_typed_meanwhile_is_saved(self) -> None:
        self.begin()
        self.kill()
        self.typed(2, " more")
        self.tab.until(SAYS % 2, "not saved: no connection")
        self.again()
        self.tab.until(SAYS % 2, "saved")
        self.assertEqual(self.tab.value(TEXT % 2), "say 2 more")
        self.assertIn("> say 2 more\n", self.show())
        self.tab.key("Enter", "Control")  # and it goes on as ever
        self.tab.until(OUTPUT % 2, "2 more")
        self.typed(3, " at last")
        self.tab.until(SAYS % 3, "saved")
        self.assertIn("> say 3 at last\n", self.show())

    def test_what_was_changed_meanwhile_is_offered(self) -> None:
        """By another program, while there was no server."""
        self.begin()
        self.kill()
        self.typed(1, " mine")
        self.typed(2, " mine")
        changes = b"set 1 say theirs\nset 2 say theirs\nremove 3\n"
        subprocess.run([PROGRAM or "", "run", self.sheet], input=changes, check=True, stdout=subprocess.DEVNULL)
        self.again()
        for id in (1, 2):
            self.tab.until(SAYS % id, "not saved: it was changed elsewhere")
            self.assertEqual(self.tab.value(TEXT % id), f"say {id} mine")
        self.assertIsNone(self.tab.value("document.querySelector('#cell-3')"))
        self.tab.click("#cell-1 [data-do=keepMine]")
        self.tab.click("#cell-2 [data-do=takeTheirs]")
        self.tab.until(SAYS % 1, "saved")
        self.tab.until(TEXT % 2, "say theirs")
        shown = self.show()
        self.assertIn("> say 1 mine\n", shown)
        self.assertIn("> say theirs\n", shown)

    def test_killed_in_the_middle(self) -> None:
        """What waited to be asked has its answer, what was asked has none, and the page shows that."""
        self.begin()
        self.page.call("set", id=1, text="sleep 60", base="say 1")
        self.tab.click("[data-do=evaluateAll]")
        self.tab.until("document.querySelector('#cell-1').dataset.state", "running")
        self.kill()
        self.again()
        states = "[...document.querySelectorAll('.cell')].map((cell) => cell.dataset.state)"
        self.tab.until(states, ["empty", "answered", "answered"])
        self.assertEqual([self.tab.value(OUTPUT % id) for id in (2, 3)], ["2", "3"])

    def test_a_reload_after_it(self) -> None:
        """The page's own address stays right, too."""
        self.begin()
        self.kill()
        self.again()
        self.tab.value("document.documentElement.dataset.ready = 'no'")
        self.tab.reload()
        self.tab.until(harness.READY, "true")
        self.assertEqual(self.tab.value(TEXT % 3), "say 3")


@needs_program
class Kept(Case):
    def file(self) -> str:
        kept, os.environ["XDG_RUNTIME_DIR"] = os.environ.get("XDG_RUNTIME_DIR"), harness.PLACE
        try:
            return address.file_of(self.sheet)
        finally:
            del os.environ["XDG_RUNTIME_DIR"]
            if kept is not None:
                os.environ["XDG_RUNTIME_DIR"] = kept

    def begun(self, *words: str) -> Server:
        """A server that is ended again."""
        server = self.serve(*words)
        self.assertEqual(server.stop(), 0)
        return server

    def test_the_same_address(self) -> None:
        first = self.begun()
        page = Page(self.serve())
        self.assertEqual(self.begun_again(page), first.address)
        link = os.path.join(self.folder, "link")
        os.symlink(self.sheet, link)
        self.sheet = link
        self.assertEqual(self.begun().address, first.address)

    def begun_again(self, page: Page) -> str:
        """The address of the server that runs, which is ended; its cookie and path are those of the next one."""
        before = page.cookie, page.path
        address = "http://" + page.host + "/?token=" + self.token()
        self.doCleanups_of_server()
        after = Page(self.serve())
        self.assertEqual((after.cookie, after.path), before)
        self.doCleanups_of_server()
        return address

    def token(self) -> str:
        with open(self.file(), encoding="ascii") as file:
            return str(json.load(file)["token"])

    def doCleanups_of_server(self) -> None:
        for server in self.servers:
            if server.process.poll() is None:
                server.stop()

    def setUp(self) -> None:
        super().setUp()
        self.servers: "list[Server]" = []

    def serve(self, *words: str, program: Any = None) -> Server:
        self.servers.append(super().serve(*words, program=program))
        return self.servers[-1]

    def test_for_this_user_alone(self) -> None:
        self.begun()
        path = self.file()
        modes = [stat.S_IMODE(os.stat(place).st_mode) for place in (path, os.path.dirname(path))]
        self.assertEqual(modes, [0o600, 0o700])

    def test_a_file_that_is_not_to_be_relied_on(self) -> None:
        first = self.begun()
        path, seen = self.file(), {first.address}
        with open(path, encoding="ascii") as file:
            kept = json.load(file)
        other = os.path.join(self.folder, "other")

        def linked() -> None:
            os.rename(path, other)
            os.symlink(other, path)

        def written(data: str) -> None:
            with open(path, "w", encoding="ascii") as file:
                file.write(data)

        spoilt: "list[Callable[[], None]]" = [
            lambda: os.chmod(path, 0o644), lambda: os.chmod(os.path.dirname(path), 0o755), linked, lambda: written(""), lambda: written("[]"),
            lambda: written(json.dumps({**kept, "port": -1})), lambda: written(json.dumps({**kept, "token": "short"})),
            lambda: written(json.dumps({**kept, "path": "../" * 7 + "x"})), lambda: written(json.dumps({**kept, "more": 1})), lambda: os.remove(path),
        ]
        for spoil in spoilt:
            spoil()
            now = self.begun().address
            self.assertNotIn(now, seen)
            seen.add(now)
            os.chmod(os.path.dirname(path), 0o700)
            self.begun()

    def test_a_port_that_is_taken_meanwhile(self) -> None:
        """Another program has it: the server takes another one, and its secrets are new. What that one was given is right nowhere."""
        first = self.begun()
        token = self.token()
        with socket.create_server(("127.0.0.1", int(first.host.partition(":")[2]))):
            second = self.begun()
        self.assertNotEqual(second.host, first.host)
        self.assertNotEqual(self.token(), token)

    def test_another_port_is_wanted(self) -> None:
        first = self.begun()
        with socket.create_server(("127.0.0.1", 0)) as free:
            port = free.getsockname()[1]
        second = self.begun("--port", str(port))
        self.assertEqual(second.host, f"127.0.0.1:{port}")
        self.assertNotEqual(second.address.partition("token=")[2], first.address.partition("token=")[2])
        self.assertEqual(self.begun("--port", str(port)).address, second.address)

    @unittest.skipUnless(os.geteuid() == 0, "only root can be another user for a moment")
    def test_another_user_gets_nothing(self) -> None:
        """Also one who knows the token and the cookie, as from a page that looked for its server where theirs listened."""
        server = self.serve()
        page = Page(server)
        for user, reported in ((os.geteuid(), [200, 200]), (NOBODY, [403, 403])):
            words = [sys.executable, "-c", ASKS, str(user), server.host, server.address.partition("token=")[2], page.path, page.cookie]
            self.assertEqual(json.loads(subprocess.run(words, stdout=subprocess.PIPE, check=True).stdout), reported)


class Users(unittest.TestCase):
    def test_what_the_kernel_says(self) -> None:
        self.assertTrue(address.can_see_users())
        with socket.create_server(("127.0.0.1", 0)) as server:
            with socket.create_connection(server.getsockname()) as one:
                other, place = server.accept()
                self.addCleanup(other.close)
                self.assertTrue(address.is_of_this_user(other))
                self.assertIsNone(address.user_of(other.getsockname(), (place[0], 1)))
            self.assertIsNone(address.user_of(other.getsockname(), place))  # it has gone: nobody's any more


if __name__ == "__main__":
    unittest.main()
