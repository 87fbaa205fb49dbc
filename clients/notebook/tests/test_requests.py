"""Who gets nothing from the server: requests without the token, of other hosts and other pages; and calls that make no sense."""

import http.client
import json
import os
import re
import socket
import stat
import subprocess
import time
import unittest
from typing import Any, Dict, List, Optional

import harness
from harness import Case, Page, needs_program


@needs_program
class Requests(Case):
    def setUp(self) -> None:
        super().setUp()
        self.server = self.serve()
        self.page = Page(self.server)

    def status(self, method: str, path: str, headers: Dict[str, str], body: Optional[bytes] = None) -> int:
        return self.page.request(method, path, headers, body)[0]

    def post(self, changed: Dict[str, Optional[str]], body: bytes = b'{"call":"reopen"}', path: str = "call") -> int:
        headers: Dict[str, Optional[str]] = {**self.page.headers(), **changed}
        kept = {name: value for name, value in headers.items() if value is not None}
        return self.status("POST", self.page.path + path, kept, body)

    def test_the_token_has_128_bits_and_gives_the_cookie(self) -> None:
        token = self.server.address.partition("token=")[2]
        self.assertGreaterEqual(len(token) * 6, 128)
        _, headers, _ = self.page.request("GET", f"/?token={token}", {})
        self.assertRegex(headers["set-cookie"], r"^tmhost=[\w-]{22}; Path=/[\w-]{22}/; HttpOnly; SameSite=Strict$")
        self.assertNotIn(token, headers["set-cookie"])

    def test_no_token_no_page(self) -> None:
        token = self.server.address.partition("token=")[2]
        other = ("A" if token[0] != "A" else "B") + token[1:]
        for path in ("/", "/?token=", f"/?token={other}", f"/?token={token}&token={token}", f"/?token={token}x", f"/x?token={token}",
            "/index.html", "/call",
                     "//", "/?token=%ff"):
            with self.subTest(path):
                self.assertEqual(self.status("GET", path, {}), 403)

    def test_each_file_wants_the_cookie(self) -> None:
        path = self.page.path
        names = ["", "main.js", "page.css", "events", "suggestions", "katex/katex.min.js"]
        for name in names:
            for cookie in (None, "tmhost=", "tmhost=x", self.page.cookie + "x", self.page.cookie[:-1],
                self.page.cookie.replace("tmhost", "other"), "tmhost"):
                with self.subTest(name=name, cookie=cookie):
                    self.assertEqual(self.status("GET", path + name, {"Cookie": cookie} if cookie else {}), 403)
        for name in set(names) - {"events"}:
            self.assertEqual(self.status("GET", path + name, {"Cookie": f"a=b; {self.page.cookie}; c=d"}), 200, name)

    def test_another_host_is_refused(self) -> None:
        port = self.server.host.partition(":")[2]
        for host in ("evil.example", f"evil.example:{port}", f"localhost:{port}", "127.0.0.1", f"127.0.0.1:{int(port) + 1}",
            f"127.0.0.1:{port}.evil.example", ""):
            with self.subTest(host):
                self.assertEqual(self.status("GET", self.page.path, {"Cookie": self.page.cookie, "Host": host}), 403)
                self.assertEqual(self.post({"Host": host}), 403)
        token = self.server.address.partition("/?")[2]
        self.assertEqual(self.status("GET", "/?" + token, {"Host": "evil.example"}), 403)

    def test_two_hosts_and_none_are_refused(self) -> None:
        cases: List[List[str]] = [[], [self.server.host, self.server.host], ["evil.example", self.server.host]]
        for hosts in cases:
            name, _, port = self.server.host.partition(":")
            with socket.create_connection((name, int(port)), 10) as connection:
                lines = [f"GET {self.page.path} HTTP/1.1", *(f"Host: {host}" for host in hosts), f"Cookie: {self.page.cookie}", "", ""]
                connection.sendall("\r\n".join(lines).encode())
                self.assertRegex(connection.makefile("rb").readline(), rb"^HTTP/1.1 403 ")

    def test_another_origin_is_refused(self) -> None:
        port = self.server.host.partition(":")[2]
        for origin in (None, "null", "http://evil.example", f"http://localhost:{port}", f"https://{self.server.host}",
            f"http://127.0.0.1:{int(port) + 1}", ""):
            with self.subTest(origin):
                self.assertEqual(self.post({"Origin": origin}), 403)
        for site in ("cross-site", "same-site"):
            self.assertEqual(self.post({"Sec-Fetch-Site": site}), 403)
            self.assertEqual(self.status("GET", self.page.path + "events", {"Cookie": self.page.cookie, "Sec-Fetch-Site": site}), 403)
        self.assertEqual(self.status("GET", self.page.path + "events", {"Cookie": self.page.cookie, "Origin": "http://evil.example"}), 403)
        self.assertEqual(self.post({"Sec-Fetch-Site": "same-origin"}), 200)

    def test_posts_of_other_kinds_are_refused(self) -> None:
        self.assertEqual(self.post({"Cookie": None}), 403)
        for kind in ("text/plain", "application/x-www-form-urlencoded", "multipart/form-data", "application/json; charset=utf-8", None):
            self.assertEqual(self.post({"Content-Type": kind}), 403, kind)
        self.assertEqual(self.post({}, path="other"), 403)
        self.assertEqual(self.post({}, path="call?x"), 200)
        for length in ("-1", "x", "67108865", "99999999999999999999", "\u00b2"):
            self.assertEqual(self.post({"Content-Length": length}), 403, length)

    def test_nonsense_is_reported_as_such(self) -> None:
        deep = b"[" * 60_000
        for body in (b"", b"{", b"\xff", deep, b"nan"):
            self.assertEqual(self.post({}, body), 400, body[:10])
        nonsense: List[Any] = [
            None, 1, [], {}, {"call": None}, {"call": []}, {"call": "do"}, {"call": "__init__"}, {"call": "set"}, {"call": "set", "id": "1"},
                      {"call": "set", "id": 1.5, "text": "", "base": ""}, {"call": "set", "id": True, "text": "", "base": ""},
                      {"call": "set", "id": -1, "text": "", "base": ""}, {"call": "set", "id": 10**30, "text": "", "base": ""},
                      {"call": "new", "session": "a", "text": "", "after": 7}, {"call": "session", "name": "a b\nc", "words": "x", "tab": False},
                      {"call": "session", "name": "a", "words": "", "tab": False}, {"call": "stop", "session": "a\nremove 1"},
                      {"call": "eval", "id": 5}, {"call": "output", "id": 5, "start": 0},
                      {"call": "complete", "id": 5, "text": "\ud800", "cursor": 1},
        ]
        for asked in nonsense:
            with self.subTest(asked=asked):
                _, _, reported = self.page.request("POST", self.page.path + "call", self.page.headers(), json.dumps(asked).encode())
                self.assertIn("refused", json.loads(reported))
        self.assertEqual(self.page.snapshot()["order"], [])

    def test_methods_and_paths_beside(self) -> None:
        for method in ("PUT", "DELETE", "OPTIONS", "HEAD", "TRACE"):
            self.assertEqual(self.status(method, self.page.path, {"Cookie": self.page.cookie, "Origin": self.page.origin}), 501, method)
        for name in ("../README.md", "%2e%2e/README.md", "types.d.ts", "katex/fonts/../katex.js", "katex/fonts/..%2f..%2fx.ttf", "nothing",
            "/etc/passwd", "\\main.js"):
            self.assertEqual(self.status("GET", self.page.path + name, {"Cookie": self.page.cookie}), 404, name)

    def test_each_answer_has_the_policy(self) -> None:
        asked = [self.page.request("GET", self.page.path + name, {"Cookie": self.page.cookie})[1] for name in ("", "main.js",
            "setter-worker.js", "nothing")]
        asked += [self.page.request("GET", "/", {})[1], self.page.request("GET", "/?" + self.server.address.partition("?")[2], {})[1]]
        for headers in asked:
            policy = dict(part.strip().partition(" ")[::2] for part in headers["content-security-policy"].split(";"))
            self.assertEqual(policy["default-src"], "'none'")
            self.assertEqual(policy["script-src"], "'self'")
            self.assertEqual(policy["require-trusted-types-for"], "'script'")
            self.assertEqual(policy["img-src"], "'self' data:")
            others = headers["content-security-policy"].replace("img-src 'self' data:", "")
            self.assertFalse(re.search(r"unsafe|\*|data:|blob:|http", others))
            self.assertEqual((headers["x-content-type-options"], headers["referrer-policy"], headers["cache-control"]),
                ("nosniff", "no-referrer", "no-store"))

    def test_only_this_machine(self) -> None:
        self.assertTrue(self.server.host.startswith("127.0.0.1:"))
        port = int(self.server.host.partition(":")[2])
        with open("/proc/net/tcp", encoding="ascii") as file:
            found = [line.split()[1] for line in file if line.split()[3] == "0A" and line.split()[1].endswith(f":{port:04X}")]
        self.assertEqual(found, [f"0100007F:{port:04X}"])

    def test_a_reply_comes_at_once(self) -> None:
        """Of a connection that is kept, as browsers keep theirs. Where the network holds a reply's body back until its head is acknowledged,
        none comes before 40 ms are over; where it doesn't some come at once on a busy machine too."""
        connection = http.client.HTTPConnection(self.server.host, timeout=60)
        self.addCleanup(connection.close)
        took = []
        for _ in range(40):
            start = time.monotonic()
            connection.request("POST", self.page.path + "call", b'{"call":"reopen"}', self.page.headers())
            self.assertEqual(connection.getresponse().read(), b"{}")
            took.append(time.monotonic() - start)
        self.assertLess(min(took[1:]), 0.03)

    def test_a_silent_connection_holds_up_no_other(self) -> None:
        name, _, port = self.server.host.partition(":")
        silent = [socket.create_connection((name, int(port)), 10) for _ in range(50)]
        try:
            silent[0].sendall(b"POST ")
            self.assertEqual(self.post({}), 200)
        finally:
            for connection in silent:
                connection.close()


@needs_program
class Starting(Case):
    def run_server(self, *words: str) -> "subprocess.CompletedProcess[str]":
        command = [os.path.join(harness.NOTEBOOK, "tmhost-notebook"), "--no-browser", *words]
        return subprocess.run(command, capture_output=True, text=True, timeout=120, env=harness.environment())

    def test_what_it_opens_is_said_first(self) -> None:
        server = self.serve()
        assert server.process.stderr
        self.assertEqual(server.process.stderr.readline(), f"tmhost-notebook: opening {self.sheet}; the address of its page follows\n")

    def test_a_second_server_says_in_use(self) -> None:
        self.serve()
        reported = self.run_server(self.sheet)
        self.assertEqual((reported.returncode, reported.stdout), (1, ""))
        self.assertIn("is in use: it is open at http://127.0.0.1:", reported.stderr)

    def test_what_is_no_worksheet(self) -> None:
        with open(self.sheet, "wb") as file:
            file.write(b"this is a letter to somebody, and no worksheet\n" * 3)
        reported = self.run_server(self.sheet)
        self.assertEqual(reported.returncode, 1)
        self.assertIn(f"{self.sheet} can't be opened: fault 31 NotASheet: it is no worksheet, or it was cut or is empty; look at the path", reported.stderr)
        with open(self.sheet, "rb") as file:
            self.assertTrue(file.read().startswith(b"this is a letter"))

    def test_what_is_damaged(self) -> None:
        """What is said names the worksheet, and what saves the rest of it."""
        self.serve().stop()
        with open(self.sheet, "r+b") as file:
            file.seek(11)  # the length of the first record
            file.write(b"\xff\xff\xff\xff")
            file.seek(10)
            file.write(b"R")
        reported = self.run_server(self.sheet)
        said = f"{self.sheet} can't be opened: fault 30 Damaged at 10: it can't be read from byte 10 on; keep both files: `tmhost rescue {self.sheet} NEW`"
        self.assertEqual(reported.returncode, 1)
        self.assertIn(said, reported.stderr)

    def test_what_is_not_there(self) -> None:
        """A look makes no worksheet, and a folder isn't made for one."""
        for words, said in (
            (("--look", self.sheet), f"there is no worksheet {self.sheet} to look at"),
            ((self.sheet + "/below",), f"{self.sheet}/below can't be opened: No such file or directory: {self.sheet}/below"),
            (("pack", self.sheet, self.sheet + ".zip"), f"No such file or directory: {self.sheet}"),
        ):
            command = [os.path.join(harness.NOTEBOOK, "tmhost-notebook"), *words]
            reported = subprocess.run(command, capture_output=True, text=True, timeout=120, env=harness.environment())
            self.assertEqual((reported.returncode, reported.stdout, reported.stderr.splitlines()[-1]), (1, "", f"tmhost-notebook: {said}"))
        self.assertEqual(os.listdir(self.folder), [])

    def test_a_port_that_is_taken(self) -> None:
        server = self.serve()
        reported = self.run_server("--port", server.host.partition(":")[2], self.sheet + "2")
        self.assertEqual(reported.returncode, 1)
        self.assertIn("can't be taken", reported.stderr)

    def test_its_end_ends_the_program(self) -> None:
        server = self.serve()
        program = server.program
        self.assertIsNotNone(program)
        self.assertEqual(server.stop(), 0)
        self.assertFalse(os.path.exists(f"/proc/{program}"))

    def test_the_browser_gets_no_token_by_its_words(self) -> None:
        """Words of a program are seen by all users: the browser is given a file that is this user's alone."""
        opener, seen = os.path.join(self.folder, "opener"), os.path.join(self.folder, "seen")
        with open(opener, "w", encoding="utf-8") as file:
            tell = '{ echo "$1"; stat -c %a "$(dirname "$file")"; cat "$file"; }'
            file.write(f"#!/bin/sh\nfile=${{1#file://}}\n{tell} >{seen}.new\nmv {seen}.new {seen}\n")
        os.chmod(opener, os.stat(opener).st_mode | stat.S_IXUSR)
        command = [os.path.join(harness.NOTEBOOK, "tmhost-notebook"), self.sheet]
        process = subprocess.Popen(command, stdout=subprocess.PIPE, text=True, env={**harness.environment(), "BROWSER": opener})
        self.addCleanup(process.wait)
        self.addCleanup(process.terminate)
        assert process.stdout
        self.addCleanup(process.stdout.close)
        address = process.stdout.readline().strip()
        for _ in range(200):
            if os.path.exists(seen):
                break
            time.sleep(0.05)
        with open(seen, encoding="utf-8") as file:
            place, mode, content = file.read().split("\n", 2)
        self.assertNotIn(address.partition("token=")[2], place)
        self.assertEqual(mode, "700")
        self.assertIn(address, content)


if __name__ == "__main__":
    unittest.main()
