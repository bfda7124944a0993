"""Single answers: the machine's, and those of plain HTTP."""

from __future__ import annotations

import http.server
import json
import os
import shutil
import socket
import tempfile
import threading
import time
import unittest
from typing import Any
from unittest import mock

from bujerova_host import machine
from bujerova_host.forms import LONGEST, answer, content, data_of, failure, line, moment
from bujerova_host.machine import Names
from bujerova_host.web import Web
from bujerova_host.world import World
from place import Place

WHOLE = {"connect_ms": 1000, "read_ms": 1000}


class Forms(unittest.TestCase):
    """Lines, in both directions."""

    def test_contents(self) -> None:
        self.assertEqual({"hex": "ff00"}, content(b"\xff\x00"))
        self.assertEqual("\u00e9", content("\u00e9".encode()))
        for data in (b"", b"a\0b", b"\xff", "\u2028".encode()):
            self.assertEqual(data, data_of(content(data)))

    def test_lines_are_ascii(self) -> None:
        self.assertEqual(b'{"a":"\\u00e9\\u2028\\n"}\n', line({"a": "\u00e9\u2028\n"}))

    def test_moments(self) -> None:
        self.assertEqual([1, 500_000_001], moment(1_500_000_001))

    def test_answers_are_scripts_of_one_item(self) -> None:
        for asked, item, wanted in (
                ({"ask": "now"}, [7, 0], {"clock": [[7, 0]]}),
                ({"ask": "jitter"}, 7, {"jitter": [7]}),
                ({"ask": "read", "path": "/p"}, "x", {"files": [["/p", "x"]]}),
                ({"ask": "read", "path": "/p"}, None, {"files": [["/p", None]]}),
                ({"ask": "write", "path": "/p"}, True, {}),
                ({"ask": "write", "path": "/p"}, False, {"unwritable": ["/p"]}),
                ({"ask": "run"}, [0, "", ""], {"commands": [[0, "", ""]]}),
                ({"ask": "lookup"}, "fail", {"lookups": ["fail"]}),
                ({"ask": "sign-in"}, None, {"replies": {"sign-in": [None]}})):
            self.assertEqual(wanted, answer(asked, item))

    def test_failures(self) -> None:
        self.assertEqual([None, False, "fail", "fail", "broken"], [failure(kind) for kind in ("read", "write", "run", "lookup", "http")])


class Machine(unittest.TestCase):
    """The clock, files, commands, names."""

    def setUp(self) -> None:
        self.folder = tempfile.mkdtemp(prefix="bujerova-host-")
        self.addCleanup(shutil.rmtree, self.folder)
        self.path = os.path.join(self.folder, "x")

    def ask(self, kind: str, **members: Any) -> Any:
        return World().answer({"ask": kind, **members})

    def test_clock_and_jitter(self) -> None:
        seconds, nanoseconds = self.ask("now").item
        self.assertLess(abs(time.time() - seconds), 5)
        self.assertIn(nanoseconds, range(10**9))
        self.assertIn(self.ask("jitter").item, range(2**64))
        self.assertNotEqual(self.ask("jitter"), self.ask("jitter"))

    def test_a_file_is_read_and_written(self) -> None:
        self.assertEqual((None, "No such file or directory"), self.ask("read", path=self.path))
        self.assertEqual((True, ""), self.ask("write", path=self.path, content={"hex": "ff00"}))
        self.assertEqual({"hex": "ff00"}, self.ask("read", path=self.path).item)
        self.assertEqual((True, ""), self.ask("write", path=self.path, content="\u00e9"))
        self.assertEqual("\u00e9", self.ask("read", path=self.path).item)
        self.assertEqual(["x"], os.listdir(self.folder))

    def test_a_written_file_is_its_owners_alone(self) -> None:
        with open(self.path, "w") as file:
            os.chmod(file.fileno(), 0o644)
        self.ask("write", path=self.path, content="a")
        self.assertEqual(0o600, os.stat(self.path).st_mode & 0o777)

    def test_a_symbolic_link_stays(self) -> None:
        link = os.path.join(self.folder, "link")
        os.symlink(self.path, link)
        self.ask("write", path=link, content="a")
        self.assertTrue(os.path.islink(link))
        self.assertEqual("a", self.ask("read", path=self.path).item)

    def test_what_cannot_be_read_or_written(self) -> None:
        self.assertEqual((None, "Is a directory"), self.ask("read", path=self.folder))
        self.assertEqual((None, "no path"), self.ask("read", path="a\0b"))
        for path in (self.folder, self.folder + "/none/x", "a\0b"):
            self.assertFalse(self.ask("write", path=path, content="a").item)
        self.assertEqual([], os.listdir(self.folder))

    def test_a_write_that_breaks_off_leaves_the_file(self) -> None:
        self.ask("write", path=self.path, content="before")
        with mock.patch("os.replace", side_effect=OSError(28, "No space left on device")):
            self.assertEqual((False, "No space left on device"), self.ask("write", path=self.path, content="behind"))
        self.assertEqual(["x"], os.listdir(self.folder))
        self.assertEqual("before", self.ask("read", path=self.path).item)

    def test_a_file_that_is_too_long(self) -> None:
        with open(self.path, "wb") as file:
            file.truncate(LONGEST + 1)
        self.assertEqual((None, "too long to be told"), self.ask("read", path=self.path))

    def test_commands(self) -> None:
        self.assertEqual([3, "out", "err"], self.ask("run", command="printf out; printf err >&2; exit 3").item)
        self.assertEqual([0, {"hex": "ff"}, ""], self.ask("run", command="printf '\\377'").item)
        self.assertEqual(-9, self.ask("run", command="kill -9 $$").item[0])
        self.assertEqual([0, "", ""], self.ask("run", command="cat").item)
        self.assertEqual(127, self.ask("run", command="no-such-command-here").item[0])
        self.assertEqual(("fail", "no path"), self.ask("run", command="a\0b"))

    def test_a_command_is_told_how_deep_it_is(self) -> None:
        self.assertEqual("1", self.ask("run", command=f"printf %s ${machine.DEPTH}").item[1])
        with mock.patch.dict(os.environ, {machine.DEPTH: "2"}):
            self.assertEqual("3", self.ask("run", command=f"printf %s ${machine.DEPTH}").item[1])

    def test_names(self) -> None:
        names = Names()
        self.assertIn("127.0.0.1", names.look_up({"host": "LocalHost"}).item)
        self.assertIn("127.0.0.1", names.found("localhost"))
        self.assertEqual([], names.found("other"))
        self.assertEqual("fail", names.look_up({"host": "no\0name"}).item)
        with mock.patch("socket.getaddrinfo", side_effect=socket.gaierror(-2, "Name or service not known")):
            self.assertEqual(("fail", "Name or service not known"), names.look_up({"host": "gone"}))
        zone = [(socket.AF_INET6, socket.SOCK_STREAM, 0, "", ("fe80::1%eth0", 0, 0, 2))]
        with mock.patch("socket.getaddrinfo", return_value=zone):
            self.assertEqual(["fe80::1"], names.look_up({"host": "zone"}).item)


class Echo(http.server.BaseHTTPRequestHandler):
    """A server that tells what it was sent, or misbehaves."""

    def log_message(self, *_: Any) -> None:
        pass

    def do_GET(self) -> None:
        special = {"/redirect": self.redirect, "/cut": self.cut, "/slow": self.slow, "/never": self.never, "/odd": self.odd}
        if self.path in special:
            special[self.path]()
            return
        told = {"path": self.path, **{name.lower(): value for name, value in self.headers.items()}}
        self.reply(200, b"\xff\x00" if self.path == "/bytes" else json.dumps(told).encode())

    do_PUT = do_GET

    def reply(self, status: int, body: bytes, length: int | None = None) -> None:
        self.send_response(status)
        self.send_header("Content-Length", str(len(body) if length is None else length))
        self.end_headers()
        self.wfile.write(body)

    def redirect(self) -> None:
        self.send_response(302)
        self.send_header("Location", "/elsewhere")
        self.send_header("Content-Length", "0")
        self.end_headers()

    def cut(self) -> None:
        self.reply(200, b"ten bytes.", 100)

    def odd(self) -> None:
        self.reply(700, b"")

    def slow(self) -> None:
        self.reply(200, b"x", 20)
        for _ in range(19):
            time.sleep(0.1)
            self.wfile.write(b"x")
            self.wfile.flush()

    def never(self) -> None:
        time.sleep(1)


class Server(http.server.ThreadingHTTPServer):
    """The server, which is told of no client that goes away."""

    daemon_threads = True

    def handle_error(self, *_: Any) -> None:
        pass


class PlainHttp(unittest.TestCase):
    """Requests to a container's agent and to instance metadata."""

    def setUp(self) -> None:
        self.server = Server(("127.0.0.1", 0), Echo)
        self.port = self.server.server_address[1]
        threading.Thread(target=self.server.serve_forever, args=(0.05,), daemon=True).start()
        self.addCleanup(self.server.server_close)
        self.addCleanup(self.server.shutdown)
        self.names = Names()

    def get(self, path: str, host: str = "127.0.0.1", **limits: int) -> Any:
        endpoint = f"http://{host}:{self.port}"
        return Web(self.names).container(
            {"endpoint": endpoint, "path": path, "authorization": "secret words", "timeouts": limits or WHOLE})

    def test_a_reply(self) -> None:
        status, headers, body = self.get("/x/%2E%2E/../y?z=1").item
        told = json.loads(body)
        self.assertEqual((200, "/x/%2E%2E/../y?z=1", "secret words", "application/json"),
                         (status, told["path"], told["authorization"], told["accept"]))
        self.assertIn(["Content-Length", str(len(body))], headers)

    def test_metadata(self) -> None:
        endpoint, web = f"http://127.0.0.1:{self.port}/base/", Web(self.names)
        told = json.loads(web.metadata_token({"endpoint": endpoint, "ttl_seconds": 9, "timeouts": WHOLE}).item[2])
        self.assertEqual(("/base/latest/api/token", "9"), (told["path"], told["x-aws-ec2-metadata-token-ttl-seconds"]))
        told = json.loads(web.metadata({"endpoint": endpoint, "path": "/latest/x", "token": "t", "timeouts": WHOLE}).item[2])
        self.assertEqual(("/base/latest/x", "t"), (told["path"], told["x-aws-ec2-metadata-token"]))

    def test_no_redirect_is_followed(self) -> None:
        self.assertEqual(302, self.get("/redirect").item[0])

    def test_no_proxy_is_asked(self) -> None:
        with mock.patch.dict(os.environ, {"http_proxy": "http://127.0.0.1:9", "HTTP_PROXY": "http://127.0.0.1:9", "no_proxy": ""}):
            self.assertEqual(200, self.get("/x").item[0])

    def test_bytes(self) -> None:
        self.assertEqual({"hex": "ff00"}, self.get("/bytes").item[2])

    def test_broken_replies(self) -> None:
        self.assertEqual("broken", self.get("/cut").item)
        self.assertEqual(("broken", "the status 700"), self.get("/odd"))

    def test_requests_without_a_reply(self) -> None:
        self.assertEqual(("dispatch", "ReadTimeoutError"), self.get("/never", connect_ms=1000, read_ms=200))
        free = socket.socket()
        free.bind(("127.0.0.1", 0))
        asked = {"endpoint": f"http://127.0.0.1:{free.getsockname()[1]}", "ttl_seconds": 9, "timeouts": WHOLE}
        self.assertEqual(("dispatch", "NewConnectionError"), Web(self.names).metadata_token(asked))
        free.close()
        for endpoint in ("http://", "http://[", "http://127.0.0.1:x", "none"):
            self.assertEqual("dispatch", Web(self.names).metadata_token({**asked, "endpoint": endpoint}).item)

    def test_an_attempt_that_takes_too_long(self) -> None:
        self.assertEqual("timeout", self.get("/slow", connect_ms=1000, read_ms=1000, attempt_ms=300).item)

    def test_no_header_carries_another(self) -> None:
        asked = {"endpoint": f"http://127.0.0.1:{self.port}", "path": "/x", "token": "a\r\nb: c", "timeouts": WHOLE}
        self.assertEqual("dispatch", Web(self.names).metadata(asked).item)

    def test_the_address_that_was_looked_up_is_asked(self) -> None:
        real, asked = socket.getaddrinfo, []

        def changing(host: str, *rest: Any, **more: Any) -> Any:
            asked.append(host)
            return real("127.0.0.1" if host != "agent.test" or asked.count(host) == 1 else "192.0.2.1", *rest, **more)

        with mock.patch("socket.getaddrinfo", changing):
            self.assertEqual(["127.0.0.1"], self.names.look_up({"host": "agent.test"}).item)
            told = json.loads(self.get("/x", "agent.test").item[2])
        self.assertEqual(f"agent.test:{self.port}", told["host"])
        self.assertEqual(1, asked.count("agent.test"))

    def test_each_address_that_was_looked_up_is_tried(self) -> None:
        both = [(0, 0, 0, "", (address, 0)) for address in ("127.0.0.2", "127.0.0.1")]
        with mock.patch("socket.getaddrinfo", return_value=both):
            self.names.look_up({"host": "agent.test"})
        self.assertEqual(200, self.get("/x", "agent.test").item[0])

    def test_a_body_that_is_too_long(self) -> None:
        with mock.patch("bujerova_host.web.LONGEST", 10):
            self.assertEqual(("broken", "too long to be told"), self.get("/x"))


class Depth(unittest.TestCase):
    """A profile whose process is the host itself."""

    def test_the_host_stops_by_itself(self) -> None:
        place = Place(self, None, "[default]\ncredential_process = HOST credentials\n")
        self.assertIn("leads back to it", place.complaint(1, "credentials"))

    def test_a_depth_that_is_none(self) -> None:
        place = Place(self, None)
        for told in ("-1", "x", "4", "99999999999", "\u0661"):
            self.assertIn("leads back to it", place.complaint(1, "credentials", BUJEROVA_HOST_DEPTH=told))
