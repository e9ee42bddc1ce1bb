"""The screen behind nginx, with the configuration of deploy/nginx.conf: TLS, logins, who may send, a proxy that breaks."""

import base64
import json
import os
import shutil
import signal
import socket
import ssl
import subprocess
import unittest
from contextlib import suppress
from pathlib import Path

import browser
import support
from test_server import LIGHTHOUSE

NGINX = shutil.which("nginx") or "/usr/sbin/nginx"
NAME = "screen.example.org"


def free_port() -> int:
    with socket.create_server(("127.0.0.1", 0)) as found:
        return int(found.getsockname()[1])


class Nginx:
    """The proxy with the configuration that is shipped: its ports and the places of its files are put in."""

    def __init__(self, place: Path, screen: int, port: int):
        self.port, self.place = port, place
        place.mkdir()
        words = ["openssl", "req", "-x509", "-newkey", "rsa:2048", "-nodes", "-days", "2", "-subj", f"/CN={NAME}"]
        support.output_of(*words, "-keyout", place / "outagebook.key", "-out", place / "outagebook.pem")
        secret = support.output_of("openssl", "passwd", "-apr1", "word").decode()
        (place / "outagebook.passwd").write_text(f"desk-anna:{secret}reader:{secret}")
        text = (support.DEPLOY / "nginx.conf").read_text()
        text = text.replace("/etc/nginx/", f"{place}/").replace("listen 443", f"listen 127.0.0.1:{port}")
        text = text.replace("127.0.0.1:8081", f"127.0.0.1:{screen}")
        kinds = ("client_body", "proxy", "fastcgi", "uwsgi", "scgi")
        temporary = "".join(f"{kind}_temp_path {place}/{kind};\n" for kind in kinds)
        config = f"daemon off; user root; pid {place}/pid; error_log {place}/error.log;\nevents {{}}\nhttp {{ access_log off;\n"
        (place / "nginx.conf").write_text(f"{config}{temporary}{text}\n}}\n")
        self.process = self.start()

    def start(self) -> subprocess.Popen[bytes]:
        words = [NGINX, "-c", str(self.place / "nginx.conf"), "-e", str(self.place / "error.log")]
        process = subprocess.Popen(words, stderr=subprocess.DEVNULL)
        support.until(self.answers, what="nginx")
        return process

    def answers(self) -> bool:
        with suppress(OSError), socket.create_connection(("127.0.0.1", self.port), timeout=1):
            return True
        return False

    def end(self) -> None:
        self.process.terminate()
        self.process.wait()

    def ask(self, route: str, login: str = "", body: str | None = None, **headers: str) -> tuple[int, bytes]:
        """A request by TLS."""
        told = {"Host": NAME, **{name.replace("_", "-"): value for name, value in headers.items()}}
        if login:
            told["Authorization"] = "Basic " + base64.b64encode(f"{login}:word".encode()).decode()
        data = body.encode() if body else None
        return support.call(f"https://127.0.0.1:{self.port}{route}", data, told, ssl._create_unverified_context())


@unittest.skipUnless(Path(NGINX).exists(), "nginx isn't installed")
class BehindNginx(support.Case):
    def setUp(self) -> None:
        self.port = free_port()
        self.words = ("--proxy", "127.0.0.1", "--senders", "desk-", "--host", NAME, "--host", f"{NAME}:{self.port}")
        self.live = self.screen(*self.words)
        self.nginx = Nginx(support.folder() / f"nginx-{self._testMethodName}", self.live.port, self.port)
        self.addCleanup(self.nginx.end)

    def test_logins_and_who_may_send(self) -> None:
        self.assertEqual(self.nginx.ask("/")[0], 401)
        self.assertEqual(self.nginx.ask("/", "reader")[0], 200)
        me = json.loads(self.nginx.ask("/api/me", "desk-anna", X_Remote_User="desk-bert")[1])
        self.assertEqual((me["login"], me["name"], me["may_send"]), ("desk-anna", "DESK-ANNA", True))
        reader = json.loads(self.nginx.ask("/api/me", "reader", X_Remote_User="desk-anna")[1])
        self.assertEqual((reader["name"], reader["may_send"]), ("READER", False))
        for login, token, status in (("desk-anna", me["token"], 200), ("reader", reader["token"], 403)):
            command = json.dumps({**LIGHTHOUSE, "ref": f"SCR-{login.upper()}-1"})
            told = {"Content_Type": "application/json", "X_Screen_Token": token}
            self.assertEqual(self.nginx.ask("/api/command", login, command, **told)[0], status)
            evil = self.nginx.ask("/api/command", login, command, **told, Origin="https://evil.example")
            self.assertEqual(evil[0], 403)

    def test_one_connection_for_all_pages(self) -> None:
        """By HTTP/2 a browser's pages share one connection: six streams of events don't fill it."""
        context = ssl._create_unverified_context()
        context.set_alpn_protocols(["h2", "http/1.1"])
        with socket.create_connection(("127.0.0.1", self.port)) as plain, context.wrap_socket(plain) as connection:
            self.assertEqual(connection.selected_alpn_protocol(), "h2")

    def test_the_screen_is_started_again_behind_the_proxy(self) -> None:
        """Meanwhile the proxy answers 502, after which a browser makes no stream of events by itself."""
        page = self.browser()
        page.open(f"https://{NAME}:{self.port}/", None)
        page.says("main", "LIGHTHOUSE")
        self.live.end()
        page.says(".alarm", "WHAT IS SHOWN MAY BE OLD")
        self.screen(*self.words, "--port", str(self.live.port), book=self.live.book)
        page.quiet()
        me = json.loads(self.nginx.ask("/api/me", "desk-anna")[1])
        told = {"Content_Type": "application/json", "X_Screen_Token": me["token"]}
        command = json.dumps({**LIGHTHOUSE, "ref": "SCR-DESK-ANNA-1"})
        self.assertEqual(self.nginx.ask("/api/command", "desk-anna", command, **told)[0], 200)
        page.says("main", "All sections are supplied")

    def browser(self) -> browser.Browser:
        """A browser with a login of the switching desk."""
        rules = (f"--host-resolver-rules=MAP {NAME} 127.0.0.1", "--ignore-certificate-errors")
        page = browser.Browser(words=rules)
        self.addCleanup(page.end)
        headers = {"Authorization": "Basic " + base64.b64encode(b"desk-anna:word").decode()}
        page.driver.execute_cdp_cmd("Network.enable", {})
        page.driver.execute_cdp_cmd("Network.setExtraHTTPHeaders", {"headers": headers})
        return page

    def test_a_browser_through_tls_and_a_proxy_that_dies(self) -> None:
        page = self.browser()
        page.open(f"https://{NAME}:{self.port}/enter?device=LBS-22&at=2025-04-06T23:52:00%2B02:00", None)
        page.says("header", "You are DESK-ANNA")
        page.can_send()
        os.kill(self.nginx.process.pid, signal.SIGTERM)
        self.nginx.process.wait()
        page.click(".send")
        page.says(".outcome", "It isn't known whether this is saved")
        self.nginx.process = self.nginx.start()
        page.click(".again")
        page.says(".outcome .equal", "As forecast")
        self.assertEqual(self.live.number(), 103)
        self.assertEqual(page.complaints(), [])
