"""A site that is run behind nginx and haproxy, as RUNNING has them: they encrypt, and the program says who may come."""
import os
import re
import shutil
import socket
import ssl
import subprocess
import tempfile
import time

from odd_paths import PATHS, PROTOCOL, statuses_with_keys, who_is_let_in
from raw_client import RawClient
from run_data import Data
from run_keys import Keys, basic
from serving import PATIENCE, Running, Unexpected, expect, free_port
from texts import CALL_0, ask, heartbeat, plain_site

RUNNING = os.path.join(os.path.dirname(os.path.abspath(__file__)), os.pardir, os.pardir, "docs", "RUNNING.md")

SEATS = 10

# What a file in /etc/nginx/conf.d is read within, without what belongs to the machine.
AROUND_NGINX = """daemon off; master_process off; pid F/nginx.pid; error_log F/log;
events {{ worker_connections 1024; }}
http {{
access_log off;
client_body_temp_path F/1; proxy_temp_path F/2; fastcgi_temp_path F/3; uwsgi_temp_path F/4; scgi_temp_path F/5;
{}
}}
"""


def recipe(language):
    """The page's file for a proxy."""
    with open(RUNNING, encoding="utf-8") as file:
        found = re.findall(rf"^```{language}\n(.*?)^```$", file.read(), re.MULTILINE | re.DOTALL)
    expect(f"how many recipes for {language} the page has", len(found), 1)
    return found[0]


class Proxy:
    """A proxy by the page's recipe, before a program at a port. Its certificate is made on the spot."""

    def __init__(self, name, program_port):
        self.name, self.program_port = name, program_port

    def __enter__(self):
        self.folder = tempfile.TemporaryDirectory()
        self.port = free_port()
        self._make_certificate()
        with open(self._file("configuration"), "w", encoding="utf-8") as file:
            file.write(self._configuration())
        self.process = subprocess.Popen(
            self._words(self._file("configuration")), stdin=subprocess.DEVNULL, stdout=subprocess.DEVNULL, stderr=subprocess.PIPE,
        )
        self._until_it_listens()
        self.trust = ssl.create_default_context(cafile=self._file("site.crt"))
        return self

    def __exit__(self, *_):
        self.process.kill()
        self.process.communicate()
        self.folder.cleanup()

    def _file(self, name):
        return os.path.join(self.folder.name, name)

    def _words(self, path):
        """The command that starts it with the file of this path."""
        return ["nginx", "-c", path] if self.name == "nginx" else ["haproxy", "-db", "-f", path]

    def _make_certificate(self):
        words = "openssl req -x509 -newkey rsa:2048 -nodes -days 2 -subj /CN=site -addext subjectAltName=IP:127.0.0.1".split()
        subprocess.run([*words, "-keyout", self._file("site.key"), "-out", self._file("site.crt")], check=True, capture_output=True)
        with open(self._file("site.pem"), "w", encoding="ascii") as whole:
            for name in ("site.crt", "site.key"):
                with open(self._file(name), encoding="ascii") as part:
                    whole.write(part.read())

    def _configuration(self):
        """The page's file, at a port of this machine and with this certificate."""
        text = recipe(self.name)
        listen, anywhere = ("listen", "") if self.name == "nginx" else ("bind", ":")
        changes = [
            (f"{listen} {anywhere}443 ", f"{listen} 127.0.0.1:{self.port} "),
            ("127.0.0.1:9000", f"127.0.0.1:{self.program_port}"), ("/etc/central/", self.folder.name + "/"),
        ]
        for old, new in changes:
            expect(f"whether the recipe has {old}", old in text, True)
            text = text.replace(old, new)
        if self.name == "nginx":
            text = AROUND_NGINX.format(text).replace("F/", self.folder.name + "/")
        return text

    def _until_it_listens(self):
        end = time.monotonic() + PATIENCE
        while time.monotonic() < end and self.process.poll() is None:
            try:
                socket.create_connection(("127.0.0.1", self.port), PATIENCE).close()
                return
            except ConnectionRefusedError:
                time.sleep(0.02)
        self.process.kill()
        raise Unexpected(f"{self.name} doesn't listen: {self.process.communicate()[1].decode()}")


class EncryptedClient(RawClient):
    """A client by hand that knows the proxy's certificate."""

    def __init__(self, proxy):
        super().__init__(proxy)
        self.socket = proxy.trust.wrap_socket(self.socket, server_hostname="127.0.0.1")


def who_may_come(proxy, keys):
    """The same as without a proxy: a point comes with its own key alone, an operator with an operator's."""
    p1, p2, ann = (keys.of[name] for name in ("P1", "P2", "ann"))
    wrong = ("0" if p1[0] != "0" else "1") + p1[1:]
    for path, headers, wanted in (
        ("/P1", [basic("P1", p1.encode())], 101),
        ("/P1", [basic("P1", bytes.fromhex(p1))], 101),
        ("/ocpp/P1", [basic("P1", p1.encode())], 101),
        ("/P1", [basic("P1", wrong.encode())], 401),
        ("/P1", [], 401),
        ("/P1", [basic("P2", p2.encode())], 403),
        ("/P1", [basic("P1", p2.encode())], 401),
        ("/P1", [basic("ann", ann.encode())], 401),
        ("/operator/P1", [basic("ann", ann.encode())], 101),
        ("/operator/P1", [basic("P1", p1.encode())], 401),
        ("/operator/P1", [], 401),
        ("/P1", [basic("P1", p1.encode()), "Origin: https://elsewhere.example"], 403),
        ("/operator/P1", [basic("ann", ann.encode()), "Origin: https://elsewhere.example"], 403),
    ):
        with EncryptedClient(proxy) as client:
            response = client.shake_hands(path, [PROTOCOL, *headers])
            expect(f"{proxy.name}: {path} with {headers}", response and response.status, wanted)
            if wanted == 401:
                expect("what it asks for", response.headers.get("www-authenticate"), ['Basic realm="central", charset="UTF-8"'])


def nobody_becomes_another(proxy, keys):
    """Each path comes to what it comes to without a proxy, or the proxy itself refuses it."""
    for path, named in PATHS.items():
        for other, login, wanted in statuses_with_keys(path, named):
            headers = [basic(login, keys.of[login].encode())] if login else []
            seen = who_is_let_in(EncryptedClient(proxy), other, headers)
            if seen != 400:
                expect(f"{proxy.name}: {other} with the key of {login}", seen, wanted)


def slow_requests_take_no_seat(proxy, keys):
    """Of requests that aren't whole the program hears nothing: with more of them than it has seats, others are served."""
    clients = [EncryptedClient(proxy) for _ in range(2 * SEATS)]
    for client in clients:
        client.send_bytes(b"GET /P1 HTTP/1.1\r\nHost: ")
    is_served(proxy, keys)
    for client in clients:
        client.socket.close()


def is_served(proxy, keys):
    """A point and its operator have a session each through the proxy."""
    with EncryptedClient(proxy) as point, EncryptedClient(proxy) as operator:
        expect("the point", point.shake_hands("/P1", [PROTOCOL, basic("P1", keys.of["P1"].encode())]).status, 101)
        expect("the operator", operator.shake_hands("/operator/P1", [PROTOCOL, basic("ann", keys.of["ann"].encode())]).status, 101)
        expect("the point's texts", [text[:7] for text in point.texts_of(heartbeat("h"))], ['[3,"h",', CALL_0[:7]])
        expect("a schedule", operator.texts_of(ask("a"))[0][:7], '[3,"a",')


def behind(name):
    """A test of a proxy, which is left out where that isn't installed."""
    def test(program):
        if not shutil.which(name) or not shutil.which("openssl"):
            print(f"  {name} or openssl isn't installed, so nothing is tried behind it", flush=True)
            return
        site = plain_site(3)
        with Keys(program) as keys, Data() as data, Running(program, site, data.path, SEATS, keys=keys.path) as running:
            with Proxy(name, running.port) as proxy:
                who_may_come(proxy, keys)
                nobody_becomes_another(proxy, keys)
                slow_requests_take_no_seat(proxy, keys)
    return test


def tests():
    for name in ("nginx", "haproxy"):
        yield f"behind {name}", behind(name)
