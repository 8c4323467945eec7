"""A real nginx with one of the examples of deploy/nginx, on ports of this machine."""
from __future__ import annotations

import os
import pathlib
import re
import shutil
import socket
import subprocess
import tempfile
import time
from typing import Sequence

from serving import HOST, ROOT, free_port

EXAMPLES = pathlib.Path(ROOT, "deploy", "nginx")
INSTALLED = "/usr/share/silvervole"
# Where a file of the package stands in the repository.
PLACES = ((f"{INSTALLED}/web", f"{ROOT}/web"), ("/usr/lib/python3/dist-packages/silvervole/", f"{ROOT}/silvervole/"))
# The folder with the folder of pictures.
SHOTS = "/var/lib/silvervole"
USERS = ("ann", "bob", "rea", "eve")
PASSWORD = "only for tests"
RATE = "rate=50r/s"
NO_LIMIT = "rate=1000000r/s"
MAIN = """daemon off;
pid {folder}/nginx.pid;
error_log {folder}/error.log;
worker_processes 2;
events {{ worker_connections 512; }}
http {{
    include /etc/nginx/mime.types;
    access_log off;
    client_body_temp_path {folder}/body;
    proxy_temp_path {folder}/proxy;
    fastcgi_temp_path {folder}/fastcgi;
    uwsgi_temp_path {folder}/uwsgi;
    scgi_temp_path {folder}/scgi;
    include {folder}/example.conf;
}}
"""


def make_certificate(folder: str) -> None:
    """A key, and a certificate for this machine that it signs itself."""
    subprocess.run(["openssl", "req", "-x509", "-newkey", "rsa:2048", "-nodes", "-days", "2", "-subj", "/CN=desk.example.org",
                    "-addext", f"subjectAltName=IP:{HOST},DNS:localhost", "-keyout", f"{folder}/key.pem", "-out", f"{folder}/cert.pem"],
                   check=True, capture_output=True)


def make_users(folder: str) -> None:
    """The file of users, each with the same password."""
    pathlib.Path(folder, "users").touch()
    for user in USERS:
        subprocess.run(["htpasswd", "-iB", "-C", "4", f"{folder}/users", user], input=PASSWORD.encode(), check=True, capture_output=True)


def wait_for(program: subprocess.Popen[bytes], port: int, name: str) -> None:
    """Waits until a program listens at a port; a RuntimeError where it ends before, or doesn't for a minute."""
    end = time.monotonic() + 60
    while program.poll() is None and time.monotonic() < end:
        try:
            socket.create_connection((HOST, port), timeout=5).close()
            return
        except OSError:
            time.sleep(0.05)
    program.kill()
    raise RuntimeError(f"{name} doesn't listen: it ended with {program.wait()}")


class Proxy:
    """nginx with an example as it stands, but for ports and paths, before one desk or three, until the block ends.

    Where a desk joins three, the sites that were there before are named, as docs/use/team.md says.
    """

    def __init__(self, example: str, desks: list[int], limit: str = NO_LIMIT, joining: int | None = None, before: Sequence[str] = ()) -> None:
        self.example, self.desks, self.limit, self.joining, self.before = example, desks, limit, joining, before
        self.port, self.plain_port = free_port(), free_port()

    def replaced(self) -> str:
        """The example's text for this machine."""
        ring = "one-desk.conf" if len(self.desks) == 1 else "many-desks.conf"
        text = "".join((EXAMPLES / name).read_text(encoding="utf-8") for name in (self.example, ring))
        pairs = [("listen 80;", f"listen {HOST}:{self.plain_port};"), ("listen 443 ", f"listen {HOST}:{self.port} "),
                 ("listen 127.0.0.1:8070;", f"listen {HOST}:{self.port};"), (RATE, self.limit),
                 ("/etc/ssl/certs/desk.example.org.pem", f"{self.folder}/cert.pem"),
                 ("/etc/ssl/private/desk.example.org.key", f"{self.folder}/key.pem"), ("/etc/nginx/act-desk.users", f"{self.folder}/users")]
        pairs += [(f"server {HOST}:{8080 + place} ", f"server {HOST}:{desk} ") for place, desk in enumerate(self.desks)]
        for old, new in pairs:
            text = text.replace(old, new)
        return self.joined(text) if self.joining is not None else text

    def joined(self, text: str) -> str:
        """The text with one more desk on the ring, and the ring as it was for the sites that were there."""
        ring = re.findall(r"^upstream act_desk \{\n.*?^\}\n", text, re.MULTILINE | re.DOTALL)[0]
        larger = ring.replace("}", f"    server {HOST}:{self.joining} max_fails=0;\n}}")
        text = text.replace(ring, larger + ring.replace("act_desk {", "act_desk_before {"))
        return text.replace("    # library act_desk_before;\n", "".join(f"    {site} act_desk_before;\n" for site in self.before))

    def write(self) -> None:
        """Writes all files of this nginx, those of the package with paths into the repository."""
        os.chmod(self.folder, 0o755)
        make_certificate(self.folder)
        make_users(self.folder)
        pathlib.Path(self.folder, "nginx.conf").write_text(MAIN.format(folder=self.folder), encoding="utf-8")
        texts = {path.name: path.read_text(encoding="utf-8") for path in EXAMPLES.glob("*.conf")}
        texts["example.conf"] = self.replaced()
        for name, text in texts.items():
            for installed, here in ((f"{INSTALLED}/nginx/", f"{self.folder}/"), (SHOTS, str(self.shots)), *PLACES):
                text = text.replace(installed, here)
            pathlib.Path(self.folder, name).write_text(text, encoding="utf-8")

    def __enter__(self) -> Proxy:
        self.folder = tempfile.mkdtemp(prefix="test-team-")
        self.write()
        self.nginx = subprocess.Popen(["nginx", "-e", f"{self.folder}/error.log", "-p", self.folder, "-c", f"{self.folder}/nginx.conf"],
                                      stdin=subprocess.DEVNULL, stdout=subprocess.DEVNULL, stderr=subprocess.DEVNULL)
        try:
            wait_for(self.nginx, self.port, f"nginx with {self.example}")
        except RuntimeError as error:
            raise RuntimeError(f"{error}: {pathlib.Path(self.folder, 'error.log').read_text(encoding='utf-8')}") from None
        return self

    def __exit__(self, *rest: object) -> None:
        self.nginx.terminate()
        self.nginx.wait()
        shutil.rmtree(self.folder)

    @property
    def shots(self) -> pathlib.Path:
        """The folder in which the folder of pictures stands, once it is made."""
        return pathlib.Path(self.folder, "silvervole")

    def make_shots(self) -> pathlib.Path:
        """Makes the folder of pictures, which nginx's workers may write, and gives it."""
        made = self.shots / "shots"
        made.mkdir(parents=True)
        made.chmod(0o777)
        return made

    @property
    def certificate(self) -> str:
        """The file of its certificate."""
        return f"{self.folder}/cert.pem"
