"""Proxies in front of a server, by the texts of docs/proxy, in which only places, ports and paths are replaced, and their clients, over TLS."""
import os
import pwd
import shutil
import ssl
import subprocess

from served import Connection, Started, listeners_on, until

PAGES = os.path.join(os.path.dirname(os.path.dirname(os.path.dirname(os.path.realpath(__file__)))), "docs", "proxy")
# The domain that the configurations name.
DOMAIN = "club.example"
# What stands around the part of nginx's configuration that is tried: all that is made goes into its folder.
NGINX = """daemon off;
{user}
worker_processes 2;
pid nginx.pid;
error_log main-error.log;
events {{ worker_connections 4096; }}
http {{
    client_body_temp_path temp; proxy_temp_path temp; fastcgi_temp_path temp; uwsgi_temp_path temp; scgi_temp_path temp;
    include lumbyte.conf;
}}
"""


class NoProxy(Exception):
    """A proxy isn't there, or its configuration isn't as it is expected."""


def program_named(name):
    """The path of a program of the system, or None."""
    return shutil.which(name, path=os.pathsep.join([os.environ.get("PATH", os.defpath), "/usr/sbin", "/sbin"]))


def certify(folder):
    """Makes a certificate for the wildcard, which nobody else has signed, and gives the paths of it and of its key."""
    certificate, key = (os.path.join(folder, name) for name in ("certificate.pem", "certificate.key"))
    words = ["openssl", "req", "-x509", "-newkey", "ec", "-pkeyopt", "ec_paramgen_curve:prime256v1", "-nodes", "-days", "2",
             "-subj", f"/CN=*.{DOMAIN}", "-addext", f"subjectAltName=DNS:*.{DOMAIN}", "-keyout", key, "-out", certificate]
    made = subprocess.run(words, stdin=subprocess.DEVNULL, capture_output=True, text=True, check=False)
    if made.returncode != 0:
        raise NoProxy(f"openssl made no certificate: {made.stderr}")
    return certificate, key


def replaced(name, changes):
    """A text of docs/proxy with replacements, each of which has to have its place."""
    with open(os.path.join(PAGES, name), encoding="utf-8") as file:
        text = file.read()
    for old, new in changes.items():
        if old not in text:
            raise NoProxy(f"docs/proxy/{name} doesn't have {old!r}")
        text = text.replace(old, new)
    return text


def write(folder, name, text):
    with open(os.path.join(folder, name), "w", encoding="utf-8") as file:
        file.write(text)


class Proxy(Started):
    """A proxy, started in a folder of its own, in front of both ports of a server."""

    # The program and Debian's package of it, and the page that is tried.
    name, page = "", ""

    def __init__(self, folder, port, server):
        self.folder, self.port, self.held = folder, port.number, port
        self.certificate, key = certify(folder)
        ports = {"127.0.0.1:8080": f"127.0.0.1:{server.port}", "127.0.0.1:8081": f"127.0.0.1:{server.tunnels}"}
        paths = {f"/etc/ssl/certs/{DOMAIN}.pem": self.certificate, f"/etc/ssl/private/{DOMAIN}.key": key}
        words = self.words(program_named(self.name), {**ports, **paths})
        self.context = ssl.create_default_context(cafile=self.certificate)
        super().__init__(words[0], words[1:], folder)
        until(self.name, lambda: self.has_ended() or listeners_on(self.port))
        if self.has_ended():
            raise NoProxy(f"{self.name} ended at once: {self.complaints().decode(errors='replace')}")

    def words(self, program, changes):
        """Writes the configuration, and gives the words that start it."""
        raise NotImplementedError

    def secured(self, connection, name):
        """A connection to the proxy, over TLS from now on, where the certificate is good for the name."""
        connection.socket = self.context.wrap_socket(connection.socket, server_hostname=name)
        return connection

    def connect(self, name):
        return self.secured(Connection(self.port), name)

    def logs(self):
        """What it has written and printed in all."""
        found = [self.printed(), self.complaints()]
        for folder, _, names in os.walk(self.folder):
            for name in names:
                path = os.path.join(folder, name)
                if os.path.isfile(path):
                    with open(path, "rb") as file:
                        found.append(file.read())
        return b"\n".join(found).decode(errors="replace")


class Nginx(Proxy):
    name, page = "nginx", "nginx.conf"

    def words(self, program, changes):
        os.mkdir(os.path.join(self.folder, "temp"))
        logs = {f"/var/log/nginx/lumbyte{end}": os.path.join(self.folder, f"lumbyte{end}") for end in (".log", "-error.log")}
        write(self.folder, "lumbyte.conf", replaced(self.page, {**changes, **logs, "listen 443 ": f"listen 127.0.0.1:{self.port} "}))
        # (else its workers run as another user, who doesn't reach the folder)
        user = f"user {pwd.getpwuid(os.geteuid()).pw_name};" if os.geteuid() == 0 else ""
        write(self.folder, "nginx.conf", NGINX.format(user=user))
        return [program, "-p", self.folder, "-c", "nginx.conf"]


class Caddy(Proxy):
    name, page = "caddy", "Caddyfile"

    def words(self, program, changes):
        site = f"*.{DOMAIN} {{"
        write(self.folder, "Caddyfile", replaced(self.page, {**changes, site: f"*.{DOMAIN}:{self.port} {{\n\tbind 127.0.0.1"}))
        places = [f"{name}={self.folder}" for name in ("HOME", "XDG_DATA_HOME", "XDG_CONFIG_HOME")] + [f"CADDY_ADMIN=unix/{self.folder}/admin.sock"]
        return ["env", *places, program, "run", "--config", "Caddyfile", "--adapter", "caddyfile"]
