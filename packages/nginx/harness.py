"""What the tests of the module stand on: an nginx on the loopback, tokens, and the count of what passed."""
import contextlib
import http.client
import json
import os
import re
import shutil
import signal
import socket
import subprocess
import sys
import tempfile
import time

TOP = os.path.dirname(os.path.dirname(os.path.dirname(os.path.abspath(__file__))))
sys.path.append(f"{TOP}/tests")
import tokens as made

SECRET = b"0123456789abcdef0123456789abcdef"
NGINX = shutil.which("nginx") or "/usr/sbin/nginx"
NOW = int(time.time())
PASS = {"exp": NOW + 3600}
# of each worker
CONNECTIONS = 512
# odd items of a set
MANY = 100_000

CONF = """
load_module {module};
worker_processes {workers};
daemon off;
pid {work}/nginx.pid;
error_log {work}/error.log info;
events {{ worker_connections {connections}; }}
http {{
    log_format jwt '$status $jwt_status $jwt_claim_sub "$jwt_failed_test" "$jwt_refused_kid"';
    access_log {work}/access.log jwt;
    client_body_temp_path {work}/temp; proxy_temp_path {work}/temp; fastcgi_temp_path {work}/temp;
    uwsgi_temp_path {work}/temp; scgi_temp_path {work}/temp;
    keepalive_requests 1000000;
    {http}
    server {{
        listen 127.0.0.1:{port} default_server;
        root {work}/root;
        {server}
    }}
}}
"""

# what nginx itself does not give back, as a single process
KNOWN = """{
   nginx_environment
   Memcheck:Leak
   match-leak-kinds: definite
   fun:malloc
   fun:ngx_alloc
   fun:ngx_set_environment
}
{
   nginx_regular_expressions
   Memcheck:Leak
   match-leak-kinds: definite
   fun:malloc
   fun:ngx_alloc
   ...
   fun:ngx_regex_compile
}
"""

counts = {"passed": 0, "failed": 0}


def test(name, is_well):
    counts["passed" if is_well else "failed"] += 1
    if not is_well:
        print(f"FAILED: {name}", flush=True)


def finish(of_what):
    """Prints how many tests passed, and ends."""
    print(f"{counts['passed']} tests of {of_what}, {counts['failed']} failed")
    sys.exit(counts["failed"] > 0)


def part(raw):
    return made.part(raw).decode()


def signed(claims, secret=SECRET, digest="sha256", **header):
    return made.signed({"alg": "HS256", "kid": "a", **header}, claims, secret, digest).decode()


def oct_key(kid, secret=SECRET):
    return {"kty": "oct", "kid": kid, "k": part(secret)}


def free_port():
    with socket.socket() as found:
        found.bind(("127.0.0.1", 0))
        return found.getsockname()[1]


class Server:
    """An nginx in a folder of its own."""

    def __init__(self, module, work, server, workers=2, http_conf="", before=(), env=None):
        self.work, self.port, self.module = work, free_port(), module
        self.names = {"module": os.path.abspath(module), "work": work, "workers": workers, "port": self.port, "connections": CONNECTIONS}
        os.makedirs(f"{work}/root", exist_ok=True)
        for name in ("index.html", *re.findall(r"location (?:= )?/(\w[\w.]*)", server + http_conf)):
            self.write(f"root/{name}", "served\n")
        self.conf = server, http_conf
        self.configure(*self.conf)
        self.before = list(before)
        self.env = {**os.environ, **(env or {})}

    def write(self, name, value):
        with open(f"{self.work}/{name}", "w", encoding="utf-8", errors="surrogateescape") as file:
            file.write(value if isinstance(value, str) else json.dumps(value))

    def read(self, name):
        with open(f"{self.work}/{name}", encoding="utf-8", errors="replace") as file:
            return file.read()

    def configure(self, server, http_conf=""):
        text = CONF.format(server=server.format(**self.names), http=http_conf.format(**self.names), **self.names)
        if os.geteuid() == 0:
            text = "user root;\n" + text
        self.write("nginx.conf", text)

    def words(self, *words):
        return [NGINX, "-p", self.work, "-c", f"{self.work}/nginx.conf", "-e", f"{self.work}/error.log", *words]

    def start(self):
        # what nginx says is in error.log too
        self.process = subprocess.Popen([*self.before, *self.words()], env=self.env, stderr=subprocess.DEVNULL)
        for _ in range(3600):
            with contextlib.suppress(OSError), socket.create_connection(("127.0.0.1", self.port), 1):
                return
            if self.process.poll() is not None:
                break
            time.sleep(0.05)
        raise SystemExit(f"nginx does not start: {self.read('error.log')[-2000:]}")

    def stop(self):
        for _ in range(60):
            # again, since a signal just before a single process waits for events does not wake it
            self.process.send_signal(signal.SIGQUIT)
            with contextlib.suppress(subprocess.TimeoutExpired):
                return self.process.wait(1)
        self.process.kill()
        return self.process.wait()

    def check(self, server, http_conf=""):
        """Returns the status of nginx's test of a configuration, and what it says; None if it does not end."""
        self.configure(server, http_conf)
        self.write("error.log", "")
        try:
            ran = subprocess.run(self.words("-t"), capture_output=True, text=True, errors="replace", timeout=60)
        except subprocess.TimeoutExpired:
            return None, ""
        finally:
            self.configure(*self.conf)
        return ran.returncode, ran.stderr + self.read("error.log")

    def fetch(self, path, token=None, **headers):
        """Returns the status of a request, the headers of its answer, and its text."""
        if token is not None:
            headers["Authorization"] = f"Bearer {token}"
        connection = http.client.HTTPConnection("127.0.0.1", self.port, timeout=60)
        connection.request("GET", path, headers=headers)
        answer = connection.getresponse()
        text = answer.read().decode("utf-8", "replace")
        connection.close()
        return answer.status, answer.headers, text

    def get(self, path="/", token=None, **headers):
        """Returns the status of a request, and the headers of its answer."""
        return self.fetch(path, token, **headers)[:2]


def eventually(holds):
    for _ in range(200):
        if holds():
            return True
        time.sleep(0.05)
    return False


def many_items(good):
    """Returns the text of a set of less than 1 MiB: MANY odd items, and a key at its end."""
    text = '{"keys":[' + '{"kid":7},' * MANY + json.dumps(good, separators=(",", ":")) + "]}"
    assert len(text) < 2**20
    return text


def warnings(server, directive):
    """Returns what the log says, at the level warn, of the keys of a directive, auth_jwt_key_file or auth_jwt_key_request."""
    return re.findall(rf"\[warn\] [^\n]*: auth_jwt_key_{directive}([^\n]*)", server.read("error.log"))


def logs(server):
    texts = server.read("error.log") + server.read("access.log")
    test("no token is in a log", not re.search(r"eyJ[\w-]+\.", texts))
    test(f"no alert: {[it for it in texts.splitlines() if '[alert]' in it or '[crit]' in it][:3]}", "[alert]" not in texts and "[crit]" not in texts)


class Watched(Server):
    """An nginx of one worker under watch.c, whose time of day is set, and which counts what the library is asked."""

    def __init__(self, module, work, server, http_conf=""):
        super().__init__(module, work, server, 1, http_conf, env={"LD_PRELOAD": f"{work}/watch.so"})
        flags = subprocess.run(["pkg-config", "--cflags", "jwtproved"], capture_output=True, text=True, check=True).stdout.split()
        words = [os.environ.get("CC", "cc"), "-shared", "-fPIC", "-O1", "-Wall", "-Wextra", "-Werror", *flags]
        words += [f'-DMOMENT="{work}/moment"', f'-DCALLS="{work}/calls"', f"{TOP}/packages/nginx/watch.c", "-o", f"{work}/watch.so"]
        subprocess.run(words, check=True)
        self.write("calls", "")
        self.at(NOW - 100)

    def at(self, moment):
        self.write("moment.new", str(moment))
        os.replace(f"{self.work}/moment.new", f"{self.work}/moment")

    def ask(self, path, token, **headers):
        """Returns the status of a request, and how often the library was asked about a token."""
        before = os.path.getsize(f"{self.work}/calls")
        status, _ = self.get(path, token, **headers)
        return status, os.path.getsize(f"{self.work}/calls") - before


def resident(server):
    """Returns the resident memory of each worker, in KiB."""
    found = subprocess.run(["ps", "-o", "rss=", "--ppid", str(server.process.pid)], capture_output=True, text=True)
    return [int(it) for it in found.stdout.split()]


@contextlib.contextmanager
def started(server):
    """Runs an nginx, and tests how it ended."""
    server.start()
    try:
        yield server
    finally:
        status = server.stop()
    test(f"nginx ended with {status}", status == 0)
    logs(server)


@contextlib.contextmanager
def under_valgrind(server):
    """Runs an nginx of one process under valgrind, and tests that it has no errors and no lost memory."""
    server.before = ["valgrind", "-q", "--error-exitcode=99", "--leak-check=full", "--show-leak-kinds=definite"]
    server.before += ["--errors-for-leak-kinds=definite", f"--suppressions={server.work}/known", f"--log-file={server.work}/valgrind.%p"]
    server.write("known", KNOWN)
    server.write("nginx.conf", server.read("nginx.conf").replace("daemon off;", "daemon off; master_process off;"))
    server.start()
    yield server
    status = server.stop()
    said = "".join(server.read(name) for name in os.listdir(server.work) if name.startswith("valgrind."))
    print(said)
    test(f"valgrind ended with {status}", status == 0 and not said.strip())
