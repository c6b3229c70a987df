"""The program over the catalogue of examples/web, and nginx before it."""
import http.client
import pathlib
import re
import shutil
import socket
import subprocess
import textwrap
import time

TOP = pathlib.Path(__file__).resolve().parent.parent.parent
WEB, PAGE, OPERATING = TOP / "examples" / "web", TOP / "examples" / "browser", TOP / "docs" / "OPERATING.md"
OPERATORS = """worker_processes 1;
pid {folder}/pid;
error_log {folder}/error;
events {{ worker_connections 256; }}
http {{
access_log {folder}/access;
client_body_temp_path {folder}/body; proxy_temp_path {folder}/proxy; fastcgi_temp_path {folder}/fastcgi;
uwsgi_temp_path {folder}/uwsgi; scgi_temp_path {folder}/scgi;
{block}}}
"""


def free_ports(count):
    links = [socket.create_server(("127.0.0.1", 0)) for _ in range(count)]
    ports = [it.getsockname()[1] for it in links]
    for it in links:
        it.close()
    return ports


def replaced(text, *pairs):
    """A text in which each of these stands once, with another in its place."""
    for old, new in pairs:
        if text.count(old) != 1:
            raise SystemExit(f"{old!r} stands {text.count(old)} times, not once")
        text = text.replace(old, new)
    return text


def wait_for(port, process, seconds=30):
    for _ in range(int(100 * seconds)):
        if process.poll() is not None:
            raise SystemExit(f"{process.args[0]} ended with {process.returncode}")
        try:
            return socket.create_connection(("127.0.0.1", port), timeout=5).close()
        except OSError:
            time.sleep(0.01)
    raise SystemExit(f"{process.args[0]} takes no connection")


def stop(process):
    process.terminate()
    try:
        process.wait(20)
    except subprocess.TimeoutExpired:
        process.kill()
        process.wait()


class Served:
    """The program, serving a new cache at a port. Its capabilities document names the address that clients are to reach, and has the paths of
    single tiles or not."""

    def __init__(self, program, folder, port, address, has_paths):
        folder.mkdir(parents=True, exist_ok=True)
        text = (WEB / "capabilities.xml").read_text().replace("http://localhost:8080", address)
        if not has_paths:
            text = re.sub(r" *<ResourceURL [^>]*/>\n", "", text)
        (folder / "capabilities.xml").write_text(text)
        shutil.copy(WEB / "catalogue.json", folder)
        subprocess.run([program, "make"], cwd=folder, check=True, stdout=subprocess.DEVNULL)
        self.port, self.address = port, f"http://127.0.0.1:{port}"
        self.process = subprocess.Popen([program, "serve", "--port", str(port), "--connections", "1000000"], cwd=folder)
        wait_for(port, self.process)

    def ask(self, path, method="GET", body=None):
        link = http.client.HTTPConnection("127.0.0.1", self.port, timeout=60)
        link.request(method, path, body)
        answer = link.getresponse()
        data = answer.read()
        link.close()
        return answer, data

    def number(self, layer, style, zoom, row, col):
        """The number of a kept tile's render."""
        answer, _ = self.ask(f"/rest/wmts/{layer}/{style}/web/{zoom}/{row}/{col}.ppm")
        return int(answer.headers["tile-render"])

    def stop(self):
        stop(self.process)


class Proxy:
    """nginx with a configuration."""

    def __init__(self, folder, port, text):
        (folder / "nginx.conf").write_text(text)
        self.port, self.address = port, f"http://127.0.0.1:{port}"
        self.told = (folder / "told").open("wb")
        self.process = subprocess.Popen(["nginx", "-p", str(folder), "-c", str(folder / "nginx.conf"), "-g", "daemon off;"], stderr=self.told)
        wait_for(port, self.process)

    def stop(self):
        stop(self.process)
        self.told.close()


def operators_proxy(folder, port, served_port):
    """The configuration of docs/OPERATING.md, with these ports."""
    folder.mkdir(parents=True, exist_ok=True)
    block = re.search(r"(?ms)^    upstream tiles \{.*?^    \}\n", OPERATING.read_text())
    text = replaced(textwrap.dedent(block[0]), ("127.0.0.1:8080", f"127.0.0.1:{served_port}"), ("listen 80;", f"listen {port};"))
    return Proxy(folder, port, OPERATORS.format(folder=folder, block=text))


def page_proxy(folder, port, served_port):
    """The page and the configuration of examples/browser, with these ports, and with nginx's own files in this folder."""
    folder.mkdir(parents=True, exist_ok=True)
    for name in ("index.html", "parts.html", "page.css", "view.js", "map.js", "tiles.js"):
        shutil.copy(PAGE / name, folder)
    text = replaced((PAGE / "nginx.conf").read_text(), ("127.0.0.1:8080", f"127.0.0.1:{served_port}"), ("listen 8000;", f"listen {port};"))
    return Proxy(folder, port, text.replace("/tmp/tile_browser", f"{folder}/nginx"))
