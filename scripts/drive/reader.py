"""What a reader of README.md and docs/OPERATING.md has: their blocks of lines, a folder like the repository, ports of
their own, and what stands in for `haproxy`, `socat` and `rt try`.
"""

import contextlib
import pathlib
import re
import select
import shutil
import socket
import ssl
import subprocess
import sys
import threading
import time

SECONDS = 90
ROOT = pathlib.Path(__file__).resolve().parents[2]
README, OPERATING = ROOT / "README.md", ROOT / "docs/OPERATING.md"
PORTS = "7000", "7001", "7002", "7003", "7004", "7443"
# `rt try -- WORD..` in the folder of a crate: its built program, or what an example is stored to print.
TRY = """#!/bin/sh
crate=out/${PWD##*/}
[ -x $crate ] || exec cat stdout
shift 2
exec $crate "$@"
"""

# The pages ---------------------------------------------------------------------------------------------------------


def sections(path):
    """The blocks of indented lines in each section, by the section's heading."""
    found, blocks = {}, []
    for line in path.read_text().splitlines():
        if line.startswith("#"):
            found[line.lstrip("# ")] = blocks = [""]
        elif line.startswith("    ") or (not line and blocks and blocks[-1]):
            blocks[-1] += line[4:] + "\n"
        elif blocks and blocks[-1]:
            blocks.append("")
    return {heading: [part for block in blocks for part in parts(block)] for heading, blocks in found.items()}


def parts(block):
    """The parts of a block between empty lines: lines to run, and what they print. A file between `END`s is one part."""
    part, is_file = "", False
    for line in block.splitlines():
        if not line and not is_file:
            if part:
                yield part
            part = ""
            continue
        is_file = line.endswith("<<'END'") or (is_file and line != "END")
        part += line + "\n"
    if part:
        yield part


def like(text):
    """A text without its numbers: epochs are others each time."""
    return re.sub(r"\b\d+\b", "N", text)


def cron(line):
    """The command of a line of the crontab, as cron hands it to sh: up to a `%` that has no backslash."""
    return re.split(r"(?<!\\)%", line.split(None, 1 if line.startswith("@") else 5)[-1])[0].replace("\\%", "%")


# What stands in ----------------------------------------------------------------------------------------------------


def pass_on(near, far):
    """Passes on what two sockets send, until one ends."""
    while True:
        buffered = [each for each in (near, far) if isinstance(each, ssl.SSLSocket) and each.pending()]
        for source in buffered or select.select([near, far], [], [])[0]:
            data = source.recv(65536)
            if not data:
                return
            (far if source is near else near).sendall(data)


def relay(port, connected, accepted=lambda peer: peer):
    """Passes the connections to a port on to what `connected` gives, for as long as the program runs."""

    def serve(peer):
        with contextlib.suppress(OSError), accepted(peer) as near, connected() as far:
            pass_on(near, far)

    def listen():
        with contextlib.suppress(OSError):
            while True:
                threading.Thread(target=serve, args=(listener.accept()[0],), daemon=True).start()

    listener = socket.create_server(("127.0.0.1", int(port)))
    threading.Thread(target=listen, daemon=True).start()
    return listener


def free():
    with socket.socket() as listener:
        listener.bind(("127.0.0.1", 0))
        return listener.getsockname()[1]


# The reader --------------------------------------------------------------------------------------------------------


class Reader:
    def __init__(self, program, folder):
        self.page, self.readme = sections(OPERATING), sections(README)
        self.folder, self.home = folder / "repository", folder / "home"
        self.watching = self.home / "watching"
        self.ports = {port: str(free()) for port in PORTS}
        tools, out, example = folder / "tools", self.folder / "crates/directoryd/out", self.folder / "crates/broken_final"
        for made in self.home, tools, out, example:
            made.mkdir(parents=True)
        (tools / "rt").write_text(TRY)
        (tools / "rt").chmod(0o755)
        (tools / "python3").symlink_to(sys.executable)
        shutil.copy(program, out / "directoryd")
        shutil.copy(ROOT / "crates/broken_final/stdout", example)
        shutil.copytree(ROOT / "examples", self.folder / "examples")
        configuration = self.folder / "examples/haproxy.cfg"
        configuration.write_text(self.lines(configuration.read_text()))
        (self.folder / "scripts").symlink_to(ROOT / "scripts")
        self.environment = {"HOME": str(self.home), "PATH": f"{tools}:/usr/sbin:/usr/bin:/bin"}
        self.count, self.failures, self.running = 0, [], contextlib.ExitStack()

    def lines(self, text):
        """Lines of a page, with the ports of this run."""
        return re.sub(r"\b(localhost|127\.0\.0\.1|TCP-LISTEN):(\d+)", lambda found: f"{found[1]}:{self.ports.get(found[2], found[2])}", text)

    def block(self, heading, words, of=None):
        """The part of a section that has these words, and the one behind it."""
        found = [*(of or self.page)[heading], ""]
        place = next(number for number, part in enumerate(found) if words in part)
        return found[place], found[place + 1]

    def tool(self, name):
        """Where a program is installed, or None."""
        return shutil.which(name, path=self.environment["PATH"])

    def same(self, what, wanted, got):
        self.count += 1
        if wanted != got:
            self.failures.append(f"{what}: wanted {wanted!r}, got {got!r}")

    def until(self, port, is_open=True):
        """Waits until something listens at a port, or nothing."""
        for _ in range(300):
            with contextlib.suppress(OSError), socket.create_connection(("127.0.0.1", int(port)), 1):
                if is_open:
                    return
                time.sleep(0.1)
                continue
            if not is_open:
                return
            time.sleep(0.1)

    def haproxy(self):
        """The proxy that speaks TLS, in the place of haproxy."""
        context = ssl.create_default_context(ssl.Purpose.CLIENT_AUTH)
        context.load_cert_chain(self.folder / "keys/tls.pem")
        relay(self.ports["7443"], lambda: socket.create_connection(("127.0.0.1", int(self.ports["7000"]))),
              lambda peer: context.wrap_socket(peer, server_side=True))

    def socat(self):
        """What connects to the proxy by TLS, in the place of socat. Returns what ends it."""
        context = ssl.create_default_context(cafile=self.watching / "tls.crt")
        context.hostname_checks_common_name = True
        # After a handshake of a later version the peer sends what is for TLS alone, and a read of it waits for more.
        context.maximum_version = ssl.TLSVersion.TLSv1_2

        def connected():
            return context.wrap_socket(socket.create_connection(("127.0.0.1", int(self.ports["7443"]))), server_hostname="localhost")

        listener = relay(self.ports["7002"], connected)

        def end():
            listener.shutdown(socket.SHUT_RDWR)
            listener.close()

        return end

    def verify(self, units, *options):
        """Files of systemd are well formed, if `systemd-analyze` is there to say it."""
        if analyze := self.tool("systemd-analyze"):
            environment = {**self.environment, "XDG_RUNTIME_DIR": str(self.home)}
            run = subprocess.run([analyze, *options, "verify", *units], env=environment, capture_output=True, text=True, timeout=SECONDS)
            self.same("systemd-analyze verify", ("", 0), (run.stderr, run.returncode))
