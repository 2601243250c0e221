#!/usr/bin/env python3
"""Runs the two servers of docs/USERS.md over a PostgreSQL of the test's own, where it is installed.

    tests/users_database.py      after `make export` and `make lib`

The servers are examples/rust/users_server and examples/c/users_server.c, and each has the blocks of
the page. Users are added, changed and removed by one program while another serves, and the database
goes away and comes back. A part whose tools are not there is left out, and said so.
"""
import contextlib
import glob
import hashlib
import os
import pathlib
import re
import shutil
import subprocess
import sys
import tempfile

import stun
from users_page import blocks

TOP = pathlib.Path(__file__).resolve().parent.parent
sys.path.insert(0, str(TOP / "tests/udp"))
from harness import Peer  # noqa: E402

EXPORTED, ARCHIVE = TOP / "target/export", TOP / "target/c/libstunp.a"
REGISTRY = pathlib.Path("/usr/share/cargo/registry")
REALM, NAME, PASSWORD = "example.org", "alice", "wonderland"
USERHASH = 0x001E


def tool(name):
    """The path of a program of PostgreSQL, or None."""
    found = sorted(glob.glob(f"/usr/lib/postgresql/*/bin/{name}"))
    return shutil.which(name) or (found[-1] if found else None)


class Database:
    """A PostgreSQL in a folder, which listens at a socket there alone. It does not run as root, so
    then it runs as the user whom Debian's package makes."""

    def __init__(self, folder):
        self.data, self.folder = f"{folder}/data", folder
        self.words = f"host={folder} user=stun dbname=postgres"
        if os.geteuid() == 0:
            shutil.chown(folder, "postgres")
        os.chmod(folder, 0o755)
        self.run("initdb", "-U", "stun", "-A", "trust", "--no-sync", "-D", self.data)

    def run(self, name, *words):
        before = ["runuser", "-u", "postgres", "--"] if os.geteuid() == 0 else []
        subprocess.run([*before, tool(name), *words], check=True, cwd=self.folder,
                       stdout=subprocess.DEVNULL, stdin=subprocess.DEVNULL)

    def start(self):
        self.run("pg_ctl", "-w", "-D", self.data, "-l", f"{self.folder}/log", "-o",
                 f"-c listen_addresses='' -c fsync=off -k {self.folder}", "start")

    def stop(self):
        self.run("pg_ctl", "-w", "-D", self.data, "-m", "fast", "stop")

    def make_table(self):
        table, = (block for block in blocks() if block.startswith("create table"))
        subprocess.run([tool("psql"), "-q", "-v", "ON_ERROR_STOP=1", self.words, "-c", table],
                       check=True)

    def __enter__(self):
        self.start()
        return self

    def __exit__(self, *_):
        with contextlib.suppress(subprocess.CalledProcessError):
            self.stop()


# ---- The programs


def has_blocks(source, wanted):
    """The blocks of the page are in the program, which may break lines elsewhere."""
    def bare(text):
        return re.sub(r",(?=[)\]}])", "", re.sub(r"\s", "", text))
    text = bare((TOP / source).read_text())
    missing = [block for block in wanted if bare(block) not in text]
    assert not missing, f"{source} lacks what docs/USERS.md prints:\n{missing[0]}"


def in_rust():
    """The program in Rust, or why there is none."""
    page = blocks()
    two = [block for block in page if "use seatcrane_stun" in block and "Row" in block]
    loop = [block for block in page if "tokio::spawn" in block]
    has_blocks("examples/rust/users_server/src/main.rs", two + loop)
    if not (EXPORTED / "Cargo.toml").is_file() or not shutil.which("cargo"):
        return None, "no exported crate (make export)"
    if not list(REGISTRY.glob("tokio-postgres-0.7*")):
        return None, "no librust-tokio-postgres-dev"
    target = TOP / "target/users_server"
    debian = ["--config", 'source.crates-io.replace-with="debian"',
              "--config", f'source.debian.directory="{REGISTRY}"']
    subprocess.run(["cargo", *debian, "build", "--quiet", "--offline"], check=True,
                   cwd=TOP / "examples/rust/users_server",
                   env={**os.environ, "CARGO_TARGET_DIR": str(target)})
    return target / "debug/users_server", None


def in_c(folder):
    """The program in C, or why there is none."""
    has_blocks("examples/c/users_server.c", [one for one in blocks() if "#include" in one])
    compiler = os.environ.get("CC", "cc")
    if not ARCHIVE.is_file() or not shutil.which(compiler.split()[0]):
        return None, "no target/c/libstunp.a (make lib)"
    if not shutil.which("pg_config") or not shutil.which("make"):
        return None, "no libpq-dev"
    subprocess.run(["make", "-s", "-C", TOP / "examples/c", f"CC={compiler}", f"OUT={folder}",
                    "CFLAGS=-O1 -g -Wall -Wextra -Wpedantic -Wconversion -Werror",
                    *(f"{name}={ARCHIVE}" for name in ("LIBRARY", "ENDPOINT")),
                    "SYSTEM=-lpthread -ldl -lm", f"{folder}/users_server"], check=True)
    return pathlib.Path(folder, "users_server"), None


@contextlib.contextmanager
def serving(program, database):
    """A peer of a running server."""
    with subprocess.Popen([program, database.words, REALM, "serve", "0"], text=True,
                          stdout=subprocess.PIPE) as server:
        try:
            line = server.stdout.readline()
            assert line.startswith("port "), f"{program}: it did not start: {line}"
            with Peer(int(line.split()[1])) as peer:
                yield peer
        finally:
            server.kill()


# ---- The cases


def signed(peer, name=NAME, password=PASSWORD, algorithm=stun.SHA256, is_hashed=False):
    """A request for Binding that answers the server's challenge."""
    challenge = peer.ask(stun.message(stun.REQUEST))
    assert stun.code_of(challenge) == 401
    if not is_hashed:
        return stun.answered(stun.REQUEST, challenge, name, REALM, password, algorithm)
    offer = stun.value_of(challenge, stun.PASSWORD_ALGORITHMS)
    attributes = [(USERHASH, hashlib.sha256(f"{name}:{REALM}".encode()).digest()),
                  (stun.REALM, REALM.encode()), (stun.NONCE, stun.value_of(challenge, stun.NONCE)),
                  (stun.PASSWORD_ALGORITHMS, offer),
                  (stun.PASSWORD_ALGORITHM, algorithm.to_bytes(2, "big") + b"\0\0")]
    key = stun.key_of(algorithm, name, REALM, password)
    return stun.signed(stun.message(stun.REQUEST, attributes), algorithm, key)


def comes_to(peer, code, *words, **named):
    answer = peer.ask(signed(peer, *words, **named))
    assert stun.code_of(answer) == code, f"{words} {named}: {stun.code_of(answer)}, not {code}"


def change(program, database, *words):
    subprocess.run([program, database.words, REALM, *words], check=True)


def is_silent(peer, request):
    """The request gets no response, because its user cannot be looked up. Others are refused."""
    peer.socket.settimeout(1.5)
    peer.socket.sendto(request, peer.target)
    try:
        answer = peer.socket.recv(4096)
    except TimeoutError:
        answer = None
    peer.socket.settimeout(10)
    assert answer is None, f"without its database the server said {stun.code_of(answer)}"
    assert stun.code_of(peer.ask(stun.message(stun.REQUEST))) == 401


def try_all(server, other, database):
    """One program serves, and another changes the rows meanwhile."""
    change(other, database, "set", NAME, PASSWORD)
    with serving(server, database) as peer:
        for algorithm in (stun.SHA1, stun.SHA256):
            for is_hashed in (False, True):
                comes_to(peer, 200, algorithm=algorithm, is_hashed=is_hashed)
        comes_to(peer, 401, NAME, "wrong")
        comes_to(peer, 401, "nobody", PASSWORD)
        comes_to(peer, 401, "Alice", PASSWORD)
        comes_to(peer, 401, "ali\0ce", PASSWORD)
        change(other, database, "set", NAME, "another")
        comes_to(peer, 401)
        comes_to(peer, 200, NAME, "another")
        change(other, database, "remove", NAME)
        comes_to(peer, 401, NAME, "another")
        change(other, database, "set", NAME, PASSWORD)
        database.stop()
        is_silent(peer, signed(peer))
        database.start()
        comes_to(peer, 200)


def main():
    missing = [name for name in ("initdb", "pg_ctl", "psql") if not tool(name)]
    if missing or os.geteuid() == 0 and not shutil.which("runuser"):
        print("users_database: left out, PostgreSQL is not installed")
        return 0
    with tempfile.TemporaryDirectory() as folder, tempfile.TemporaryDirectory() as built:
        programs, tried = [], []
        for language, (program, why) in (("Rust", in_rust()), ("C", in_c(built))):
            if program:
                programs.append(program)
                tried.append(language)
            else:
                print(f"users_database: in {language}: left out, {why}")
        with Database(folder) as database:
            database.make_table()
            for server, other in zip(programs, reversed(programs)):
                try_all(server, other, database)
    if tried:
        print(f"users_database: in {' and in '.join(tried)}: as it should be")
    return 0


if __name__ == "__main__":
    sys.exit(main())
