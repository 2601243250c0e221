"""The subjects that are shipped: how each is built and started, or why it cannot be here."""

import os
import shlex
import shutil
import subprocess

from grammar import TOP
from subject import Module, Program, subject_of

HERE = os.path.dirname(os.path.abspath(__file__))
SUBJECTS = os.path.join(HERE, "subjects")
BUILT = os.path.join(TOP, "target", "conformance")
GO_PATH = "/usr/share/gocode"
# Those of this library, and then the others.
ENDPOINTS = ("endpoint", "endpoint-rust")
OURS = (*ENDPOINTS, "stunp")
NAMES = (*OURS, "model", "second", "aioice", "pion", "libnice", "coturn", "libre",
         "turnserver", "p1_stun")


# The program of the subject endpoint-rust.
MANIFEST = """\
[package]
name = "endpoint"
version = "0.0.0"
edition = "2024"

[dependencies]
seatcrane-stun = { path = "../../export" }

[workspace]
"""


class Missing(Exception):
    """What a subject needs and is not installed."""


def source(name):
    return os.path.join(SUBJECTS, name)


def newer(made, name):
    """Whether a program is newer than its source."""
    sources = (source(name), source("lines.h"))
    return os.path.exists(made) and os.path.getmtime(made) > max(map(os.path.getmtime, sources))


def run(command, **more):
    done = subprocess.run(command, capture_output=True, text=True, **more)
    if done.returncode != 0:
        raise Missing(f"{command[0]} fails: {(done.stderr or done.stdout).strip()[:300]}")
    return done.stdout


def built_c(name, flags):
    made = os.path.join(BUILT, name)
    os.makedirs(BUILT, exist_ok=True)
    if not newer(made, name + ".c"):
        compiler = shutil.which(os.environ.get("CC", "cc"))
        if compiler is None:
            raise Missing("no C compiler")
        run([compiler, "-O1", "-w", "-o", made, source(name + ".c"), *flags])
    return Program(made)


def linked(archives):
    """A shared library of archives for C, such as the proved ones."""
    compiler = shutil.which(os.environ.get("CC", "cc"))
    absent = [one for one in archives if not os.path.exists(one)]
    if compiler is None or absent:
        raise Missing("no C compiler" if compiler is None else f"{absent[0]} is not built")
    os.makedirs(BUILT, exist_ok=True)
    made = os.path.join(BUILT, "linked.so")
    run([compiler, "-shared", "-fPIC", "-o", made, "-Wl,--whole-archive", *archives,
         "-Wl,--no-whole-archive", os.path.join(TOP, "examples", "c", "heap.c"),
         "-I" + os.path.join(TOP, "include")])
    return made


def through_c(name):
    """A subject that calls the library for C: the exported one, or that of the environment."""
    archives = os.environ.get("STUNP_ARCHIVES", "").split()
    if archives:
        os.environ["STUNP_LIBRARY"] = linked(archives)
    library = os.environ.get("STUNP_LIBRARY", os.path.join(TOP, "target", "c", "libstunp.so"))
    if not os.path.exists(library):
        raise Missing(f"{os.path.relpath(library, TOP)} is not built (`make lib`)")
    return Module(source(name + ".py"))


def endpoint():
    return through_c("endpoint")


def endpoint_rust():
    """The exported crate, by a program that cargo builds beside it with its crates."""
    export = os.path.join(TOP, "target", "export")
    folder = os.path.join(BUILT, "endpoint-rust")
    made = os.path.join(folder, "target", "release", "endpoint")
    if shutil.which("cargo") is None or not os.path.exists(os.path.join(export, "Cargo.lock")):
        raise Missing("the crate is not exported (`make export`), or there is no cargo")
    sources = [source("endpoint.rs"), os.path.join(export, "src", "lib.rs")]
    if not (os.path.exists(made) and os.path.getmtime(made) > max(map(os.path.getmtime, sources))):
        os.makedirs(os.path.join(folder, "src"), exist_ok=True)
        shutil.copy(source("endpoint.rs"), os.path.join(folder, "src", "main.rs"))
        shutil.copy(os.path.join(export, "Cargo.lock"), folder)
        with open(os.path.join(folder, "Cargo.toml"), "w", encoding="utf-8") as file:
            file.write(MANIFEST)
        settings = os.path.join(export, ".cargo", "config.toml")
        config = ["--config", settings] if os.path.exists(settings) else []
        run(["cargo", *config, "build", "--release"], cwd=folder)
    return Program(shlex.quote(made))


def stunp():
    return through_c("stunp")


def model():
    return Module(source("model.py"))


def second():
    return Module(source("second.py"))


def aioice():
    """By the Python that has the package: Debian's, if it is another."""
    for python in ("python3", "/usr/bin/python3"):
        found = shutil.which(python)
        if found and subprocess.run([found, "-c", "import aioice"],
                                    capture_output=True).returncode == 0:
            return Program(f"{shlex.quote(found)} {shlex.quote(os.path.join(HERE, 'lines.py'))} "
                           f"{shlex.quote(source('aioice.py'))}")
    raise Missing("python3-aioice is not installed")


def pion():
    made = os.path.join(BUILT, "pion")
    if not os.path.isdir(os.path.join(GO_PATH, "src/github.com/pion/stun")):
        raise Missing("golang-github-pion-stun-dev is not installed")
    if not newer(made, "pion.go"):
        go = shutil.which("go")
        if go is None:
            raise Missing("golang-go is not installed")
        os.makedirs(BUILT, exist_ok=True)
        run([go, "build", "-o", made, source("pion.go")],
            env={**os.environ, "GO111MODULE": "off", "GOPATH": GO_PATH, "GOFLAGS": "",
                 "GOCACHE": os.path.join(BUILT, "go")})
    return Program(made)


def libnice():
    found = shutil.which("pkg-config")
    if not found or subprocess.run([found, "--exists", "nice"]).returncode != 0:
        raise Missing("libnice-dev is not installed")
    flags = run([found, "--cflags", "--libs", "nice"]).split()
    return built_c("libnice", flags)


def coturn():
    if not os.path.exists("/usr/include/turn/ns_turn_msg.h"):
        raise Missing("coturn is not installed")
    return built_c("coturn", ["-lturnclient", "-lcrypto", "-lssl"])


def libre():
    if not os.path.exists("/usr/include/re/re_stun.h"):
        raise Missing("libre-dev is not installed")
    return built_c("libre", ["-I/usr/include/re", "-lre"])


def turnserver():
    if shutil.which("turnserver") is None:
        raise Missing("coturn is not installed")
    return Module(source("turnserver.py"))


def p1_stun():
    """The STUN of ejabberd, by Erlang's escript."""
    found = shutil.which("escript")
    has = found and run([found.replace("escript", "erl"), "-noshell", "-eval",
                         "io:format(\"~s\", [code:lib_dir(p1_stun)]), halt()."])
    if not has or not os.path.isdir(has):
        raise Missing("erlang-p1-stun is not installed")
    return Program(f"{shlex.quote(found)} {shlex.quote(source('p1_stun.escript'))}")


STARTS = {one.__name__.replace("_rust", "-rust"): one for one in
          (endpoint, endpoint_rust, stunp, model, second, aioice, pion, libnice, coturn, libre,
           turnserver, p1_stun)}


def start(word):
    """A subject, or none and why."""
    try:
        return (STARTS[word]() if word in STARTS else subject_of(word)), None
    except Missing as why:
        return None, str(why)
    except OSError as error:
        raise SystemExit(f"{word} is no subject: {error}") from None
