"""Network namespaces for tests: hosts and routers that need no rights, and go with the process."""
import os
import shutil
import subprocess
import sys

import harness

SERVER, CLIENT = (harness.TOP / "examples/c/out" / name for name in ("udp_server", "udp_client"))


class Refused(Exception):
    """The machine does not do this, and why."""


def run(*words, text=""):
    done = subprocess.run(words, input=text, capture_output=True, text=True)
    if done.returncode != 0:
        raise Refused(f"{' '.join(words)}: {done.stderr.strip()}")


def within(name):
    """The words before a command that runs in a namespace, or in that of the test."""
    return ("nsenter", f"--net=/run/netns/{name}") if name else ()


def ip(name, *lines, family=()):
    """Commands of ip in a namespace. Without a family it is that of their addresses."""
    run("ip", *family, *(("-n", name) if name else ()), "-batch", "-", text="\n".join(lines))


def put(name, **settings):
    """Settings of both families, where they have them."""
    for setting, value in settings.items():
        path = setting.replace("__", "/")
        files = (f"/proc/sys/net/{family}/{path}" for family in ("ipv4", "ipv6"))
        for file in filter(os.path.exists, files):
            run(*within(name), "sh", "-c", f"echo {value} >{file}")


def add_hosts(*names):
    """Makes namespaces where addresses are there at once, and datagrams may come from any side."""
    run("mount", "-t", "tmpfs", "none", "/run")
    ip(None, *(f"netns add {name}" for name in names), "link set lo up")
    for name in (None, *names):
        put(name, conf__all__rp_filter=0, conf__default__rp_filter=0, conf__default__accept_dad=0)
        if name:
            ip(name, "link set lo up")


def why_not():
    """Why nothing can be tried here, or None."""
    os.environ["PATH"] += ":/usr/sbin:/sbin"
    for tool in ("unshare", "nsenter", "ip"):
        if shutil.which(tool) is None:
            return f"no {tool}"
    if not SERVER.exists() or not CLIENT.exists():
        return "no programs; run make -C examples/c udp"
    if not harness.has_ipv6():
        return "no IPv6"
    may = subprocess.run([*OWN, "true"], capture_output=True, text=True)
    return may.stderr.strip() if may.returncode != 0 else None


OWN = ("unshare", "--user", "--map-root-user", "--net", "--mount")


def main(name, seconds, lay_out, tried):
    """Runs itself in namespaces of its own, within so many seconds. There it lays out the network,
    tries, and prints what it was told; or it prints what was left out and why. Answers a status."""
    if "--inside" not in sys.argv:
        why = why_not()
        if why is not None:
            print(f"{name}: left out: {why}")
            return 0
        again = (sys.executable, sys.argv[0], "--inside", *sys.argv[1:])
        return subprocess.run([*OWN, *again]).returncode
    harness.end_within(seconds)
    try:
        lay_out()
    except Refused as why:
        print(f"{name}: left out: {why}")
        return 0
    print(f"{name}: {tried()}")
    return 0
