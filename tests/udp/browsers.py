#!/usr/bin/python3
"""Has real browsers gather candidates, relay and check: Chromium and Firefox, headless.

    tests/udp/browsers.py [EXAMPLES]

EXAMPLES is the folder of the built programs udp_server, turn_server, turn_client and ice_agent:
target/export/target/debug/examples unless given. Runs as root, with the system's Python: it makes
network namespaces and removes them. Debian's packages are chromium, chromium-driver,
python3-selenium, firefox-esr, iproute2 and nftables. Six rows for each browser: it gathers a
candidate at udp_server from behind a translator, two of its connections meet through turn_server
over UDP and over TCP, it and ice_agent find a pair in both roles, and both still consent after a
minute. The last line counts, or says what is missing if nothing was tried; the status is 77 then.
"""
import os
import pathlib
import shutil
import subprocess
import sys
import time

HERE = pathlib.Path(__file__).resolve().parent
EXAMPLES = HERE.parents[1] / "target/export/target/debug/examples"
BROWSERS = {"chromium": "Chromium", "firefox-esr": "Firefox"}
NEEDED = (*BROWSERS, "chromedriver", "ip", "nft")


def missing(programs):
    """Why nothing can be tried here, in words, or an empty text."""
    os.environ["PATH"] += ":/usr/sbin:/sbin"
    lacking = [name for name in NEEDED if shutil.which(name) is None]
    lacking += [str(one) for one in programs if not one.is_file()]
    if os.geteuid() != 0:
        lacking.append("the rights of root")
    elif subprocess.run(["ip", "netns", "add", "stun-try"], check=False,
                        capture_output=True).returncode:
        lacking.append("network namespaces")
    else:
        subprocess.run(["ip", "netns", "del", "stun-try"], check=True)
    return ", ".join(lacking)


def lay_out(kind):
    subprocess.run(["sh", HERE / "ice_namespaces.sh", kind], check=True)


def ice(agent, browser, row, seconds=20, **settings):
    """Whether the browser and ice_agent select a pair, in a row of ice_browsers.py."""
    words = ["ip", "netns", "exec", "inb", sys.executable, HERE / "ice_browsers.py", agent,
             browser.removesuffix("-esr"), seconds]
    done = subprocess.run([str(word) for word in words], text=True, capture_output=True,
                          check=False, env={**os.environ, "ROWS": str(row), **settings})
    return done.returncode == 0, done.stdout + done.stderr


def gathered(agent, server, browser):
    """Whether a browser behind a translator gathers a candidate at udp_server, and connects."""
    with subprocess.Popen(["ip", "netns", "exec", "ina", server, "3478"],
                          stdout=subprocess.DEVNULL) as running:
        time.sleep(1)
        passed, told = ice(agent, browser, 0, AT="10.79.0.1", STUN="10.79.0.1:3478", V="1")
        running.kill()
    return passed and "typ srflx" in told, told


def relayed(server, client, browser, transport):
    """Whether two connections of the browser meet through turn_server."""
    words = [sys.executable, HERE / "turn_server.py", server, client,
             f"{BROWSERS[browser]}: {transport}"]
    done = subprocess.run([str(word) for word in words], text=True, capture_output=True,
                          check=False)
    return done.returncode == 0 and f"{BROWSERS[browser]}: {transport} |" in done.stdout, \
        done.stdout + done.stderr


def rows(examples):
    """Each row: the network that it needs, its name, and what tries it."""
    udp_server, turn_server, turn_client, agent = examples
    for browser, name in BROWSERS.items():
        yield "nat", f"{name} gathers at udp_server", lambda b=browser: gathered(
            agent, udp_server, b)
        for transport in "UDP", "TCP":
            yield "down", f"{name} relays over {transport}", lambda b=browser, t=transport: \
                relayed(turn_server, turn_client, b, t)
        yield "up", f"{name} controls, ice_agent is controlled", lambda b=browser: ice(agent, b, 0)
        yield "up", f"{name} is controlled, ice_agent controls", lambda b=browser: ice(agent, b, 1)
        yield "up", f"{name} and ice_agent consent for a minute", lambda b=browser: ice(
            agent, b, 0, 70)


def main():
    folder = pathlib.Path(sys.argv[1]).resolve() if len(sys.argv) > 1 else EXAMPLES
    programs = [folder / name for name in ("udp_server", "turn_server", "turn_client", "ice_agent")]
    lacking = missing(programs)
    if lacking:
        print(f"browsers: left out, without {lacking}")
        return 77
    passed = tried = 0
    try:
        for network, name, row in rows(programs):
            lay_out(network)
            # A browser on a busy machine may be too slow once.
            result, told = row()
            if not result:
                result, told = row()
            tried, passed = tried + 1, passed + result
            print(f"{'passed' if result else 'FAILED'}: {name}", flush=True)
            if not result:
                print(told[-3000:])
    finally:
        lay_out("down")
    print(f"browsers: {passed} of {tried}")
    return 0 if passed == tried else 1


if __name__ == "__main__":
    sys.exit(main())
