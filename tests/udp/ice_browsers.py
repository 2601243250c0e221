#!/usr/bin/python3
"""ice_agent (in the namespace ina of ice_namespaces.sh) with a real browser (in inb): run it in inb.

    ip netns exec inb /usr/bin/python3 ice_browsers.py ICE_AGENT chromium|firefox [SECONDS]

The page makes an RTCPeerConnection with a data channel. Its SDP goes to ice_agent, and it gets one
with what ice_agent printed and a made-up fingerprint. Prints a row for each test: passed if the
browser is connected and ice_agent has a selected pair at the end, the same one, in opposite roles.
ROWS=0,1 plays these rows only. AT and STUN are addresses of ice_agent and of a STUN server. With
CUT=SECONDS all UDP is dropped after this time, and a row passes if both notice it."""
import http.server
import json
import os
import queue
import shutil
import subprocess
import sys
import tempfile
import threading
import time

here = os.path.dirname(os.path.abspath(__file__))
ours, browser = sys.argv[1:3]
seconds = int(sys.argv[3]) if len(sys.argv) > 3 else 8
AT = [word for ip in os.environ.get("AT", "10.79.0.1 10.79.1.1").split() for word in ("--at", ip)]
STUN = os.environ.get("STUN")  # HOST:PORT, for both
CUT = int(os.environ.get("CUT", "0"))
CHAINS = "add table ip cut; add chain ip cut i { type filter hook input priority 0; }; add rule ip cut i udp dport != 3478 drop"
PREFERENCES = {"media.peerconnection.ice.obfuscate_host_addresses": False,
               "media.peerconnection.ice.loopback": False, "datareporting.policy.dataSubmissionEnabled": False,
               "browser.shell.checkDefaultBrowser": False, "app.update.enabled": False,
               "browser.aboutwelcome.enabled": False, "toolkit.telemetry.enabled": False,
               "media.peerconnection.ice.default_address_only": False, "network.captive-portal-service.enabled": False}


def command(url, profile):
    if browser == "chromium":
        return ["chromium", "--headless=new", "--no-sandbox", "--disable-gpu", "--disable-dev-shm-usage",
                "--disable-features=WebRtcHideLocalIpsWithMdns", f"--user-data-dir={profile}", url]
    with open(f"{profile}/user.js", "w") as file:
        for key, value in PREFERENCES.items():
            file.write(f"user_pref({json.dumps(key)}, {json.dumps(value)});\n")
    return ["firefox-esr", "--headless", "--no-remote", "--profile", profile, url]


def play(name, offers, role, trickle):
    states, seen, lines = [], [], queue.Queue()
    agent = subprocess.Popen(["ip", "netns", "exec", "ina", ours, role, *AT, "--for", str(seconds),
                              *(["--stun", STUN] if STUN else [])],
                             text=True, stdin=subprocess.PIPE, stdout=subprocess.PIPE, bufsize=1)

    def read():
        for line in agent.stdout:
            seen.append(line.rstrip())
            if line.startswith("a="):
                lines.put(line.rstrip())
    threading.Thread(target=read, daemon=True).start()

    def tell(text):
        try:
            agent.stdin.write(text.replace("\r\n", "\n") + "\n")
            agent.stdin.flush()
        except (BrokenPipeError, ValueError):
            pass

    class Page(http.server.BaseHTTPRequestHandler):
        def log_message(self, *_):
            pass

        def answer(self, body, kind="application/json"):
            self.send_response(200)
            self.send_header("Content-Type", kind)
            self.send_header("Content-Length", str(len(body)))
            self.end_headers()
            self.wfile.write(body)

        def do_GET(self):
            if self.path == "/task":
                stun = "stun:" + STUN if STUN else ""
                self.answer(json.dumps({"offers": offers, "stun": stun, "trickle": trickle}).encode())
            elif self.path == "/peer":
                found = []
                while "a=end-of-candidates" not in found:
                    found.append(lines.get(timeout=20))
                self.answer(json.dumps(found).encode())
            elif self.path == "/":
                self.answer(open(f"{here}/ice_page.html", "rb").read(), "text/html")
            else:
                self.send_error(404)

        def do_POST(self):
            body = json.loads(self.rfile.read(int(self.headers["Content-Length"])))
            if self.path == "/state":
                states.append(body)
            else:
                tell(body)
                seen.append("< " + " | ".join(x for x in body.split("\r\n") if "candidate" in x or "ice-" in x))
                if self.path == "/sdp" and not trickle and "a=end-of-candidates" not in body:
                    tell("a=end-of-candidates")
            self.answer(b"")

    server = http.server.ThreadingHTTPServer(("127.0.0.1", 0), Page)
    threading.Thread(target=server.serve_forever, daemon=True).start()
    profile = tempfile.mkdtemp()
    process = subprocess.Popen(command(f"http://127.0.0.1:{server.server_port}/", profile),
                               stdout=subprocess.DEVNULL, stderr=subprocess.DEVNULL, start_new_session=True)
    if CUT:
        drop = ["ip", "netns", "exec", "ina", "nft"]
        threading.Timer(CUT, subprocess.run, [[*drop, CHAINS]]).start()
    end = time.time() + seconds + 30
    while agent.poll() is None and time.time() < end:
        time.sleep(0.2)
    if agent.poll() is None:
        agent.kill()
    time.sleep(0.3)
    last = [one for one in states if one.get("local")][-1:] or states[-1:]
    try:
        os.killpg(process.pid, 15)  # its own group: the browser and its children
        process.wait(5)
    except (ProcessLookupError, subprocess.TimeoutExpired):
        os.killpg(process.pid, 9)
    server.shutdown()
    shutil.rmtree(profile, ignore_errors=True)
    ended = ([line for line in seen if line.startswith(("ended", "failed"))] or ["?"])[-1]
    selected = [line for line in seen if line.startswith("selected")]
    data = [line[:60] for line in seen if line.startswith("data")]
    last = last[0] if last else {}
    is_connected = last.get("ice") in ("connected", "completed") and "selected Some" in ended
    port = selected[-1].split()[1].rsplit(":", 1)[1] if selected else "-"
    is_same = is_connected and (f":{port} " in last["remote"])
    is_opposite = (("ended as Controlling" in ended) == (last.get("role") == "controlled")
                   if last.get("role") else "?")
    passed = is_connected and is_same and is_opposite is not False
    if CUT:
        subprocess.run([*drop, "delete table ip cut"])
        passed = bool(selected) and "NoConsent" in ended and last.get("ice") in ("disconnected", "failed")
    print(f"{'passed' if passed else 'FAILED'} {browser} {name}: browser {last}; {selected} {data} {ended}; "
          f"same {is_same} opposite {is_opposite}", flush=True)
    if not passed or os.environ.get("V"):
        print("   ", "\n    ".join(seen), "\n   ", "\n    ".join(map(str, states)))
    return passed


rows = [("it offers and controls, I am controlled", True, "controlled", False),
        ("it answers and is controlled, I control", False, "controlling", False),
        ("it offers, trickled", True, "controlled", True),
        ("it answers, trickled", False, "controlling", True),
        ("it offers, and I control too", True, "controlling", False),
        ("it answers, and I am controlled too", False, "controlled", False),
        ("it offers, I am lite", True, "lite", False)]
which = os.environ.get("ROWS")
rows = [rows[int(x)] for x in which.split(",")] if which else rows
results = [play(*row) for row in rows]
print(sum(results), "of", len(results), flush=True)
sys.exit(0 if all(results) else 1)
