#!/usr/bin/env python3
"""Tries turn_server with the clients of others, and prints a Markdown table of what was seen.

    turn_server.py TURN_SERVER TURN_CLIENT [NAME..]

TURN_SERVER and TURN_CLIENT are the programs; NAMEs select rows by their first words. Must run as
root: it makes two network namespaces, tnsrv and tncli, and removes them. The other clients are
Debian's coturn, python3-aioice, golang-github-pion-turn.v2-dev with golang-go, libnice-dev with gcc
and pkg-config, chromium with chromium-driver and python3-selenium, and firefox-esr. A row whose
client is missing says so. The Python that runs this must be the system's (/usr/bin/python3). The
status is 0 if each row is as expected.
"""
import asyncio
import base64
import contextlib
import hashlib
import hmac
import http.server
import json
import os
import pathlib
import re
import resource
import shutil
import signal
import socket
import struct
import subprocess
import sys
import tempfile
import threading
import time

HERE = pathlib.Path(__file__).resolve().parent
SERVER, CLIENT, SERVER6, CLIENT6 = "10.78.0.1", "10.78.0.2", "fd78::1", "fd78::2"
PORT, SECRET_PORT, PEER_PORT, NAT_PORT = 3478, 3479, 3480, 3481
PUBLIC = "203.0.113.9"  # as what the server at NAT_PORT is seen
NAME, PASSWORD, REALM, SECRET = "alice", "wonderland", "example.org", "north"
PACKETS, PEERS = 1000, 63
INSIDE = ["ip", "netns", "exec", "tncli"]
PION = "/usr/share/gocode/src/github.com/pion/turn/v2/examples/turn-client"


class Missing(Exception):
    """A program that a row needs is not installed."""


# ---- The namespaces and the programs in them


def ip(text):
    subprocess.run(["ip", *text.split()], check=True)


def link_namespaces(stack):
    for name in ("tnsrv", "tncli"):
        ip(f"netns add {name}")
        stack.callback(ip, f"netns del {name}")
        ip(f"-n {name} link set lo up")
    ip("link add tnv0 netns tnsrv type veth peer name tnv1 netns tncli")
    for name, device, four, six in (("tnsrv", "tnv0", SERVER, SERVER6),
                                    ("tncli", "tnv1", CLIENT, CLIENT6)):
        ip(f"-n {name} addr add {four}/24 dev {device}")
        ip(f"-n {name} addr add {six}/64 dev {device} nodad")
        ip(f"-n {name} link set {device} up")
    ip(f"-n tncli route add default via {SERVER}")  # Firefox gathers nothing without one


def started(stack, namespace, *words):
    program = subprocess.Popen(["ip", "netns", "exec", namespace, *map(str, words)],
                               stdout=subprocess.PIPE, stderr=subprocess.STDOUT, text=True)

    def end():
        program.terminate()
        program.wait(5)

    stack.callback(end)
    return program


def run(*words, within=60):
    done = subprocess.run([*INSIDE, *map(str, words)], capture_output=True, text=True,
                          timeout=within, check=False)
    return done.returncode, done.stdout + done.stderr


def need(*programs):
    for program in programs:
        if not shutil.which(program):
            raise Missing(program)


def temporary_user(seconds):
    name = f"{int(time.time()) + seconds}:guest"
    digest = hmac.new(SECRET.encode(), name.encode(), hashlib.sha1).digest()
    return name, base64.b64encode(digest).decode()


# ---- Rows: each returns what was seen, and fails by an assertion


def own_client(program, server, peer, port=PORT):
    status, text = run(program, server, port, NAME, PASSWORD, peer, PEER_PORT)
    assert status == 0 and text.count("came back") == 2 and "ended" in text, text
    assert port != NAT_PORT or f"relayed {PUBLIC}:" in text, text
    return "data by indication and on a channel; ended"


def own_refused(program):
    status, text = run(program, SERVER, PORT, NAME, "wrong", CLIENT, PEER_PORT)
    assert status == 1, text
    return text.strip()


def coturn(*options, server=SERVER, port=PORT, messages=50, wanted=None):
    need("turnutils_uclient")
    words = ["turnutils_uclient", *options, "-p", port, "-r", PEER_PORT, "-n", messages]
    if "-W" not in options:
        words += ["-u", NAME, "-w", PASSWORD]
    _, text = run(*words, server, within=240)
    found = re.findall(r"start_mclient: tot_send_msgs=(\d+), tot_recv_msgs=(\d+)", text)
    assert found and found[-1][0] == found[-1][1] != "0", text[-600:]
    errors = set(re.findall(r"error \d+ \([^)]*\)", text))
    assert errors <= {wanted}, errors
    seen = f"{found[-1][0]} messages sent, {found[-1][1]} received"
    return f"{seen}; and {wanted}" if errors else seen


def coturn_refused(option, error):
    need("turnutils_uclient")
    _, text = run("turnutils_uclient", option, "-y", "-u", NAME, "-w", PASSWORD, SERVER)
    assert error in text, text
    return f"refused: {error}"


def coturn_by_old_type():
    """It asks for the second family by the type 0x8032, and not by that of RFC 8656, and does not get
    it. Then it refreshes a family that is chosen at random."""
    need("turnutils_uclient")
    for _ in range(8):
        _, text = run("turnutils_uclient", "-Z", "-y", "-u", NAME, "-w", PASSWORD, SERVER)
        if "error 443" in text:
            return "asks by 0x8032, so gets IPv4 alone, and 443 to its Refresh for IPv6"
    raise AssertionError(text[-600:])


def aioice(server, transport):
    """Runs in the namespace, as another process."""
    try:
        import aioice as _
    except ImportError as error:
        raise Missing("python3-aioice") from error
    status, text = run(sys.executable, __file__, "--aioice", server, transport)
    assert status == 0, text[-600:]
    return text.strip()


async def aioice_inside(server, transport):
    from aioice import turn
    arrived = asyncio.Queue()

    class Protocol(asyncio.DatagramProtocol):
        def datagram_received(self, data, addr):
            arrived.put_nowait((data, addr))

    endpoint, _ = await turn.create_turn_endpoint(
        Protocol, server_addr=(server, PORT), username=NAME, password=PASSWORD,
        transport=transport)
    sizes = (0, 1, 2, 3, 4, 100, 1200)
    for size in sizes:
        endpoint.sendto(b"x" * size, (CLIENT, PEER_PORT))
        found = await asyncio.wait_for(arrived.get(), 5)
        assert found == (b"x" * size, (CLIENT, PEER_PORT)), found
    back, sent = set(), 0
    while len(back) < PACKETS:
        while sent < PACKETS and sent - len(back) < 16:
            endpoint.sendto(b"packet %d" % sent, (CLIENT, PEER_PORT))
            sent += 1
        data, _ = await asyncio.wait_for(arrived.get(), 5)
        back.add(data)
    endpoint.close()
    await asyncio.sleep(0.3)
    sizes = ", ".join(map(str, sizes))
    print(f"data of {sizes} bytes came back, and {len(back)} packets of {sent}")


def pion(transport, folder):
    need("go")
    if not os.path.isdir(PION):
        raise Missing("golang-github-pion-turn.v2-dev")
    program = folder / f"pion_{transport}"
    go = dict(os.environ, GOPATH="/usr/share/gocode", GO111MODULE="off", GOFLAGS="",
              GOCACHE=str(folder / "go"))
    subprocess.run(["go", "build", "-o", program, f"{PION}/{transport}/main.go"], env=go, check=True)
    _, text = run(program, "-host", SERVER, "-port", PORT, "-user", f"{NAME}={PASSWORD}",
                  "-realm", REALM, "-ping")
    count = len(re.findall(rf"bytes from from {SERVER}", text))
    assert count >= 8, text
    return f"{count} pings through the relay"


def pion_load(transport, folder):
    need("go")
    if not os.path.isdir(PION):
        raise Missing("golang-github-pion-turn.v2-dev")
    program, source = folder / "pion_load", HERE / "pion_load.go"
    go = dict(os.environ, GOPATH="/usr/share/gocode", GO111MODULE="off", GOFLAGS="",
              GOCACHE=str(folder / "go"))
    subprocess.run(["go", "build", "-o", program, source], env=go, check=True)
    _, text = run(program, transport, f"{SERVER}:{PORT}", REALM, NAME, PASSWORD,
                  f"{CLIENT}:{PEER_PORT}", PACKETS)
    assert f"{PACKETS} sent, {PACKETS} came back" in text, text
    return text.strip()


def peers_inside():
    """Sends back what arrives at each of some sockets until standard input ends, and counts it."""
    import select
    peers = [socket.socket(socket.AF_INET, socket.SOCK_DGRAM) for _ in range(PEERS)]
    for peer in peers:
        peer.bind((CLIENT, 0))
    print(*(peer.getsockname()[1] for peer in peers), flush=True)
    count = 0
    while True:
        for ready in select.select([sys.stdin, *peers], [], [])[0]:
            if ready is sys.stdin:
                return print(count, flush=True)
            data, source = ready.recvfrom(2048)
            ready.sendto(data, source)
            count += 1


def own_thousand(program):
    """turn_client sends two packets to each of many peers, and a packet again if it does not come
    back within half a second. If the peers get each once, none was lost."""
    with subprocess.Popen([*INSIDE, sys.executable, __file__, "--peers"], text=True,
                          stdin=subprocess.PIPE, stdout=subprocess.PIPE) as peers:
        words = [word for port in peers.stdout.readline().split() for word in (CLIENT, port)]
        back = 0
        while back < PACKETS:
            status, text = run(program, SERVER, PORT, NAME, PASSWORD, *words)
            assert status == 0 and text.count("came back") == 2 * PEERS, text
            back += text.count("came back")
        arrived = int(peers.communicate("")[0])
    return f"{back} packets came back; {arrived - back} were sent again"


def libnice(transport, folder):
    need("gcc", "pkg-config")
    program = folder / "libnice_pair"
    flags = subprocess.run(["pkg-config", "--cflags", "--libs", "nice"], capture_output=True,
                           text=True, check=False)
    if flags.returncode:
        raise Missing("libnice-dev")
    source = HERE / "libnice_pair.c"
    subprocess.run(["gcc", "-o", program, source, *flags.stdout.split()], check=True)
    status, text = run(program, SERVER, PORT, NAME, PASSWORD, transport)
    assert status == 0 and text.count("received hello") == 2, (status, text)
    assert text.count("type 3") == text.count("has candidate") >= 2, text  # relayed alone
    return "data both ways over relayed candidates alone"


PAGE = """<html><body><script>
async function used(connection) {
  const all = await connection.getStats();
  for (const pair of all.values())
    if (pair.type == 'candidate-pair' && pair.nominated && pair.state == 'succeeded')
      return all.get(pair.localCandidateId).candidateType;
}
async function pair(server, username, credential, policy = 'relay') {
  const log = [], candidates = [];
  const iceServers = [{urls: [server], username, credential}];
  const a = new RTCPeerConnection({iceServers, iceTransportPolicy: 'relay'});
  const b = new RTCPeerConnection({iceServers, iceTransportPolicy: policy});
  for (const [from, to] of [[a, b], [b, a]]) {
    from.onicecandidate = event => {
      if (!event.candidate) return;
      candidates.push(event.candidate.candidate);
      to.addIceCandidate(event.candidate);
    };
    from.onicecandidateerror = event => log.push(event.errorCode + ' ' + event.errorText);
  }
  const channel = a.createDataChannel('x');
  const large = 'x'.repeat(60000), got = [];
  const done = new Promise(done => {
    b.ondatachannel = event => {
      event.channel.onmessage = message => {
        event.channel.send(message.data.length);
      };
    };
    channel.onmessage = message => { got.push(+message.data); if (got.length == 2) done(got); };
  });
  channel.onopen = () => { channel.send('hello'); channel.send(large); };
  await a.setLocalDescription(await a.createOffer());
  await b.setRemoteDescription(a.localDescription);
  await b.setLocalDescription(await b.createAnswer());
  await a.setRemoteDescription(b.localDescription);
  const late = new Promise(done => setTimeout(() => done(null), 8000));
  const result = await Promise.race([done, late]);
  const types = result && [await used(a), await used(b)];
  a.close(); b.close();
  return {result, types, candidates: candidates.filter(text => text), log};
}
</script></body></html>"""


def browser_cases():
    """Each with what is expected: whether data arrives."""
    turn = f"turn:{SERVER}:{PORT}?transport="
    secret = f"turn:{SERVER}:{SECRET_PORT}?transport=udp"
    return [
        ("UDP", True, (turn + "udp", NAME, PASSWORD)),
        ("TCP", True, (turn + "tcp", NAME, PASSWORD)),
        ("UDP, the other not relayed", True, (turn + "udp", NAME, PASSWORD, "all")),
        ("UDP over IPv6", True, (f"turn:[{SERVER6}]:{PORT}?transport=udp", NAME, PASSWORD)),
        ("a time-limited user", True, (secret, *temporary_user(60))),
        ("an expired user", False, (secret, *temporary_user(-60))),
        ("a wrong password", False, (turn + "udp", NAME, "wrong")),
    ]


def judged(found, expected, other):
    candidates = found["candidates"]
    if expected:
        assert found["result"] == [5, 60000], found
        assert found["types"] == ["relay", other], found
        return f"60,005 bytes arrived, from a relayed candidate to one of type {other}"
    assert found["result"] is None and not candidates, found
    return f"no candidate; {', '.join(sorted(set(found['log']))) or 'no error told'}"


def chromium():
    need("chromium", "chromedriver")
    status, text = run(sys.executable, __file__, "--chromium", within=200)
    assert status == 0, text[-600:]
    return json.loads(text.splitlines()[-1])


def chromium_inside():
    from selenium import webdriver
    from selenium.webdriver.chrome.service import Service
    options = webdriver.ChromeOptions()
    options.binary_location = shutil.which("chromium")
    for word in ("--headless=new", "--no-sandbox", "--disable-gpu", "--disable-dev-shm-usage",
                 "--disable-features=WebRtcHideLocalIpsWithMdns"):
        options.add_argument(word)
    driver = webdriver.Chrome(service=Service(shutil.which("chromedriver")), options=options)
    driver.set_script_timeout(60)
    with tempfile.TemporaryDirectory() as folder:
        page = pathlib.Path(folder, "page.html")
        page.write_text(PAGE)
        driver.get(page.as_uri())
        call = "const [words, done] = arguments; pair(...words).then(done, e => done(String(e)))"
        found = [driver.execute_async_script(call, case) for _, _, case in browser_cases()]
    driver.quit()
    print(json.dumps(found))


def firefox():
    need("firefox-esr")
    status, text = run(sys.executable, __file__, "--firefox", within=200)
    assert status == 0, text[-600:]
    return json.loads(text.splitlines()[-1])


def firefox_inside():
    """Without geckodriver: the page posts what it found."""
    cases = [case for _, _, case in browser_cases()]
    script = f"""(async () => {{
        const all = [];
        for (const one of {json.dumps(cases)}) all.push(await pair(...one));
        await fetch('/', {{method: 'POST', body: JSON.stringify(all)}});
    }})();</script>"""
    page, posted, done = PAGE.replace("</script>", script).encode(), [], threading.Event()

    class Handler(http.server.BaseHTTPRequestHandler):
        def do_GET(self):
            self.send_response(200)
            self.send_header("Content-Type", "text/html")
            self.end_headers()
            self.wfile.write(page)

        def do_POST(self):
            posted.append(self.rfile.read(int(self.headers["Content-Length"])).decode())
            self.send_response(204)
            self.end_headers()
            done.set()

        def log_message(self, *_):
            pass

    server = http.server.ThreadingHTTPServer(("127.0.0.1", 0), Handler)
    threading.Thread(target=server.serve_forever, daemon=True).start()
    with tempfile.TemporaryDirectory() as folder:
        pathlib.Path(folder, "user.js").write_text(
            'user_pref("media.peerconnection.ice.obfuscate_host_addresses", false);\n'
            'user_pref("browser.aboutwelcome.enabled", false);\n'
            'user_pref("datareporting.policy.dataSubmissionEnabled", false);\n')
        words = ["firefox-esr", "--headless", "--no-remote", "--profile", folder,
                 f"http://127.0.0.1:{server.server_port}/"]
        browser = subprocess.Popen(words, env=dict(os.environ, HOME=folder),
                                   stdout=subprocess.DEVNULL, stderr=subprocess.DEVNULL)
        done.wait(120)
        browser.terminate()
        browser.wait(20)
    print(posted[0])


# ---- Bytes on a socket


def message(kind, attributes=b""):
    return struct.pack("!HHI", kind, len(attributes), 0x2112A442) + os.urandom(12) + attributes


def attribute(kind, value):
    return struct.pack("!HH", kind, len(value)) + value + bytes(-len(value) % 4)


def attributes_of(bytes_):
    found, at = {}, 20
    while at + 4 <= len(bytes_):
        kind, length = struct.unpack_from("!HH", bytes_, at)
        found.setdefault(kind, bytes_[at + 4:at + 4 + length])
        at += 4 + (length + 3) // 4 * 4
    return found


def signed(kind, body, challenge):
    found = attributes_of(challenge)
    body += attribute(0x0006, NAME.encode()) + attribute(0x0014, found[0x0014])
    body += attribute(0x0015, found[0x0015])
    bytes_ = message(kind, body + bytes(24))[:-24]
    key = hashlib.md5(f"{NAME}:{REALM}:{PASSWORD}".encode()).digest()
    return bytes_ + attribute(0x0008, hmac.new(key, bytes_, hashlib.sha1).digest())


def relays():
    """How many relayed sockets the server has."""
    text = subprocess.run(["ip", "netns", "exec", "tnsrv", "ss", "-Huan"], capture_output=True,
                          text=True, check=True).stdout
    ports = [int(line.split()[3].rsplit(":", 1)[1]) for line in text.splitlines()]
    return sum(port >= 49152 for port in ports)


def over_tcp_inside():
    transport = attribute(0x0019, bytes([17, 0, 0, 0]))
    with socket.create_connection((SERVER, PORT)) as stream:
        for byte in message(0x0003, transport):  # byte by byte
            stream.sendall(bytes([byte]))
            time.sleep(0.002)
        challenge = stream.recv(2048)
        assert challenge[:2] == b"\x01\x13", challenge
        # Two messages in one piece, the first of them repeated.
        allocate = signed(0x0003, transport, challenge)
        stream.sendall(allocate + allocate)
        time.sleep(0.3)
        answers = stream.recv(4096)
        half = len(answers) // 2
        assert answers[:2] == b"\x01\x03" and answers[:half] == answers[half:], answers
        print("open", flush=True)
        sys.stdin.readline()
    with socket.create_connection((SERVER, PORT)) as stream:
        stream.sendall(b"\x16\x03\x01\x02\0\x01\0\x01\xfc\x03\x03" + bytes(32))  # TLS
        stream.settimeout(5)
        with contextlib.suppress(ConnectionResetError):
            assert stream.recv(100) == b""
    print("closed", flush=True)
    before = time.monotonic()
    with socket.create_connection((SERVER, PORT)) as stream:
        stream.settimeout(60)
        stream.sendall(b"\x00\x03")
        assert stream.recv(100) == b""
    print(f"idle {time.monotonic() - before:.0f}", flush=True)


def over_tcp(running):
    with contextlib.ExitStack() as stack:
        before = relays()
        program = subprocess.Popen([*INSIDE, sys.executable, __file__, "--tcp"], text=True,
                                   stdin=subprocess.PIPE, stdout=subprocess.PIPE)
        stack.callback(program.kill)
        assert program.stdout.readline() == "open\n"
        assert relays() == before + 1
        for number in signal.SIGSTOP, signal.SIGCONT:
            running.send_signal(number)
            time.sleep(0.5)
        assert relays() == before + 1, "the connection has ended with the stop"
        program.stdin.write("\n")
        program.stdin.flush()
        assert program.stdout.readline() == "closed\n"
        time.sleep(1)
        assert relays() == before, relays()
        idle = program.stdout.readline().split()
        assert idle[0] == "idle" and 30 <= int(idle[1]) <= 40, idle
    return ("cut and joined messages; goes on after a stop; ends with TLS; idle ends after "
            f"{idle[1]} s; relay closed")


def udp_inside():
    client = socket.socket(socket.AF_INET, socket.SOCK_DGRAM)
    client.settimeout(2)

    def ask(bytes_):
        client.sendto(bytes_, (SERVER, PORT))
        return client.recv(2048)

    transport = attribute(0x0019, bytes([17, 0, 0, 0]))
    assert ask(message(0x0001))[:2] == b"\x01\x01"
    challenge = ask(message(0x0003, transport))
    allocated = ask(signed(0x0003, transport, challenge))
    assert allocated[:2] == b"\x01\x03"
    port, = struct.unpack("!H", attributes_of(allocated)[0x0016][2:4])
    relayed = SERVER, port ^ 0x2112
    peer = socket.socket(socket.AF_INET, socket.SOCK_DGRAM)
    client.settimeout(0.3)
    peer.sendto(b"without permission", relayed)
    with contextlib.suppress(socket.timeout):
        raise AssertionError(client.recv(2048))
    peer.bind((CLIENT, 0)) if peer.getsockname()[1] == 0 else None
    address = bytes(a ^ b for a, b in zip(socket.inet_aton(CLIENT), b"\x21\x12\xa4\x42"))
    number = struct.pack("!H", peer.getsockname()[1] ^ 0x2112)
    of_peer = attribute(0x0012, b"\0\1" + number + address)
    client.settimeout(2)
    assert ask(signed(0x0008, of_peer, challenge))[:2] == b"\x01\x08"
    sizes = (0, 1, 1472, 9000, 60000, 65000)
    for size in sizes:
        peer.sendto(bytes(size), relayed)
        data = client.recv(70000)
        assert data[:2] == b"\x00\x17" and len(attributes_of(data)[0x0013]) == size, data[:40]
        client.sendto(message(0x0016, of_peer + attribute(0x0013, bytes(size))), (SERVER, PORT))
        peer.settimeout(2)
        data, source = peer.recvfrom(70000)
        assert len(data) == size and source == relayed
    ended = ask(signed(0x0004, attribute(0x000D, bytes(4)), challenge))
    again = ask(signed(0x0004, attribute(0x000D, bytes(4)), challenge))
    assert ended[:2] == again[:2] == b"\x01\x04"
    print(f"nothing without permission; data of {', '.join(map(str, sizes))} bytes both ways")


def udp():
    status, text = run(sys.executable, __file__, "--udp")
    assert status == 0, text[-600:]
    return text.strip()


def many_connections_inside():
    """As many silent connections as there may be keep nobody out, over TCP or UDP."""
    hard = resource.getrlimit(resource.RLIMIT_NOFILE)[1]
    resource.setrlimit(resource.RLIMIT_NOFILE, (min(2000, hard), hard))
    held = [socket.create_connection((SERVER, PORT)) for _ in range(1000)]
    time.sleep(1)
    transport = attribute(0x0019, bytes([17, 0, 0, 0]))
    with socket.create_connection((SERVER, PORT)) as stream:
        stream.settimeout(5)
        for kind, body in ((0x0001, b""), (0x0003, transport)):
            stream.sendall(message(kind, body))
            answer = stream.recv(2048)
            assert answer[:2] == struct.pack("!H", kind | (0x0110 if body else 0x0100)), answer
        stream.sendall(signed(0x0003, transport, answer))
        assert stream.recv(2048)[:2] == b"\x01\x03"
    for stream in held:
        stream.close()
    print("one more is served")


def many_connections():
    status, text = run(sys.executable, __file__, "--many")
    assert status == 0, text[-600:]
    return text.strip()


def no_port(running):
    """The server does not start with ports that are none."""
    server = running.args[INSIDE.index("tncli") + 1]
    for ports in "0-0", "0-9", "9-8", "9":
        words = [server, "0", REALM, NAME, PASSWORD, "--relay", "127.0.0.1", "--ports", ports]
        ended = subprocess.run(words, capture_output=True, text=True, timeout=10, check=False)
        assert ended.returncode == 2 and ended.stderr.startswith("usage:"), (ports, ended)
    return "wrong arguments"


def absent_peers_inside():
    """Data for peers that are not there, at addresses of the server's own network: the system keeps
    it for seconds, until the buffer of the relayed socket is full. Others are served meanwhile."""
    client, other = (socket.socket(socket.AF_INET, socket.SOCK_DGRAM) for _ in range(2))
    client.settimeout(2)
    other.settimeout(10)

    def ask(bytes_, by=client):
        by.sendto(bytes_, (SERVER, PORT))
        return by.recv(2048)

    transport = attribute(0x0019, bytes([17, 0, 0, 0]))
    challenge = ask(message(0x0003, transport))
    assert ask(signed(0x0003, transport, challenge))[:2] == b"\x01\x03"
    peers = [attribute(0x0012, b"\0\1\0\0" + bytes(a ^ b for a, b in zip(
        socket.inet_aton(f"10.78.0.{last}"), b"\x21\x12\xa4\x42"))) for last in (77, 78)]
    assert ask(signed(0x0008, b"".join(peers), challenge))[:2] == b"\x01\x08"
    worst = 0.0
    for number in range(600):
        body = peers[number % 2] + attribute(0x0013, bytes(1200))
        client.sendto(message(0x0016, body), (SERVER, PORT))
        if number % 20 == 19:
            begun = time.monotonic()
            assert ask(message(0x0001), other)[:2] == b"\x01\x01"
            worst = max(worst, time.monotonic() - begun)
    ended = ask(signed(0x0004, attribute(0x000D, bytes(4)), challenge))
    assert ended[:2] == b"\x01\x04" and worst < 1, f"others wait {worst:.1f} s"
    print("others wait less than a second")


def absent_peers():
    before = relays()
    status, text = run(sys.executable, __file__, "--absent")
    assert status == 0, text[-600:]
    time.sleep(1)
    assert relays() == before, "the relayed socket is still open"
    return text.strip()


# ---- The table


def rows(client, folder, running):
    for family, server, peer in ("IPv4", SERVER, CLIENT), ("IPv6", SERVER6, CLIENT6):
        yield f"turn_client over {family}", lambda s=server, p=peer: own_client(client, s, p)
    yield "turn_client, server at `::` and translated", lambda: own_client(
        client, SERVER, CLIENT, NAT_PORT)
    yield "turn_client, wrong password", lambda: own_refused(client)
    yield f"turn_client, {PACKETS} packets", lambda: own_thousand(client)
    yield "bytes over UDP", udp
    yield "bytes over TCP", lambda: over_tcp(running)
    yield "ports from 0 on", lambda: no_port(running)
    yield "1,000 silent connections", many_connections
    yield "data for absent peers", absent_peers
    peer = "-e", CLIENT
    for what, options in (
            ("UDP, channels", ("-y",)), ("UDP, indications", ("-y", "-s")),
            ("UDP, to a peer", peer), ("UDP, 20 clients", ("-y", "-m", "20")),
            ("UDP, negative tests", ("-y", "-N")), ("UDP, IPv6 relays", ("-y", "-x")),
            ("UDP, mandatory padding", ("-y", "-D")),
            ("TCP, channels", ("-y", "-t")), ("TCP, indications", ("-y", "-t", "-s")),
            ("TCP, to a peer", ("-t", *peer)), ("TCP, 20 clients", ("-y", "-t", "-m", "20"))):
        yield f"coturn's client: {what}", lambda o=options: coturn(*o)
    for what, options in ("UDP", ("-y",)), ("TCP", ("-y", "-t")):
        yield f"coturn's client: {PACKETS} packets over {what}", lambda o=options: coturn(
            *o, "-z", 5, "-m", 1, messages=PACKETS)
    mismatch = "error 443 (Peer Address Family Mismatch)"
    yield "coturn's client: both families", coturn_by_old_type
    yield "coturn's client: extra requests", lambda: coturn("-y", "-G", wanted=mismatch)
    yield "coturn's client: over IPv6", lambda: coturn("-y", "-x", server=SERVER6)
    yield "coturn's client: shared secret", lambda: coturn("-y", "-W", SECRET, port=SECRET_PORT)
    yield "coturn's client: server at `::` and translated", lambda: coturn("-y", port=NAT_PORT)
    yield "coturn's client: DONT-FRAGMENT", lambda: coturn_refused("-g", "420")
    for server, transport in (SERVER, "udp"), (SERVER6, "udp"), (SERVER, "tcp"):
        yield f"aioice over {transport}, {server}", lambda s=server, t=transport: aioice(s, t)
    for transport in "udp", "tcp":
        yield f"pion over {transport}", lambda t=transport: pion(t, folder)
        yield f"pion, {PACKETS} packets over {transport}", lambda t=transport: pion_load(t, folder)
    for transport in "udp", "tcp":
        yield f"libnice over {transport}", lambda t=transport: libnice(t, folder)
    for name, browser in ("Chromium", chromium), ("Firefox", firefox):
        found = []
        for number, (what, expected, case) in enumerate(browser_cases()):
            other = "host" if "all" in case else "relay"

            def one(browser=browser, number=number, expected=expected, found=found, other=other):
                if not found:
                    found.append(browser())
                return judged(found[0][number], expected, other)
            yield f"{name}: {what}", one


@contextlib.contextmanager
def namespaces():
    with contextlib.ExitStack() as stack:
        link_namespaces(stack)
        yield stack


def main():
    inside = {"--chromium": chromium_inside, "--firefox": firefox_inside, "--tcp": over_tcp_inside,
              "--udp": udp_inside, "--peers": peers_inside, "--absent": absent_peers_inside,
              "--many": many_connections_inside}
    if sys.argv[1] == "--aioice":
        return asyncio.run(aioice_inside(*sys.argv[2:]))
    if sys.argv[1] in inside:
        return inside[sys.argv[1]]()
    server, client = (pathlib.Path(word).resolve() for word in sys.argv[1:3])
    wanted, failed = sys.argv[3:], 0
    with namespaces() as stack:
        folder = pathlib.Path(stack.enter_context(tempfile.TemporaryDirectory()))
        common = ["--relay", SERVER, "--relay", SERVER6, "--allow", "10.78.0.0/24", "--allow",
                  "fd78::/64", "--of-a-user", 500, "--old-channels"]
        first = started(stack, "tnsrv", server, PORT, REALM, NAME, PASSWORD, *common)
        first.stdout.readline()
        started(stack, "tnsrv", server, SECRET_PORT, REALM, "--shared-secret", SECRET,
                *common).stdout.readline()
        (folder / "users").write_text(f"# a user\n{NAME} {PASSWORD}\n")
        started(stack, "tnsrv", server, NAT_PORT, REALM, "--users", folder / "users", "--at", "::",
                "--relay", f"{SERVER}/{PUBLIC}", *common[4:], "--workers", 4).stdout.readline()
        started(stack, "tncli", "turnutils_peer", "-L", CLIENT, "-L", CLIENT6, "-p", PEER_PORT)
        print("| Client | Result |\n|---|---|")
        for name, row in rows(client, folder, first):
            if wanted and not any(name.startswith(word) for word in wanted):
                continue
            try:
                text = row()
            except Missing as error:
                text = f"not tried: {error} is missing"
            except (AssertionError, subprocess.SubprocessError) as error:
                text, failed = f"**failed**: {str(error)[-300:]!r}", failed + 1
            print(f"| {name} | {text} |", flush=True)
    print(f"\n{failed} failed")
    return 1 if failed else 0


if __name__ == "__main__":
    sys.exit(main())
