"""What the tests of the UDP programs share: building and running them, a relay, a socket."""
import collections
import contextlib
import itertools
import os
import pathlib
import re
import select
import shutil
import signal
import socket
import subprocess
import sys
import tempfile
import threading
import time

HERE = pathlib.Path(__file__).resolve().parent
sys.path.insert(0, str(HERE.parent))
import stun  # noqa: E402

TOP = HERE.parent.parent
ENDPOINT = pathlib.Path(os.environ.get(
    "STUN_ENDPOINT", TOP / "crates/stun_c_endpoint/out/libstun_c_endpoint.a"))
BESIDE = os.environ.get("LIBRARIES", "")  # what these archives want of the system
STATELESS = pathlib.Path(os.environ.get("STUN_C", TOP / "crates/stun_c/out/libstun_c.a"))
REALM, NAME, PASSWORD = "example.org", "alice", "wonderland"
USER = (REALM, NAME, PASSWORD)
# What each line of a log begins with.
TIME = re.compile(r"^(\d{4}-\d\d-\d\dT\d\d:\d\d:\d\d\.\d{3})Z ", re.MULTILINE)
SCRATCH = []  # the folder of the run, while there is one
# How many times longer than on an idle machine a wait may take: a load of so many programs for each
# processor, at most 10.
SLOWNESS = min(10, max(1, os.getloadavg()[0] / (os.cpu_count() or 1)))


def scaled(seconds):
    """The longest wait for what takes at most so many seconds on an idle machine."""
    return seconds * SLOWNESS


# ---- Programs


def inlined():
    """The option for programs over an archive that lacks the calls that are done in C, as the
    proved ones do (STUNP_INLINE_CALLS of stunp.h)."""
    listed = subprocess.run([os.environ.get("NM", "nm"), STATELESS], capture_output=True, text=True)
    return [] if " T stunp_strerror\n" in listed.stdout else ["-DSTUNP_INLINE_CALLS=1"]


def compiler():
    """The words of the C compiler: those of CC, or `cc`."""
    return os.environ.get("CC", "").split() or ["cc"]


def build(folder):
    """Builds the programs of examples/c. Returns their paths, and whether with sanitizers; or why
    not."""
    if not os.environ.get("CC") and shutil.which("cc") is None:
        return None, "no C compiler"
    crate = TOP / "crates/stun_c_endpoint"
    if not ENDPOINT.exists() and crate.exists() and shutil.which("rt"):
        subprocess.run(["rt", "lib"], cwd=crate, capture_output=True)
    for archive in (ENDPOINT, STATELESS):
        if not archive.exists():
            return None, f"no {archive.name}"
    flags = ["-Wall", "-Wextra", "-Wpedantic", "-Wconversion", "-Werror", "-g", "-O1"]
    sanitized = ["-fsanitize=address,undefined", "-fno-sanitize-recover=all"]
    empty = folder / "empty.c"
    empty.write_text("int main(void) { return 0; }\n")
    words = [*compiler(), *sanitized, empty, "-o", folder / "empty"]
    has = all(subprocess.run(tried, capture_output=True).returncode == 0
              for tried in (words, [folder / "empty"]))
    flags = " ".join(flags + (sanitized if has else []))
    archives = (f"ENDPOINT={ENDPOINT}", f"LIBRARY={STATELESS}", f"SYSTEM={BESIDE}")
    values = (f"CC={' '.join(compiler())}", f"CFLAGS={flags}", f"OUT={folder}", *archives)
    subprocess.run(["make", "-s", "-C", TOP / "examples/c", *values, "udp"], check=True)
    build_helpers(folder)
    return has, None


def build_helpers(folder):
    """Builds the programs and the library of this folder's own."""
    parts = TOP / "examples/c"
    command = [*compiler(), "-O1", f"-I{TOP}/include", f"-I{parts}", *inlined()]
    archives = (ENDPOINT, STATELESS, *BESIDE.split())
    wiped = (HERE / "wiped.c", parts / "heap.c", *archives, "-o", folder / "wiped")
    subprocess.run([*command, *wiped], check=True)
    for name in ("faults", "exhausted"):
        library = ("-shared", "-fPIC", HERE / f"{name}.c", "-o", folder / f"{name}.so", "-ldl")
        subprocess.run([*command, *library], check=True)


class Server:
    """A running server, which is ended at the end, and has then told no errors but these, or any
    where they are None. Its lines are read, or only the first; `times` has what begins each of
    them, which the lines and the errors are without."""

    def __init__(self, program, *words, port=0, within=(), environment=(), told="", is_read=True,
                 stdin=None):
        self.may_tell, self.is_read = told, is_read
        words = [*within, program, str(port), *words]
        environment = {**os.environ, **dict(environment)}
        # A port that the kernel chose for UDP may be in use for TCP.
        for _ in range(3):
            self.start(words, environment, stdin)
            if self.lines or port or "in use" not in self.told():
                break
        assert self.lines, f"the server did not start: {self.told()}"
        self.port = int(re.search(r"(\d+)\s*$", self.lines[0])[1])

    def start(self, words, environment, stdin):
        self.errors = tempfile.TemporaryFile("w+")
        pipes = dict(stdin=stdin, stdout=subprocess.PIPE, stderr=self.errors, text=True)
        self.process = subprocess.Popen(words, env=environment, **pipes)
        self.lines, self.times, self.is_up = [], [], threading.Event()
        threading.Thread(target=self.listen, daemon=True).start()
        self.is_up.wait(scaled(20))

    def listen(self):
        for line in self.process.stdout:
            self.times.append(TIME.match(line))
            self.lines.append(TIME.sub("", line.strip()))
            self.is_up.set()
            if not self.is_read:
                return
        self.is_up.set()

    def told(self):
        self.errors.seek(0)
        return TIME.sub("", self.errors.read())

    def seconds(self):
        """The processor time that it took."""
        stat = pathlib.Path(f"/proc/{self.process.pid}/stat").read_text()
        fields = stat.rsplit(")", 1)[1].split()
        return (int(fields[11]) + int(fields[12])) / os.sysconf("SC_CLK_TCK")

    def __enter__(self):
        return self

    def __exit__(self, kind, *_):
        self.process.terminate()
        try:
            status = self.process.wait(scaled(20))
        except subprocess.TimeoutExpired:
            self.process.kill()
            status = self.process.wait()
        is_told = self.may_tell is None or self.told() == self.may_tell
        is_fine = status in (0, -signal.SIGTERM) and is_told
        assert kind is not None or is_fine, f"the server ended with {status}: {self.told()}"


Asked = collections.namedtuple("Asked", "status out err")


def ask(program, host, port, *words, within=None):
    """Runs a client."""
    words = [program, host, str(port), *words, "--within", within or str(round(scaled(20)))]
    run = subprocess.run(words, capture_output=True, text=True, timeout=scaled(45))
    return Asked(run.returncode, run.stdout.strip(), run.stderr.strip())


def succeeds(asked, address):
    """The client printed this address."""
    host, port = address[:2]
    wanted = f"[{host}]:{port}" if ":" in host else f"{host}:{port}"
    assert asked == Asked(0, wanted, ""), f"{asked}, not {wanted}"


def fails(asked, reason):
    """The client printed no address, and this reason."""
    is_right = asked.status == 1 and asked.out == "" and asked.err.startswith(reason)
    assert is_right, f"{asked}, not {reason}"


class Relay:
    """Passes datagrams of one client on to a server, and back: `rule(relay, is_request, number,
    data)` says what is passed on in the place of each, which has its number among those of its
    direction."""

    def __init__(self, server, rule=lambda relay, _, number, data: [data], host="127.0.0.1"):
        family = socket.AF_INET6 if ":" in host else socket.AF_INET
        opened = (socket.socket(family, socket.SOCK_DGRAM) for _ in range(3))
        self.front, self.back, self.stranger = opened
        for one in (self.front, self.back, self.stranger):
            one.bind((host, 0))
        self.port, self.target, self.rule = self.front.getsockname()[1], (host, server.port), rule
        self.server, self.client = server, None
        self.requests, self.responses, self.times = [], [], []
        self.is_over = threading.Event()
        self.thread = threading.Thread(target=self.pass_on, daemon=True)
        self.thread.start()

    def pass_on(self):
        while not self.is_over.is_set():
            for ready in select.select([self.front, self.back], [], [], 0.05)[0]:
                data, peer = ready.recvfrom(4096)
                is_request = ready is self.front
                seen = self.requests if is_request else self.responses
                seen.append(data)
                if is_request:
                    self.client = peer
                    self.times.append(time.monotonic())
                for out in self.rule(self, is_request, len(seen), data):
                    if is_request:
                        self.back.sendto(out, self.target)
                    else:
                        self.front.sendto(out, self.client)

    def address(self):
        """The address that the server sees."""
        return self.back.getsockname()

    def __enter__(self):
        return self

    def __exit__(self, *_):
        self.is_over.set()
        self.thread.join(scaled(10))
        for one in (self.front, self.back, self.stranger):
            one.close()


def is_signed(data):
    kinds = (stun.INTEGRITY, stun.INTEGRITY_SHA256)
    return any(stun.value_of(data, kind) is not None for kind in kinds)


def codes(relay):
    """The codes of the responses. One that came again, since the machine was slow and a request was
    sent again, counts once."""
    return [code for code, _ in itertools.groupby(stun.code_of(one) for one in relay.responses)]


class Peer:
    """A socket of the test's own."""

    def __init__(self, port, host="127.0.0.1", here=None):
        family = socket.AF_INET6 if ":" in host else socket.AF_INET
        self.socket = socket.socket(family, socket.SOCK_DGRAM)
        self.socket.settimeout(scaled(10))
        if here:
            self.socket.bind((here, 0))
        self.target = (host, port)

    def ask(self, data):
        self.socket.sendto(data, self.target)
        answer, peer = self.socket.recvfrom(4096)
        assert peer[:2] == self.target, "an answer of another address"
        assert answer[8:20] == data[8:20], "an answer of another id"
        return answer

    def is_dropped(self, *datagrams):
        """None of them is answered, but what follows them is."""
        for data in datagrams:
            self.socket.sendto(data, self.target)
        last = stun.message(stun.REQUEST)
        self.socket.sendto(last, self.target)
        answer = self.socket.recv(4096)
        assert answer[8:20] == last[8:20], f"{datagrams} drew {answer}"

    def __enter__(self):
        return self

    def __exit__(self, *_):
        self.socket.close()


# ---- The machine


def has_ipv6():
    try:
        with socket.socket(socket.AF_INET6, socket.SOCK_DGRAM) as one:
            one.bind(("::1", 0))
        return True
    except OSError:
        return False


@contextlib.contextmanager
def scratch():
    """A folder for all that is built and written. It goes even where the run gives up."""
    with tempfile.TemporaryDirectory() as folder:
        SCRATCH.append(folder)
        tempfile.tempdir = folder
        try:
            yield pathlib.Path(folder)
        finally:
            tempfile.tempdir = None
            SCRATCH.remove(folder)


def begun():
    """The processes that this one began, and those that they began."""
    children, found = collections.defaultdict(list), [os.getpid()]
    for stat in pathlib.Path("/proc").glob("[0-9]*/stat"):
        with contextlib.suppress(OSError):
            parent = stat.read_bytes().rsplit(b")", 1)[1].split()[1]
            children[int(parent)].append(int(stat.parent.name))
    for process in found:
        found += children[process]
    return found[1:]


def end_within(seconds=170):
    """The run has an end: after so many seconds, or more on fewer than four processors, and on a
    machine that is busy."""
    seconds = round(scaled(seconds) * max(1, 4 / (os.cpu_count() or 1)))

    def give_up(*_):
        """Ends what was started, and the run. First its programs go, so that none is started
        anew."""
        for folder in SCRATCH:
            shutil.rmtree(folder, ignore_errors=True)
        for process in begun():
            with contextlib.suppress(OSError):
                os.kill(process, signal.SIGKILL)
        print(f"udp: not done in {seconds} s", file=sys.stderr, flush=True)
        os._exit(1)

    signal.signal(signal.SIGALRM, give_up)
    signal.alarm(seconds)
