"""A share, relays of it, and HAProxy before them by deploy/haproxy.cfg. bench/thousand and trials/balanced use it."""

import atexit
import multiprocessing
import os
import pathlib
import re
import resource
import subprocess
import time

from share import PROGRAM, TOP, Link, free_ports, login, number, only

PAUSE = 5  # seconds until a program that ended is started again, as the units say
PATIENCE = 300  # seconds until something has to be there that has no promise
HEADER = "op,kind,id,dmap.itemname\n"


class Supervised:
    """A program that is started again when it has ended."""

    def __init__(self, name, *words):
        self.name, self.words = name, words
        self.ended_at = None
        self.start()
        atexit.register(self.end)

    def start(self):
        self.process = subprocess.Popen(self.words, stdin=subprocess.DEVNULL, stdout=subprocess.DEVNULL, stderr=subprocess.DEVNULL)

    def end(self):
        self.process.kill()
        self.process.wait()

    def supervise(self, now):
        if self.process.poll() is None:
            self.ended_at = None
        elif self.ended_at is None:
            self.ended_at = now
        elif now > self.ended_at + PAUSE:
            self.start()

    def seconds(self):
        """The processor time that it has used."""
        fields = pathlib.Path(f"/proc/{self.process.pid}/stat").read_text().rsplit(")", 1)[1].split()
        return (int(fields[11]) + int(fields[12])) / os.sysconf("SC_CLK_TCK")

    def megabytes(self):
        """The most memory that it had."""
        return int(re.search(r"VmHWM:\s+(\d+)", pathlib.Path(f"/proc/{self.process.pid}/status").read_text())[1]) / 1024


class System:
    """The share, its relays and HAProxy. Once this is made, each relay has the songs. With a password HAProxy serves players
    outside too, at `outside_port`."""

    def __init__(self, folder, songs, relays, password=None):
        allow_descriptors()
        self.listen, self.edit, self.relay_port, self.port, self.outside_port, *others = free_ports(7)
        share = PROGRAM, "serve", f"127.0.0.1:{self.listen}", f"127.0.0.1:{self.edit}", "--workers", "64"
        self.share = Supervised("share", *share, "--file", str(folder / "edits"))
        wait_until(lambda: listens("127.0.0.1", self.edit), "the share")
        send_edit(self.edit, "".join(f"put,item,{key},{title(key)}\n" for key in range(1, songs + 1)))
        self.hosts = [f"127.0.1.{count}" for count in range(1, relays + 1)]
        relay = PROGRAM, "relay", f"127.0.0.1:{self.listen}"
        self.relays = [Supervised("relay", *relay, f"{host}:{self.relay_port}", "16384", "--workers", "64") for host in self.hosts]
        for host in self.hosts:
            wait_until(lambda: listens(host, self.relay_port) and self.has_songs(host), f"the songs at {host}")
        configuration = self.configuration(folder, password, *others)
        subprocess.run(["haproxy", "-c", "-q", "-f", configuration], check=True)
        self.balancer = Supervised("HAProxy", "haproxy", "-q", "-f", configuration)
        wait_until(lambda: listens("127.0.0.1", self.port), "HAProxy")
        self.all = [self.share, *self.relays, self.balancer]

    def configuration(self, folder, password, statistics_port, checks_port):
        """Writes deploy/haproxy.cfg with other ports and the relays that there are, without what needs an installed HAProxy."""
        text = (TOP / "deploy/haproxy.cfg").read_text()
        text = re.sub(r"(?m)^    (log|user|group) .*\n", "", text)
        if password is not None:
            text = for_outside(text, folder, password).replace("bind [::]:3443 v4v6", f"bind 127.0.0.1:{self.outside_port}")
        text = text.replace("bind [::]:3689 v4v6", f"bind 127.0.0.1:{self.port}")
        ports = {"8404": statistics_port, "8405": checks_port, "3691": self.relay_port}
        text = re.sub(rf"\b({'|'.join(ports)})\b", lambda found: str(ports[found[0]]), text)
        servers = "".join(f"    server relay{count} {host}:{self.relay_port}\n" for count, host in enumerate(self.hosts, 1))
        text = re.sub(r"(?m)(^    server .*\n)+", servers, text, count=1)
        path = folder / "haproxy.cfg"
        path.write_text(text)
        return path

    def has_songs(self, host):
        """Whether a relay that listens has songs. It is asked directly."""
        link = Link(self.relay_port, host=host)
        session = login(link)
        _, body = link.ask(f"/databases/1/items?session-id={session}&index=0-0")
        found = number(only(bytes(body))[b"mtco"]) > 0
        link.ask(f"/logout?session-id={session}")
        link.close()
        return found

    def supervise(self):
        for program in self.all:
            program.supervise(time.monotonic())

    def usage(self):
        """The processor time of each kind of program, and of this process."""
        seconds = {"players": time.process_time()}
        for program in self.all:
            seconds[program.name] = seconds.get(program.name, 0) + program.seconds()
        return seconds


def for_outside(text, folder, password):
    """The configuration with its lines for players outside: those that begin with a mark and no blank, or with four blanks."""
    made = subprocess.run(["openssl", "passwd", "-5", password], check=True, stdout=subprocess.PIPE, text=True).stdout.strip()
    key, certificate, both = folder / "key", folder / "certificate", folder / "daapshare.pem"
    words = "-x509", "-newkey", "rsa:2048", "-nodes", "-days", "1", "-subj", "/CN=127.0.0.1", "-addext", "subjectAltName=IP:127.0.0.1"
    subprocess.run(["openssl", "req", *words, "-keyout", key, "-out", certificate], check=True, stderr=subprocess.DEVNULL)
    both.write_text(certificate.read_text() + key.read_text())
    text = re.sub(r"(?m)^#(?=[a-z]|    )", "", text)
    return text.replace("$5$REPLACE$THIS", made).replace("/etc/haproxy/daapshare.pem", str(both))


def allow_descriptors():
    """Allows this process and its programs the descriptors that HAProxy demands for its `maxconn`."""
    most = resource.getrlimit(resource.RLIMIT_NOFILE)[1]
    resource.setrlimit(resource.RLIMIT_NOFILE, (min(16_384, most), most))


def listens(host, port):
    try:
        Link(port, host=host).close()
        return True
    except OSError:
        return False


def wait_until(done, what):
    end = time.monotonic() + PATIENCE
    while not done():
        if time.monotonic() > end:
            raise SystemExit(f"FAILED: waited {PATIENCE} s for {what}")
        time.sleep(0.1)


def title(key):
    """The title of a song before it is edited."""
    return f"Song number {key}"


def send_edit(port, records):
    """Sends an edit over a connection of its own."""
    link = Link(port)
    status, _ = link.ask("/edit", (HEADER + records).encode())
    link.close()
    assert status == 200, f"an edit was refused: {status}"


class Edits:
    """The edits of a share. Edit K gives song K the title `Edit K`. A process of its own sends them, so that its times are exact.

    While `running` is set, the next edit is sent `pause` seconds after the one before, over a new connection. One that was not
    acknowledged, because the share had just ended, is sent again."""

    MOST = 10_000

    def __init__(self, port, pause):
        self.port, self.pause = port, pause
        self.running = multiprocessing.Event()
        self.count = multiprocessing.Value("i", 0, lock=False)
        self.times = multiprocessing.Array("d", self.MOST, lock=False)
        self.process = multiprocessing.Process(target=self.send_all, daemon=True)
        self.process.start()

    def sent(self):
        """The number of the last edit, which may not be acknowledged yet."""
        return self.count.value

    def acknowledged(self, key):
        """When edit `key` was acknowledged, or 0 if it has not been."""
        return self.times[key]

    def all_acknowledged(self):
        return self.times[self.count.value] > 0 or self.count.value == 0

    def send_all(self):
        key = 1
        while self.running.wait():
            begin = time.monotonic()
            self.count.value = key
            try:
                send_edit(self.port, f"put,item,{key},Edit {key}\n")
                self.times[key] = time.monotonic()
                key += 1
            except (OSError, EOFError):
                pass
            time.sleep(max(0, begin + self.pause - time.monotonic()))
