"""A login through TLS on both sides, by the samples of packaging/samples/tls with haproxy as the front: certificates are made here."""

import os
import re
import shutil
import socket
import ssl
import subprocess
import time

from around import Around
from looks import changed, want
from server import run
from stream_ends import Home, Stream, access, accepted_by, answers

HERE = os.path.dirname(os.path.abspath(__file__))
SAMPLES = os.path.join(os.path.dirname(HERE), "samples", "tls")
PAGE = os.path.join(os.path.dirname(os.path.dirname(HERE)), "docs", "TLS.md")
# Stands for socat where that isn't installed: what comes goes to a socket of haproxy, and what it says is printed.
SOCAT = """#!/usr/bin/env python3
import socket, sys
orders = socket.socket(socket.AF_UNIX)
orders.connect(sys.argv[2])
orders.sendall(sys.stdin.buffer.read())
while said := orders.recv(4096):
    sys.stdout.buffer.write(said)
"""
FRONT, HOME = ("127.0.0.1", 29683), ("127.0.0.1", 29690)
# What stands in the samples, and what in this trial.
PLACES = (
    ("    user haproxy\n    group haproxy\n", ""),
    ("bind :2083", f"bind {FRONT[0]}:{FRONT[1]}"),
    ("radius.home.example:2083", f"{HOME[0]}:{HOME[1]}"),
    ("127.0.0.1:12083", "127.0.0.1:29684"),
    ("127.0.0.1:18120", "127.0.0.1:29685"),
    ("127.2.0.1:1812", "127.2.0.1:29686"),
    ("127.2.0.1:1813", "127.2.0.1:29687"),
    ("127.0.0.1:1812", "127.0.0.1:29688"),
    ("127.0.0.1:1813", "127.0.0.1:29689"),
    ("127.0.0.1:3799", "127.0.0.1:29691"),
)
AUTHORITY = """[ca]
default_ca = here
[here]
dir = .
database = index.txt
serial = serial
certificate = ca.pem
private_key = ca.key
new_certs_dir = .
default_md = sha256
default_days = 2
default_crl_days = 2
policy = any
copy_extensions = copy
unique_subject = no
[any]
commonName = supplied
"""
NAMES = ("radius.roam.example", "radius.home.example", "proxy1.university.example", "proxy2.university.example", "proxy3.university.example",
         "stranger.example", "lost.example")


def openssl(directory, *words):
    subprocess.run(["openssl", *words], cwd=directory, check=True, stdout=subprocess.DEVNULL, stderr=subprocess.DEVNULL)


def make_certificates(directory, names=NAMES, revoked=("proxy2.university.example",)):
    """An authority, a certificate for each name, each with its key in one file, and a list that revokes one of them."""
    for name, text in (("authority.cnf", AUTHORITY), ("index.txt", ""), ("serial", "1000\n")):
        with open(os.path.join(directory, name), "w", encoding="ascii") as file:
            file.write(text)
    openssl(directory, "req", "-x509", "-newkey", "rsa:2048", "-nodes", "-keyout", "ca.key", "-out", "ca.pem", "-days", "2", "-subj", "/CN=authority")
    for name in names:
        openssl(directory, "req", "-newkey", "rsa:2048", "-nodes", "-keyout", f"{name}.key", "-out", f"{name}.csr", "-subj", f"/CN={name}",
                "-addext", f"subjectAltName=DNS:{name}")
        openssl(directory, "ca", "-batch", "-config", "authority.cnf", "-in", f"{name}.csr", "-out", f"{name}.crt", "-notext")
        with open(os.path.join(directory, f"{name}.pem"), "w", encoding="ascii") as pem:
            for part in (f"{name}.crt", f"{name}.key"):
                with open(os.path.join(directory, part), encoding="ascii") as file:
                    pem.write(file.read())
    for name in revoked:
        openssl(directory, "ca", "-config", "authority.cnf", "-revoke", f"{name}.crt")
    openssl(directory, "ca", "-config", "authority.cnf", "-gencrl", "-out", "crl.pem")
    # A peer's name in a certificate of nobody's authority.
    openssl(directory, "req", "-x509", "-newkey", "rsa:2048", "-nodes", "-keyout", "foreign.pem", "-out", "foreign.crt", "-days", "2",
            "-subj", "/CN=proxy1.university.example")
    with open(os.path.join(directory, "foreign.pem"), "a", encoding="ascii") as pem, open(os.path.join(directory, "foreign.crt"), encoding="ascii") as file:
        pem.write(file.read())
    shutil.copy(os.path.join(directory, "radius.roam.example.pem"), os.path.join(directory, "own.pem"))


def sample(name, directory):
    """The text of a sample, with the places of this trial."""
    with open(os.path.join(SAMPLES, name), encoding="utf-8") as file:
        text = file.read()
    for old, new in PLACES:
        text = text.replace(old, new)
    return placed(text, directory)


def placed(text, directory):
    """The text with the trial's folder in place of those that the page and the samples name."""
    return text.replace("/etc/roam/tls/", directory + "/").replace("/run/haproxy/", directory + "/").replace("/run/roam/", directory + "/")


def play(directory, word):
    """Runs the commands of docs/TLS.md for haproxy that have this word, each as it stands there. Returns what was printed."""
    with open(PAGE, encoding="utf-8") as file:
        commands = [line.strip() for line in file if "admin.sock" in line and word in line and line.startswith("  ")]
    want(commands, f"the page has commands with {word}")
    path = os.path.join(directory, "socat")
    with open(path, "w", encoding="ascii") as file:
        file.write(SOCAT)
    os.chmod(path, 0o755)
    done = subprocess.run(["sh", "-c", placed("\n".join(commands), directory)], capture_output=True, text=True, check=False,
                          env={**os.environ, "PATH": os.environ["PATH"] + os.pathsep + directory})
    return done.stdout + done.stderr


def home_context(directory, name):
    """What a home server with this certificate has for TLS: it wants the certificate of who comes."""
    context = ssl.SSLContext(ssl.PROTOCOL_TLS_SERVER)
    context.load_cert_chain(os.path.join(directory, f"{name}.pem"))
    context.load_verify_locations(os.path.join(directory, "ca.pem"))
    context.verify_mode = ssl.CERT_REQUIRED
    return context


def client(directory, name, to=FRONT):
    """A connection of a RADIUS client with this certificate, or without one; None where it isn't taken."""
    context = ssl.SSLContext(ssl.PROTOCOL_TLS_CLIENT)
    context.load_verify_locations(os.path.join(directory, "ca.pem"))
    if name:
        context.load_cert_chain(os.path.join(directory, f"{name}.pem"))
    try:
        connection = socket.create_connection(to, 3)
        return Stream(context.wrap_socket(connection, server_hostname="radius.roam.example"))
    except OSError:
        return None


def is_answered(directory, name):
    """Whether a login by this certificate is accepted."""
    stream = client(directory, name)
    if stream is None:
        return False
    try:
        stream.send(access(21, (name or "").encode(), b"u@home.example"))
        return accepted_by(stream, 21)
    except OSError:
        return False
    finally:
        stream.close()


def wait_for_front(directory, at=FRONT, seconds=20):
    """Whether haproxy takes connections, and has its socket for orders, within so many seconds."""
    until = time.monotonic() + seconds
    while time.monotonic() < until:
        try:
            socket.create_connection(at, 1).close()
            if os.path.exists(os.path.join(directory, "admin.sock")):
                return True
        except OSError:
            pass
        time.sleep(0.05)
    return False


def comes(around, name, text):
    """Whether a line with this text comes within ten seconds."""
    for _ in range(200):
        if text in around.log(name):
            return True
        time.sleep(0.05)
    return False


def revokes(around, directory):
    """A certificate is revoked while a connection with it is open, and another one is put off, by the commands of the page."""
    stream = client(directory, "proxy1.university.example")
    stream.send(access(31, b"open", b"u@home.example"))
    want(accepted_by(stream, 31), "a login on a connection that stays open")
    openssl(directory, "ca", "-config", "authority.cnf", "-revoke", "proxy1.university.example.crt")
    openssl(directory, "ca", "-config", "authority.cnf", "-gencrl", "-out", "crl.pem")
    said = play(directory, "crl-file")
    want("Success" in said, f"haproxy takes another list of revoked certificates: {said.strip()!r}")
    want(not is_answered(directory, "proxy1.university.example"), "a certificate that is revoked meanwhile has no further connection")
    stream.send(access(32, b"open", b"u@home.example"))
    want(accepted_by(stream, 32), "the one that is open stays")
    said = play(directory, "shutdown sessions")
    want(stream.ends(), f"and ends by the command that cuts it {said.strip()}")
    want(comes(around, "streams", "ended: by the other side"), "that is told")
    want(is_answered(directory, "proxy3.university.example"), "another certificate of the peer goes on")
    play(directory, "del map")
    said = play(directory, "del map")
    want("not found" in said, f"a name is taken out of the map, once: {said.strip()!r}")


def logs_in(directory, program):
    """Plays it."""
    directory = os.path.join(directory, "tls")
    os.mkdir(directory)
    make_certificates(directory)
    around, home = Around(directory), Home(HOME, home_context(directory, "radius.home.example"))
    home.clear(answers)
    haproxy = shutil.which("haproxy") or "/usr/sbin/haproxy"
    try:
        names = sample("names.map", directory) + "stranger.example nobody\nproxy3.university.example university\n"
        around.write("names.map", names)
        front = around.write("haproxy.cfg", sample("haproxy.cfg", directory))
        done = subprocess.run([haproxy, "-c", "-q", "-f", front], capture_output=True, text=True, check=False)
        want(done.returncode == 0, f"haproxy takes the sample {done.stdout + done.stderr}")
        checked = run(program, "check", "--streams", around.write("streams.conf", sample("streams.conf", directory)))
        want(checked[1] == "ok servers 1\n", "the sample of streams is accepted")
        around.broker(program, changed(sample("roam.conf", directory), re.compile("^control = .*\n", re.M), ""), 60000)
        around.start("streams", [program, "streams", around.path("streams.conf"), "60000"])
        around.start("haproxy", [haproxy, "-db", "-f", front])
        around.server.waits_for()
        want(wait_for_front(directory), "haproxy takes connections")
        want(is_answered(directory, "proxy1.university.example"), "a login by a certificate of a peer goes through TLS on both sides")
        want(comes(around, "broker", 'peer="university"'), "the broker has it from that peer")
        want(not is_answered(directory, "proxy2.university.example"), "a revoked certificate has no login")
        want(not is_answered(directory, "foreign"), "nor has a peer's name by another authority")
        want(not is_answered(directory, "lost.example"), "nor has one that isn't in the map")
        want(not is_answered(directory, "stranger.example"), "nor one whose name in the map is no line of the front")
        want(not is_answered(directory, None), "nor who shows none")
        want(around.log("streams").count(" taken from ") == 1, "no connection of these comes to the broker")
        revokes(around, directory)
    except BaseException:
        around.tell(40)
        raise
    finally:
        home.close()
        around.close()
