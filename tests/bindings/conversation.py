"""`wispuddera.Conversation` on the recorded conversations of tests/flow_rows: the outcomes of the
rows, however the bytes are cut. And conversations that follow handshakes of OpenSSL's between two
sockets: conversation.py [PROGRAM..]

Each PROGRAM relays two sockets, whose file descriptors are its arguments, and prints the outcome:
bindings/c/relay.c and bindings/rust/examples/relay.rs."""

import doctest
import functools
import pathlib
import re
import shutil
import socket
import ssl
import subprocess
import sys
import tempfile
import threading
from pathlib import Path

sys.path.insert(0, str(Path(__file__).resolve().parents[2]))
from tests.support import script  # noqa: E402

script.answer_help(__doc__)
import wispuddera as w  # noqa: E402
from wispuddera import _conversation  # noqa: E402

TOP = pathlib.Path(__file__).resolve().parents[2]
OUTCOMES = {
    "Full": "FULL",
    "Resumed": "RESUMED",
    "Tls13": "TLS13",
    "Tls13 retried": "TLS13_RETRIED",
    "Tls13 early data": "TLS13_EARLY",
    "Tls13 retried early data": "TLS13_RETRIED_EARLY",
}


def recorded():
    """The pieces of each recorded conversation of TLS, and its outcome; those of DTLS are left
    out."""
    pieces = []
    for line in (TOP / "tests/flow_rows/rows").read_text().splitlines():
        if line[:2] in ("> ", "< "):
            pieces.append(("client" if line[0] == ">" else "server", bytes.fromhex(line[2:])))
        elif line.startswith("=> "):
            if pieces[0][1][1] == 3:
                yield pieces, line[3:]
            pieces = []


def cut(pieces, size):
    for side, piece in pieces:
        for i in range(0, len(piece), size):
            yield side, piece[i : i + size]


def test_recorded():
    tried = 0
    for pieces, wanted in recorded():
        events = None
        for size in (1, 7, 1000, 1 << 20):
            conversation, found = w.Conversation(), []
            for side, piece in cut(pieces, size):
                conversation.feed(side, piece)
                found += conversation
            outcome, _, place = wanted.partition(" at ")
            if place:
                place, _, alert = place.partition(", ")
                stop = conversation.stop
                assert conversation.outcome == w.Outcome.BROKEN_OFF and not conversation.established
                assert stop.events_before == int(place) and stop.event.content[1] == int(
                    alert.split()[-1]
                )
                assert stop.event.to_server == alert.startswith("client")
            else:
                assert conversation.outcome.name == OUTCOMES[outcome], (
                    wanted,
                    conversation.outcome,
                )
                assert conversation.established and conversation.stop is None
                assert outcome != "Resumed" or conversation.resumed
                assert outcome != "Full" or not conversation.resumed
            assert events in (None, found)
            events = found
        assert w.outcome((event.kind, event.to_server) for event in events) == conversation.outcome
        tried += 1
    assert tried > 30, tried
    return tried


def ended(side, *pieces):
    conversation = w.Conversation(limit=100)
    for piece in pieces:
        conversation.feed(side, bytes.fromhex(piece))
    return [(event.kind.name, event.fault) for event in conversation]


def test_faults():
    assert ended("client", "474554202f") == [("UNKNOWN", "Switch")]
    assert ended("client", "160301 4101") == [("UNKNOWN", "TooLarge")]
    assert ended("client", "140301 0001 02") == [("UNKNOWN", "Verify")]
    assert ended("client", "160301 0004 01 000065") == [("UNKNOWN", "TooLarge")]
    assert ended("client", "160301 0002 0100", "150301 0002 0228") == [("UNKNOWN", "Interrupted")]
    # Nothing is read after a fault; an alert that is none is encrypted; and all is, after a
    # ChangeCipherSpec.
    assert ended("client", "474554202f", "150301 0002 0228") == [("UNKNOWN", "Switch")]
    assert ended("server", "150301 0002 0328") == [("ENCRYPTED", None)]
    assert ended("server", "140301 0001 01 150301 0002 0228") == [
        ("CHANGE_CIPHER_SPEC", None),
        ("ENCRYPTED", None),
    ]
    assert ended("server", "160301 0001 00", "160301 0003 000000") == [("HELLO_REQUEST", None)]
    try:
        w.Conversation().feed("proxy", b"")
        raise AssertionError("no error")
    except ValueError:
        pass


def relay_of_the_page():
    """The function `relay` of bindings/README.md."""
    page = (TOP / "bindings/README.md").read_text()
    (block,) = [
        b for b in re.findall(r"^```python\n(.*?)^```$", page, re.M | re.S) if "def relay" in b
    ]
    names = {}
    exec(block, names)
    return names["relay"]


# What is printed of an outcome, whether it is established and resumed: by C, which has numbers, by
# Rust and by Python.
PRINTED = {
    "FULL": {"1 1 0", "Full true false"},
    "RESUMED": {"2 1 1", "Resumed true true"},
    "TLS13": {"6 1 0", "Tls13 { retried: false, early_data: false } true false"},
    "TLS13 resumed": {"6 1 1", "Tls13 { retried: false, early_data: false } true true"},
}


def told_by_program(program, client, server):
    ends = (client.fileno(), server.fileno())
    done = subprocess.run(
        [program, *map(str, ends)], pass_fds=ends, check=True, capture_output=True, text=True
    )
    return done.stdout.strip()


def told_by_page(client, server):
    conversation = relay_of_the_page()(client, server)
    kinds = [event.kind for event in conversation]
    assert kinds[0] == w.EventKind.CLIENT_HELLO and w.EventKind.ENCRYPTED in kinds
    return f"{conversation.outcome} {conversation.established:d} {conversation.resumed:d}"


def follow(tell, serving, asking, session=None):
    """Returns what `tell` prints for a relayed handshake, and its session."""
    (client, proxied_client), (server, proxied_server) = socket.socketpair(), socket.socketpair()
    sessions = []

    def serve():
        with serving.wrap_socket(server, server_side=True) as tls:
            tls.sendall(tls.recv(5))

    def ask():
        with asking.wrap_socket(client, server_hostname="a.test", session=session) as tls:
            tls.sendall(b"hello")
            assert tls.recv(5) == b"hello"
            sessions.append(tls.session)

    threads = [threading.Thread(target=serve), threading.Thread(target=ask)]
    for thread in threads:
        thread.start()
    told = tell(proxied_client, proxied_server)
    proxied_client.close()
    proxied_server.close()
    for thread in threads:
        thread.join()
    return told, sessions[0]


def test_socket_pair():
    if shutil.which("openssl") is None:
        print("conversation: there is no openssl, so no handshake is made")
        return
    tellers = [
        told_by_page,
        *(functools.partial(told_by_program, program) for program in sys.argv[1:]),
    ]
    with tempfile.TemporaryDirectory() as folder:
        key, certificate = f"{folder}/key", f"{folder}/certificate"
        made = [
            "openssl", "req", "-x509", "-newkey", "ec", "-pkeyopt", "ec_paramgen_curve:P-256",
            "-nodes", "-subj", "/CN=a.test",
        ]
        subprocess.run(
            [*made, "-keyout", key, "-out", certificate], check=True, capture_output=True
        )
        for version, first, second in (
            (ssl.TLSVersion.TLSv1_2, "FULL", "RESUMED"),
            (ssl.TLSVersion.TLSv1_3, "TLS13", "TLS13 resumed"),
        ):
            serving, asking = ssl.SSLContext(ssl.PROTOCOL_TLS_SERVER), ssl.SSLContext(
                ssl.PROTOCOL_TLS_CLIENT
            )
            serving.load_cert_chain(certificate, key)
            asking.load_verify_locations(certificate)
            asking.check_hostname = False
            asking.maximum_version = version
            for tell in tellers:
                told, session = follow(tell, serving, asking)
                assert told in PRINTED[first], (told, first)
                told, _ = follow(tell, serving, asking, session)
                assert told in PRINTED[second], (told, second)
    print(f"conversation: handshakes of OpenSSL's are followed, by {len(tellers)} programs")


test_socket_pair()
print(f"conversation: {test_recorded()} recorded conversations end as they should")
test_faults()
assert doctest.testmod(_conversation).failed == 0
