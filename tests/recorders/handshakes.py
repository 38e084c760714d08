"""Runs handshakes of this machine's OpenSSL and GnuTLS through a relay on 127.0.0.1, which records
the bytes."""

from __future__ import annotations

import select
import socket
import subprocess
import threading
import time
from pathlib import Path

SERVER, RELAY = 14433, 14434
LOW = "DEFAULT:@SECLEVEL=0"


def sh(work: Path, command: str) -> None:
    subprocess.run(
        command,
        shell=True,
        cwd=work,
        check=True,
        stdout=subprocess.DEVNULL,
        stderr=subprocess.DEVNULL,
    )


def make_keys(work: Path) -> None:
    """Makes a CA, and its certificates: RSA and EC for the server, EC for the client, and a
    certificate status for each of the server's."""
    new = "openssl req -x509 -nodes -days 3650 -subj /CN="
    curve = "-newkey ec -pkeyopt ec_paramgen_curve:P-256"
    sh(work, f"{new}ca.test {curve} -keyout ca.key -out ca.pem")
    for name, kind in (("rsa", "-newkey rsa:2048"), ("ec", curve), ("client", curve)):
        sh(
            work,
            f"openssl req -nodes -subj /CN={name}.test {kind} -keyout {name}.key -out {name}.csr",
        )
        sh(
            work,
            f"openssl x509 -req -days 3650 -in {name}.csr -CA ca.pem -CAkey ca.key -CAcreateserial -out {name}.pem",
        )
    for name in ("rsa", "ec"):
        serial = subprocess.run(
            f"openssl x509 -in {name}.pem -noout -serial",
            shell=True,
            cwd=work,
            capture_output=True,
            text=True,
        ).stdout
        number = serial.strip().split("=")[1]
        (work / "index.txt").write_text(f"V\t351231235959Z\t\t{number}\tunknown\t/CN={name}.test\n")
        sh(work, f"openssl ocsp -issuer ca.pem -cert {name}.pem -reqout req.der -no_nonce")
        sh(
            work,
            f"openssl ocsp -index index.txt -CA ca.pem -rsigner ca.pem -rkey ca.key -reqin req.der -respout {name}.ocsp -ndays 3650",
        )


class Relay(threading.Thread):
    """Relays and records the bytes of client and server."""

    def __init__(self, udp: bool) -> None:
        super().__init__(daemon=True)
        self.udp, self.lines, self.over = udp, [], False
        self.listener = socket.socket(
            socket.AF_INET, socket.SOCK_DGRAM if udp else socket.SOCK_STREAM
        )
        self.listener.setsockopt(socket.SOL_SOCKET, socket.SO_REUSEADDR, 1)
        self.listener.bind(("127.0.0.1", RELAY))
        if not udp:
            self.listener.listen()

    def run(self) -> None:
        if self.udp:
            self.run_udp()
        else:
            while not self.over:
                if select.select([self.listener], [], [], 0.1)[0]:
                    self.run_tcp(self.listener.accept()[0])

    def keep(self, sign: str, piece: bytes) -> None:
        self.lines.append(f"{sign} {piece.hex()}\n")

    def run_tcp(self, client: socket.socket) -> None:
        self.lines.clear()
        server = socket.create_connection(("127.0.0.1", SERVER))
        ends = {client: (server, ">"), server: (client, "<")}
        while ends and not self.over:
            for end in select.select(list(ends), [], [], 0.1)[0]:
                other, sign = ends[end]
                try:
                    piece = end.recv(65536)
                    if piece:
                        self.keep(sign, piece)
                        other.sendall(piece)
                        continue
                    other.shutdown(socket.SHUT_WR)
                except OSError:
                    pass
                ends.pop(end, None)
        client.close()
        server.close()

    def run_udp(self) -> None:
        server = socket.socket(socket.AF_INET, socket.SOCK_DGRAM)
        server.connect(("127.0.0.1", SERVER))
        client = None
        while not self.over:
            for end in select.select([self.listener, server], [], [], 0.1)[0]:
                try:
                    if end is server:
                        piece = server.recv(65536)
                        self.keep("<", piece)
                        self.listener.sendto(piece, client)
                    else:
                        piece, sender = self.listener.recvfrom(65536)
                        if sender != client:
                            self.lines.clear()
                            client = sender
                            server.close()
                            server = socket.socket(socket.AF_INET, socket.SOCK_DGRAM)
                            server.connect(("127.0.0.1", SERVER))
                        self.keep(">", piece)
                        server.send(piece)
                except OSError:
                    pass
        server.close()

    def end(self) -> None:
        self.over = True
        self.join(3)
        self.listener.close()


def converse(work: Path, client: str, wait: float) -> None:
    """Runs a client until it ends, some time after its standard input does."""
    process = subprocess.Popen(
        client,
        shell=True,
        cwd=work,
        stdin=subprocess.PIPE,
        stdout=subprocess.DEVNULL,
        stderr=subprocess.DEVNULL,
    )
    time.sleep(wait)
    try:
        process.stdin.write(b"Q\n")
        process.stdin.close()
        process.wait(8)
    except (OSError, subprocess.TimeoutExpired):
        process.kill()
        process.wait()


def record(
    work: Path,
    folder: Path,
    name: str,
    server: str,
    clients: list[str | None],
    udp: bool = False,
    wait: float = 1.5,
) -> None:
    """Records the last client's conversation. Where a client is None, the server is restarted."""
    relay = Relay(udp)
    relay.start()

    def start() -> subprocess.Popen[bytes]:
        process = subprocess.Popen(
            ["bash", "-c", "exec " + server],
            cwd=work,
            stdin=subprocess.PIPE,
            stdout=subprocess.DEVNULL,
            stderr=subprocess.DEVNULL,
        )
        time.sleep(1.2)
        return process

    process = start()
    for client in clients:
        if client is None:
            process.kill()
            process.wait()
            process = start()
        else:
            relay.lines.clear()
            converse(work, client, wait)
    relay.end()
    process.kill()
    process.wait()
    (folder / f"{name}.lines").write_text("".join(relay.lines))
    print(name, len(relay.lines), "lines")


def conversations() -> dict[str, tuple]:
    """Returns the handshakes by name: the server, the clients, and whether it is DTLS."""
    s = f"openssl s_server -accept 127.0.0.1:{SERVER} -quiet"
    c = f"openssl s_client -connect 127.0.0.1:{RELAY}"
    rsa, ec, none = "-cert rsa.pem -key rsa.key", "-cert ec.pem -key ec.key", "-nocert"
    mine = "-cert client.pem -key client.key"
    t12, d12 = "-tls1_2", "-dtls1_2"
    found = {
        "openssl_rsa": (f"{s} {rsa} {t12}", [f"{c} {t12} -cipher AES128-GCM-SHA256"]),
        "openssl_dhe": (f"{s} {rsa} {t12}", [f"{c} {t12} -cipher DHE-RSA-AES128-GCM-SHA256"]),
        "openssl_ecdhe": (f"{s} {ec} {t12}", [f"{c} {t12}"]),
        "openssl_no_ticket": (f"{s} {ec} {t12} -no_ticket", [f"{c} {t12}"]),
        "openssl_tls10": (f"{s} {ec} -tls1 -cipher {LOW}", [f"{c} -tls1 -cipher {LOW}"]),
        "openssl_tls11": (f"{s} {rsa} -tls1_1 -cipher {LOW}", [f"{c} -tls1_1 -cipher {LOW}"]),
        "openssl_psk": (
            f"{s} {none} {t12} -psk 1a2b3c",
            [f"{c} {t12} -psk 1a2b3c -cipher PSK-AES128-GCM-SHA256"],
        ),
        "openssl_psk_hint": (
            f"{s} {none} {t12} -psk 1a2b3c -psk_hint who",
            [f"{c} {t12} -psk 1a2b3c -cipher PSK-AES128-GCM-SHA256"],
        ),
        "openssl_dhe_psk": (
            f"{s} {none} {t12} -psk 1a2b3c",
            [f"{c} {t12} -psk 1a2b3c -cipher DHE-PSK-AES128-GCM-SHA256"],
        ),
        "openssl_rsa_psk": (
            f"{s} {rsa} {t12} -psk 1a2b3c",
            [f"{c} {t12} -psk 1a2b3c -cipher RSA-PSK-AES128-GCM-SHA256"],
        ),
        "openssl_anonymous": (
            f"{s} {none} {t12} -cipher aNULL:@SECLEVEL=0",
            [f"{c} {t12} -cipher aNULL:@SECLEVEL=0"],
        ),
        "openssl_client_certificate": (f"{s} {ec} {t12} -verify 1", [f"{c} {t12} {mine}"]),
        "openssl_client_certificate_rsa": (
            f"{s} {rsa} {t12} -verify 1",
            [f"{c} {t12} {mine} -cipher AES128-GCM-SHA256"],
        ),
        "openssl_no_client_certificate": (f"{s} {ec} {t12} -verify 1", [f"{c} {t12}"]),
        "openssl_status_rsa": (
            f"{s} {rsa} {t12} -status_file rsa.ocsp",
            [f"{c} {t12} -status -cipher AES128-GCM-SHA256"],
        ),
        "openssl_status_ecdhe": (f"{s} {ec} {t12} -status_file ec.ocsp", [f"{c} {t12} -status"]),
        "openssl_resumed_id": (
            f"{s} {ec} {t12} -no_ticket",
            [f"{c} {t12} -no_ticket -sess_out s1", f"{c} {t12} -no_ticket -sess_in s1"],
        ),
        "openssl_resumed_ticket": (
            f"{s} {ec} {t12}",
            [f"{c} {t12} -sess_out s2", f"{c} {t12} -sess_in s2"],
        ),
        "openssl_resumption_refused": (
            f"{s} {ec} {t12} -no_ticket",
            [f"{c} {t12} -no_ticket -sess_out s3", None, f"{c} {t12} -no_ticket -sess_in s3"],
        ),
        "openssl_tls13": (f"{s} {ec}", [c]),
        "openssl_tls13_no_middlebox": (f"{s} {ec} -no_middlebox", [f"{c} -no_middlebox"]),
        "openssl_tls13_resumed": (f"{s} {ec}", [f"{c} -sess_out s4", f"{c} -sess_in s4"]),
        "openssl_tls13_early_data": (
            f"{s} {ec} -early_data",
            [f"{c} -sess_out s5", f"{c} -sess_in s5 -early_data ca.pem"],
        ),
        "openssl_tls13_early_data_refused": (
            f"{s} {ec} -early_data",
            [f"{c} -sess_out s6", None, f"{c} -sess_in s6 -early_data ca.pem"],
        ),
        "openssl_tls13_retry": (f"{s} {ec} -groups P-384", [f"{c} -groups P-256:P-384"]),
        "openssl_tls13_retry_no_middlebox": (
            f"{s} {ec} -groups P-384 -no_middlebox",
            [f"{c} -groups P-256:P-384 -no_middlebox"],
        ),
        "openssl_tls13_client_certificate": (f"{s} {ec} -verify 1", [f"{c} {mine}"]),
        "openssl_servers_alert": (f"{s} {ec} {t12}", [f"{c} {t12} -cipher AES128-GCM-SHA256"]),
        "openssl_servers_alert_version": (f"{s} {ec} {t12}", [f"{c} -tls1_3"]),
        "openssl_clients_alert": (f"{s} {ec} {t12}", [f"{c} {t12} -verify_return_error -verify 1"]),
        "openssl_no_certificate_alert": (f"{s} {ec} {t12} -Verify 1", [f"{c} {t12}"]),
        "openssl_dtls12": (f"{s} {ec} {d12}", [f"{c} {d12}"], True),
        "openssl_dtls12_cookie": (f"{s} {ec} {d12} -listen", [f"{c} {d12}"], True),
        "openssl_dtls10_cookie": (
            f"{s} {ec} -dtls1 -listen -cipher {LOW}",
            [f"{c} -dtls1 -cipher {LOW}"],
            True,
        ),
        "openssl_dtls12_resumed": (
            f"{s} {ec} {d12}",
            [f"{c} {d12} -sess_out s7", f"{c} {d12} -sess_in s7"],
            True,
        ),
        "openssl_dtls12_mtu": (f"{s} {rsa} {d12} -mtu 300 -listen", [f"{c} {d12} -mtu 300"], True),
        "openssl_dtls12_client_certificate": (
            f"{s} {ec} {d12} -verify 1",
            [f"{c} {d12} {mine}"],
            True,
        ),
    }
    gs = f"gnutls-serv -q -p {SERVER} --x509certfile rsa.pem --x509keyfile rsa.key --x509certfile ec.pem --x509keyfile ec.key"
    gc = f"gnutls-cli -p {RELAY} --insecure 127.0.0.1"
    v12, v13 = "NORMAL:-VERS-ALL:+VERS-TLS1.2", "NORMAL:-VERS-ALL:+VERS-TLS1.3"
    anon = "NORMAL:-KX-ALL:+ANON-ECDH:-VERS-ALL:+VERS-TLS1.2"
    psk = "NORMAL:-KX-ALL:+PSK:-VERS-ALL:+VERS-TLS1.2"
    du = "NORMAL:-VERS-ALL:+VERS-DTLS1.2"
    for name, server, client in (
        ("rsa", f"--priority {v12}:+RSA --disable-client-cert", f"--priority {v12}:-KX-ALL:+RSA"),
        (
            "dhe",
            f"--priority {v12}:+DHE-RSA --disable-client-cert",
            f"--priority {v12}:-KX-ALL:+DHE-RSA",
        ),
        ("ecdhe", f"--priority {v12} --disable-client-cert", f"--priority {v12}"),
        (
            "client_certificate",
            f"--priority {v12}",
            f"--priority {v12} --x509certfile client.pem --x509keyfile client.key",
        ),
        ("no_client_certificate", f"--priority {v12}", f"--priority {v12}"),
        ("anonymous", f"--priority {anon} --disable-client-cert", f"--priority {anon}"),
        (
            "psk",
            f"--priority {psk} --pskpasswd psk.txt --disable-client-cert",
            f"--priority {psk} --pskusername me --pskkey 1a2b3c4d",
        ),
        (
            "psk_hint",
            f"--priority {psk} --pskpasswd psk.txt --pskhint who --disable-client-cert",
            f"--priority {psk} --pskusername me --pskkey 1a2b3c4d",
        ),
        ("resumed", f"--priority {v12} --disable-client-cert", f"--priority {v12} -r"),
        (
            "resumed_id",
            f"--priority {v12} --disable-client-cert --noticket",
            f"--priority {v12} -r",
        ),
        ("tls13", f"--priority {v13} --disable-client-cert", f"--priority {v13}"),
        (
            "tls13_client_certificate",
            f"--priority {v13}",
            f"--priority {v13} --x509certfile client.pem --x509keyfile client.key",
        ),
        ("tls13_resumed", f"--priority {v13} --disable-client-cert", f"--priority {v13} -r"),
        (
            "tls13_retry",
            f"--priority {v13}:-GROUP-ALL:+GROUP-SECP521R1 --disable-client-cert",
            f"--priority {v13}",
        ),
        ("servers_alert", f"--priority {v12} --disable-client-cert", f"--priority {v13}"),
    ):
        found["gnutls_" + name] = (f"{gs} {server}", [f"{gc} {client}"])
    found["gnutls_clients_alert"] = (
        f"{gs} --priority {v12} --disable-client-cert",
        [f"gnutls-cli -p {RELAY} --priority {v12} 127.0.0.1"],
    )
    one = f"gnutls-serv -q -p {SERVER} --x509certfile ec.pem --x509keyfile ec.key --ocsp-response ec.ocsp --ignore-ocsp-response-errors"
    found["gnutls_status"] = (
        f"{one} --priority {v12} --disable-client-cert",
        [f"{gc} --priority {v12}"],
    )
    found["gnutls_dtls12_no_cookie"] = (
        f"{gs} --udp --nocookie --priority {du} --disable-client-cert",
        [f"{gc} --udp --priority {du}"],
        True,
    )
    found["gnutls_dtls12"] = (
        f"{gs} --udp --priority {du} --disable-client-cert",
        [f"{gc} --udp --priority {du}"],
        True,
    )
    found["gnutls_dtls12_client_certificate"] = (
        f"{gs} --udp --priority {du}",
        [f"{gc} --udp --priority {du} --x509certfile client.pem --x509keyfile client.key"],
        True,
    )
    found["gnutls_dtls12_mtu"] = (
        f"{gs} --udp --mtu 400 --priority {du} --disable-client-cert",
        [f"{gc} --udp --mtu 400 --priority {du}"],
        True,
    )
    return found
