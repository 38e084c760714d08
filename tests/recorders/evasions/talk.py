"""TLS by Python's ssl (OpenSSL) over a TCP endpoint of this program."""

from __future__ import annotations

import re
import ssl
from collections.abc import Iterable
from pathlib import Path

from tests.recorders.evasions.end import End

REAL, FAKE = "real.test", "fake.test"
SUITE = "ECDHE-ECDSA-AES128-GCM-SHA256"
HOSTNAME_LINE = 'Hostname in TLS extension: "{}"'
HOSTNAME = re.compile(HOSTNAME_LINE.format('([^"]*)'))


class Analyzer:
    """A TLS client or server over an endpoint."""

    def __init__(
        self,
        end: End,
        is_server: bool = False,
        name: str = REAL,
        version: ssl.TLSVersion = ssl.TLSVersion.TLSv1_2,
        protocols: Iterable[str] = (),
        work: Path | None = None,
        certificate: str = "real",
    ) -> None:
        context = ssl.SSLContext(ssl.PROTOCOL_TLS_SERVER if is_server else ssl.PROTOCOL_TLS_CLIENT)
        context.minimum_version = context.maximum_version = version
        context.set_ciphers(SUITE)
        if is_server:
            context.load_cert_chain(work / f"{certificate}.pem", work / f"{certificate}.key")
        else:
            context.check_hostname, context.verify_mode = False, ssl.CERT_NONE
        context.options |= ssl.OP_NO_TICKET
        if protocols:
            context.set_alpn_protocols(list(protocols))
        self.end, self.asked = end, None
        self.incoming, self.outgoing = ssl.MemoryBIO(), ssl.MemoryBIO()
        if is_server:
            context.sni_callback = self.note_name
        self.tls = context.wrap_bio(
            self.incoming,
            self.outgoing,
            server_side=is_server,
            server_hostname=None if is_server else name,
        )

    def note_name(self, _: object, name: str | None, __: object) -> None:
        self.asked = name

    def step(self) -> bool:
        """Continues the handshake. Returns whether it is complete; `flight` has what to send."""
        try:
            self.tls.do_handshake()
            return True
        except ssl.SSLWantReadError:
            return False

    def flight(self) -> bytes:
        """Returns the bytes to send next: at first the ClientHello."""
        self.step()
        return self.outgoing.read()

    def give(self, data: bytes) -> None:
        self.incoming.write(data)

    def finish(self) -> Analyzer:
        """Completes the handshake."""
        while True:
            is_over = self.step()
            flight = self.outgoing.read()
            if flight:
                self.end.say(flight)
            if is_over:
                return self
            heard = self.end.hear()
            if not heard:
                raise RuntimeError(
                    f"the host is silent, or closed, after {self.end.seen and self.end.seen[-1].words()}"
                )
            self.give(heard)

    def answer(self) -> Analyzer:
        """Plays the server: waits for the ClientHello, then completes the handshake."""
        while not self.step():
            flight = self.outgoing.read()
            if flight:
                self.end.say(flight)
            heard = self.end.hear()
            if not heard:
                raise RuntimeError("the host is silent, or closed")
            self.give(heard)
        flight = self.outgoing.read()
        if flight:
            self.end.say(flight)
        return self

    def write(self, data: bytes) -> None:
        self.tls.write(data)
        self.end.say(self.outgoing.read())

    def goodbye(self) -> bytes:
        """Returns the record of a close_notify alert."""
        try:
            self.tls.unwrap()
        except ssl.SSLWantReadError:
            pass
        return self.outgoing.read()

    def certificate_name(self) -> str:
        """Returns the name in the server's certificate."""
        found = re.search(rb"(real\.test|other\.test)", self.tls.getpeercert(binary_form=True))
        return found[1].decode()


def other_name(hello: bytes) -> bytes:
    """Returns the hello for another name of the same length."""
    changed = hello.replace(REAL.encode(), FAKE.encode())
    if changed == hello:
        raise ValueError("the name isn't there")
    return changed
