"""The plain text before TLS, by protocol (STARTTLS and the like). Each function plays the server,
and returns when the client's next byte is TLS."""

from __future__ import annotations

from tests.recorders.fronts.plain import Plain

EXTENDED = bytes.fromhex(
    "30 0c 02 01 01 78 07 0a 01 00 04 00 04 00"
)  # RFC 4511, section 4.14.2: success, in a message with the id 1.
MYSQL_GREETING = (
    b"\x0a"
    b"8.0.36\0"
    b"\x01\0\0\0"
    b"abcdefgh"
    b"\0"  # The protocol's version, the server's, the connection's id, the first part of the salt.
    b"\xff\xff"
    b"\xff"
    b"\2\0"
    b"\xff\xdf"
    b"\x15" + bytes(10) + b"ijklmnopqrst\0"
    b"mysql_native_password\0"
)


def lines(plain: Plain, *answers: bytes) -> None:
    """Reads a line before it sends each of the answers."""
    for answer in answers:
        plain.line()
        plain.say(answer)


def smtp(plain: Plain) -> None:
    """RFC 3207."""
    plain.say(b"220 mail.example.test ESMTP\r\n")
    lines(
        plain,
        b"250-mail.example.test\r\n250-PIPELINING\r\n250 STARTTLS\r\n",
        b"220 2.0.0 Ready to start TLS\r\n",
    )


def lmtp(plain: Plain) -> None:
    """RFC 3207, over RFC 2033."""
    plain.say(b"220 mail.example.test LMTP\r\n")
    lines(
        plain,
        b"250-mail.example.test\r\n250 STARTTLS\r\n",
        b"220 2.0.0 Ready to start TLS\r\n",
    )


def imap(plain: Plain) -> None:
    """RFC 9051, section 6.2.1."""
    plain.say(b"* OK IMAP4rev1 Service Ready\r\n")
    lines(
        plain,
        b"* CAPABILITY IMAP4rev1 STARTTLS LOGINDISABLED\r\n. OK CAPABILITY completed\r\n",
        b". OK Begin TLS negotiation now\r\n",
    )


def pop3(plain: Plain) -> None:
    """RFC 2595, section 4."""
    plain.say(b"+OK POP3 server ready\r\n")
    lines(plain, b"+OK Begin TLS negotiation\r\n")


def ftp(plain: Plain) -> None:
    """RFC 4217, section 4.1."""
    plain.say(b"220 FTP server ready\r\n")
    lines(plain, b"234 AUTH command ok; starting TLS connection\r\n")


def nntp(plain: Plain) -> None:
    """RFC 4642."""
    plain.say(b"200 news.example.test ready\r\n")
    lines(
        plain,
        b"101 Capability list:\r\nVERSION 2\r\nSTARTTLS\r\n.\r\n",
        b"382 Continue with TLS negotiation\r\n",
    )


def sieve(plain: Plain) -> None:
    """RFC 5804, section 2.2."""
    plain.say(
        b'"IMPLEMENTATION" "Example"\r\n"SIEVE" "fileinto"\r\n"STARTTLS"\r\n"VERSION" "1.0"\r\nOK\r\n'
    )
    lines(plain, b'OK "Begin TLS negotiation now"\r\n')


def xmpp(plain: Plain) -> None:
    """RFC 6120, section 5.4."""
    plain.until(b">", b"<stream:stream")
    plain.say(
        b"<?xml version='1.0'?><stream:stream from='example.test' id='1' version='1.0' xmlns='jabber:client' "
        b"xmlns:stream='http://etherx.jabber.org/streams'><stream:features><starttls xmlns='urn:ietf:params:xml:ns:xmpp-tls'><required/>"
        b"</starttls></stream:features>"
    )
    plain.until(b">", b"<starttls")
    plain.say(b"<proceed xmlns='urn:ietf:params:xml:ns:xmpp-tls'/>")


def ldap(plain: Plain) -> None:
    """RFC 4511, section 4.14: a message of ASN.1, whose second byte is its length."""
    plain.take(plain.take(2)[1])
    plain.say(EXTENDED)


def postgres(plain: Plain) -> None:
    """The SSLRequest of PostgreSQL's protocol (its documentation, chapter 55): 8 bytes, answered by
    one."""
    plain.take(8)
    plain.say(b"S")


def mysql(plain: Plain) -> None:
    """The SSLRequest of MySQL's protocol: a packet of 32 bytes after a header of 4, by which the
    greeting is answered."""
    plain.say(len(MYSQL_GREETING).to_bytes(3, "little") + b"\0" + MYSQL_GREETING)
    plain.take(int.from_bytes(plain.take(4)[:3], "little"))


def rdp(plain: Plain) -> None:
    """X.224's Connection Request and Confirm in TPKT (RFC 1006), with the negotiation of
    [MS-RDPBCGR], section 2.2.1.2: PROTOCOL_SSL."""
    plain.take(int.from_bytes(plain.take(4)[2:], "big") - 4)
    plain.say(bytes.fromhex("03 00 00 13 0e d0 00 00 12 34 00 02 00 08 00 01 00 00 00"))


def tds(plain: Plain) -> None:
    """PRELOGIN of SQL Server's TDS ([MS-TDS], section 2.2.6.5): a packet, whose length is in the third
    and fourth byte. The answer's options are VERSION, and ENCRYPTION: on."""
    plain.take(int.from_bytes(plain.take(8)[2:4], "big") - 8)
    plain.say(bytes.fromhex("04 01 001a 0000 01 00 00 000b 0006 01 0011 0001 ff 1000 0420 0000 01"))


def proxy_header(plain: Plain) -> None:
    """The PROXY header of version 1 (the PROXY protocol, section 2.1): a line."""
    plain.line()


def proxy_header_2(plain: Plain) -> None:
    """The PROXY header of version 2 (section 2.2): 16 bytes; the last two are the length of
    what follows."""
    plain.take(int.from_bytes(plain.take(16)[14:], "big"))


def connect(plain: Plain) -> None:
    """HTTP's CONNECT (RFC 9110, section 9.3.6)."""
    plain.until(b"\r\n\r\n")
    plain.say(b"HTTP/1.1 200 Connection established\r\n\r\n")


def socks5(plain: Plain) -> None:
    """SOCKS 5 (RFC 1928) with no authentication."""
    plain.take(plain.take(2)[1])
    plain.say(b"\5\0")
    kind = plain.take(4)[3]
    plain.take({1: 4, 4: 16}.get(kind) or plain.take(1)[0])
    plain.take(2)
    plain.say(b"\5\0\0\1\x7f\0\0\1\1\xbb")


def socks4a(plain: Plain) -> None:
    """SOCKS 4A (its description, beside SOCKS 4): a name after the address 0.0.0.x."""
    plain.take(8)
    plain.until(b"\0")
    plain.until(b"\0")
    plain.say(b"\0\x5a\1\xbb\x7f\0\0\1")


def upload(plain: Plain) -> None:
    """HTTP (RFC 9112) and nothing else: a request with a body, and its answer."""
    head = plain.until(b"\r\n\r\n").lower()
    plain.take(int(head.split(b"content-length:")[1].split(b"\r\n")[0]))
    plain.say(b"HTTP/1.1 201 Created\r\nContent-Length: 0\r\nConnection: close\r\n\r\n")
