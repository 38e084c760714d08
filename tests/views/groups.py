"""The rows that are inputs of each group of calls."""

from __future__ import annotations

from tests.views import rows

HANDSHAKE, CLIENT_HELLO, CERTIFICATE, CERTIFICATE_REQUEST = 22, 1, 11, 13

NAMES = """records messages hellos suites methods certificates requests extensions contents timestamps dtls_records
    dtls_messages""".split()

# Calls whose input begins with a record, a message, and so on.
RECORDS = """parse_tls_plaintext tls_parser tls_parser_many parse_tls_raw_record parse_tls_encrypted parse_tls_record_header
    parse_host_name parse_alerts next_record missing_bytes replace_extensions split_pieces gen_tls_plaintext gen_tls_message"""
MESSAGES = "parse_tls_message_handshake"
HELLOS = "parse_tls_handshake_client_hello gen_tls_clienthello"
LISTS = """parse_tls_extensions parse_tls_client_hello_extensions parse_tls_server_hello_extensions parse_tls_extension
    parse_tls_client_hello_extension parse_tls_server_hello_extension"""
DTLS_RECORDS = "parse_dtls_plaintext_record parse_dtls_plaintext_records parse_dtls_record_header"
DTLS_MESSAGES = "parse_dtls_message_handshake"
ONE_TIMESTAMP = "parse_ct_signed_certificate_timestamp"
# Groups of one structure after a length of this many bytes.
COUNTED = {
    "parts::certificate": ("certificates", 3),
    "parts::cipher_suites": ("suites", 2),
    "parts::compressions": ("methods", 1),
    "parse_tls_handshake_certificaterequest": ("requests", 1),
    "parse_ct_signed_certificate_timestamp_list": ("timestamps", 2),
}
# Bodies of messages, each after this front of its call's name, and their types.
BODY = "parse_tls_handshake_msg_"
BODIES = {
    "hello_request": 0,
    "client_hello": CLIENT_HELLO,
    "server_hello": 2,
    "newsessionticket": 4,
    "hello_retry_request": 6,
    "certificate": CERTIFICATE,
    "serverkeyexchange": 12,
    "certificaterequest": CERTIFICATE_REQUEST,
    "serverdone": 14,
    "certificateverify": 15,
    "clientkeyexchange": 16,
    "finished": 20,
    "certificatestatus": 22,
    "key_update": 24,
    "next_protocol": 67,
}
# Extensions of one kind, and contents of them, which end in this; and those of the latter that have
# another name.
EXTENSION, CONTENT = "parse_tls_extension_", "_content"
NO_EXTENSIONS = "parse_tls_extension_sni_hostname parse_tls_extension_encrypted_server_name"
# The types of the contents that are read in place.
CONTENTS = {
    "sni": 0,
    "elliptic_curves": 10,
    "ec_point_formats": 11,
    "signature_algorithms": 13,
    "alpn": 16,
    "psk_key_exchange_modes": 45,
}
# The same by their types, and those that have no call of their own: the bytes of the length in
# front of each of their lists.
WIDTHS = {0: 2, 10: 2, 11: 1, 13: 2, 16: 2, 43: 1, 45: 1, 48: 2, 51: 2}


def front(kind: int) -> bytes:
    """The bytes before the length of a TLS 1.2 record."""
    return bytes([kind, 3, 3])


def dtls_front(kind: int) -> bytes:
    """The same of DTLS 1.2."""
    return bytes([kind, 0xFE, 0xFD, *8 * [0]])


class Groups:
    """The inputs of each group, in the order of the rows."""

    def __init__(self) -> None:
        self.found = {name: {} for name in NAMES}
        self.adds = {
            ONE_TIMESTAMP: lambda one: self.add("timestamps", one.framed(b"", 2).counted(2))
        }
        for calls, add in [
            (RECORDS, self.add_record),
            (MESSAGES, self.add_in_record),
            (HELLOS, self.add_hello),
            (LISTS, self.add_list),
            (DTLS_RECORDS, self.add_dtls_record),
            (DTLS_MESSAGES, self.add_in_dtls_record),
        ]:
            self.adds |= dict.fromkeys(calls.split(), add)

    def add(self, group: str, one: rows.Input) -> None:
        """Adds it, where no other row is the same input."""
        self.found[group].setdefault(one._replace(row=""), one)

    def add_of_call(self, name: str, one: rows.Input) -> None:
        """Adds an input of the call of that name, which may end in numbers, or in another use of
        it."""
        call = name.partition(".")[0]
        if call in COUNTED:
            group, width = COUNTED[call]
            self.add(group, one.counted(width))
            return
        call, *numbers = call.split(":")
        if call in self.adds:
            self.adds[call](one)
        elif call == "parse_tls_record_with_header":
            self.add_record(one.framed(front(int(numbers[0])), 2))
        elif call == "parse_dtls_record_with_header":
            self.add_dtls_record(one.framed(dtls_front(int(numbers[0])), 2))
        elif call.startswith(BODY):
            self.add_in_record(one.framed(bytes([BODIES[call.removeprefix(BODY)]]), 3))
        elif call.startswith(EXTENSION) and call.endswith(CONTENT):
            self.add_content(CONTENTS.get(call.removeprefix(EXTENSION).removesuffix(CONTENT)), one)
        elif call.startswith(EXTENSION) and call not in NO_EXTENSIONS.split():
            self.add_list(one)

    def add_record(self, one: rows.Input) -> None:
        self.add("records", one.counted(2, 3))
        end = 5 + rows.number(one.data, 3, 2)
        if one.data[:1] != bytes([HANDSHAKE]) or end > len(one.data):
            return
        one = one.behind(5, end)
        while one.data:
            self.add_message(one)
            if rows.is_long(one):
                return
            one = one.behind(4 + rows.number(one.data, 1, 3))

    def add_in_record(self, one: rows.Input) -> None:
        """A message, alone and in a record."""
        self.add_message(one)
        self.add("records", one.framed(front(HANDSHAKE), 2).counted(2, 3))

    def add_message(self, one: rows.Input) -> None:
        self.add("messages", one.counted(3, 1))
        end = 4 + rows.number(one.data, 1, 3)
        if not 4 < end <= len(one.data):
            return
        body, kind = one.behind(4, end), one.data[0]
        if kind == CLIENT_HELLO:
            self.add_hello(body)
        elif kind == CERTIFICATE:
            self.add("certificates", body.counted(3))
        elif kind == CERTIFICATE_REQUEST:
            self.add("requests", body.counted(1))

    def add_hello(self, one: rows.Input) -> None:
        """A ClientHello, and its lists (RFC 5246, section 7.4.1.2)."""
        self.add("hellos", one)
        start = 35 + rows.number(one.data, 34, 1)
        self.add("suites", one.behind(start).counted(2))
        start += 2 + rows.number(one.data, start, 2)
        self.add("methods", one.behind(start).counted(1))
        start += 1 + rows.number(one.data, start, 1)
        end = start + 2 + rows.number(one.data, start, 2)
        if start + 2 < end <= len(one.data):
            self.add_list(one.behind(start + 2, end))

    def add_list(self, one: rows.Input) -> None:
        self.add("extensions", one.counted(2, 2))
        while (end := 4 + rows.number(one.data, 2, 2)) <= len(one.data):
            self.add_content(rows.number(one.data, 0, 2), one.behind(4, end))
            if rows.is_long(one):
                return
            one = one.behind(end)

    def add_content(self, kind: int | None, one: rows.Input) -> None:
        if kind in WIDTHS:
            self.add("contents", one.counted(WIDTHS[kind])._replace(kind=kind))

    def add_dtls_record(self, one: rows.Input) -> None:
        self.add("dtls_records", one.counted(2, 11))
        end = 13 + rows.number(one.data, 11, 2)
        if one.data[:1] == bytes([HANDSHAKE]) and end <= len(one.data):
            self.add_dtls_message(one.behind(13, end))

    def add_in_dtls_record(self, one: rows.Input) -> None:
        """The same of DTLS."""
        self.add_dtls_message(one)
        self.add("dtls_records", one.framed(dtls_front(HANDSHAKE), 2).counted(2, 11))

    def add_dtls_message(self, one: rows.Input) -> None:
        one, whole, part = (
            one.counted(3, 9),
            rows.number(one.data, 1, 3),
            rows.number(one.data, 9, 3),
        )
        # Where it is no fragment, it stays none where both lengths are cut.
        if whole == part and 0 < part <= len(one.data) - 12:
            one = one._replace(within=(*one.within, rows.Within((3, 11), 12, 12 + part)))
            if one.data[0] == CERTIFICATE:
                self.add("certificates", one.behind(12, 12 + part).counted(3))
        self.add("dtls_messages", one)


def inputs() -> dict[str, list[rows.Input]]:
    """The inputs of each group, by its name."""
    groups = Groups()
    for calls, one in rows.rows():
        for call in calls:
            groups.add_of_call(call, one)
    return {name: list(found.values()) for name, found in groups.found.items()}
