"""The functions and structs of wispuddera.h."""

import ctypes
import os

_PATH = os.environ.get("WISPUDDERA_LIBRARY") or os.path.join(
    os.path.dirname(__file__), "libwispuddera.so"
)
# Why the library is missing. The import doesn't fail, since `wispuddera.log` and
# `wispuddera.report` don't need it.
_missing = None
try:
    # PyDLL keeps the interpreter's lock, since the calls are short.
    _library = ctypes.PyDLL(_PATH)
except OSError as reason:
    _missing = reason

READ, INCOMPLETE, NONE, OUTSIDE, NO_ROOM = 0, 1, 8, 9, 10
KINDS = {2: "TooLarge", 3: "LengthValue", 4: "Verify", 5: "Switch", 6: "Tag", 7: "Complete"}
TEXTS = {
    "TooLarge": "a length is too large",
    "LengthValue": "a length doesn't fit what it counts",
    "Verify": "a value breaks its rule",
    "Switch": "a type that isn't read",
    "Tag": "a fixed tag differs",
    "Complete": "bytes are missing where no further bytes could help",
}

_SIZE, _U8, _U16, _U32, _U64, _BOOL = (
    ctypes.c_size_t,
    ctypes.c_uint8,
    ctypes.c_uint16,
    ctypes.c_uint32,
    ctypes.c_uint64,
    ctypes.c_bool,
)
_I64 = ctypes.c_int64


class Place(ctypes.Structure):
    _fields_ = [("offset", _SIZE), ("length", _SIZE)]


class Record(ctypes.Structure):
    _fields_ = [
        ("missing", _SIZE),
        ("fragment", Place),
        ("next", _SIZE),
        ("version", _U16),
        ("length", _U16),
        ("content_type", _U8),
    ]


class Part(ctypes.Structure):
    _fields_ = [("missing", _SIZE), ("content", Place), ("next", _SIZE), ("kind", _U16)]


class ClientHello(ctypes.Structure):
    _fields_ = [
        ("missing", _SIZE),
        ("random", Place),
        ("session_id", Place),
        ("cipher_suites", Place),
        ("compression_methods", Place),
        ("extensions", Place),
        ("next", _SIZE),
        ("version", _U16),
        ("has_extensions", _BOOL),
    ]


class ServerHello(ctypes.Structure):
    _fields_ = [
        ("missing", _SIZE),
        ("random", Place),
        ("session_id", Place),
        ("extensions", Place),
        ("next", _SIZE),
        ("version", _U16),
        ("cipher_suite", _U16),
        ("compression_method", _U8),
        ("has_extensions", _BOOL),
    ]


class Found(ctypes.Structure):
    _fields_ = [("missing", _SIZE), ("place", Place)]


class Number(ctypes.Structure):
    _fields_ = [("missing", _SIZE), ("count", _SIZE), ("value", _U16)]


class DtlsRecord(ctypes.Structure):
    _fields_ = [
        ("missing", _SIZE),
        ("fragment", Place),
        ("next", _SIZE),
        ("sequence_number", _U64),
        ("version", _U16),
        ("epoch", _U16),
        ("length", _U16),
        ("content_type", _U8),
    ]


class DtlsMessage(ctypes.Structure):
    _fields_ = [
        ("missing", _SIZE),
        ("body", Place),
        ("next", _SIZE),
        ("length", _U32),
        ("fragment_offset", _U32),
        ("fragment_length", _U32),
        ("message_seq", _U16),
        ("kind", _U8),
        ("is_part", _BOOL),
    ]


class DtlsClientHello(ctypes.Structure):
    _fields_ = [
        ("missing", _SIZE),
        ("random", Place),
        ("session_id", Place),
        ("cookie", Place),
        ("cipher_suites", Place),
        ("compression_methods", Place),
        ("extensions", Place),
        ("next", _SIZE),
        ("version", _U16),
        ("has_extensions", _BOOL),
    ]


class Event(ctypes.Structure):
    _fields_ = [("kind", _U8), ("to_server", _BOOL)]


class Flow(ctypes.Structure):
    _fields_ = [("state", _U32)]


class X509(ctypes.Structure):
    _fields_ = [
        ("missing", _SIZE),
        ("signed_bytes", Place),
        ("serial_number", Place),
        ("signature_algorithm", Place),
        ("issuer", Place),
        ("subject", Place),
        ("key_algorithm", Place),
        ("key_parameters", Place),
        ("public_key", Place),
        ("extensions", Place),
        ("signature", Place),
        ("not_before", _I64),
        ("not_after", _I64),
        ("next", _SIZE),
        ("key_bits", _U32),
        ("key_kind", _U8),
        ("version", _U8),
    ]


class X509Extension(ctypes.Structure):
    _fields_ = [
        ("missing", _SIZE),
        ("oid", Place),
        ("value", Place),
        ("next", _SIZE),
        ("critical", _BOOL),
    ]


class EventContent(ctypes.Structure):
    _fields_ = [("content", Place), ("fault", _U32), ("form", _U8), ("kind", _U8)]


class Stop(ctypes.Structure):
    _fields_ = [("events_before", _U64), ("event", Event), ("is_alert", _BOOL), ("alert", _U8)]


class Side(ctypes.Structure):
    _fields_ = [
        ("part", _SIZE),
        ("part_end", _SIZE),
        ("unread", _SIZE),
        ("end", _SIZE),
        ("kind", _U8),
        ("has_changed", _BOOL),
        ("is_over", _BOOL),
    ]


class Course(ctypes.Structure):
    _fields_ = [("events", _U64), ("stop", Stop), ("flow", Flow)]


class Conversation(ctypes.Structure):
    _fields_ = [
        ("client", Side),
        ("server", Side),
        ("limit", _SIZE),
        ("course", Course),
        ("is_tls13", _BOOL),
        ("has_session", _BOOL),
    ]


def _refuse(*_):
    raise OSError(
        f"the library of wispuddera isn't there: {_missing}. It is in the wheel of a release, and "
        "bindings/build builds it; the environment variable WISPUDDERA_LIBRARY can have its path"
    )


def _function(name, *arguments, answer=_U32):
    if _missing:
        return _refuse
    function = getattr(_library, f"wispuddera_{name}")
    function.argtypes = arguments
    function.restype = answer
    return function


# `bytes`, or the address of a writable buffer.
_BYTES, _OUT = ctypes.c_void_p, ctypes.POINTER

looks_like_tls = _function("looks_like_tls", _BYTES, _SIZE)
read_record = _function("read_record", _BYTES, _SIZE, _SIZE, _OUT(Record))
read_message = _function("read_message", _BYTES, _SIZE, _SIZE, _OUT(Part))
read_extension = _function("read_extension", _BYTES, _SIZE, _SIZE, _OUT(Part))
read_key_share = _function("read_key_share", _BYTES, _SIZE, _SIZE, _OUT(Part))
read_protocol = _function("read_protocol", _BYTES, _SIZE, _SIZE, _OUT(Part))
read_certificate = _function("read_certificate", _BYTES, _SIZE, _SIZE, _OUT(Part))
read_dtls_record = _function("read_dtls_record", _BYTES, _SIZE, _SIZE, _OUT(DtlsRecord))
read_dtls_message = _function("read_dtls_message", _BYTES, _SIZE, _SIZE, _OUT(DtlsMessage))
read_client_hello = _function("read_client_hello", _BYTES, _SIZE, _OUT(ClientHello))
read_server_hello = _function("read_server_hello", _BYTES, _SIZE, _OUT(ServerHello))
read_dtls_server_hello = _function("read_dtls_server_hello", _BYTES, _SIZE, _OUT(ServerHello))
read_dtls_client_hello = _function("read_dtls_client_hello", _BYTES, _SIZE, _OUT(DtlsClientHello))
find_server_name_in_record = _function("find_server_name_in_record", _BYTES, _SIZE, _OUT(Found))
find_server_name_in_hello = _function("find_server_name_in_hello", _BYTES, _SIZE, _OUT(Found))
find_server_name = _function("find_server_name", _BYTES, _SIZE, _OUT(Found))
find_protocols = _function("find_protocols", _BYTES, _SIZE, _OUT(Found))
find_extension = _function("find_extension", _BYTES, _SIZE, _U16, _OUT(Found))
find_body = _function("find_body", _BYTES, _SIZE, _U8, _OUT(Found))
find_key_shares = _function("find_key_shares", _BYTES, _SIZE, _OUT(Found))
find_certificates = _function("find_certificates", _BYTES, _SIZE, _OUT(Found))
number_at = _function("number_at", _BYTES, _SIZE, _SIZE, _OUT(Number))
cipher_suite_at = _function("cipher_suite_at", _BYTES, _SIZE, _SIZE, _OUT(Number))
dtls_cipher_suite_at = _function("dtls_cipher_suite_at", _BYTES, _SIZE, _SIZE, _OUT(Number))
version_at = _function("version_at", _BYTES, _SIZE, _SIZE, _OUT(Number))
group_at = _function("group_at", _BYTES, _SIZE, _SIZE, _OUT(Number))
signature_scheme_at = _function("signature_scheme_at", _BYTES, _SIZE, _SIZE, _OUT(Number))
ja3 = _function("ja3", _BYTES, _SIZE, _BYTES, _SIZE, _OUT(_SIZE))
dtls_ja3 = _function("dtls_ja3", _BYTES, _SIZE, _BYTES, _SIZE, _OUT(_SIZE))
ja3s = _function("ja3s", _BYTES, _SIZE, _BYTES, _SIZE, _OUT(_SIZE))
dtls_ja3s = _function("dtls_ja3s", _BYTES, _SIZE, _BYTES, _SIZE, _OUT(_SIZE))
ja4 = _function("ja4", _BYTES, _SIZE, _BYTES, _SIZE, _OUT(_SIZE))
quic_ja4 = _function("quic_ja4", _BYTES, _SIZE, _BYTES, _SIZE, _OUT(_SIZE))
dtls_ja4 = _function("dtls_ja4", _BYTES, _SIZE, _BYTES, _SIZE, _OUT(_SIZE))
best_version = _function("best_version", _BYTES, _SIZE, _U16, _OUT(Number))
feed = _function("feed", _BYTES, _SIZE, _OUT(Place), _BYTES, _SIZE, _OUT(_SIZE))
next_record = _function("next_record", _BYTES, _SIZE, _OUT(Place), _OUT(Record))
next_message = _function("next_message", _BYTES, _SIZE, _OUT(Place), _OUT(Part))

read_x509 = _function("read_x509", _BYTES, _SIZE, _OUT(X509))
read_x509_extension = _function("read_x509_extension", _BYTES, _SIZE, _SIZE, _OUT(X509Extension))
find_x509_names = _function("find_x509_names", _BYTES, _SIZE, _OUT(Found))
read_x509_name = _function("read_x509_name", _BYTES, _SIZE, _SIZE, _OUT(Part))

event_of_message = _function("event_of_message", _BYTES, _SIZE, _U8, answer=_U8)
event_of_dtls_message = _function("event_of_dtls_message", _U8, answer=_U8)
event_of_alert = _function("event_of_alert", _U8, _U8, answer=_U8)
outcome = _function("outcome", _OUT(Event), _SIZE)
flow_start = _function("flow_start", _OUT(Flow), answer=None)
flow_step = _function("flow_step", _OUT(Flow), _OUT(Event), answer=None)
flow_outcome = _function("flow_outcome", _OUT(Flow))

conversation_start = _function("conversation_start", _OUT(Conversation), _SIZE, answer=None)
conversation_feed = _function(
    "conversation_feed", _BYTES, _SIZE, _OUT(Conversation), _BOOL, _BYTES, _SIZE
)
conversation_next = _function(
    "conversation_next", _BYTES, _SIZE, _OUT(Conversation), _BOOL, _OUT(EventContent)
)
conversation_outcome = _function("conversation_outcome", _OUT(Conversation))
conversation_stop = _function("conversation_stop", _OUT(Conversation), _OUT(Stop))
conversation_established = _function("conversation_established", _OUT(Conversation), answer=_BOOL)
conversation_resumed = _function("conversation_resumed", _OUT(Conversation), answer=_BOOL)

struct_size = _function("struct_size", _SIZE, answer=_SIZE)
field_offset = _function("field_offset", _SIZE, _SIZE, answer=_SIZE)

# The structs in the order of `wispuddera_struct_size` (wispuddera.h).
STRUCTS = (
    Place,
    Record,
    Part,
    ClientHello,
    ServerHello,
    Found,
    Number,
    DtlsRecord,
    DtlsMessage,
    DtlsClientHello,
    Event,
    Flow,
)
STRUCTS += (X509, X509Extension, EventContent, Stop, Side, Course, Conversation)
