"""What the Python module names: all of `__all__`, its version, and the numbers of the protocol by
name. It needs no library."""

import re
import sys
from pathlib import Path

TOP = Path(__file__).resolve().parents[2]
sys.path.insert(0, str(TOP))
from tests.support import script  # noqa: E402

script.answer_help(__doc__)
import wispuddera as w  # noqa: E402

# From RFC 8446, sections 5.1, 4 and 6.
CONTENT_TYPES = {"change_cipher_spec": 20, "alert": 21, "handshake": 22, "application_data": 23}
HANDSHAKE_TYPES = {
    "client_hello": 1, "server_hello": 2, "new_session_ticket": 4, "end_of_early_data": 5,
    "encrypted_extensions": 8, "certificate": 11, "certificate_request": 13,
    "certificate_verify": 15, "finished": 20, "key_update": 24, "message_hash": 254,
}
ALERTS = {
    "close_notify": 0, "unexpected_message": 10, "bad_record_mac": 20, "record_overflow": 22,
    "handshake_failure": 40, "bad_certificate": 42, "unsupported_certificate": 43,
    "certificate_revoked": 44, "certificate_expired": 45, "certificate_unknown": 46,
    "illegal_parameter": 47, "unknown_ca": 48, "access_denied": 49, "decode_error": 50,
    "decrypt_error": 51, "protocol_version": 70, "insufficient_security": 71, "internal_error": 80,
    "inappropriate_fallback": 86, "user_canceled": 90, "missing_extension": 109,
    "unsupported_extension": 110, "unrecognized_name": 112, "bad_certificate_status_response": 113,
    "unknown_psk_identity": 115, "certificate_required": 116, "no_application_protocol": 120,
}


def test_all():
    names = {}
    exec("from wispuddera import *", names)
    assert set(w.__all__) <= set(names) and len(set(w.__all__)) == len(w.__all__)
    public = {
        name
        for name, value in vars(w).items()
        if getattr(value, "__module__", "").startswith("wispuddera") and not name.startswith("_")
    }
    assert public <= set(w.__all__), public - set(w.__all__)


def test_version():
    assert w.__version__ == (TOP / "VERSION").read_text().strip()
    assert re.search(
        rf'^version = "{re.escape(w.__version__)}"$',
        (TOP / "bindings/python/pyproject.toml").read_text(),
        re.M,
    )


def test_numbers():
    for kind, wanted in (
        (w.ContentType, CONTENT_TYPES),
        (w.HandshakeType, HANDSHAKE_TYPES),
        (w.AlertDescription, ALERTS),
    ):
        assert wanted.items() <= {one.name.lower(): one.value for one in kind}.items()
        assert all(type(one) is kind and one == one.value for one in kind)


tests = [test for name, test in sorted(globals().items()) if name.startswith("test_")]
for test in tests:
    test()
print(f"names: {len(tests)} tests passed")
