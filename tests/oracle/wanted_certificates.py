"""The expected certificate fields of a connection, from what openssl prints of the DER."""

from __future__ import annotations

import calendar
import datetime
import functools
import hashlib
import ipaddress
import re
import subprocess
import time

from tests.support.shapes import Line

# Fields that are also logged if they are false or an empty name.
ALWAYS = [
    "is_ca", "self_issued", "sni_matches_cert", "subject", "issuer", "client_subject",
    "client_issuer", "validity_days", "cert_chain_order", "client_cert_chain_order",
]
# Below these an RSA or DSA key, and one of a curve, has less than 112 bits of security (NIST SP
# 800-57, part 1, table 2).
STRONG_MODULUS, STRONG_CURVE = 2048, 224
# MD2, MD4, MD5, SHA and SHA-1 in openssl's names of signatures and hashes (RFC 6151, RFC 9155).
WEAK_HASH = re.compile("md[245]|sha1(?![0-9])|^shawith|withsha$", re.IGNORECASE)
DAY = 86400
KEY_TYPES = {
    "rsaEncryption": "rsa", "rsassaPss": "rsa", "id-ecPublicKey": "ecdsa", "dsaEncryption": "dsa",
    "ED25519": "ed25519", "ED448": "ed448",
}


def openssl(der: bytes, *words: str) -> str:
    command = ["openssl", "x509", "-inform", "DER", "-noout", "-nameopt", "RFC2253", *words]
    return subprocess.run(
        command, input=der, stdout=subprocess.PIPE, stderr=subprocess.DEVNULL, check=True
    ).stdout.decode("latin-1")


def found(pattern: str, text: str) -> str | None:
    match = re.search(pattern, text, re.MULTILINE)
    return match[1] if match else None


def alternative_names(text: str) -> list[tuple[str, ...]]:
    """The names of subjectAltName, as (kind, text)."""
    listed = found(r"X509v3 Subject Alternative Name: .*\n\s+(.*)$", text)
    return (
        [tuple(name.split(":", 1)) for name in listed.split(", ") if ":" in name] if listed else []
    )


def iso(time: str) -> str | None:
    """A time with T in the middle; None for one that openssl can't read."""
    return None if time == "Bad time value" else time.replace(" ", "T")


def hash_of(text: str, algorithm: str) -> str:
    """The name that tells a signature's hash."""
    if algorithm != "rsassaPss":
        return algorithm
    return found(r"Hash Algorithm: (\S+)", text) or ""


def is_weak(kind: str, bits: int | None) -> bool:
    limits = {"rsa": STRONG_MODULUS, "dsa": STRONG_MODULUS, "ecdsa": STRONG_CURVE}
    return bits is not None and bits < limits.get(kind, 0)


def milliseconds(text: str) -> int:
    """A timestamp's time, as `Jun 11 13:05:34.268 2022 GMT`, in milliseconds since 1970."""
    moment = datetime.datetime.strptime(text, "%b %d %H:%M:%S.%f %Y GMT")
    since = moment - datetime.datetime(1970, 1, 1)
    return since // datetime.timedelta(milliseconds=1)


def timestamps(text: str) -> tuple[int, list[str], list[int]]:
    """How many signed certificate timestamps a certificate has; their logs; their times."""
    logs = re.findall(r"Log ID    : ([0-9A-F:\s]+)\n", text)
    times = re.findall(r"Timestamp : (.*)$", text, re.MULTILINE)
    ids = [re.sub(r"[:\s]", "", log).lower() for log in logs]
    return len(ids), ids, [milliseconds(time) for time in times]


@functools.lru_cache(maxsize=None)
def of_certificate(der: bytes) -> Line:
    """The fields of one certificate."""
    plain = openssl(
        der, "-subject", "-issuer", "-serial", "-startdate", "-enddate", "-dateopt", "iso_8601"
    )
    text = openssl(der, "-text")
    key = found(r"Public Key Algorithm: (.*)$", text)
    names = alternative_names(text)
    inner, outer = re.findall(r"Signature Algorithm: (.*)$", text, re.MULTILINE)
    said = {
        "subject": found(r"^subject=(.*)$", plain),
        "issuer": found(r"^issuer=(.*)$", plain),
        "serial": found(r"^serial=(.*)$", plain),
        "not_before": iso(found(r"^notBefore=(.*)$", plain)),
        "not_after": iso(found(r"^notAfter=(.*)$", plain)),
        "san_dns": [name for kind, name in names if kind == "DNS"],
        "san_ip": [str(ipaddress.ip_address(name)) for kind, name in names if kind == "IP Address"],
        "key_type": KEY_TYPES.get(key, "unknown"),
        "key_curve": curve(der) if key == "id-ecPublicKey" else None,
        "sig_alg": outer,
        "tbs_sig_alg": inner if inner != outer else None,
        "weak_signature": bool(WEAK_HASH.search(hash_of(text, outer))),
        "is_ca": bool(re.search(r"X509v3 Basic Constraints:.*\n\s+CA:TRUE", text)),
    }
    bits = found(r"Public-Key: \((\d+) bit\)", text)
    said["key_length"] = int(bits) if bits else None
    said["weak_key"] = is_weak(said["key_type"], said["key_length"])
    if said["not_before"] and said["not_after"]:
        valid = seconds(said["not_after"]) - seconds(said["not_before"])
        said["validity_days"] = valid // DAY if valid >= 0 else None
    said["self_issued"] = said["subject"] == said["issuer"]
    said["cert_scts"], said["cert_sct_logs"], said["cert_sct_times"] = timestamps(text)
    return said


# RFC 6960, section 4.2.1, by what openssl prints.
REFUSALS = {
    "malformedrequest": "malformedRequest", "internalerror": "internalError",
    "trylater": "tryLater", "sigrequired": "sigRequired", "unauthorized": "unauthorized",
}


def moment(label: str, text: str) -> int | None:
    """A time of an OCSP response, as `Nov 30 22:04:25 2026 GMT`, in seconds since 1970."""
    said = found(rf"^\s*{label}: (.*) GMT$", text)
    return calendar.timegm(time.strptime(said, "%b %d %H:%M:%S %Y")) if said else None


def of_response(response: bytes) -> Line:
    """The fields of a stapled OCSP response with one status."""
    command = ["openssl", "ocsp", "-respin", "/dev/stdin", "-text", "-noverify"]
    text = subprocess.run(
        command, input=response, stdout=subprocess.PIPE, stderr=subprocess.STDOUT, check=False
    ).stdout.decode("latin-1")
    refusal = found(r"^Responder Error: (\w+)", text)
    if refusal:
        return {"ocsp_status": REFUSALS[refusal]}
    # (the responder's certificates follow)
    own = text.partition("\nCertificate:")[0]
    count, logs, times = timestamps(own)
    return {
        "ocsp_status": found(r"Cert Status: (\w+)$", own),
        "ocsp_this_update": moment("This Update", own),
        "ocsp_next_update": moment("Next Update", own),
        "ocsp_revoked_at": moment("Revocation Time", own),
        "ocsp_scts": count or None,
        "ocsp_sct_logs": logs or None,
        "ocsp_sct_times": times or None,
    }


def is_chain_in_order(chain: list[bytes]) -> bool | None:
    """Whether each certificate's issuer is the next one's subject, by openssl's hashes of names;
    None for fewer than two certificates, or one that openssl can't read."""
    if len(chain) < 2:
        return None
    try:
        names = [openssl(der, "-subject_hash", "-issuer_hash").split() for der in chain]
    except subprocess.CalledProcessError:
        return None
    return all(issuer == names[at + 1][0] for at, (_, issuer) in enumerate(names[:-1]))


@functools.lru_cache(maxsize=None)
def is_named(der: bytes, host: str) -> bool:
    """Whether openssl matches a host with a certificate that has names of hosts. (Without any it
    would take the commonName.)"""
    return "does match" in openssl(der, "-checkhost", host)


def curve(der: bytes) -> str | None:
    """The name of the key's curve, which openssl also finds by explicit parameters. Those of Oakley
    have no object identifier, and so no name here."""
    command = ["openssl", "pkey", "-pubin", "-text_pub", "-noout", "-ec_param_enc", "named_curve"]
    key = openssl(der, "-pubkey").encode()
    text = subprocess.run(command, input=key, stdout=subprocess.PIPE, check=True).stdout
    return found(r"ASN1 OID: (?!Oakley)(.*)$", text.decode("latin-1"))


def of_time(der: bytes, at: float) -> Line:
    """Whether a certificate had expired at a time, or wasn't valid yet."""
    own = of_certificate(der)
    begin, end = own["not_before"], own["not_after"]
    return {
        "expired_at_connection": bool(end) and seconds(end) < int(at),
        "not_yet_valid": bool(begin) and int(at) < seconds(begin),
    }


def of_talk(host: str | None, server: bytes | None, client: bytes | None, at: float) -> Line:
    """The fields of a connection by its server's own certificate and its client's, each in DER or
    None, and the time of its first packet."""
    said = {}
    if server:
        said |= of_certificate(server) | of_time(server, at)
        if host:
            said["sni_matches_cert"] = bool(said["san_dns"]) and is_named(server, host)
    if client:
        own = of_certificate(client)
        said |= {"client_subject": own["subject"], "client_issuer": own["issuer"]}
    return said


def fingerprint(der: bytes) -> str:
    return hashlib.sha256(der).hexdigest()


def seconds(text: str) -> int:
    """A time as `openssl` prints it, in seconds since 1970."""
    return calendar.timegm(time.strptime(text, "%Y-%m-%dT%H:%M:%SZ"))


# The names of RFC 5280, sections 4.2.1.3 and 4.2.1.12, by what openssl prints.
USAGES = {
    "Digital Signature": "digitalSignature", "Non Repudiation": "nonRepudiation",
    "Key Encipherment": "keyEncipherment", "Data Encipherment": "dataEncipherment",
    "Key Agreement": "keyAgreement", "Certificate Sign": "keyCertSign", "CRL Sign": "cRLSign",
    "Encipher Only": "encipherOnly", "Decipher Only": "decipherOnly",
}
PURPOSES = {
    "TLS Web Server Authentication": "serverAuth", "TLS Web Client Authentication": "clientAuth",
    "Code Signing": "codeSigning", "E-mail Protection": "emailProtection",
    "Time Stamping": "timeStamping", "OCSP Signing": "OCSPSigning",
    "Any Extended Key Usage": "anyExtendedKeyUsage",
}


# The policies that openssl has a name for (RFC 5280, section 4.2.1.4).
POLICIES = {"X509v3 Any Policy": "2.5.29.32.0"}


def listed(pattern: str, names: dict[str, str], text: str) -> list[str]:
    line = found(pattern, text)
    return [names.get(word, word) for word in line.strip().split(", ")] if line else []


def others(kind: str, text: str) -> list[str]:
    """The names of a kind in subjectAltName that `openssl x509 -ext` prints in its own form."""
    names = found(r"X509v3 Subject Alternative Name: *\n\s+(.*)$", text)
    return [name[len(kind) :] for name in (names or "").split(", ") if name.startswith(kind)]


def number(text: str) -> int | None:
    """A number that fits in 64 bits: no other is logged."""
    return int(text) if int(text) < 1 << 64 else None


def directory(name: str) -> str:
    """A directoryName, which openssl prints as /C=DE/CN=a name, by RFC 4514."""
    return ",".join(reversed(name.strip("/").split("/")))


def of_line(der: bytes, at: float) -> Line:
    """The fields of a line of `--certificates` that one certificate gives at a time."""
    own, text = of_certificate(der), openssl(der, "-text")
    names = alternative_names(text)
    constraints = found(r"X509v3 Basic Constraints:.*\n\s+(.*)$", text)
    path = re.search(r"pathlen:(\d+)", constraints or "")
    said = {
        "certificate.version": int(found(r"Version: (\d)", text)),
        "certificate.serial": own["serial"],
        "certificate.subject": own["subject"],
        "certificate.issuer": own["issuer"],
        "certificate.not_valid_before": seconds(own["not_before"]),
        "certificate.not_valid_after": seconds(own["not_after"]),
        "fingerprint_sha1": found(
            "Fingerprint=(.*)$", openssl(der, "-fingerprint", "-sha1")
        ).replace(":", "").lower(),
        "validity_days": own["validity_days"],
        **of_time(der, at),
        "certificate.tbs_sig_alg": own["tbs_sig_alg"],
        "weak_signature": own["weak_signature"],
        "weak_key": own["weak_key"],
        "san.upn": others("othername: UPN::", text),
        "san.directory": [directory(name) for name in others("DirName:", text)],
        "aia.ocsp": re.findall(r"OCSP - \w+:(\S+)", text),
        "aia.ca_issuers": re.findall(r"CA Issuers - \w+:(\S+)", text),
        "policies": [
            POLICIES.get(name, name) for name in re.findall("Policy: (.*)$", text, re.MULTILINE)
        ],
        "certificate.key_alg": found(r"Public Key Algorithm: (.*)$", text),
        "certificate.sig_alg": own["sig_alg"],
        "certificate.key_type": own["key_type"],
        "certificate.key_length": own["key_length"],
        "certificate.exponent": found(r"Exponent: (\d+)", text),
        "certificate.curve": own["key_curve"],
        "san.dns": own["san_dns"],
        "san.uri": [name for kind, name in names if kind == "URI"],
        "san.email": [name for kind, name in names if kind == "email"],
        "san.ip": own["san_ip"],
        "basic_constraints.ca": constraints and "CA:TRUE" in constraints,
        "basic_constraints.path_len": path and number(path[1]),
        "key_usage": listed(r"X509v3 Key Usage:.*\n\s+(.*)$", USAGES, text),
        "ext_key_usage": listed(r"X509v3 Extended Key Usage:.*\n\s+(.*)$", PURPOSES, text),
        "self_issued": own["self_issued"],
        "scts": own["cert_scts"],
        "sct_logs": own["cert_sct_logs"],
        "sct_times": own["cert_sct_times"],
    }
    always = [
        "certificate.subject", "certificate.issuer", "basic_constraints.ca",
        "basic_constraints.path_len", "self_issued", "validity_days",
    ]
    return {
        field: value
        for field, value in said.items()
        if (value is not None if field in always else bool(value))
    }
