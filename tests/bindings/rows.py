"""The rows of tests/rows/data (docs/TESTING.md, "Rows"), and those of certificates beside this
file, through the Python module: values, places, kinds of refusals, and missing counts.

    rows.py [PROGRAM]

PROGRAM, if given, gets the same rows: tests/bindings/answers.rs, a program over the Rust crate.

The answer that a row wants is compared with the module's:

- If the module decodes the whole value, the value, printed in the form of the row.
- If the call decodes more than the module, the rest and the number of missing bytes.
- The row of an extension, or of a list of them, is also read as a block (names, versions, groups,
  contents), and in a hello and a record around that block.
- The row of a number and bytes after their length is also read as a key share.

Each row is read from `bytes`, a `bytearray` and a `memoryview` of either.
"""

import functools
import re
import subprocess
import sys
from pathlib import Path

sys.path.insert(0, str(Path(__file__).resolve().parents[2]))
from tests.support import script  # noqa: E402

script.answer_help(__doc__)
import wispuddera as w  # noqa: E402

HERE = Path(__file__).resolve().parent
DATA = HERE.parent.parent / "tests/rows/data"
CLAUSE = re.compile(r"\s(=>|cut:|within:|inside:|written:)")


def rows(file):
    """The calls, the bytes and the clauses of each row."""
    names, held = {}, []
    for line in [*file.read_text().splitlines(), ""]:
        if line.startswith(" ") and held:
            held.append(line.strip())
            continue
        row, held = " ".join(held), [line] if line and not line.startswith("#") else []
        if match := re.match(r"let (\w+) = (.*)", row):
            names[match[1]] = match[2]
        elif row:
            head, *clauses = CLAUSE.split(f"{row} ")
            match = re.match(r"([A-Za-z_][\w:.]*(?:\s*,\s*[A-Za-z_][\w:.]*)*)(.*)", head)
            calls = [call.strip() for call in match[1].split(",")]
            texts = (text.strip() for text in clauses[1::2])
            yield calls, match[2], list(zip(clauses[::2], texts)), names


def bytes_of(text, names):
    """The bytes that a row writes."""
    for name in sorted(names, key=len, reverse=True):
        text = text.replace(f"${name}", names[name])
    text = text.replace("|", " ")
    while match := re.search(r"\(([^()]*)\)\*(\d+)", text):
        text = text.replace(match[0], f" {expanded(match[1])} " * int(match[2]), 1)
    return bytes.fromhex(expanded(text))


def expanded(text):
    """The digits of words; a word that ends in `*` and a number is repeated this many times."""
    words = (word.partition("*") for word in text.split())
    return "".join(digits * int(count or 1) for digits, _, count in words)


def plain(answer):
    """A row's answer with its bytes as digits alone."""

    def digits(match):
        return f"<{expanded(match[1])}>"

    return re.sub(r"<([0-9a-f* ]*)>", digits, re.sub(r"\s+", " ", answer).strip())


def shown(data):
    return f"<{bytes(data).hex()}>" if len(data) else "[]"


def option(data):
    return "None" if data is None else f"Some({shown(data)})"


def numbers(name, values):
    return f"[{', '.join(f'{name}({value})' for value in values)}]"


def raw_record(data):
    r = w.record(data)
    header = (
        f"TlsRecordHeader {{ record_type: TlsRecordType({r.content_type}), "
        f"version: TlsVersion({r.version}), len: {len(r.fragment)} }}"
    )
    return r.next, f"TlsRawRecord {{ hdr: {header}, bytes: {shown(r.fragment)} }}"


def client_hello(data):
    h = w.client_hello(data)
    lists = (
        f"ciphers: {numbers('TlsCipherSuiteID', h.cipher_suites)}, "
        f"comp: {numbers('TlsCompressionID', h.compression_methods)}"
    )
    front = (
        f"version: TlsVersion({h.version}), random: {shown(h.random)}, "
        f"session_id: {option(h.session_id if len(h.session_id) else None)}"
    )
    return h.next, f"TlsClientHelloContents {{ {front}, {lists}, ext: {option(h.extensions)} }}"


def server_hello(data, read=w.server_hello):
    h = read(data)
    front = (
        f"version: TlsVersion({h.version}), random: {shown(h.random)}, "
        f"session_id: {option(h.session_id if len(h.session_id) else None)}"
    )
    picked = (
        f"cipher: TlsCipherSuiteID({h.cipher_suite}), "
        f"compression: TlsCompressionID({h.compression_method})"
    )
    return h.next, f"TlsServerHelloContents {{ {front}, {picked}, ext: {option(h.extensions)} }}"


def dtls_server_hello(data):
    return server_hello(data, w.dtls_server_hello)


def dtls_client_hello(data):
    h = w.dtls_client_hello(data)
    lists = (
        f"ciphers: {numbers('TlsCipherSuiteID', h.cipher_suites)}, "
        f"comp: {numbers('TlsCompressionID', h.compression_methods)}"
    )
    front = (
        f"version: TlsVersion({h.version}), random: {shown(h.random)}, "
        f"session_id: {option(h.session_id if len(h.session_id) else None)}"
    )
    return (
        h.next,
        f"DTLSClientHello {{ {front}, cookie: {shown(h.cookie)}, {lists}, "
        f"ext: {option(h.extensions)} }}",
    )


def unknown(data):
    e = w.extension(data)
    return e.next, f"Unknown(TlsExtensionType({e.kind}), {shown(e.content)})"


def whole(items):
    """Those before one that isn't whole, where a list of the library ends."""
    found = []
    try:
        found.extend(items)
    except w.Incomplete:
        pass
    return found


def certificate(data):
    found = ", ".join(
        f"RawCertificate {{ bytes: {shown(it)} }}" for it in whole(w.certificates(data))
    )
    return None, f"Certificate(TlsCertificateContents {{ cert_chain: [{found}] }})"


def groups(data):
    return None, f"EllipticCurves({numbers('NamedGroup', w.groups(data))})"


def signature_schemes(data):
    return None, f"SignatureAlgorithms([{', '.join(map(str, w.signature_schemes(data)))}])"


def names_of_protocols(data):
    block = bytes.fromhex("0010") + len(data).to_bytes(2, "big") + bytes(data)
    return None, f"ALPN([{', '.join(shown(name) for name in whole(w.protocols(block)))}])"


def some(value):
    return None, "None" if value is None else f"Some({value})"


def of_extension(kind, read):
    """What a reader of contents makes of the first extension of that type; nothing where there is
    none."""

    def ask(block):
        content = w.find_extension(block, kind)
        return some(None if content is None else read(content)[1])

    return ask


def versions(content):
    return None, f"SupportedVersions({numbers('TlsVersion', w.versions(content))})"


def name_in(read, around):
    def ask(block):
        name = read(around(block))
        return some(None if name is None else shown(name))

    return ask


def in_hello(block):
    """The body of a ClientHello that has that block of extensions."""
    return bytes.fromhex(f"0303 {bytes(32).hex()} 00 0002 1301 01 00 {len(block):04x}") + bytes(
        block
    )


def in_record(block):
    body = in_hello(block)
    return bytes.fromhex(f"16 0301 {len(body) + 4:04x} 01 {len(body):06x}") + body


def protocols(block):
    names = w.protocols(block)
    return some(
        None if names is None else f"ALPN([{', '.join(shown(name) for name in whole(names))}])"
    )


def found_extension(kind, block):
    found = w.find_extension(block, kind)
    return some(None if found is None else shown(found))


def found_body(kind, fragment):
    found = w.find_body(fragment, kind)
    return some(None if found is None else shown(found))


def some_extensions(count, block):
    """So many extensions, one after another: the end of the last."""
    end = 0
    for _, it in zip(range(count), w.extensions(block)):
        end = it.next
    return end, f"{count} extensions"


def entry(share):
    return f"KeyShareEntry {{ group: NamedGroup({share.group}), kx: {shown(share.value)} }}"


def key_share(data):
    share = w.key_share(data)
    return share.next, entry(share)


def key_shares(data):
    """In a list that has these bytes."""
    shares = whole(w.key_shares(len(data).to_bytes(2, "big") + bytes(data)))
    return None, f"[{', '.join(map(entry, shares))}]"


def record(data):
    r = w.record(data)
    header = (
        f"TlsRecordHeader {{ record_type: TlsRecordType({r.content_type}), "
        f"version: TlsVersion({r.version}), len: {len(r.fragment)} }}"
    )
    return r.next, f"TlsPlaintext {{ hdr: {header}, "


def dtls_record(data):
    r = w.dtls_record(data)
    number = f"epoch: {r.epoch}, sequence_number: {r.sequence_number}, length: {len(r.fragment)}"
    header = (
        f"DTLSRecordHeader {{ content_type: TlsRecordType({r.content_type}), "
        f"version: TlsVersion({r.version}), {number} }}"
    )
    return r.next, f"DTLSPlaintext {{ header: {header}, "


def dtls_message(data):
    m = w.dtls_message(data)
    part = f"fragment_offset: {m.fragment_offset}, fragment_length: {len(m.body)}, "
    front = (
        f"msg_type: TlsHandshakeType({m.kind}), length: {m.length}, "
        f"message_seq: {m.message_seq}, {part}"
    )
    body = f"Fragment({shown(m.body)})" if m.is_part else ""
    return m.next, f"Handshake(DTLSMessageHandshake {{ {front}body: {body}"


def is_fragment(data):
    m = w.dtls_message(data)
    return m.next, "true" if m.is_part else "false"


def read_x509(data):
    c = w.read_x509(data)
    kinds = {
        w.KeyKind.RSA: f"Rsa {{ bits: {c.key_bits} }}",
        w.KeyKind.EC: f"Ec {{ curve: {shown(c.key_parameters)} }}",
    }
    key = kinds.get(c.key_kind) or c.key_kind.name.capitalize()
    front = (
        f"version: {c.version}, signed_bytes: {shown(c.signed_bytes)}, "
        f"serial_number: {shown(c.serial_number)}"
    )
    names = (
        f"signature_algorithm: {shown(c.signature_algorithm)}, issuer: {shown(c.issuer)}, "
        f"subject: {shown(c.subject)}"
    )
    keys = f"key_algorithm: {shown(c.key_algorithm)}, key: {key}, public_key: {shown(c.public_key)}"
    behind = f"extensions: {shown(c.extensions)}, signature: {shown(c.signature)}"
    return (
        c.next,
        f"X509 {{ {front}, {names}, not_before: {c.not_before}, not_after: {c.not_after}, "
        f"{keys}, {behind} }}",
    )


def read_x509_extension(data):
    e = w._x509_extension(w._Given(data), 0)
    critical = str(bool(e.critical)).lower()
    return (
        e.next,
        f"X509Extension {{ oid: {shown(e.oid)}, critical: {critical}, value: {shown(e.value)} }}",
    )


def name_of_x509(name):
    return f"{name.kind:#04x} {shown(name.content)}"


def read_x509_name(data):
    name = w._x509_name(w._Given(data), 0)
    return name.next, name_of_x509(name)


def x509_names(data):
    return None, f"[{', '.join(map(name_of_x509, whole(w.x509_names(data))))}]"


# Calls whose answers the module has in full: the end of what was read (None if there is none), and
# the value.
WHOLE = {
    "parse_tls_raw_record": raw_record,
    "parse_tls_handshake_client_hello": client_hello,
    "parse_tls_handshake_server_hello": server_hello,
    "parse_tls_handshake_msg_certificate": certificate,
    "parse_tls_extension_unknown": unknown,
    "parse_tls_extension_elliptic_curves_content": groups,
    "parse_tls_extension_signature_algorithms_content": signature_schemes,
    "parse_tls_extension_alpn_content": names_of_protocols,
    "read_x509": read_x509,
    "read_x509_extension": read_x509_extension,
    "read_x509_name": read_x509_name,
    "x509_names": x509_names,
}
# Bodies of DTLS messages, by type. The rows of whole messages have their answers at each cut, and
# part of the value.
BODIES = {1: "dtls_client_hello", 2: "dtls_server_hello"}
WHOLE.update({"dtls_client_hello": dtls_client_hello, "dtls_server_hello": dtls_server_hello})
WHOLE["parse_dtls_message_handshake.is_fragment"] = is_fragment
# Calls that decode bytes which the module returns undecoded: the front of the value, as far as the
# module decodes it.
FRONT = {
    "parse_tls_plaintext": record,
    "parse_tls_message_handshake": lambda data: (w.message(data).next, ""),
    "parse_tls_extension": lambda data: (w.extension(data).next, ""),
    "parse_dtls_plaintext_record": dtls_record,
    "parse_dtls_message_handshake": dtls_message,
}
# What is found in a block of extensions, by the type of the extension that has it.
FOUND = {
    0: {
        "server_name": name_in(w.server_name, lambda block: block),
        "server_name_of_hello": name_in(w.server_name_of_hello, in_hello),
        "server_name_of_record": name_in(w.server_name_of_record, in_record),
    },
    10: {"groups": of_extension(10, groups)},
    13: {"signature_schemes": of_extension(13, signature_schemes)},
    16: {"protocols": protocols},
    43: {
        "versions": of_extension(43, versions),
        "best_version": lambda block: some(w.best_version(OWN_VERSION, block)),
    },
}
# The numbers of extensions, by their names in a value; and the calls whose rows are also read as an
# extension.
NAMES = {
    "SNI": 0, "EllipticCurves": 10, "SignatureAlgorithms": 13, "ALPN": 16, "SupportedVersions": 43,
}
EXTENSIONS = {
    f"parse_tls_extension{name}"
    for name in (
        "", "_sni", "_elliptic_curves", "_signature_algorithms", "_supported_versions",
        "_key_share",
    )
}
OWN_VERSION, MOST_IN_HELLO = 0x0303, 16_000
# What is asked beside these, with a number after the name, or of rows of another call.
BESIDE = {
    "find_extension": found_extension,
    "find_body": found_body,
    "extensions": some_extensions,
    "key_share": key_share,
    "key_shares": key_shares,
}
VIEWS = {**{name: read for views in FOUND.values() for name, read in views.items()}, **BESIDE}


def told(read, data):
    """The answer in a row's words."""
    try:
        end, value = read(data)
    except w.Incomplete as e:
        return f"Incomplete({e.missing})"
    except w.Refused as e:
        return f"Error({e.kind})"
    return f"Ok rest {'_' if end is None else len(data) - end}, {value}"


def is_same(call, found, wanted):
    if call in FRONT or call.startswith(("find_extension", "find_body")):
        # Decoded further: what is whole may still be refused.
        return (
            wanted.startswith(found)
            if wanted.startswith("Ok")
            else found.startswith("Ok") or found == wanted
        )
    return re.sub(r"rest \d+", "rest _", wanted) == found if "rest _" in found else wanted == found


def reader(call):
    name, _, number = call.partition(":")
    read = WHOLE.get(name) or FRONT.get(name) or VIEWS[name]
    return functools.partial(read, int(number)) if number else read


def told_by_program(call, data):
    program.stdin.write(f"{call} {data.hex()}\n")
    program.stdin.flush()
    return program.stdout.readline().rstrip("\n")


def ask(call, data, wanted, where):
    """Compares the answers on all that may be passed."""
    read = reader(call)
    buffers = (data, bytearray(data), memoryview(data), memoryview(bytearray(data)))
    answers = [(type(given).__name__, told(read, given)) for given in buffers]
    if program:
        answers.append(("Rust", told_by_program(call, data)))
    for name, found in answers:
        if not is_same(call, found, wanted):
            sys.exit(
                f"rows: {where}: {call} on {data.hex()} as {name}: {found} in place of {wanted}"
            )
    counts[call.partition(":")[0]] += 1


def fronts(data, parts):
    """How many bytes each front of the data has, and its answer where no value is read."""
    begin = 0
    for kind, size, error in re.findall(r"(Missing|Refused|Read)\((\d+)(?:,\s*(\w+))?\)", parts):
        for count in range(begin, begin + int(size)):
            if kind != "Read":
                missing = begin + int(size) - count
                yield count, f"Incomplete({missing})" if kind == "Missing" else f"Error({error})"
        begin += int(size)


def ask_cut(call, data, parts, where):
    """Compares the answer on each front of the bytes."""
    for count, wanted in fronts(data, parts):
        ask(call, data[:count], wanted, where)


def ask_body(data, clauses, where):
    """Compares a DTLS body with the row's answers within the lengths of its message."""
    call = BODIES[data[0]]
    for kind, text in clauses:
        if kind == "within:" and text.startswith("3,11 "):
            ask_cut(call, data[12:], text, where)
        elif kind == "=>" and (body := re.search(r"body: ServerHello\((.*)\) \}\)$", plain(text))):
            ask(call, data[12:], f"Ok rest 0, {body[1].strip()}", where)


def ask_found(kind, block, wanted, where):
    """Compares what is found of the extension of that type in a block: the row's value, None, or
    its refusal."""
    for name in FOUND.get(kind, {}):
        if len(block) <= MOST_IN_HELLO or name not in (
            "server_name_of_hello",
            "server_name_of_record",
        ):
            ask(
                name,
                block,
                wanted
                if wanted.startswith(("Inc", "Err"))
                else f"Ok rest _, {found_by(name, wanted)}",
                where,
            )


def found_by(name, value):
    """What a call finds of an extension of that value; None where there is no such extension."""
    if name == "best_version":
        listed = (
            [OWN_VERSION]
            if value == "None"
            else [int(number) for number in re.findall(r"TlsVersion\((\d+)\)", value)]
        )
        return some(
            max((version for version in listed if version & 0x0F0F != 0x0A0A), default=None)
        )[1]
    if value.startswith("SNI"):
        return (
            option(None)
            if value == "SNI([])"
            else f"Some({re.search(r'SNIType[(][0-9]+[)], ([^)]*)[)]', value)[1]})"
        )
    return value if value == "None" else f"Some({value})"


def items_of(text):
    """The items of a list in a row's answer."""
    found, depth = [""], 0
    for letter in text.removeprefix("[").removesuffix("]"):
        depth += (letter in "([{") - (letter in ")]}")
        if letter == "," and depth == 0:
            found.append("")
        else:
            found[-1] += letter
    return [item.strip() for item in found if item.strip()]


def ask_extension(data, clauses, where):
    """Compares the row of one extension, read as a block."""
    kind = int.from_bytes(data[:2], "big")
    for clause, text in clauses:
        if clause == "=>" and data and "Tag" not in text:
            wanted = plain(text)
            ok = re.match(r"Ok rest (\d+), (.*)", wanted)
            content = data[4 : len(data) - int(ok[1])] if ok else b""
            ask(
                f"find_extension:{kind}", data,
                f"Ok rest _, Some({shown(content)})" if ok else wanted, where,
            )
            ask_found(kind, data, ok[2] if ok else wanted, where)
            # Nothing of another type is found, where all is seen.
            for other in FOUND.keys() - {kind} if ok and ok[1] == "0" else ():
                ask_found(other, data, "None", where)
        elif clause == "cut:":
            for count, wanted in fronts(data, text):
                # No bytes are a block without extensions.
                if count:
                    ask(f"find_extension:{kind}", data[:count], wanted, where)
                    ask_found(kind, data[:count], wanted, where)
        elif clause == "within:" and text.startswith("3 "):
            for count, wanted in fronts(data[4:], text[2:]):
                for behind in {b"", data[4 + count :]}:
                    ask_found(
                        kind, data[:2] + count.to_bytes(2, "big") + data[4 : 4 + count] + behind,
                        wanted, where,
                    )


def ask_extensions(data, clauses, where):
    """Compares the row of a list of extensions, read as a block."""
    for clause, text in clauses:
        if clause != "=>" or not (ok := re.match(r"Ok rest (\d+), (.*)", plain(text))):
            continue
        items = items_of(ok[2])
        ask(f"extensions:{len(items)}", data, f"Ok rest {ok[1]}, {len(items)} extensions", where)
        firsts = {}
        for item in items:
            firsts.setdefault(NAMES.get(item.split("(")[0]), item)
        for kind in FOUND:
            if kind in firsts or ok[1] == "0":
                ask_found(kind, data, firsts.get(kind, "None"), where)


def ask_framed(data, clauses, where):
    """Compares the row of a number and bytes after their length, read as a key share (RFC 8446,
    section 4.2.8)."""
    for clause, text in clauses:
        if clause == "=>":
            wanted = re.sub(
                r"Unknown\(TlsExtensionType\((\d+)\), (.*)\)$",
                r"KeyShareEntry { group: NamedGroup(\1), kx: \2 }",
                plain(text),
            )
            ask("key_share", data, wanted, where)
            ask("key_shares", data, f"Ok rest _, [{wanted.partition(', ')[2]}]", where)
        elif clause == "cut:":
            ask_cut("key_share", data, text, where)


def ask_names(data, clauses, where):
    """Compares the row of the content of a server_name, within its extension."""
    block = b"\0\0" + len(data).to_bytes(2, "big")
    for clause, text in clauses:
        if clause == "=>":
            ask_found(0, block + data, re.sub(r"Ok rest \d+, ", "", plain(text)), where)
        elif clause == "cut:":
            for count, wanted in fronts(data, text):
                ask_found(0, block[:2] + count.to_bytes(2, "big") + data[:count], wanted, where)


def ask_message(data, clauses, where):
    """Compares the body of a handshake message with the message's row."""
    told_of = dict(clauses)
    if "=>" in told_of and data:
        wanted = plain(told_of["=>"])
        ok = re.match(r"Ok rest (\d+), ", wanted)
        ask(
            f"find_body:{data[0]}", data,
            f"Ok rest _, Some({shown(data[4 : len(data) - int(ok[1])])})" if ok else wanted, where,
        )
    for count, wanted in fronts(data, told_of.get("cut:", "")):
        if count:
            ask(f"find_body:{data[0]}", data[:count], wanted, where)


def ask_row(calls, data, clauses, where):
    told_of = dict(clauses)
    for call in calls:
        if (call in WHOLE or call in FRONT) and "=>" in told_of:
            ask(call, data, plain(told_of["=>"]), where)
        if (call in WHOLE or call in FRONT) and "cut:" in told_of:
            ask_cut(call, data, told_of["cut:"], where)
    if "parse_dtls_message_handshake" in calls and data[:1] and data[0] in BODIES:
        ask_body(data, clauses, where)
    if EXTENSIONS & set(calls):
        ask_extension(data, clauses, where)
    for call, also in ALSO.items():
        if call in calls:
            also(data, clauses, where)


# Further checks on the rows of a call.
ALSO = {
    "parse_tls_extensions": ask_extensions,
    "parse_tls_extension_unknown": ask_framed,
    "parse_tls_extension_sni_content": ask_names,
    "parse_tls_message_handshake": ask_message,
}


def main():
    for file in sorted([*DATA.glob("*.rows"), *HERE.glob("*.rows")]):
        for number, (calls, text, clauses, names) in enumerate(rows(file), 1):
            is_asked = (EXTENSIONS | counts.keys() | ALSO.keys()) & set(calls)
            if is_asked and dict(clauses).keys() & {"=>", "cut:"}:
                ask_row(calls, bytes_of(text, names), clauses, f"{file.name}, row {number}")
    if lacking := [call for call, count in counts.items() if count == 0]:
        sys.exit(f"rows: no row asks {lacking}")
    beside = " in Python and in Rust" if program else ""
    print(
        f"rows: {sum(counts.values())} answers of {len(counts)} calls are the rows'{beside}:",
        end=" ",
    )
    print(", ".join(f"{call} {count}" for call, count in counts.items()))


# How many answers were compared, by call.
counts = dict.fromkeys([*WHOLE, *FRONT, *VIEWS], 0)
program = None
if sys.argv[1:]:
    program = subprocess.Popen(
        sys.argv[1:], stdin=subprocess.PIPE, stdout=subprocess.PIPE, text=True
    )
main()
