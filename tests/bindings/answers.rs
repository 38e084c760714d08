//! Answers the calls that tests/bindings/rows.py asks, in the words of the rows: a line of standard input has a call and its bytes in
//! hexadecimal digits, and a line of standard output the answer.
use std::io::{self, BufRead, Write};
use wispuddera::*;

/// The length of the rest, or `_` if it isn't printed, and the value.
type Answer = Result<(String, String), Error>;

fn hex(bytes: &[u8]) -> String {
    bytes.iter().map(|byte| format!("{byte:02x}")).collect()
}

fn shown(bytes: &[u8]) -> String {
    if bytes.is_empty() {
        "[]".to_owned()
    } else {
        format!("<{}>", hex(bytes))
    }
}

fn option(bytes: Option<&[u8]>) -> String {
    bytes.map_or_else(
        || "None".to_owned(),
        |bytes| format!("Some({})", shown(bytes)),
    )
}

fn held(bytes: &[u8]) -> String {
    option((!bytes.is_empty()).then_some(bytes))
}

fn numbers(name: &str, values: impl Iterator<Item = u16>) -> String {
    let values: Vec<_> = values.map(|value| format!("{name}({value})")).collect();
    format!("[{}]", values.join(", "))
}

/// Those before one that isn't read, where a list of the library ends.
fn whole<'a, T: Read<'a>>(items: Items<'a, T>, show: impl Fn(T) -> String) -> String {
    let items: Vec<_> = items.map_while(Result::ok).map(show).collect();
    format!("[{}]", items.join(", "))
}

fn raw_record(bytes: &[u8]) -> Answer {
    let (r, rest) = Record::read(bytes)?;
    let front = format!(
        "record_type: TlsRecordType({}), version: TlsVersion({})",
        r.content_type, r.version
    );
    let header = format!("TlsRecordHeader {{ {front}, len: {} }}", r.fragment.len());
    Ok((
        rest.len().to_string(),
        format!(
            "TlsRawRecord {{ hdr: {header}, bytes: {} }}",
            shown(r.fragment)
        ),
    ))
}

fn client_hello(bytes: &[u8]) -> Answer {
    let (h, rest) = ClientHello::read(bytes)?;
    let methods = h
        .compression_methods
        .iter()
        .map(|method| u16::from(*method));
    let front = format!(
        "version: TlsVersion({}), random: {}, session_id: {}",
        h.version,
        shown(h.random),
        held(h.session_id)
    );
    let (ciphers, comp) = (
        numbers("TlsCipherSuiteID", h.cipher_suites),
        numbers("TlsCompressionID", methods),
    );
    let value = format!(
        "TlsClientHelloContents {{ {front}, ciphers: {ciphers}, comp: {comp}, ext: {} }}",
        option(h.extensions)
    );
    Ok((rest.len().to_string(), value))
}

fn server_hello((h, rest): (ServerHello, &[u8])) -> Answer {
    let front = format!(
        "version: TlsVersion({}), random: {}, session_id: {}",
        h.version,
        shown(h.random),
        held(h.session_id)
    );
    let picked = format!(
        "cipher: TlsCipherSuiteID({}), compression: TlsCompressionID({})",
        h.cipher_suite, h.compression_method
    );
    let value = format!(
        "TlsServerHelloContents {{ {front}, {picked}, ext: {} }}",
        option(h.extensions)
    );
    Ok((rest.len().to_string(), value))
}

fn dtls_client_hello(bytes: &[u8]) -> Answer {
    let (h, rest) = DtlsClientHello::read(bytes)?;
    let methods = h
        .compression_methods
        .iter()
        .map(|method| u16::from(*method));
    let front = format!(
        "version: TlsVersion({}), random: {}, session_id: {}, cookie: {}",
        h.version,
        shown(h.random),
        held(h.session_id),
        shown(h.cookie)
    );
    let (ciphers, comp) = (
        numbers("TlsCipherSuiteID", h.cipher_suites),
        numbers("TlsCompressionID", methods),
    );
    let value = format!(
        "DTLSClientHello {{ {front}, ciphers: {ciphers}, comp: {comp}, ext: {} }}",
        option(h.extensions)
    );
    Ok((rest.len().to_string(), value))
}

fn certificate(bytes: &[u8]) -> Answer {
    let chain = whole(certificates(bytes)?, |it| {
        format!("RawCertificate {{ bytes: {} }}", shown(it.der))
    });
    Ok((
        "_".to_owned(),
        format!("Certificate(TlsCertificateContents {{ cert_chain: {chain} }})"),
    ))
}

fn unknown(bytes: &[u8]) -> Answer {
    let (e, rest) = Extension::read(bytes)?;
    Ok((
        rest.len().to_string(),
        format!(
            "Unknown(TlsExtensionType({}), {})",
            e.kind,
            shown(e.content)
        ),
    ))
}

fn names_of_protocols(bytes: &[u8]) -> Answer {
    let length = u16::try_from(bytes.len())
        .expect("rows have fewer bytes")
        .to_be_bytes();
    let block = [&[0, 16], &length[..], bytes].concat();
    let names = protocols(&block)?.expect("the block has them");
    Ok((
        "_".to_owned(),
        format!("ALPN({})", whole(names, |it| shown(it.name))),
    ))
}

/// The length of the rest after a value that the rows decode further than the crate does.
fn rest_of<'a, T: Read<'a>>(bytes: &'a [u8]) -> Answer {
    let (_, rest) = T::read(bytes)?;
    Ok((rest.len().to_string(), String::new()))
}

fn record(bytes: &[u8]) -> Answer {
    let (r, rest) = Record::read(bytes)?;
    let header = format!(
        "TlsRecordHeader {{ record_type: TlsRecordType({}), version: TlsVersion({}), len: {} }}",
        r.content_type,
        r.version,
        r.fragment.len()
    );
    Ok((
        rest.len().to_string(),
        format!("TlsPlaintext {{ hdr: {header}, "),
    ))
}

fn dtls_record(bytes: &[u8]) -> Answer {
    let (r, rest) = DtlsRecord::read(bytes)?;
    let header = format!(
        "DTLSRecordHeader {{ content_type: TlsRecordType({}), version: TlsVersion({}), epoch: {}, sequence_number: {}, length: {} }}",
        r.content_type,
        r.version,
        r.epoch,
        r.sequence_number,
        r.fragment.len()
    );
    Ok((
        rest.len().to_string(),
        format!("DTLSPlaintext {{ header: {header}, "),
    ))
}

fn dtls_message(bytes: &[u8]) -> Answer {
    let (m, rest) = DtlsMessage::read(bytes)?;
    let front = format!(
        "msg_type: TlsHandshakeType({}), length: {}, message_seq: {}, fragment_offset: {}, fragment_length: {}, ",
        m.kind,
        m.length,
        m.message_seq,
        m.fragment_offset,
        m.body.len()
    );
    let body = if m.is_part {
        format!("Fragment({})", shown(m.body))
    } else {
        String::new()
    };
    Ok((
        rest.len().to_string(),
        format!("Handshake(DTLSMessageHandshake {{ {front}body: {body}"),
    ))
}

fn is_fragment(bytes: &[u8]) -> Answer {
    let (m, rest) = DtlsMessage::read(bytes)?;
    Ok((rest.len().to_string(), m.is_part.to_string()))
}

/// What is found, where it is there.
fn some(value: Option<String>) -> Answer {
    let told = value.map_or_else(|| "None".to_owned(), |value| format!("Some({value})"));
    Ok(("_".to_owned(), told))
}

/// What a reader of contents makes of the first extension of that type.
fn of_extension<'a>(
    block: &'a [u8],
    kind: u16,
    read: impl Fn(&'a [u8]) -> Result<String, Error>,
) -> Answer {
    some(find_extension(block, kind)?.map(read).transpose()?)
}

fn listed_groups(content: &[u8]) -> Result<String, Error> {
    let groups = numbers("NamedGroup", groups(content)?);
    Ok(format!("EllipticCurves({groups})"))
}

fn listed_schemes(content: &[u8]) -> Result<String, Error> {
    let schemes = list(signature_schemes(content)?);
    Ok(format!("SignatureAlgorithms([{schemes}])"))
}

fn listed_versions(content: &[u8]) -> Result<String, Error> {
    let versions = numbers("TlsVersion", versions(content)?);
    Ok(format!("SupportedVersions({versions})"))
}

fn found_protocols(block: &[u8]) -> Answer {
    let names = protocols(block)?;
    some(names.map(|names| format!("ALPN({})", whole(names, |it| shown(it.name)))))
}

fn name(found: Option<&[u8]>) -> Answer {
    some(found.map(shown))
}

/// The body of a ClientHello that has that block of extensions.
fn in_hello(block: &[u8]) -> Vec<u8> {
    let length = u16::try_from(block.len()).expect("the block fits");
    let front = [
        &[3, 3],
        &[0; 32][..],
        &[0, 0, 2, 0x13, 1, 1, 0],
        &length.to_be_bytes(),
    ];
    [&front.concat(), block].concat()
}

fn in_record(block: &[u8]) -> Vec<u8> {
    let body = in_hello(block);
    let length = u16::try_from(body.len()).expect("the body fits");
    let front = [
        &[0x16, 3, 1],
        &(length + 4).to_be_bytes()[..],
        &[1, 0],
        &length.to_be_bytes(),
    ];
    [&front.concat()[..], &body].concat()
}

/// So many extensions, one after another.
fn some_extensions(block: &[u8], count: usize) -> Answer {
    let mut items = extensions(block);
    for item in items.by_ref().take(count) {
        item?;
    }
    let rest = items.rest().len().to_string();
    Ok((rest, format!("{count} extensions")))
}

fn entry(share: &KeyShare<'_>) -> String {
    format!(
        "KeyShareEntry {{ group: NamedGroup({}), kx: {} }}",
        share.group,
        shown(share.value)
    )
}

fn key_share(bytes: &[u8]) -> Answer {
    let (share, rest) = KeyShare::read(bytes)?;
    Ok((rest.len().to_string(), entry(&share)))
}

/// In a list that has these bytes.
fn listed_shares(bytes: &[u8]) -> Answer {
    let length = u16::try_from(bytes.len())
        .expect("rows have fewer bytes")
        .to_be_bytes();
    let content = [&length[..], bytes].concat();
    let shares = whole(key_shares(&content)?, |share| entry(&share));
    Ok(("_".to_owned(), shares))
}

fn key(key: PublicKey<'_>) -> String {
    match key {
        PublicKey::Rsa { bits } => format!("Rsa {{ bits: {bits} }}"),
        PublicKey::Ec { curve } => format!("Ec {{ curve: {} }}", shown(curve)),
        other => format!("{other:?}"),
    }
}

fn read_x509(bytes: &[u8]) -> Answer {
    let (c, rest) = X509::read(bytes)?;
    let front = format!(
        "version: {}, signed_bytes: {}, serial_number: {}, signature_algorithm: {}, issuer: {}, subject: {}",
        c.version,
        shown(c.signed_bytes),
        shown(c.serial_number),
        shown(c.signature_algorithm),
        shown(c.issuer),
        shown(c.subject)
    );
    let behind = format!(
        "key_algorithm: {}, key: {}, public_key: {}, extensions: {}, signature: {}",
        shown(c.key_algorithm),
        key(c.key),
        shown(c.public_key),
        shown(c.extensions),
        shown(c.signature)
    );
    let times = format!("not_before: {}, not_after: {}", c.not_before, c.not_after);
    Ok((
        rest.len().to_string(),
        format!("X509 {{ {front}, {times}, {behind} }}"),
    ))
}

fn read_x509_extension(bytes: &[u8]) -> Answer {
    let (e, rest) = X509Extension::read(bytes)?;
    let value = format!(
        "X509Extension {{ oid: {}, critical: {}, value: {} }}",
        shown(e.oid),
        e.critical,
        shown(e.value)
    );
    Ok((rest.len().to_string(), value))
}

fn name_of_x509(name: &X509Name<'_>) -> String {
    let (tag, content) = match *name {
        X509Name::Email(text) => (0x81, text),
        X509Name::Dns(text) => (0x82, text),
        X509Name::Uri(text) => (0x86, text),
        X509Name::Ip(address) => (0x87, address),
        X509Name::Other { tag, content } => (tag, content),
    };
    format!("{tag:#04x} {}", shown(content))
}

fn read_x509_name(bytes: &[u8]) -> Answer {
    let (name, rest) = X509Name::read(bytes)?;
    Ok((rest.len().to_string(), name_of_x509(&name)))
}

fn listed_x509_names(bytes: &[u8]) -> Answer {
    let names = whole(x509_names(bytes)?, |name| name_of_x509(&name));
    Ok(("_".to_owned(), names))
}

/// What is asked with a number after the call's name.
fn numbered(call: &str, number: u16, bytes: &[u8]) -> Answer {
    match call {
        "find_extension" => name(find_extension(bytes, number)?),
        "find_body" => name(find_body(
            bytes,
            u8::try_from(number).expect("a HandshakeType"),
        )?),
        "extensions" => some_extensions(bytes, usize::from(number)),
        _ => panic!("no call {call} is known here"),
    }
}

fn answer(call: &str, bytes: &[u8]) -> Answer {
    if let Some((call, number)) = call.split_once(':') {
        return numbered(call, number.parse().expect("a number"), bytes);
    }
    match call {
        "parse_tls_raw_record" => raw_record(bytes),
        "parse_tls_handshake_client_hello" => client_hello(bytes),
        "parse_tls_handshake_server_hello" => server_hello(ServerHello::read(bytes)?),
        "dtls_server_hello" => server_hello(ServerHello::read_dtls(bytes)?),
        "dtls_client_hello" => dtls_client_hello(bytes),
        "parse_tls_handshake_msg_certificate" => certificate(bytes),
        "parse_tls_extension_unknown" => unknown(bytes),
        "parse_tls_extension_elliptic_curves_content" => Ok((
            "_".to_owned(),
            format!("EllipticCurves({})", numbers("NamedGroup", groups(bytes)?)),
        )),
        "parse_tls_extension_signature_algorithms_content" => Ok((
            "_".to_owned(),
            format!("SignatureAlgorithms([{}])", list(signature_schemes(bytes)?)),
        )),
        "parse_tls_extension_alpn_content" => names_of_protocols(bytes),
        "parse_tls_plaintext" => record(bytes),
        "parse_tls_message_handshake" => rest_of::<Message>(bytes),
        "parse_tls_extension" => rest_of::<Extension>(bytes),
        "parse_dtls_plaintext_record" => dtls_record(bytes),
        "parse_dtls_message_handshake" => dtls_message(bytes),
        "parse_dtls_message_handshake.is_fragment" => is_fragment(bytes),
        "server_name" => name(server_name(bytes)?),
        "server_name_of_hello" => name(server_name_of_hello(&in_hello(bytes))?),
        "server_name_of_record" => name(server_name_of_record(&in_record(bytes))?),
        "groups" => of_extension(bytes, 10, listed_groups),
        "signature_schemes" => of_extension(bytes, 13, listed_schemes),
        "versions" => of_extension(bytes, 43, listed_versions),
        "protocols" => found_protocols(bytes),
        "best_version" => some(best_version(0x0303, bytes)?.map(|version| version.to_string())),
        "key_share" => key_share(bytes),
        "key_shares" => listed_shares(bytes),
        "read_x509" => read_x509(bytes),
        "read_x509_extension" => read_x509_extension(bytes),
        "read_x509_name" => read_x509_name(bytes),
        "x509_names" => listed_x509_names(bytes),
        _ => panic!("no call {call} is known here"),
    }
}

fn list(values: impl Iterator<Item = u16>) -> String {
    values
        .map(|value| value.to_string())
        .collect::<Vec<_>>()
        .join(", ")
}

fn bytes_of(digits: &str) -> Vec<u8> {
    let pairs = (0..digits.len()).step_by(2).map(|i| &digits[i..i + 2]);
    pairs
        .map(|pair| u8::from_str_radix(pair, 16).expect("digits"))
        .collect()
}

fn main() -> io::Result<()> {
    for line in io::stdin().lock().lines() {
        let line = line?;
        let (call, digits) = line.split_once(' ').expect("a call and its bytes");
        let answer = match answer(call, &bytes_of(digits)) {
            Ok((rest, value)) => format!("Ok rest {rest}, {value}"),
            Err(Error::Incomplete { missing }) => format!("Incomplete({missing})"),
            Err(Error::Refused(kind)) => format!("Error({kind:?})"),
        };
        writeln!(io::stdout(), "{answer}")?;
        io::stdout().flush()?;
    }
    Ok(())
}
