"""The recordings of live servers: for each, a server of `servers.py` and a client of Debian."""

from __future__ import annotations

from dataclasses import dataclass

from tests.recorders.fronts import proxies, servers

NAME = "example.test"
STARTTLS = "openssl s_client -ign_eof -connect 127.0.0.1:{port} -starttls {protocol}"
CURL = "curl -skv -m 60 "
WEB = f" --connect-to {NAME}:8443:127.0.0.1:8443 https://{NAME}:8443/"
WEB_BY_NAME = f" --connect-to {NAME}:8443:localhost:8443 https://{NAME}:8443/"
WEB_AHEAD = f"--connect-to {NAME}:8443:127.0.0.1:8080 https://{NAME}:8443/"


@dataclass(frozen=True)
class Scene:
    """A server, the dialogue, its port, and RFC; the client's package and command; what it sends in
    TLS; and whether it names the server."""

    server: servers.Server
    found_by: str
    port: int
    rule: str
    client_package: str
    client: str
    words: bytes = b""
    has_name: bool = True


def starttls(
    server: servers.Server, found_by: str, port: int, rule: str, words: bytes, protocol: str = ""
) -> Scene:
    """Returns a scene of `openssl s_client`."""
    command = STARTTLS.format(port=port, protocol=protocol or found_by)
    command += f" -servername {NAME}"
    if found_by == "xmpp":
        command += f" -xmpphost {NAME}"
    return Scene(server, found_by, port, rule, "openssl", command, words)


def login(server: servers.Server, found_by: str, port: int, rule: str) -> Scene:
    """Returns a scene of `curl`, which logs in; where it can't, it says so and leaves."""
    ahead = f"--ssl-reqd -u me:it --connect-to {NAME}:{port}:127.0.0.1:{port}"
    return Scene(server, found_by, port, rule, "curl", f"{CURL}{ahead} {found_by}://{NAME}:{port}/")


def through(server: servers.Server, found_by: str, port: int, rule: str, words: str) -> Scene:
    """Returns a scene of `curl` through a proxy."""
    return Scene(server, found_by, port, rule, "curl", CURL + words)


def mail() -> dict[str, Scene]:
    """Returns the dialogues with mail servers."""
    return {
        "live_smtp_postfix": starttls(
            servers.POSTFIX, "smtp", 25, "RFC 3207, 4", b"EHLO it\r\nQUIT\r\n"
        ),
        "live_smtp_postfix_finger": Scene(
            servers.POSTFIX, "smtp", 25, "RFC 3207, 4", "postfix",
            "posttls-finger -c -l encrypt -L summary -s example.test [127.0.0.1]:25",
        ),
        "live_lmtp_dovecot": starttls(
            servers.DOVECOT, "lmtp", 24, "RFC 3207, 4; 2033, 4.1", b"LHLO it\r\nQUIT\r\n"
        ),
        "live_imap_dovecot": login(servers.DOVECOT, "imap", 143, "RFC 9051, 6.2.1"),
        "live_pop3_dovecot": login(servers.DOVECOT, "pop3", 110, "RFC 2595, 4"),
        "live_sieve_dovecot": starttls(
            servers.DOVECOT, "sieve", 4190, "RFC 5804, 2.2", b"LOGOUT\r\n"
        ),
    }


def other_lines() -> dict[str, Scene]:
    """Returns the other dialogues of lines and tags."""
    end = b"</stream:stream>"
    return {
        "live_nntp_inn": starttls(servers.INN, "nntp", 119, "RFC 4642, 2.2", b"DATE\r\nQUIT\r\n"),
        "live_irc_inspircd": starttls(
            servers.INSPIRCD, "irc", 6667, "IRCv3, tls-3.1", b"QUIT\r\n"
        ),
        "live_irc_inspircd_irssi": Scene(
            servers.INSPIRCD, "irc", 6667, "IRCv3, tls-3.1", "irssi",
            "script -qec 'irssi --home=WORK/irssi -n it' WORK/typescript", b"/quit\r",
            has_name=False,
        ),
        "live_ftp_proftpd": login(servers.PROFTPD, "ftp", 21, "RFC 4217, 4.1"),
        "live_xmpp_prosody": starttls(servers.PROSODY, "xmpp", 5222, "RFC 6120, 5.4", end),
        "live_xmpp_prosody_server": starttls(
            servers.PROSODY, "xmpp", 5269, "RFC 6120, 5.4", end, "xmpp-server"
        ),
    }


def packets() -> dict[str, Scene]:
    """Returns the dialogues of packets and messages."""
    unbind = bytes.fromhex("30 05 02 01 02 42 00")
    psql = f"psql 'host={NAME} hostaddr=127.0.0.1 user=me dbname=postgres sslmode=require'"
    mariadb = "mariadb --no-defaults --protocol=tcp -h 127.0.0.1 -u root --ssl"
    status = "show status where variable_name in ('Ssl_cipher', 'Ssl_version')"
    return {
        "live_ldap_slapd": starttls(servers.SLAPD, "ldap", 389, "RFC 4511, 4.14", unbind),
        "live_ldap_slapd_ldapsearch": Scene(
            servers.SLAPD, "ldap", 389, "RFC 4511, 4.14", "ldap-utils",
            "env LDAPTLS_REQCERT=never ldapsearch -x -ZZ -H ldap://127.0.0.1 -b '' -s base",
            has_name=False,
        ),
        "live_postgresql": Scene(
            servers.POSTGRES, "postgresql", 5432, "PostgreSQL's manual, \"Message Formats\"",
            "postgresql-client-15", f"{psql} -c '\\conninfo'",
        ),
        "live_mysql_mariadb": Scene(
            servers.MARIADB, "mysql", 3306, "MySQL's manual, \"Connection Phase\"",
            "mariadb-client", f'{mariadb} -e "{status}"', has_name=False,
        ),
        "live_rdp_xrdp": Scene(
            servers.XRDP, "rdp", 3389, "[MS-RDPBCGR], 2.2.1.2", "freerdp2-x11",
            "env DISPLAY=:9 xfreerdp /v:127.0.0.1 /u:me /p:it /cert:ignore /sec:tls +auth-only",
            has_name=False,
        ),
    }


def tunnels() -> dict[str, Scene]:
    """Returns the dialogues with proxies."""
    connect, header = "RFC 9110, 9.3.6", "The PROXY protocol, "
    password = proxies.microsocks("-u me -P it")
    return {
        "live_connect_tinyproxy": through(
            proxies.TINYPROXY, "http_connect", 8080, connect, "--proxy http://127.0.0.1:8080" + WEB
        ),
        # curl asks without a password first.
        "live_connect_squid": through(
            proxies.SQUID, "http_connect", 8080, connect,
            "--proxy http://me:it@127.0.0.1:8080 --proxy-anyauth" + WEB,
        ),
        "live_socks4_dante": through(
            proxies.DANTE, "socks4", 1080, "SOCKS 4", "--socks4 127.0.0.1:1080" + WEB
        ),
        "live_socks4a_ssh": through(
            proxies.SSH, "socks4", 1080, "SOCKS 4A", "--socks4a 127.0.0.1:1080" + WEB_BY_NAME
        ),
        "live_socks5_dante": through(
            proxies.DANTE, "socks5", 1080, "RFC 1928, 6", "--socks5 127.0.0.1:1080" + WEB
        ),
        "live_socks5_microsocks": through(
            password, "socks5", 1080, "RFC 1928, 6; 1929, 2",
            "--socks5-hostname me:it@127.0.0.1:1080" + WEB_BY_NAME,
        ),
        "live_proxy_haproxy": through(
            proxies.haproxy("send-proxy"), "proxy", 8443, header + "2.1", WEB_AHEAD
        ),
        "live_proxy_haproxy_2": through(
            proxies.haproxy("send-proxy-v2 proxy-v2-options crc32c"),
            "proxy", 8443, header + "2.2", WEB_AHEAD,
        ),
    }


def scenes() -> dict[str, Scene]:
    """Returns the recordings by name."""
    return mail() | other_lines() | packets() | tunnels()
