"""Servers of Debian that speak another protocol before TLS: packages, configuration and commands.

In files and commands, WORK is the folder of the recording, in which ec.pem and ec.key are the
certificate and its key. All servers listen on 127.0.0.1 only.
"""

from __future__ import annotations

from dataclasses import dataclass, field


@dataclass(frozen=True)
class Server:
    """A server: its packages, the first of which gives its version; the commands that stay running;
    its files by name; commands that end before; and the ports on which it listens."""

    packages: str
    runs: list[str]
    ports: list[int]
    files: dict[str, str] = field(default_factory=dict)
    before: list[str] = field(default_factory=list)


POSTFIX = Server(
    "postfix",
    ["/usr/lib/postfix/sbin/master -c WORK/postfix -s"],
    [25],
    {
        "postfix/main.cf": """compatibility_level = 3.6
maillog_file_prefixes = /dev
maillog_file = /dev/stdout
queue_directory = WORK/queue
data_directory = WORK/data
inet_interfaces = 127.0.0.1
inet_protocols = ipv4
myhostname = mail.example.test
mydestination =
alias_maps =
smtpd_tls_eccert_file = WORK/ec.pem
smtpd_tls_eckey_file = WORK/ec.key
smtpd_tls_security_level = may
smtpd_tls_loglevel = 1
smtpd_tls_received_header = yes
smtpd_peername_lookup = no
tls_random_source = dev:/dev/urandom
""",
        "postfix/master.cf": """smtp inet n - n - - smtpd
cleanup unix n - n - 0 cleanup
rewrite unix - - n - - trivial-rewrite
tlsmgr unix - - n 1000? 1 tlsmgr
anvil unix - - n - 1 anvil
proxymap unix - - n - - proxymap
proxywrite unix - - n - 1 proxymap
postlog unix-dgram n - n - 1 postlogd
pickup unix n - n 60 1 pickup
qmgr unix n - n 300 1 qmgr
""",
    },
    [
        "install -d -o postfix WORK/data",
        "install -d WORK/queue",
        "postfix -c WORK/postfix check",
    ],
)
DOVECOT = Server(
    "dovecot-core dovecot-imapd dovecot-pop3d dovecot-lmtpd dovecot-managesieved",
    ["dovecot -F -c WORK/dovecot.conf"],
    [24, 110, 143, 4190],
    {
        "dovecot.conf": """base_dir = WORK/run
state_dir = WORK/state
log_path = /dev/stderr
protocols = imap pop3 lmtp sieve
listen = 127.0.0.1
ssl = yes
ssl_cert = <WORK/ec.pem
ssl_key = <WORK/ec.key
login_log_format_elements = %c %k
mail_location = maildir:WORK/mail/%u
passdb {
  driver = static
  args = password=it
}
userdb {
  driver = static
  args = uid=mail gid=mail home=WORK/mail/%u
}
service lmtp {
  inet_listener lmtp {
    port = 24
  }
}
service imap-login {
  inet_listener imaps {
    port = 0
  }
}
service pop3-login {
  inet_listener pop3s {
    port = 0
  }
}
""",
    },
    ["install -d -o mail -g mail WORK/mail"],
)
INSPIRCD = Server(
    "inspircd",
    ["inspircd --nofork --runasroot --config WORK/inspircd.conf"],
    [6667],
    {
        "inspircd.conf": """<server name="irc.example.test" description="it" network="it">
<admin name="it" nick="it" email="it@example.test">
<bind address="127.0.0.1" port="6667" type="clients">
<connect name="all" allow="*" resolvehostnames="no" useident="no">
<dns server="127.0.0.1" timeout="1">
<pid file="WORK/inspircd.pid">
<path configdir="WORK" datadir="WORK" logdir="WORK" runtimedir="WORK">
<module name="ssl_gnutls">
<module name="cap">
<module name="starttls">
<sslprofile name="it" provider="gnutls" certfile="WORK/ec.pem" keyfile="WORK/ec.key">
<starttls provider="it">
""",
        # Of the client.
        "irssi/config": """servers = ({
  address = "127.0.0.1"; port = "6667"; autoconnect = "yes";
  use_tls = "no"; starttls = "yes"; tls_verify = "no";
});
""",
    },
)
PROFTPD = Server(
    "proftpd-core proftpd-mod-crypto",
    ["proftpd -n -c WORK/proftpd.conf"],
    [21],
    {
        "proftpd.conf": """ServerName it
DefaultAddress 127.0.0.1
Port 21
User nobody
Group nogroup
UseIPv6 off
UseReverseDNS off
WtmpLog off
DelayEngine off
PidFile WORK/proftpd.pid
ScoreboardFile WORK/proftpd.scores
TransferLog none
SystemLog none
ModulePath /usr/lib/proftpd
LoadModule mod_tls.c
TLSEngine on
TLSLog WORK/tls.log
TLSProtocol TLSv1.2 TLSv1.3
TLSECCertificateFile WORK/ec.pem
TLSECCertificateKeyFile WORK/ec.key
""",
    },
)
PROSODY = Server(
    "prosody lua-sec",
    ["prosody --config WORK/prosody.cfg.lua -F"],
    [5222, 5269],
    {
        "prosody.cfg.lua": """run_as_root = true
data_path = "WORK/prosody"
pidfile = "WORK/prosody.pid"
interfaces = { "127.0.0.1" }
modules_enabled = { "tls", "saslauth", "dialback", "disco" }
modules_disabled = { "http" }
c2s_require_encryption = true
log = { info = "*console" }
ssl = { certificate = "WORK/ec.pem", key = "WORK/ec.key" }
VirtualHost "example.test"
""",
    },
    ["install -d WORK/prosody"],
)
SLAPD = Server(
    "slapd",
    ["slapd -f WORK/slapd.conf -h ldap://127.0.0.1:389/ -d stats"],
    [389],
    {
        "slapd.conf": """include /etc/ldap/schema/core.schema
pidfile WORK/slapd.pid
TLSCertificateFile WORK/ec.pem
TLSCertificateKeyFile WORK/ec.key
database config
""",
    },
)
INN = Server(
    "inn2",
    ["env INNCONF=WORK/news/inn.conf /usr/lib/news/bin/nnrpd -D -f -b 127.0.0.1 -p 119"],
    [119],
    {
        "news/inn.conf": """domain: example.test
pathhost: news.example.test
mta: /bin/true
hismethod: hisv6
ovmethod: tradindexed
pathnews: /usr/lib/news
pathetc: WORK/news
pathdb: WORK/news
pathrun: WORK/news
pathlog: WORK/news
pathtmp: WORK/news
pathspool: WORK/news
tlscertfile: WORK/ec.pem
tlskeyfile: WORK/news/ec.key
""",
        "news/active": "it.test 0000000000 0000000001 y\n",
        "news/history": "",
        "news/overview/group.index": "",
        "news/storage.conf": "method trash {\n  newsgroups: *\n  class: 0\n}\n",
        "news/readers.conf": """auth it {
  hosts: *
  default: it
}
access it {
  users: it
  newsgroups: *
  access: R
}
""",
    },
    [
        "install -o news -g news -m 600 WORK/ec.key WORK/news/ec.key",
        "chown -R news:news WORK/news",
        "runuser -u news -- env INNCONF=WORK/news/inn.conf /usr/lib/news/bin/makedbz -i -o",
    ],
)
AS_POSTGRES = "runuser -u postgres -- /usr/lib/postgresql/15/bin/"
POSTGRES = Server(
    "postgresql-15",
    [
        f"{AS_POSTGRES}postgres -D WORK/pg -k '' -h 127.0.0.1"
        " -c ssl=on -c ssl_cert_file=WORK/pg/ec.pem -c ssl_key_file=WORK/pg/ec.key"
    ],
    [5432],
    {},
    [
        "install -d -o postgres WORK/pg",
        f"{AS_POSTGRES}initdb -D WORK/pg -A trust -U me --no-sync",
        "install -o postgres -m 600 WORK/ec.pem WORK/ec.key WORK/pg",
    ],
)
MARIADB = Server(
    "mariadb-server",
    [
        "mariadbd --no-defaults --user=mysql --datadir=WORK/maria --socket=WORK/maria/socket"
        " --bind-address=127.0.0.1 --ssl-cert=WORK/ec.pem --ssl-key=WORK/maria-ec.key"
    ],
    [3306],
    {},
    [
        "install -d -o mysql WORK/maria",
        "install -o mysql -m 600 WORK/ec.key WORK/maria-ec.key",
        "mariadb-install-db --no-defaults --user=mysql --datadir=WORK/maria --skip-test-db"
        " --auth-root-authentication-method=normal",
    ],
)
# With the X server that the client needs.
XRDP = Server(
    "xrdp xvfb",
    ["Xvfb :9 -screen 0 640x480x16 -listen tcp", "xrdp --nodaemon --config WORK/xrdp.ini"],
    [6009, 3389],
    {
        "xrdp.ini": """[Globals]
ini_version=1
fork=true
port=tcp://127.0.0.1:3389
security_layer=tls
certificate=WORK/ec.pem
key_file=WORK/ec.key
ssl_protocols=TLSv1.2, TLSv1.3
autorun=
max_bpp=32
[Logging]
LogFile=WORK/xrdp.log
LogLevel=INFO
EnableSyslog=false
EnableConsole=true
ConsoleLevel=INFO
[Channels]
[Xorg]
name=Xorg
lib=libxup.so
username=ask
password=ask
ip=127.0.0.1
port=-1
code=20
""",
    },
)
