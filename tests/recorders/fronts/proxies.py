"""Proxies of Debian, and the web servers behind them, in the form of `servers.py`."""

from __future__ import annotations

from tests.recorders.fronts.servers import Server

WEB = "openssl s_server -quiet -accept 127.0.0.1:8443 -cert WORK/ec.pem -key WORK/ec.key -www"
TINYPROXY = Server(
    "tinyproxy-bin openssl",
    [WEB, "tinyproxy -d -c WORK/tinyproxy.conf"],
    [8443, 8080],
    {
        "tinyproxy.conf": """Port 8080
Listen 127.0.0.1
Timeout 30
MaxClients 4
ConnectPort 8443
""",
    },
)
DANTE = Server(
    "dante-server openssl",
    [WEB, "danted -f WORK/danted.conf"],
    [8443, 1080],
    {
        "danted.conf": """logoutput: stdout
internal: 127.0.0.1 port = 1080
external: 127.0.0.1
clientmethod: none
socksmethod: none
user.unprivileged: nobody
client pass { from: 0.0.0.0/0 to: 0.0.0.0/0 }
socks pass { from: 0.0.0.0/0 to: 0.0.0.0/0 }
""",
    },
)
SSH = Server(
    "openssh-server openssh-client openssl",
    [
        WEB,
        "/usr/sbin/sshd -D -e -f WORK/sshd.conf",
        "ssh -N -F none -i WORK/user -D 127.0.0.1:1080 -p 2222 -o StrictHostKeyChecking=no"
        " -o UserKnownHostsFile=/dev/null -o ConnectionAttempts=20 root@127.0.0.1",
    ],
    [8443, 2222, 1080],
    {
        "sshd.conf": """Port 2222
ListenAddress 127.0.0.1
HostKey WORK/host
PidFile none
UsePAM no
StrictModes no
PermitRootLogin prohibit-password
AuthorizedKeysFile WORK/user.pub
""",
    },
    [
        "install -d /run/sshd",
        "ssh-keygen -q -t ed25519 -N '' -f WORK/host",
        "ssh-keygen -q -t ed25519 -N '' -f WORK/user",
    ],
)
SQUID = Server(
    "squid openssl",
    [WEB, "squid -N -f WORK/squid.conf"],
    [8443, 8080],
    {
        "squid.conf": """http_port 127.0.0.1:8080
pid_filename none
cache deny all
cache_log /dev/null
access_log none
shutdown_lifetime 0 seconds
visible_hostname proxy.example.test
auth_param basic program /usr/lib/squid/basic_fake_auth
auth_param basic children 1 startup=0
acl it proxy_auth REQUIRED
http_access allow it
""",
    },
)


def microsocks(words: str) -> Server:
    """Returns microsocks with these options."""
    command = f"microsocks -i 127.0.0.1 -p 1080 {words}"
    return Server("microsocks openssl", [WEB, command], [8443, 1080])


def haproxy(words: str) -> Server:
    """Returns HAProxy in front of nginx, to which it sends the header that the words choose."""
    return Server(
        "haproxy nginx-light",
        ["nginx -c WORK/nginx.conf", "haproxy -db -f WORK/haproxy.cfg"],
        [8443, 8080],
        {
            "nginx.conf": """daemon off;
error_log stderr;
pid WORK/nginx.pid;
events {}
http {
  log_format it '$ssl_protocol $ssl_cipher $ssl_server_name';
  access_log /dev/stdout it;
  server {
    listen 127.0.0.1:8443 ssl proxy_protocol;
    ssl_certificate WORK/ec.pem;
    ssl_certificate_key WORK/ec.key;
    ssl_protocols TLSv1.2 TLSv1.3;
    location / { return 200 "ok"; }
  }
}
""",
            "haproxy.cfg": f"""defaults
  mode tcp
  timeout connect 30s
  timeout client 30s
  timeout server 30s
listen it
  bind 127.0.0.1:8080
  server it 127.0.0.1:8443 {words}
""",
        },
    )
