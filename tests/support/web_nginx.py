"""nginx with the site file of examples/negotiate, and an application behind it."""
import http.client
import os
import ssl
import subprocess

from support import TOP, kdc, web, web_servers

SITE = (TOP / "examples/negotiate/nginx.conf").read_text()
CONTEXT = ssl.SSLContext(ssl.PROTOCOL_TLS_CLIENT)
CONTEXT.check_hostname, CONTEXT.verify_mode = False, ssl.CERT_NONE
MAIN = """
user root;
daemon off;
worker_processes 2;
pid {folder}/nginx.pid;
error_log {folder}/nginx.log;
events {{ worker_connections 2048; }}
http {{
    access_log off;
    client_body_temp_path {folder}/body;
    proxy_temp_path {folder}/proxy;
    fastcgi_temp_path {folder}/fastcgi;
    uwsgi_temp_path {folder}/uwsgi;
    scgi_temp_path {folder}/scgi;
    {patience}
    include {folder}/site.conf;
    server {{
        listen 127.0.0.1:{application};
        absolute_redirect off;
        location / {{ return 200 "user '$http_remote_user', token '$http_authorization'"; }}
        location /404 {{ return 404; }}
        location /500 {{ return 500 "the application's own"; }}
        location /302 {{ return 302 /; }}
    }}
}}
"""


class Nginx:
    """nginx with the site file, at a port with TLS."""

    def __init__(self, folder):
        self.port, plain, application = (kdc.free_port() for _ in range(3))
        subprocess.run(["openssl", "req", "-x509", "-newkey", "rsa:2048", "-nodes", "-subj", "/CN=www.example.com",
                        "-keyout", folder / "tls.key", "-out", folder / "tls.pem"], check=True, capture_output=True)
        site = SITE
        for old, new in (("listen 80;", f"listen 127.0.0.1:{plain};"),
                         ("listen 443 ", f"listen 127.0.0.1:{self.port} "),
                         ("127.0.0.1:9000", f"127.0.0.1:{application}"),
                         ("proxy_read_timeout 10s;", f"proxy_read_timeout {web_servers.SECONDS}s;"),
                         ("/etc/ssl/www.example.com.pem", f"{folder}/tls.pem"),
                         ("/etc/ssl/private/www.example.com.key", f"{folder}/tls.key"),
                         ("/run/fevstunik-web/socket", f"{folder}/socket")):
            assert old in site
            site = site.replace(old, new)
        (folder / "site.conf").write_text(site)
        (folder / "nginx.conf").write_text(MAIN.format(folder=folder, application=application,
                                                       patience=web_servers.PATIENCE))
        self.plain = plain
        words = ["/usr/sbin/nginx", "-p", folder, "-e", folder / "nginx.log", "-c", folder / "nginx.conf"]
        self.process = kdc.Process(words, folder / "nginx.out", os.environ)
        self.process.wait_for(self.port)

    def connection(self):
        return http.client.HTTPSConnection("127.0.0.1", self.port, timeout=web_servers.SECONDS, context=CONTEXT)

    def ask(self, method="GET", path="/", token=None, headers=None, body=None):
        more = {} if token is None else {"Authorization": web.negotiate(token)}
        connection = self.connection()
        connection.request(method, path, body=body, headers={"Host": "www.example.com", **more, **(headers or {})})
        answer = connection.getresponse()
        try:
            return web.Answer(answer.status, answer.getheaders(), answer.read())
        finally:
            connection.close()
