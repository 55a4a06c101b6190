"""A mail server that keeps what it is sent: `/usr/bin/python3 judge/helpers/mail_server.py PORT FOLDER CERTIFICATE KEY USER PASSWORD`.

It is Debian's python3-aiosmtpd. Without a certificate (-) it has no STARTTLS; otherwise it takes mail only after STARTTLS and from USER. Each mail
is a file of FOLDER. It refuses a mail with the word EICAR for its content. It prints a line once it listens."""

import ssl
import sys
import time
from pathlib import Path

from aiosmtpd.controller import Controller
from aiosmtpd.smtp import AuthResult


class Keeper:
    def __init__(self, folder):
        self.folder = Path(folder)

    async def handle_DATA(self, server, session, envelope):
        if b"EICAR" in envelope.content:
            return "552 5.7.0 found EICAR"
        number = len(list(self.folder.iterdir()))
        (self.folder / f"{number:04}.eml").write_bytes(f"X-To: {','.join(envelope.rcpt_tos)}\r\n".encode() + envelope.content)
        return "250 kept"


def main():
    port, folder, certificate, key, user, password = sys.argv[1:]
    how = {}
    if certificate != "-":
        context = ssl.SSLContext(ssl.PROTOCOL_TLS_SERVER)
        context.load_cert_chain(certificate, key)

        def check(server, session, envelope, mechanism, told):
            return AuthResult(success=(told.login, told.password) == (user.encode(), password.encode()), handled=False)

        how = {"tls_context": context, "require_starttls": True, "auth_required": True, "authenticator": check}
    Controller(Keeper(folder), hostname="127.0.0.1", port=int(port), ready_timeout=300, **how).start()
    print("listening", flush=True)
    time.sleep(1e9)


main()
