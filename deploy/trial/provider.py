"""Stands for a college's identity provider, by OpenID Connect: it says whose account a browser is signed in with.

It has what mod_auth_openidc asks for: its own description, the sign-in, the token with a signed ID token, its keys, and
the sign-out. Nobody types a password: who signs in is `account`. `twist` changes a token before it is signed.
"""

import base64
import hashlib
import http.server
import json
import secrets
import ssl
import subprocess
import threading
import time
import urllib.parse
from pathlib import Path

import jwt
from cryptography.hazmat.primitives.asymmetric import rsa

CLIENT, CLIENT_SECRET = "rooms", "a-secret-of-the-provider-and-the-proxy"
KEY_NAME = "key-1"


def as_it_is(claims):
    """A token without any change."""
    return claims


class Asked(http.server.BaseHTTPRequestHandler):
    """One request to the provider."""

    server: "Provider"

    def do_GET(self):  # pylint: disable=invalid-name  # so the server calls it
        """What a browser or the proxy asks for."""
        path, _, query = self.path.partition("?")
        fields = dict(urllib.parse.parse_qsl(query))
        known = {"/.well-known/openid-configuration": self.server.description, "/keys": self.server.keys}
        if path in known:
            self.answer(200, known[path]())
        elif path == "/authorize":
            self.lead(fields["redirect_uri"], code=self.server.code_for(fields), state=fields["state"])
        elif path == "/end":
            self.server.ended.append(fields)
            self.lead(fields["post_logout_redirect_uri"])
        else:
            self.answer(404, {})

    def do_POST(self):  # pylint: disable=invalid-name  # so the server calls it
        """The proxy asks for the token of a code."""
        body = self.rfile.read(int(self.headers["Content-Length"])).decode()
        fields = dict(urllib.parse.parse_qsl(body))
        named = base64.b64decode(self.headers.get("Authorization", "").removeprefix("Basic ")).decode()
        if named != f"{CLIENT}:{CLIENT_SECRET}":
            self.answer(401, {"error": "invalid_client"})
            return
        token = self.server.token_for(fields)
        self.answer(200 if token else 400, token or {"error": "invalid_grant"})

    def lead(self, address, **fields):
        """Leads the browser on."""
        more = urllib.parse.urlencode(fields)
        self.send_response(302)
        self.send_header("Location", f"{address}?{more}" if more else address)
        self.send_header("Content-Length", "0")
        self.end_headers()

    def answer(self, status, value):
        """An answer in JSON."""
        body = json.dumps(value).encode()
        self.send_response(status)
        self.send_header("Content-Type", "application/json")
        self.send_header("Content-Length", str(len(body)))
        self.end_headers()
        self.wfile.write(body)

    def log_message(self, *_):  # pylint: disable=arguments-differ  # it writes nothing
        """Logs nothing."""


class Provider(http.server.ThreadingHTTPServer):  # pylint: disable=too-many-instance-attributes  # what it knows
    """The provider, for as long as the `with` block runs."""

    daemon_threads = True

    def __init__(self, folder, port):
        super().__init__(("127.0.0.1", port), Asked)
        self.issuer, self.certificate = f"https://127.0.0.1:{port}", Path(folder) / "provider.pem"
        key = Path(folder) / "provider.key"
        subprocess.run(
            ["openssl", "req", "-x509", "-newkey", "ec", "-pkeyopt", "ec_paramgen_curve:prime256v1", "-nodes", "-days", "2",
             "-subj", "/CN=127.0.0.1", "-addext", "subjectAltName=IP:127.0.0.1", "-keyout", key, "-out", self.certificate],
            check=True, stderr=subprocess.DEVNULL)
        context = ssl.SSLContext(ssl.PROTOCOL_TLS_SERVER)
        context.load_cert_chain(self.certificate, key)
        self.socket = context.wrap_socket(self.socket, server_side=True)
        self.signing = rsa.generate_private_key(public_exponent=65537, key_size=2048)
        self.account, self.twist, self.codes = {}, as_it_is, {}
        self.ended = []    # what came with each sign-out
        self.tokens = []   # the claims of each token, as they were signed

    def __enter__(self):
        threading.Thread(target=self.serve_forever, daemon=True).start()
        return self

    def __exit__(self, *_):
        self.shutdown()
        self.server_close()

    def description(self):
        """What the provider says of itself."""
        return {
            "issuer": self.issuer, "authorization_endpoint": f"{self.issuer}/authorize",
            "token_endpoint": f"{self.issuer}/token", "jwks_uri": f"{self.issuer}/keys",
            "end_session_endpoint": f"{self.issuer}/end", "response_types_supported": ["code"],
            "subject_types_supported": ["public"], "id_token_signing_alg_values_supported": ["RS256"],
            "token_endpoint_auth_methods_supported": ["client_secret_basic"], "code_challenge_methods_supported": ["S256"],
        }

    def keys(self):
        """The key by which tokens are verified."""
        public = json.loads(jwt.algorithms.RSAAlgorithm.to_jwk(self.signing.public_key()))
        return {"keys": [{**public, "kid": KEY_NAME, "alg": "RS256", "use": "sig"}]}

    def code_for(self, fields):
        """A code for the person who is signed in, which the proxy changes into a token once."""
        code = secrets.token_urlsafe(16)
        self.codes[code] = fields
        return code

    def signed(self, claims, key=None, algorithm="RS256"):
        """A token."""
        return jwt.encode(claims, self.signing if key is None else key, algorithm, headers={"kid": KEY_NAME})

    def logout(self):
        """What the provider sends the proxy when the account of the last token has signed out."""
        last = self.tokens[-1]
        claims = {"iat": int(time.time()), "jti": secrets.token_hex(8), **{name: last[name] for name in ("iss", "aud", "sid")}}
        claims["events"] = {"http://schemas.openid.net/event/backchannel-logout": {}}
        return urllib.parse.urlencode({"logout_token": self.signed(claims)})

    def token_for(self, fields):
        """The answer to a code, or nothing for one that is not known or not this proxy's."""
        asked = self.codes.pop(fields.get("code"), None)
        proof = hashlib.sha256(fields.get("code_verifier", "").encode()).digest()
        if not asked or base64.urlsafe_b64encode(proof).decode().rstrip("=") != asked.get("code_challenge"):
            return None
        now = int(time.time())
        claims = {"iss": self.issuer, "aud": CLIENT, "iat": now, "exp": now + 300, "nonce": asked["nonce"],
                  "sid": secrets.token_hex(8), **self.account}
        token = self.twist(claims)
        self.tokens.append(claims)
        token = self.signed(token) if isinstance(token, dict) else token
        return {"access_token": secrets.token_urlsafe(16), "token_type": "Bearer", "expires_in": 300, "id_token": token}
