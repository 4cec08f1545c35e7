"""The credentials of TLS for two QEMUs: a key that both have, or certificates of an authority that is made for them."""
import os
import shutil
import subprocess

from files import write
from page_target import new_key
from roots import Missing

KINDS = ("psk", "x509")
HOST = "target"  # which the source wants the certificate of the target to be for
USES = {"server": ("serverAuth", HOST), "client": ("clientAuth", "source")}
KEY = ("-newkey", "ec", "-pkeyopt", "ec_paramgen_curve:prime256v1", "-nodes", "-days", "2")


def make(kind, folder):
    """Makes the credentials of both ends in a folder that nobody else may enter. Raises Missing if openssl is needed and is not there."""
    if kind == "psk":
        write(f"{folder}/keys.psk", f"qemu:{new_key()}\n")
        return
    if not shutil.which("openssl"):
        raise Missing("openssl not found: it makes the certificates. On Debian:\n    apt-get install --no-install-recommends openssl")
    certificate(folder, "ca", "/CN=authority", "basicConstraints=critical,CA:TRUE", "keyUsage=critical,keyCertSign,cRLSign")
    for end, (use, host) in USES.items():
        certificate(folder, end, f"/CN={host}", "basicConstraints=critical,CA:FALSE", "keyUsage=critical,digitalSignature,keyEncipherment", f"extendedKeyUsage={use}",
                    f"subjectAltName=DNS:{host}", authority="ca")


def certificate(folder, name, subject, *extensions, authority=""):
    """Makes a key and its certificate, under the names that QEMU gives them: one that signs itself, or one of an authority."""
    signed = ("-CA", f"{folder}/{authority}-cert.pem", "-CAkey", f"{folder}/{authority}-key.pem") if authority else ()
    words = ["openssl", "req", "-x509", "-config", os.devnull, *KEY, "-subj", subject, *signed, "-keyout", f"{folder}/{name}-key.pem", "-out", f"{folder}/{name}-cert.pem",
             *(word for extension in extensions for word in ("-addext", extension))]
    done = subprocess.run(words, stdin=subprocess.DEVNULL, capture_output=True, text=True)
    if done.returncode:
        raise Missing(f"openssl makes no certificate (3.0 or newer is needed): {(done.stderr.strip().splitlines() or ['it said nothing'])[-1]}")


def words(kind, folder, end):
    """Returns the words for a QEMU that is this end: the target is the server."""
    return ("-object", f"tls-creds-{kind},id=tls,endpoint={end},dir={folder}") if kind else ()


def parameters(kind, end):
    """Returns the parameters of the migration."""
    if not kind:
        return {}
    return {"tls-creds": "tls", **({"tls-hostname": HOST} if end == "client" else {})}
