"""Files that are kept whole, and seals: `openssl cms` signs with the hall's own key, and an
authority stamps the seal where one is configured."""

import hashlib
import os
import subprocess
import tempfile

from hall_archive import stamps
from hall_archive.settings import BadSettings, Settings

# Seconds that a signature may take.
PATIENCE = 30


def put(path: str, data: bytes) -> None:
    """Writes a file whole, or not at all."""
    folder = os.path.dirname(path)
    with tempfile.NamedTemporaryFile(dir=folder, delete=False) as file:
        file.write(data)
        file.flush()
        os.fsync(file.fileno())
    os.chmod(file.name, 0o640)
    os.replace(file.name, path)


def seal(settings: Settings, path: str) -> str:
    """Signs an appendix, and has the signature stamped; what to say of it."""
    sealed, stamped = f"{path}.p7s", f"{path}.tsr"
    for old in (sealed, stamped):
        if os.path.exists(old):
            os.remove(old)
    if not settings.seal:
        return "it isn't sealed: the settings name no `seal` and `seal_key`"
    words = ["-signer", settings.seal, "-inkey", settings.seal_key, "-md", "sha256"]
    done = subprocess.run(
        ["openssl", "cms", "-sign", "-binary", *words, "-in", path, "-outform", "PEM"],
        stdin=subprocess.DEVNULL,
        capture_output=True,
        timeout=PATIENCE,
        check=False,
    )
    if done.returncode:
        raise BadSettings(f"openssl cms: {done.stderr.decode(errors='replace').strip()[-200:]}")
    put(sealed, done.stdout)
    if not settings.stamps or not settings.authority:
        return "sealed"
    try:
        of = hashlib.sha256(done.stdout).hexdigest()
        stamps.stamp(of, stamped, settings.stamps, settings.authority)
    except stamps.NotStamped as fault:
        return f"sealed, and not stamped: {fault}"
    return f"sealed, and stamped: {stamps.time_of(stamped)}"
