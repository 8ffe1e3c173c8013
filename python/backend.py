"""Builds the wheel: the package, and beside it the library for C, which `make` builds of the sources
around this folder by a C compiler. It needs nothing from elsewhere."""

import base64
import hashlib
import os
import subprocess
import sysconfig
import tempfile
import zipfile
from pathlib import Path

HERE = Path(__file__).resolve().parent
NAME, VERSION = "hidreport", "0.6.0.post10"
METADATA = f"""Metadata-Version: 2.1
Name: {NAME}
Version: {VERSION}
Summary: HID report descriptors read, values taken from reports and written to them
License: MIT
Requires-Python: >=3.9
"""


def _tag() -> str:
    return "py3-none-" + sysconfig.get_platform().replace("-", "_").replace(".", "_")


def _library(folder: str) -> bytes:
    """The shared library, as `make` builds it."""
    made = os.path.join(folder, "libhidreport.so")
    subprocess.run(["make", "-s", "-C", str(HERE.parent), f"BUILD={folder}", made], check=True)
    return Path(made).read_bytes()


def _row(name: str, data: bytes) -> str:
    digest = base64.urlsafe_b64encode(hashlib.sha256(data).digest()).rstrip(b"=").decode()
    return f"{name},sha256={digest},{len(data)}\n"


def build_wheel(wheel_directory, config_settings=None, metadata_directory=None):
    """Writes the wheel into a folder, and answers its name."""
    about = f"{NAME}-{VERSION}.dist-info"
    files = {f"{NAME}/{path.name}": path.read_bytes()
             for path in sorted((HERE / NAME).iterdir()) if path.suffix in (".py", ".typed")}
    with tempfile.TemporaryDirectory() as folder:
        files[f"{NAME}/libhidreport.so"] = _library(folder)
    files[f"{about}/METADATA"] = (METADATA + "Description-Content-Type: text/markdown\n\n"
                                  + (HERE / "README.md").read_text()).encode()
    files[f"{about}/WHEEL"] = (f"Wheel-Version: 1.0\nGenerator: {NAME}\nRoot-Is-Purelib: false\n"
                               f"Tag: {_tag()}\n").encode()
    record = "".join(_row(name, data) for name, data in files.items())
    files[f"{about}/RECORD"] = (record + f"{about}/RECORD,,\n").encode()
    wheel = f"{NAME}-{VERSION}-{_tag()}.whl"
    with zipfile.ZipFile(os.path.join(wheel_directory, wheel), "w", zipfile.ZIP_DEFLATED) as out:
        for name, data in files.items():
            out.writestr(zipfile.ZipInfo(name), data, zipfile.ZIP_DEFLATED)
    return wheel
