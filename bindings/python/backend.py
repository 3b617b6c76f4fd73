"""Builds the wheel of the package `luthgarn`: its modules, and the library that they call.

The library is the file that LUTHGARN_LIBRARY names, else `libluthgarn.so` of ../c, which is made by `make` if it isn't
there.
"""
import base64
import hashlib
import os
import shutil
import subprocess
import sysconfig
import zipfile
from pathlib import Path

HERE = Path(__file__).resolve().parent
NAME, VERSION = "luthgarn", "0.2.0"
INFO = f"{NAME}-{VERSION}.dist-info"


def library():
    """The path of the shared library."""
    named = os.environ.get("LUTHGARN_LIBRARY")
    if named:
        return Path(named)
    folder = HERE.parent / "c"
    made = folder / "libluthgarn.so"
    if not made.exists():
        subprocess.run(["make", "-C", str(folder), made.name], check=True)
    return made


def metadata():
    """The files of the folder of information, but for its record."""
    platform = sysconfig.get_platform().replace("-", "_").replace(".", "_")
    return {
        f"{INFO}/METADATA": f"Metadata-Version: 2.1\nName: {NAME}\nVersion: {VERSION}\nRequires-Python: >=3.9\n"
                            "Summary: Text shaping by a shaper that is proved\nLicense: MIT\n",
        f"{INFO}/WHEEL": f"Wheel-Version: 1.0\nGenerator: {NAME}\nRoot-Is-Purelib: false\n"
                         f"Tag: py3-none-{platform}\n",
    }, f"py3-none-{platform}"


def build_wheel(wheel_directory, config_settings=None, metadata_directory=None):
    said, tag = metadata()
    files = {name: text.encode() for name, text in said.items()}
    for path in sorted((HERE / "src" / NAME).iterdir()):
        if path.suffix in (".py", ".typed"):
            files[f"{NAME}/{path.name}"] = path.read_bytes()
    files[f"{NAME}/libluthgarn.so"] = library().read_bytes()
    record = ""
    for name, data in files.items():
        digest = base64.urlsafe_b64encode(hashlib.sha256(data).digest()).rstrip(b"=").decode()
        record += f"{name},sha256={digest},{len(data)}\n"
    files[f"{INFO}/RECORD"] = (record + f"{INFO}/RECORD,,\n").encode()
    wheel = f"{NAME}-{VERSION}-{tag}.whl"
    with zipfile.ZipFile(Path(wheel_directory, wheel), "w", zipfile.ZIP_DEFLATED) as made:
        for name, data in files.items():
            made.writestr(name, data)
    return wheel


def build_sdist(sdist_directory, config_settings=None):
    root = f"{NAME}-{VERSION}"
    made = shutil.make_archive(str(Path(sdist_directory, root)), "gztar", HERE.parent, HERE.name)
    return Path(made).name
