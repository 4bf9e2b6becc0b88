"""Builds the package for `pip install ./python`, with the standard library alone: a wheel is a zip file of a few lines more."""

import base64
import hashlib
import zipfile
from pathlib import Path

HERE = Path(__file__).resolve().parent
NAME, VERSION = "nevolimush", "1.0.0"
TOLD = f"{NAME}-{VERSION}.dist-info"
METADATA = f"""Metadata-Version: 2.1
Name: {NAME}
Version: {VERSION}
Summary: Polytopes, cones, fans and linear programs, asked of a program whose every answer is proved
Requires-Python: >=3.10
"""
WHEEL = "Wheel-Version: 1.0\nGenerator: build_backend\nRoot-Is-Purelib: true\nTag: py3-none-any\n"


def package_files():
    """The files of the package, by their names in the wheel."""
    for path in sorted((HERE / NAME).iterdir()):
        if path.suffix in (".py", ".rules"):
            yield f"{NAME}/{path.name}", path.read_bytes()


def record_line(name, data):
    """A file's line in RECORD: its hash and its size."""
    digest = base64.urlsafe_b64encode(hashlib.sha256(data).digest()).rstrip(b"=").decode()
    return f"{name},sha256={digest},{len(data)}\n"


def write_wheel(path, files):
    """A wheel of these files, with what an installer reads."""
    files = [*files, (f"{TOLD}/METADATA", METADATA.encode()), (f"{TOLD}/WHEEL", WHEEL.encode())]
    record = "".join(record_line(*it) for it in files) + f"{TOLD}/RECORD,,\n"
    with zipfile.ZipFile(path, "w", zipfile.ZIP_DEFLATED) as wheel:
        for name, data in [*files, (f"{TOLD}/RECORD", record.encode())]:
            wheel.writestr(name, data)


def build_wheel(wheel_directory, config_settings=None, metadata_directory=None):
    """What an installer calls; the name of the wheel."""
    name = f"{NAME}-{VERSION}-py3-none-any.whl"
    write_wheel(Path(wheel_directory) / name, package_files())
    return name


def build_editable(wheel_directory, config_settings=None, metadata_directory=None):
    """The same for `pip install -e`: the package stays where it is."""
    name = f"{NAME}-{VERSION}-py3-none-any.whl"
    write_wheel(Path(wheel_directory) / name, [(f"{NAME}.pth", f"{HERE}\n".encode())])
    return name


def build_sdist(sdist_directory, config_settings=None):
    raise NotImplementedError("the sources are the repository")
