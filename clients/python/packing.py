"""Makes the wheel of the package with Python alone, so that `pip install .` needs no network."""
import base64
import hashlib
import pathlib
import re
import zipfile

HERE = pathlib.Path(__file__).resolve().parent
NAME = "consortium"
VERSION = re.search(r'^__version__ = "(.*)"$', (HERE / NAME / "__init__.py").read_text(), re.M)[1]
METADATA = f"""Metadata-Version: 2.1
Name: {NAME}
Version: {VERSION}
Summary: The client of a consortium server: MPI collectives between rival firms, behind a Chinese Wall
Requires-Python: >=3.8
"""
WHEEL = "Wheel-Version: 1.0\nGenerator: packing\nRoot-Is-Purelib: true\nTag: py3-none-any\n"


def files():
    """The files of the wheel, by their paths in it, but for the list of them."""
    for path in sorted((HERE / NAME).rglob("*")):
        if path.is_file() and "__pycache__" not in path.parts:
            yield str(path.relative_to(HERE)), path.read_bytes()
    yield f"{NAME}-{VERSION}.dist-info/METADATA", METADATA.encode()
    yield f"{NAME}-{VERSION}.dist-info/WHEEL", WHEEL.encode()


def build_wheel(wheel_directory, config_settings=None, metadata_directory=None):
    """What pip calls."""
    wheel = f"{NAME}-{VERSION}-py3-none-any.whl"
    listed = f"{NAME}-{VERSION}.dist-info/RECORD"
    rows = []
    with zipfile.ZipFile(pathlib.Path(wheel_directory) / wheel, "w", zipfile.ZIP_DEFLATED) as file:
        for path, content in files():
            digest = base64.urlsafe_b64encode(hashlib.sha256(content).digest()).rstrip(b"=").decode()
            rows.append(f"{path},sha256={digest},{len(content)}\n")
            file.writestr(path, content)
        file.writestr(listed, "".join([*rows, f"{listed},,\n"]))
    return wheel
