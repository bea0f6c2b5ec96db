"""Makes the wheel of the package by copying its files: pip needs nothing from a registry for it."""
import base64
import hashlib
import pathlib
import re
import zipfile

HERE = pathlib.Path(__file__).resolve().parent
PROJECT = dict(re.findall(r'^([a-z-]+) = "(.*)"$', (HERE / "pyproject.toml").read_text().partition("[project]")[2], re.M))
NAME, VERSION = PROJECT["name"], PROJECT["version"]
ABOUT = f"""Metadata-Version: 2.1
Name: {NAME}
Version: {VERSION}
Summary: {PROJECT["description"]}
Requires-Python: {PROJECT["requires-python"]}
"""
KIND = "Wheel-Version: 1.0\nGenerator: copying\nRoot-Is-Purelib: true\nTag: py3-none-any\n"


def build_wheel(wheel_directory, config_settings=None, metadata_directory=None):
    files = {f"{NAME}/{path.name}": path.read_bytes() for path in sorted((HERE / NAME).iterdir()) if path.is_file()}
    info = f"{NAME}-{VERSION}.dist-info"
    files |= {f"{info}/METADATA": ABOUT.encode(), f"{info}/WHEEL": KIND.encode()}
    record = ""
    for name, content in files.items():
        digest = base64.urlsafe_b64encode(hashlib.sha256(content).digest()).rstrip(b"=").decode()
        record += f"{name},sha256={digest},{len(content)}\n"
    files[f"{info}/RECORD"] = f"{record}{info}/RECORD,,\n".encode()
    wheel = f"{NAME}-{VERSION}-py3-none-any.whl"
    with zipfile.ZipFile(pathlib.Path(wheel_directory) / wheel, "w", zipfile.ZIP_DEFLATED) as out:
        for name, content in files.items():
            out.writestr(name, content)
    return wheel
