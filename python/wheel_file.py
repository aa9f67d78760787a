"""Makes the wheel of this package for pip, with Python's own library alone: `pip install` needs no network."""
import base64
import hashlib
import pathlib
import re
import zipfile
from typing import Optional

HERE = pathlib.Path(__file__).resolve().parent
WHEEL = "Wheel-Version: 1.0\nGenerator: lifebatch\nRoot-Is-Purelib: true\nTag: py3-none-any\n"
# The time that all files of the wheel have, so that the same files make the same wheel.
TIME = (1980, 1, 1, 0, 0, 0)


def settings() -> dict[str, str]:
    """The texts of the project in pyproject.toml, which Python reads by itself only from 3.11 on."""
    return dict(
        re.findall(
            r'^([\w-]+) = "(.*)"$',
            (HERE / "pyproject.toml").read_text(encoding="utf-8").partition("[project]")[2],
            re.MULTILINE,
        )
    )


def metadata() -> str:
    said = settings()
    head = {
        "Metadata-Version": "2.1",
        "Name": said["name"],
        "Version": said["version"],
        "Summary": said["description"],
        "Requires-Python": said["requires-python"],
        "Description-Content-Type": "text/markdown",
    }
    return (
        "".join(f"{name}: {text}\n" for name, text in head.items())
        + "\n"
        + (HERE / said["readme"]).read_text(encoding="utf-8")
    )


def record_line(name: str, data: bytes) -> str:
    digest = base64.urlsafe_b64encode(hashlib.sha256(data).digest()).rstrip(b"=").decode()
    return f"{name},sha256={digest},{len(data)}\n"


def build_wheel(
    wheel_directory: str, config_settings: Optional[dict] = None, metadata_directory: Optional[str] = None
) -> str:
    """Writes the wheel into a folder, and returns its name."""
    full = f"{settings()['name']}-{settings()['version']}"
    files = {
        str(it.relative_to(HERE)): it.read_bytes()
        for it in sorted((HERE / "lifebatch").glob("*"))
        if it.suffix == ".py" or it.name == "py.typed"
    }
    files |= {f"{full}.dist-info/METADATA": metadata().encode(), f"{full}.dist-info/WHEEL": WHEEL.encode()}
    record = f"{full}.dist-info/RECORD"
    files[record] = ("".join(record_line(*it) for it in files.items()) + f"{record},,\n").encode()
    name = f"{full}-py3-none-any.whl"
    with zipfile.ZipFile(pathlib.Path(wheel_directory) / name, "w", zipfile.ZIP_DEFLATED) as wheel:
        for place, data in files.items():
            wheel.writestr(zipfile.ZipInfo(place, TIME), data)
    return name
