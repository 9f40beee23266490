"""Builds the wheel of sillgarland, without any package but the standard library: its sources, and the shared library from
the folder that SILL_LIB_DIR names, else from target/native, where tools/staticlib leaves it. Where it is not there, tools/staticlib links
the archive that is, or proves the port and builds both."""

import base64
import hashlib
import os
import re
import shutil
import subprocess
import sysconfig
import zipfile
from pathlib import Path

HERE = Path(__file__).resolve().parent.parent
ROOT = HERE.parent
LIBRARY = "libsillgarland.so"


def field(name):
    return re.search(rf'(?m)^{name} = "(.*)"$', (HERE / "pyproject.toml").read_text())[1]


def library():
    """The shared library's path."""
    folder = os.environ.get("SILL_LIB_DIR")
    if folder:
        path = Path(folder) / LIBRARY
    else:
        path = ROOT / "target/native" / LIBRARY
        if not path.is_file() and (ROOT / "tools/staticlib").is_file():
            make_library()
    if not path.is_file():
        raise SystemExit(f"{path} is not there: set SILL_LIB_DIR to the folder that has {LIBRARY}")
    return path


def make_library():
    words = ["tools/staticlib"]
    if (ROOT / "target/native/libsillgarland.a").is_file():
        words.append("--shared")
    else:
        print("there is no library yet: tools/staticlib proves the port and builds it (some minutes)", flush=True)
    subprocess.run(words, cwd=ROOT, check=True)


def metadata():
    return (
        f"Metadata-Version: 2.1\nName: {field('name')}\nVersion: {field('version')}\nSummary: {field('description')}\n"
        f"License: MIT\nRequires-Python: {field('requires-python')}\n"
    )


def get_requires_for_build_wheel(config_settings=None):
    return []


def build_wheel(wheel_directory, config_settings=None, metadata_directory=None):
    platform = re.sub(r"[-.]", "_", sysconfig.get_platform())
    tag, stem = f"py3-none-{platform}", f"{field('name')}-{field('version')}"
    files = {f"sillgarland/{path.name}": path.read_bytes() for path in sorted((HERE / "sillgarland").glob("*.py"))}
    files["sillgarland/py.typed"] = b""
    files[f"sillgarland/{LIBRARY}"] = library().read_bytes()
    files[f"{stem}.dist-info/METADATA"] = metadata().encode()
    files[f"{stem}.dist-info/WHEEL"] = f"Wheel-Version: 1.0\nGenerator: sillgarland\nRoot-Is-Purelib: false\nTag: {tag}\n".encode()
    record = f"{stem}.dist-info/RECORD"
    digest = lambda data: base64.urlsafe_b64encode(hashlib.sha256(data).digest()).rstrip(b"=").decode()
    lines = [f"{name},sha256={digest(data)},{len(data)}" for name, data in files.items()]
    files[record] = "\n".join(lines + [f"{record},,", ""]).encode()
    wheel = f"{stem}-{tag}.whl"
    with zipfile.ZipFile(Path(wheel_directory) / wheel, "w", zipfile.ZIP_DEFLATED) as archive:
        for name, data in files.items():
            archive.writestr(zipfile.ZipInfo(name, (2020, 1, 1, 0, 0, 0)), data, zipfile.ZIP_DEFLATED)
    return wheel


def build_sdist(sdist_directory, config_settings=None):
    """The sources alone: whoever builds of them sets SILL_LIB_DIR."""
    stem = f"{field('name')}-{field('version')}"
    staged = Path(sdist_directory) / stem
    for path in [HERE / "pyproject.toml", *(HERE / "build").glob("*.py"), *(HERE / "sillgarland").glob("*.py")]:
        target = staged / path.relative_to(HERE)
        target.parent.mkdir(parents=True, exist_ok=True)
        shutil.copyfile(path, target)
    (staged / "PKG-INFO").write_text(metadata())
    shutil.make_archive(str(staged), "gztar", sdist_directory, stem)
    shutil.rmtree(staged)
    return f"{stem}.tar.gz"
