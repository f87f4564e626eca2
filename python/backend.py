"""Builds the wheel of the package for pip. It takes no package from elsewhere, so `pip install` needs no network."""
import base64
import hashlib
import re
import subprocess
import sys
import sysconfig
import tempfile
import zipfile
from pathlib import Path

HERE = Path(__file__).resolve().parent


def version():
    header = (HERE.parent / "include" / "ratio.h").read_text()
    return re.search(r'^#define RATIO_VERSION "(.*)"$', header, re.M).group(1)


def tag():
    """The Python and the machine that the wheel is for, such as cp311-cp311-linux_x86_64."""
    name = f"cp{sys.version_info.major}{sys.version_info.minor}"
    return f"{name}-{name}{sys.abiflags}-{re.sub('[-.]', '_', sysconfig.get_platform())}"


def compiled():
    """The extension, as bytes."""
    if sys.platform != "linux":
        sys.exit("python/backend.py: the package is for Linux alone")
    with tempfile.TemporaryDirectory() as folder:
        target = Path(folder) / "extension"
        run = subprocess.run([HERE / "compile", sysconfig.get_paths()["include"], target])
        if run.returncode:  # it has said why
            sys.exit(run.returncode)
        return target.read_bytes()


def contents():
    """What is in the wheel: each name with its bytes."""
    about = f"bakhsney-{version()}.dist-info"
    files = {f"bakhsney/{path.name}": path.read_bytes() for path in sorted((HERE / "package").glob("*")) if path.is_file()}
    files[f"bakhsney/_ratio{sysconfig.get_config_var('EXT_SUFFIX')}"] = compiled()
    files[f"{about}/METADATA"] = f"Metadata-Version: 2.1\nName: bakhsney\nVersion: {version()}\nSummary: Exact fractions over proved calls\nLicense: Apache-2.0 OR MIT\nRequires-Python: >=3.9\n".encode()
    files[f"{about}/WHEEL"] = f"Wheel-Version: 1.0\nGenerator: bakhsney\nRoot-Is-Purelib: false\nTag: {tag()}\n".encode()
    lines = [f"{name},sha256={base64.urlsafe_b64encode(hashlib.sha256(text).digest()).decode().rstrip('=')},{len(text)}\n" for name, text in files.items()]
    files[f"{about}/RECORD"] = "".join([*lines, f"{about}/RECORD,,\n"]).encode()
    return files


def build_wheel(wheel_directory, config_settings=None, metadata_directory=None):
    name = f"bakhsney-{version()}-{tag()}.whl"
    with zipfile.ZipFile(Path(wheel_directory) / name, "w", zipfile.ZIP_DEFLATED) as wheel:
        for file, text in contents().items():
            wheel.writestr(file, text)
    return name
