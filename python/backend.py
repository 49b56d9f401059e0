"""Makes the wheel of futskheri, by Python's own library alone: pip calls the functions, bin/build_wheel the file.

    backend.py FOLDER [LIBRARY]     writes the wheel into the folder, and prints its path

With LIBRARY, a libfutskheri.so, the wheel holds it and is for Linux on x86-64; without, it is for any machine, and the
library is looked for where it runs. With pip, `--config-settings library=PATH` says the same.
"""

import ast
import base64
import hashlib
import io
import os
import re
import sys
import tarfile
import zipfile

HERE = os.path.dirname(os.path.abspath(__file__))
PACKAGE = os.path.join(HERE, "futskheri")
FILES = ("__init__.py", "_audit.py", "_bundle.py", "_codec.py", "_library.py", "_stream.py", "py.typed")


def read(*path):
    with open(os.path.join(*path), "rb") as file:
        return file.read()


def name_and_version():
    return "futskheri-" + re.search(r'^__version__ = "(.+)"$', read(PACKAGE, "_library.py").decode(), re.M)[1]


def metadata():
    """What the package says of itself; its longer description is the module's."""
    about = ast.get_docstring(ast.parse(read(PACKAGE, "__init__.py")))
    return f"""Metadata-Version: 2.1
Name: futskheri
Version: {name_and_version().partition("-")[2]}
Summary: {about.partition(chr(10))[0]}
Requires-Python: >=3.8
Requires-Dist: numpy>=1.20
Classifier: Operating System :: POSIX :: Linux
Classifier: Typing :: Typed
Description-Content-Type: text/plain

{about}
""".encode()


def contents(library):
    """The files of a wheel but for its list of them, by their paths."""
    tag = "linux_x86_64" if library else "any"
    files = {f"futskheri/{name}": read(PACKAGE, name) for name in FILES}
    if library:
        files["futskheri/libfutskheri.so"] = read(library)
    info = name_and_version() + ".dist-info"
    files[f"{info}/METADATA"] = metadata()
    pure = "false" if library else "true"
    files[f"{info}/WHEEL"] = f"Wheel-Version: 1.0\nGenerator: futskheri\nRoot-Is-Purelib: {pure}\nTag: py3-none-{tag}\n".encode()
    return f"{name_and_version()}-py3-none-{tag}.whl", files


def record(files, path):
    """A wheel's list of its files: each with its hash and its length."""
    lines = []
    for name, data in files.items():
        digest = base64.urlsafe_b64encode(hashlib.sha256(data).digest()).rstrip(b"=").decode()
        lines.append(f"{name},sha256={digest},{len(data)}\n")
    return "".join([*lines, f"{path},,\n"]).encode()


def write_wheel(folder, library):
    name, files = contents(library)
    path = name_and_version() + ".dist-info/RECORD"
    files[path] = record(files, path)
    with zipfile.ZipFile(os.path.join(folder, name), "w", zipfile.ZIP_DEFLATED) as wheel:
        for file, data in files.items():
            # The same files make the same wheel, whenever that is.
            entry = zipfile.ZipInfo(file)
            entry.external_attr = (0o755 if file.endswith(".so") else 0o644) << 16
            entry.compress_type = zipfile.ZIP_DEFLATED
            wheel.writestr(entry, data)
    return name


# ---- what pip calls


def build_wheel(wheel_directory, config_settings=None, metadata_directory=None):
    return write_wheel(wheel_directory, (config_settings or {}).get("library"))


def build_sdist(sdist_directory, config_settings=None):
    root = name_and_version()
    files = {f"futskheri/{name}": read(PACKAGE, name) for name in FILES}
    files.update({name: read(HERE, name) for name in ("pyproject.toml", "backend.py")}, **{"PKG-INFO": metadata()})
    with tarfile.open(os.path.join(sdist_directory, root + ".tar.gz"), "w:gz", format=tarfile.PAX_FORMAT) as archive:
        for name, data in files.items():
            entry = tarfile.TarInfo(f"{root}/{name}")
            entry.size = len(data)
            archive.addfile(entry, io.BytesIO(data))
    return root + ".tar.gz"


def main(words):
    if len(words) not in (1, 2):
        sys.exit(__doc__)
    folder, *library = words
    print(os.path.join(folder, write_wheel(folder, *library or [None])))


if __name__ == "__main__":
    main(sys.argv[1:])
