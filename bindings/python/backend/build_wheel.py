"""Builds the wheel of this package, with the shared library inside. pip calls build_wheel (PEP 517).

The library comes from the folder IPNET_LIB, else from ../build, which builds it if it is not built. Equal files give
equal wheels: the dates are SOURCE_DATE_EPOCH, or 1980. From Python 3.10 on, and if a C compiler and Python.h are there,
the module _quick is built too; without it the package gives the same answers, more slowly. Before the version is
released, the wheel is a pre-release of it, such as 1.0.0.dev0.

    python3 build_wheel.py FOLDER FILE    writes only _quick, for the library in FOLDER, to FILE; if it cannot be built,
                                          the status is 1
"""
import base64
import hashlib
import os
import re
import shutil
import subprocess
import sys
import sysconfig
import tempfile
import time
import zipfile

TOP = os.path.dirname(os.path.dirname(os.path.abspath(__file__)))
NAME = "ipnet_proved"
# The text that the program netset prints as its version: it says whether this is a preview.
VERSION = ("..", "..", "crates", "netset", "src", "version.rt")
# The licences of the package, and of the parts of the kit that the library contains.
LICENCES = ("LICENSE-MIT", "LICENSE-APACHE", "docs/internals/LICENCES.md", "licences/dewikonu.spdx")


def read(*path):
    with open(os.path.join(TOP, *path), "rb") as file:
        return file.read()


def field(file, name):
    """The text after `name =` in a file of the package."""
    return re.search(r'(?m)^%s = "(.*)"$' % name, read(*file).decode()).group(1)


def library_folder():
    """The folder of the shared library."""
    folder = os.environ.get("IPNET_LIB")
    if not folder:
        built = subprocess.run([os.path.join(TOP, "..", "build")], stdout=subprocess.PIPE, check=False)
        if built.returncode != 0:
            raise SystemExit("bindings/build failed; IPNET_LIB may name a folder that has libipnet.so")
        folder = re.search(r"(?m)^bindings/build: (.*)/libipnet\.a, ", os.fsdecode(built.stdout)).group(1)
    return folder


def quick(folder):
    """The module _quick, or None if it cannot be built here."""
    header = os.path.join(sysconfig.get_path("include"), "Python.h")
    compiler = os.environ.get("CC", "cc")
    if sys.version_info < (3, 10) or not os.path.exists(header) or shutil.which(compiler) is None:
        return None
    with tempfile.TemporaryDirectory() as room:
        # fixed names, so that equal sources give equal bytes
        for path in ("_quick.c", "../../include/ipnet.h", os.path.join(folder, "libipnet.so")):
            shutil.copy(os.path.join(TOP, path), room)
        command = [compiler, "-O2", "-fPIC", "-shared", "-s", "-Wl,--build-id=none", "-I.",
                   "-I" + os.path.dirname(header), "_quick.c", "-L.", "-lipnet", "-o", "_quick.so"]
        if subprocess.run(command, cwd=room, check=False).returncode != 0:
            return None
        return read(room, "_quick.so")


def wheel_version():
    """The version of the package, as pip orders versions."""
    version = field([NAME, "__init__.py"], "__version__")
    return version + ".dev0" if version + "-preview" in read(*VERSION).decode() else version


def metadata(version):
    head = ["Metadata-Version: 2.1", "Name: %s" % field(["pyproject.toml"], "name"), "Version: %s" % version,
            "Summary: %s" % field(["pyproject.toml"], "description"), "License: MIT OR Apache-2.0",
            "Requires-Python: %s" % field(["pyproject.toml"], "requires-python")]
    return "\n".join(head).encode() + b"\n"


def build_wheel(wheel_directory, config_settings=None, metadata_directory=None):
    """Writes the wheel into the folder, and returns its name."""
    version = wheel_version()
    info = "%s-%s.dist-info" % (NAME, version)
    folder = library_folder()
    module = quick(folder)
    tag = "py3-none-linux_x86_64" if module is None else "cp310-abi3-linux_x86_64"
    files = {"%s/%s" % (NAME, name): read(NAME, name) for name in os.listdir(os.path.join(TOP, NAME))
             if name.endswith((".py", ".pyi", ".typed"))}
    files[NAME + "/libipnet.so"] = read(folder, "libipnet.so")
    if module is not None:
        files[NAME + "/_quick.abi3.so"] = module
    files.update(("%s/%s" % (info, os.path.basename(name)), read("..", "..", name)) for name in LICENCES)
    files[info + "/METADATA"] = metadata(version)
    files[info + "/WHEEL"] = ("Wheel-Version: 1.0\nGenerator: %s\nRoot-Is-Purelib: false\nTag: %s\n"
                              % (NAME, tag)).encode()
    sums = {name: base64.urlsafe_b64encode(hashlib.sha256(data).digest()).rstrip(b"=").decode()
            for name, data in files.items()}
    record = ["%s,sha256=%s,%d" % (name, sums[name], len(files[name])) for name in sorted(files)]
    files[info + "/RECORD"] = "\n".join([*record, info + "/RECORD,,", ""]).encode()
    date = time.gmtime(max(int(os.environ.get("SOURCE_DATE_EPOCH", 0)), 315532800))[:6]
    wheel = "%s-%s-%s.whl" % (NAME, version, tag)
    with zipfile.ZipFile(os.path.join(wheel_directory, wheel), "w") as archive:
        for name in sorted(files, key=lambda name: (name.startswith(info), name)):
            entry = zipfile.ZipInfo(name, date)
            entry.external_attr = 0o100644 << 16
            archive.writestr(entry, files[name], zipfile.ZIP_DEFLATED)
    return wheel


def write_quick(folder, path):
    """Writes the module _quick to the path, and returns the status: 1 if it cannot be built here."""
    module = quick(folder)
    if module is None:
        return 1
    with open(path, "wb") as file:
        file.write(module)
    return 0


if __name__ == "__main__":
    sys.exit(write_quick(*sys.argv[1:3]))
