"""What pip calls to build the package (PEP 517). It needs only Python: nothing is downloaded,
and nothing is left here. The same files make the same bytes."""
import base64
import gzip
import hashlib
import io
import os
import re
import runpy
import tarfile
import zipfile

HERE = os.path.dirname(os.path.abspath(__file__))
LICENSES = ("LICENSE-APACHE", "LICENSE-MIT")
ABOUT = ("README.md", *LICENSES)
SCRIPTS = "[console_scripts]\nvicinity-logs = vicinity.__main__:entry\n"
#: The page that the package fills in; in the repository this makes it.
PAGE, BUILD = "vicinity/pages/page.html", os.path.join(HERE, "../web/build")
#: What the page and the package both say: a module of the page.
SENTENCES, SOURCE = "vicinity/sentences.mjs", os.path.join(HERE, "../web/say/sentences.mjs")
#: The library in a wheel of its own for a kind of machine; on Windows it has another name.
LIBRARY, DLL = "vicinity/libvicinity.so.2", "vicinity/vicinity.dll"
EXECUTABLE, PLAIN = 0o755, 0o644


def _project():
    """The strings of pyproject.toml, which Python can read itself from 3.11 on."""
    return dict(re.findall(r'^([a-z-]+) = "(.*)"$', _content("pyproject.toml").decode(),
                           re.MULTILINE))


def _metadata():
    fields = ("Metadata-Version: 2.1\nName: {name}\nVersion: {version}\nSummary: {description}\n"
              "License: {license}\nRequires-Python: {requires-python}\n").format(**_project())
    files = "".join(f"License-File: {name}\n" for name in LICENSES)
    fields += f"{files}Description-Content-Type: text/markdown\n\n"
    return fields.encode() + _content("README.md")


def _modules():
    found = (os.path.relpath(os.path.join(folder, name), HERE)
             for folder, _, names in os.walk(os.path.join(HERE, "vicinity")) for name in names)
    return sorted(name for name in found if name.endswith((".py", ".typed")))


def _package():
    """The files of the package."""
    is_made = os.path.exists(os.path.join(HERE, PAGE))
    page = _content(PAGE) if is_made else runpy.run_path(BUILD)["record"]().encode()
    sentences = _content(SENTENCES if os.path.exists(os.path.join(HERE, SENTENCES)) else SOURCE)
    return {**{name: _content(name) for name in _modules()}, PAGE: page, SENTENCES: sentences}


def _wheel(folder, files, tag="any"):
    """Writes a wheel of files, by their names, with its metadata."""
    full = "{name}-{version}".format(**_project())
    about = f"{full}.dist-info"
    is_pure = "true" if tag == "any" else "false"
    said = ("Wheel-Version: 1.0\nGenerator: backend.py\n"
            f"Root-Is-Purelib: {is_pure}\nTag: py3-none-{tag}\n")
    files = {**files, **{f"{about}/{name}": _content(name) for name in LICENSES},
             f"{about}/METADATA": _metadata(), f"{about}/WHEEL": said.encode(),
             f"{about}/entry_points.txt": SCRIPTS.encode()}
    record = "".join(f"{name},sha256={_sum(content)},{len(content)}\n"
                     for name, content in files.items())
    files[f"{about}/RECORD"] = f"{record}{about}/RECORD,,\n".encode()
    name = f"{full}-py3-none-{tag}.whl"
    with zipfile.ZipFile(os.path.join(folder, name), "w", zipfile.ZIP_DEFLATED) as wheel:
        for member, content in files.items():
            information = zipfile.ZipInfo(member)
            information.external_attr = (EXECUTABLE if member in (LIBRARY, DLL) else PLAIN) << 16
            wheel.writestr(information, content, zipfile.ZIP_DEFLATED)
    return name


def _sum(content):
    return base64.urlsafe_b64encode(hashlib.sha256(content).digest()).rstrip(b"=").decode()


def _content(name):
    with open(os.path.join(HERE, name), "rb") as file:
        return file.read()


def build_wheel(wheel_directory, config_settings=None, metadata_directory=None):
    return _wheel(wheel_directory, _package())


def build_wheel_with(wheel_directory, library, tag):
    """A wheel with the library in it,
    for the machines of a tag such as manylinux2014_x86_64 or win_amd64."""
    member = DLL if tag.startswith("win") else LIBRARY
    with open(library, "rb") as file:
        return _wheel(wheel_directory, {**_package(), member: file.read()}, tag)


def build_editable(wheel_directory, config_settings=None, metadata_directory=None):
    return _wheel(wheel_directory, {"vicinity.pth": f"{HERE}\n".encode()})


def build_sdist(sdist_directory, config_settings=None):
    full = "{name}-{version}".format(**_project())
    files = {**{name: _content(name) for name in ["pyproject.toml", "backend.py", *ABOUT]},
             **_package()}
    name = f"{full}.tar.gz"
    with open(os.path.join(sdist_directory, name), "wb") as out:
        with gzip.GzipFile("", "wb", fileobj=out, mtime=0) as packed:
            with tarfile.open(fileobj=packed, mode="w", format=tarfile.PAX_FORMAT) as archive:
                for member, content in {**files, "PKG-INFO": _metadata()}.items():
                    information = tarfile.TarInfo(f"{full}/{member}")
                    information.size, information.mode = len(content), PLAIN
                    archive.addfile(information, io.BytesIO(content))
    return name
