"""Builds the wheel that `pip install python/` installs. The wheel has the Python modules and the built library.

The backend imports no other package, so it needs no network and no setuptools. The same files and the same value of SOURCE_DATE_EPOCH make
the same wheel."""
import base64
import hashlib
import os
import re
import time
import tomllib
import zipfile

TOP = os.path.dirname(os.path.abspath(__file__))
PACKAGE = "ploverchaise"
LIBRARY = f"{PACKAGE}/libploverchaise.so"
# The newest minor version of glibc 2 that the tag manylinux2014 permits.
MANYLINUX2014 = 17
# The time of the files of a wheel without SOURCE_DATE_EPOCH, which is the earliest time of a zip archive.
EARLIEST = 315532800


def read_bytes(name):
    """Returns the content of a file of this folder."""
    with open(os.path.join(TOP, name), "rb") as file:
        return file.read()


def read_version():
    """Returns the version that the package states as `__version__`."""
    return re.search(r'^__version__ = "(.*)"$', read_bytes(f"{PACKAGE}/__init__.py").decode(), re.MULTILINE)[1]


def read_project():
    """Returns the table `project` of `pyproject.toml`, with the version."""
    return {"version": read_version(), **tomllib.loads(read_bytes("pyproject.toml").decode())["project"]}


def metadata(project):
    """Returns the content of the file METADATA for a table `project`."""
    extras = [f"Provides-Extra: {extra}\n" + "".join(f"Requires-Dist: {it}; extra == '{extra}'\n" for it in requirements)
              for extra, requirements in project["optional-dependencies"].items()]
    return (f"Metadata-Version: 2.1\nName: {project['name']}\nVersion: {project['version']}\nSummary: {project['description']}\n"
            f"Requires-Python: {project['requires-python']}\n{''.join(extras)}")


def entry_points(project):
    """Returns the content of the file that lists the programs of the package."""
    return "[console_scripts]\n" + "".join(f"{name} = {function}\n" for name, function in project["scripts"].items())


def package_files():
    """Returns the paths of the files of the package, relative to this folder and with `/`."""
    names = sorted(it for it in os.listdir(os.path.join(TOP, PACKAGE)) if it.endswith((".py", ".typed")))
    return [*(f"{PACKAGE}/{it}" for it in names), LIBRARY]


def wheel_tag(library):
    """Returns the tag of a wheel for a library for Linux on x86-64, which is given by its content.

    The modules are for all versions of Python that `pyproject.toml` allows. The symbols of the library state the version of glibc."""
    minor = max(int(it) for it in re.findall(rb"\0GLIBC_2\.(\d+)", library))
    return f"py3-none-manylinux{'2014' if minor <= MANYLINUX2014 else f'_2_{minor}'}_x86_64"


def with_information(files, project, tag):
    """Returns the files of a wheel with its folder `.dist-info`, as a dict from paths to contents."""
    info = f"{project['name']}-{project['version']}.dist-info"
    files = {**files, f"{info}/METADATA": metadata(project).encode(), f"{info}/entry_points.txt": entry_points(project).encode(),
             f"{info}/WHEEL": f"Wheel-Version: 1.0\nGenerator: ploverchaise\nRoot-Is-Purelib: false\nTag: {tag}\n".encode()}
    digests = {name: base64.urlsafe_b64encode(hashlib.sha256(data).digest()).rstrip(b"=").decode() for name, data in files.items()}
    record = "".join(f"{name},sha256={digests[name]},{len(data)}\n" for name, data in files.items())
    return {**files, f"{info}/RECORD": f"{record}{info}/RECORD,,\n".encode()}


def write_wheel(folder, files, tag):
    """Writes a wheel with these files into a folder, and returns its name."""
    project = read_project()
    wheel = f"{project['name']}-{project['version']}-{tag}.whl"
    moment = time.gmtime(max(EARLIEST, int(os.environ.get("SOURCE_DATE_EPOCH") or 0)))[:6]
    with zipfile.ZipFile(os.path.join(folder, wheel), "w") as archive:
        for name, data in with_information(files, project, tag).items():
            entry = zipfile.ZipInfo(name, moment)
            entry.external_attr = (0o100755 if name.endswith(".so") else 0o100644) << 16
            archive.writestr(entry, data, zipfile.ZIP_DEFLATED, 9)
    return wheel


def build_wheel(wheel_directory, config_settings=None, metadata_directory=None):
    """Writes a wheel into a folder, and returns its name. This hook of PEP 517 is the only one that `pip install` requires.

    Parameters
    ----------
    wheel_directory : str
        The folder.
    config_settings, metadata_directory : optional
        Parameters of the hook, which are ignored.

    Raises
    ------
    FileNotFoundError
        If the library was not built.
    """
    if not os.path.exists(os.path.join(TOP, LIBRARY)):
        raise FileNotFoundError(f"{LIBRARY} does not exist: run `./moc library` at the top of the repository to prove and build it")
    return write_wheel(wheel_directory, {name: read_bytes(name) for name in package_files()}, wheel_tag(read_bytes(LIBRARY)))


def build_editable(wheel_directory, config_settings=None, metadata_directory=None):
    """Writes a wheel for `pip install -e` into a folder, and returns its name. The wheel has the path of this folder instead of the package.

    The package is then imported from this folder, with the library that `./moc library` puts there. This is a hook of PEP 660, with the
    parameters of `build_wheel`."""
    return write_wheel(wheel_directory, {f"{PACKAGE}.pth": f"{TOP}\n".encode()}, "py3-none-any")
