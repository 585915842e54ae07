#!/usr/bin/env python3
"""Installs the program and the library, makes a package, and tests both outside the repository.

- `./moc install` installs below DESTDIR. Nothing that is installed has the path of the repository, and the listed files are all that there
  are. The tests use the files at that place, with a PATH that has only them and the system's programs.
- The program runs by name, by a link and by a relative path, and with the setting for huge pages.
- A program in C is linked with the shared and the static library by the options of pkg-config, and one in C++ by CMake.
- bash completes a subcommand at a terminal, and `man` formats the page without a warning.
- Two runs of `./moc package` make the same bytes. pip installs the wheel, whose tag permits the symbols of the library, and it installs
  `python/` as an editable package.
- `./moc check-manifest` detects a changed, a new and a removed source.
- `./moc` does not run a program whose sources were edited, and runs one whose sources were only touched.
- Without the toolchain, the subcommands that build end with status 3.

A test whose tool is not installed is reported and left out. The last line printed is `N passed, M failed`."""
from __future__ import annotations

import contextlib
import glob
import hashlib
import json
import os
import pty
import re
import select
import shutil
import subprocess
import sys
import tempfile
import time
from collections.abc import Callable, Iterator

from tally import Tally

TOP = os.path.dirname(os.path.dirname(os.path.abspath(__file__)))
sys.path.insert(0, os.path.join(TOP, "tools"))
import sources  # noqa: E402
import version  # noqa: E402
from crates import SOURCE_FOLDERS  # noqa: E402

PREFIX = "/opt/ploverchaise"
SYSTEM_PATH = "/usr/bin:/bin"
TIME_LIMIT = 300
# The programs that use what is installed. Each prints the version and the complement of 0/0 1/4-5. Base pixel 1 has the cells 4 to 7 of
# order 1.
PROGRAMS = os.path.join(TOP, "tests", "installed")
COMPLEMENT = "0/2-11 1/6-7"
# What is typed at a terminal, and the arguments that bash makes of it.
COMPLETIONS = [("moc des\t", ["describe"]), ("moc help compl\t", ["help", "complement"]),
               ("moc combine sym\t asc\t", ["combine", "symmetric", "ascii"]), ("moc degrade 3 j\t", ["degrade", "3", "json"]),
               ("moc check ascii < mess\t", ["check", "ascii", "standard input is a file"])]
# A function of bash that prints its arguments.
SHOW_ARGUMENTS = """moc() { [ -t 0 ] || set -- "$@" 'standard input is a file'; printf '<%s>' "$@"; }"""

# A program that prints the version of the package, the complement of a coverage, and the path of the package.
PYTHON_PROGRAM = ("import ploverchaise as p\nprint(p.__version__, ~p.MOC.from_string('0/0 1/4-5'))\n"
                  "print(p.__file__)")
# The libraries that the tags manylinux permit, of those that a library in C may need.
MANYLINUX_LIBRARIES = {"libc.so.6", "libpthread.so.0", "libm.so.6", "librt.so.1", "libdl.so.2", "libgcc_s.so.1"}


def run(command: list[str], folder: str, text: str = "", **environment: str) -> subprocess.CompletedProcess[str]:
    """Runs a command in a folder, with the system's programs and these environment variables only."""
    return subprocess.run(command, cwd=folder, input=text, stdout=subprocess.PIPE, stderr=subprocess.PIPE, text=True, timeout=TIME_LIMIT,
                          env={"PATH": SYSTEM_PATH, "LC_ALL": "C.UTF-8", "HOME": folder, **environment})


def run_script(arguments: list[str], **environment: str) -> subprocess.CompletedProcess[str]:
    """Runs `./moc` with the environment of this program, in another folder."""
    return subprocess.run([os.path.join(TOP, "moc"), *arguments], cwd="/", stdin=subprocess.DEVNULL, stdout=subprocess.PIPE,
                          stderr=subprocess.STDOUT, text=True, env=dict(os.environ, **environment))


def read_bytes(*path: str) -> bytes:
    """Returns the content of a file."""
    with open(os.path.join(*path), "rb") as file:
        return file.read()


def write_text(path: str, text: str) -> None:
    """Writes a text into a file."""
    with open(path, "w", encoding="utf-8") as file:
        file.write(text)


def is_installed(tool: str, subject: str) -> bool:
    """Returns whether a tool is installed, and reports what is not tested without it."""
    if shutil.which(tool, path=SYSTEM_PATH) is not None:
        return True
    print(f"{tool} is not installed: {subject} is not tested", file=sys.stderr)
    return False


def files_below(folder: str) -> list[str]:
    """Returns the paths of all files below a folder, from the folder."""
    return sorted(os.path.relpath(os.path.join(parent, name), folder) for parent, _, names in os.walk(folder) for name in names)


def libraries_of(path: str, folder: str) -> set[str]:
    """Returns the names of the libraries that a program or a library needs."""
    return set(re.findall(r"\(NEEDED\).*\[(.*)\]", run(["readelf", "-d", path], folder).stdout))


def check_files(tally: Tally, stage: str) -> None:
    """Checks the list of the installed files, and that none has the path of the repository."""
    prefix = stage + PREFIX
    listed = read_bytes(prefix, "share", "ploverchaise", "install_manifest.txt").decode().split()
    tally.check_equal("the listed files", sorted(listed), [f"/{path}" for path in files_below(stage)])
    for path in files_below(prefix):
        tally.check(TOP.encode() not in read_bytes(prefix, path), f"{path} has the path of the repository")


def check_uninstall(tally: Tally, stage: str) -> None:
    """Checks that no file remains after the listed files have been removed."""
    listed = read_bytes(stage + PREFIX, "share", "ploverchaise", "install_manifest.txt").decode().split()
    run(["xargs", "rm"], stage, "".join(f"{stage}{path}\n" for path in listed))
    tally.check_equal("the files after the listed ones were removed", files_below(stage), [])


def environment_of_program(command: list[str], **environment: str) -> tuple[str, list[str]]:
    """Returns the program that a command executes, and its settings for glibc, while it waits for input."""
    with subprocess.Popen(command, stdin=subprocess.PIPE, stdout=subprocess.PIPE, env=environment) as process:
        assert process.stdin is not None and process.stdout is not None
        process.stdin.write(b"count 0/0\n")
        process.stdin.flush()
        process.stdout.readline()
        values = read_bytes("/proc", str(process.pid), "environ").decode().split("\0")
        executed = os.readlink(f"/proc/{process.pid}/exe")
        process.stdin.close()
    return executed, [value for value in values if value.startswith("GLIBC_TUNABLES=")]


def check_program(tally: Tally, prefix: str, folder: str) -> None:
    """Checks that the program runs by name, by a link and by a relative path, and its setting for huge pages."""
    os.symlink(os.path.join(prefix, "bin", "moc"), os.path.join(folder, "linked"))
    relative = os.path.relpath(os.path.join(prefix, "bin", "moc"), folder)
    path = f"{prefix}/bin:{SYSTEM_PATH}"
    commands: list[list[str]] = [["env", "moc"], ["./linked"], [relative], ["sh", relative]]
    for command in commands:
        result = run([*command, "combine", "difference", "ascii"], folder, "0/0;1/3", PATH=path)
        tally.check_equal(f"{command}", (result.returncode, result.stdout, result.stderr), (0, "1/0-2\n", ""))
    result = run(["env", "moc", "combine", "a b", "*"], folder, PATH=path)
    tally.check(result.returncode == 2 and "'a b'" in result.stderr, f"an argument with a blank: {result}")
    executed = os.path.join(prefix, "libexec", "ploverchaise", "moc")
    for setting in ("glibc.malloc.hugetlb=1", "glibc.malloc.hugetlb=0"):
        given = {} if setting.endswith("1") else {"GLIBC_TUNABLES": setting}
        tally.check_equal("the running program", environment_of_program([os.path.join(prefix, "bin", "moc"), "run"], **given),
                          (executed, [f"GLIBC_TUNABLES={setting}"]))


def check_c(tally: Tally, prefix: str, folder: str) -> None:
    """Checks programs in C that are linked by the options of pkg-config."""
    if not (is_installed("pkg-config", "linking by pkg-config") and is_installed("cc", "linking by pkg-config")):
        return
    shutil.copy(os.path.join(PROGRAMS, "program.c"), folder)
    configuration = {"PKG_CONFIG_PATH": os.path.join(prefix, "lib", "pkgconfig")}
    tally.check_equal("the version of pkg-config", run(["pkg-config", "--modversion", "ploverchaise"], folder, **configuration).stdout,
                      f"{version.read_version()}\n")
    for kind, option, linking in (("shared", "--libs", f"-Wl,-rpath,{prefix}/lib"), ("static", "--static", "-static")):
        flags = run(["pkg-config", "--cflags", "--libs", option, "ploverchaise"], folder, **configuration)
        tally.check(flags.returncode == 0, f"pkg-config: {flags.stderr}")
        compiled = run(["cc", "-Wall", "-Werror", "program.c", *flags.stdout.split(), linking, "-o", kind], folder)
        if tally.check(compiled.returncode == 0, f"{kind}: {compiled.stderr}"):
            tally.check_equal(f"the {kind} program", run([f"./{kind}"], folder).stdout,
                              f"{version.read_version()} {COMPLEMENT}\n")
    needed = libraries_of(os.path.join(folder, "shared"), folder)
    tally.check("libploverchaise.so.0" in needed, f"the shared program needs {needed}")


def check_cmake(tally: Tally, prefix: str, folder: str) -> None:
    """Checks programs in C++ that CMake links, and that the package rejects a request for other versions."""
    if not is_installed("cmake", "linking by CMake"):
        return
    project, number = os.path.join(folder, "project"), version.read_version()
    major, minor, patch = map(int, number.split("."))
    others = f"{major + 1};{major}.{minor + 1};{major}.{minor}.{patch + 1}"
    shutil.copytree(PROGRAMS, project)
    for command in (["cmake", "-S", project, "-B", "out", f"-DCMAKE_PREFIX_PATH={prefix}", f"-DOTHERS={others}",
                     f"-DSERIES={major}.{minor}", f"-DVERSION={number}"], ["cmake", "--build", "out"]):
        result = run(command, folder)
        if not tally.check(result.returncode == 0, f"{command}: {result.stdout}{result.stderr}"):
            return
    for kind in ("shared", "static"):
        result = run([f"out/with_{kind}"], folder)
        tally.check_equal(f"the program with ploverchaise::{kind}", result.stdout, f"{number} {COMPLEMENT}\n")


def type_at_terminal(command: list[str], keys: list[str], end: str, **environment: str) -> str:
    """Types keys at a terminal at which a command runs. Returns the output up to a text, or all output within the time limit."""
    process, terminal = pty.fork()
    if process == 0:
        os.execve(command[0], command, {"TERM": "dumb", **environment})
    output, deadline = b"", time.monotonic() + 20
    os.write(terminal, "".join(keys).encode())
    while end.encode() not in output and select.select([terminal], [], [], max(0, deadline - time.monotonic()))[0]:
        try:
            output += os.read(terminal, 4096)
        except OSError:
            break
    os.close(terminal)
    os.waitpid(process, 0)
    return output.decode(errors="replace").replace("\r", "")


def check_help(tally: Tally, prefix: str, folder: str) -> None:
    """Checks the completions and the man page."""
    completion = os.path.join(prefix, "share", "bash-completion", "completions", "moc")
    tally.check_equal("bash -n", run(["bash", "-n", completion], folder).stderr, "")
    write_text(os.path.join(folder, "message"), "")
    setup = f"cd '{folder}'; source '{completion}'; {SHOW_ARGUMENTS}\n"
    for typed, arguments in COMPLETIONS:
        end = "".join(f"<{argument}>" for argument in arguments)
        output = type_at_terminal(["/bin/bash", "--norc", "--noprofile", "-i"], [setup, typed, "\n"], end, PATH=SYSTEM_PATH)
        tally.check(end in output, f"bash completes {typed!r} to {output[-300:]!r}")
    zsh = os.path.join(prefix, "share", "zsh", "site-functions", "_moc")
    if is_installed("zsh", "the completion for zsh"):
        tally.check_equal("zsh -n", run(["zsh", "-n", zsh], folder).stderr, "")
    if is_installed("man", "the man page"):
        page = run(["man", "--warnings", "-l", os.path.join(prefix, "share", "man", "man1", "moc.1")], folder, MANWIDTH="100")
        tally.check_equal("the warnings of man", (page.returncode, page.stderr), (0, ""))
        overview = run([os.path.join(prefix, "bin", "moc"), "--help"], folder).stdout
        shown = [line.strip() for line in page.stdout.splitlines()]
        missing = [line for line in overview.splitlines()[4:] if line.strip() and line.strip() not in shown]
        tally.check_equal("the lines of the help that the man page does not have", missing, [])


def check_package(tally: Tally, first: str, second: str, prefix: str) -> None:
    """Checks that two packages have the same bytes and right checksums, and that the archive has the installed files."""
    names = sorted(os.listdir(first))
    tally.check_equal("the files of the second package", sorted(os.listdir(second)), names)
    for name in names:
        tally.check(read_bytes(first, name) == read_bytes(second, name), f"{name} differs between two packages")
    sums = run(["sha256sum", "--check", "--strict", "SHA256SUMS"], first)
    tally.check_equal("sha256sum --check", (sums.returncode, len(sums.stdout.splitlines())), (0, len(names) - 1))
    unpacked = os.path.join(first, "unpacked")
    os.mkdir(unpacked)
    run(["tar", "-xzf", *glob.glob(os.path.join(first, "*.tar.gz")), "-C", unpacked], first)
    root = os.path.join(unpacked, os.listdir(unpacked)[0])
    for path in files_below(prefix):
        if not path.endswith("install_manifest.txt"):
            tally.check_equal(f"{path} in the archive", read_bytes(root, path), read_bytes(prefix, path))
    manifest = json.loads(read_bytes(root, "share", "ploverchaise", "manifest.json"))
    for path, digest in manifest["files"].items():
        tally.check_equal(f"the checksum of {path}", hashlib.sha256(read_bytes(root, path)).hexdigest(), digest)
    for crate, entry in manifest["crates"].items():
        tally.check((entry["verdict"] or "").startswith("logic=proved "), f"the verdict about {crate} is {entry['verdict']}")


def check_tag(tally: Tally, wheel: str, prefix: str, folder: str) -> None:
    """Checks that the tag of the wheel permits the libraries and the symbols that the library needs."""
    library = os.path.join(prefix, "lib", "libploverchaise.so")
    symbols = run(["objdump", "-T", library], folder).stdout
    newest = max(int(minor) for minor in re.findall(r"GLIBC_2\.(\d+)", symbols))
    tag = re.search(r"-py3-none-manylinux(2014|_2_(\d+))_x86_64\.whl$", wheel)
    tally.check(tag is not None and newest <= int(tag[2] or 17), f"{wheel}: the library needs glibc 2.{newest}")
    needed = libraries_of(library, folder)
    tally.check(bool(needed) and needed <= MANYLINUX_LIBRARIES, f"the library needs {needed}")
    print(f"the library needs glibc 2.{newest}: {os.path.basename(wheel)}", file=sys.stderr)


def check_python(tally: Tally, wheel: str, folder: str) -> None:
    """Checks the wheel in an environment of Python, and `python/` as an editable package in another one."""
    if run([sys.executable, "-m", "pip", "--version"], folder).returncode:
        print("pip is not installed: the wheel is not tested", file=sys.stderr)
        return
    for name, source, place in (("wheel", [wheel], folder), ("editable", ["-e", os.path.join(TOP, "python")], TOP)):
        python = os.path.join(folder, name, "bin", "python")
        run([sys.executable, "-m", "venv", "--without-pip", name], folder)
        installed = run([sys.executable, "-m", "pip", "--python", python, "install", "--quiet", "--no-index",
                         "--disable-pip-version-check", *source], folder)
        tally.check(installed.returncode == 0, f"pip install {source}: {installed.stderr}")
        lines = run([python, "-c", PYTHON_PROGRAM], folder).stdout.splitlines()
        tally.check_equal(f"the program with {source}", lines[:1], [f"{version.read_version()} {COMPLEMENT}"])
        tally.check("".join(lines[1:]).startswith(place + os.sep), f"{source} is imported from {lines[1:]}")


@contextlib.contextmanager
def copy_of_sources(program: str) -> Iterator[str]:
    """Yields a folder with a copy of the sources and the tools of the repository, and with a program that was built from them."""
    with tempfile.TemporaryDirectory() as top:
        parts = ["moc", "crates.txt", "HANDLES", "tools", "python", *(f"crates/*/{part}" for part in (*SOURCE_FOLDERS, "c", "include"))]
        for path in (path for part in parts for path in glob.glob(part, root_dir=TOP)):
            source, target = os.path.join(TOP, path), os.path.join(top, path)
            os.makedirs(os.path.dirname(target), exist_ok=True)
            if os.path.isdir(source):
                shutil.copytree(source, target, ignore=shutil.ignore_patterns("__pycache__", "libploverchaise*"))
            else:
                shutil.copy2(source, target)
        built = os.path.join(top, os.path.relpath(sources.BUILT, TOP))
        os.makedirs(os.path.dirname(built), exist_ok=True)
        shutil.copy(program, built)
        yield top


def replace_in_place(path: str) -> None:
    """Changes a byte of a file in place, and restores its modification time."""
    status = os.stat(path)
    with open(path, "r+b") as file:
        file.write(b" ")
    os.utime(path, ns=(status.st_atime_ns, status.st_mtime_ns))


def rename_over(path: str) -> None:
    """Replaces a file by an older one with other content, as `mv` and editors do."""
    other = os.path.join(os.path.dirname(path), "other")
    write_text(other, "// changed\n")
    os.utime(other, ns=(0, 0))
    os.replace(other, path)


def check_manifest(tally: Tally, manifest: str, top: str) -> None:
    """Checks the comparison with a manifest in a copy of the sources: unchanged, and after a source was changed, added and removed."""
    command = [os.path.join(top, "moc"), "check-manifest", manifest]
    result = run(command, top)
    tally.check(result.returncode == 0 and version.read_version() in result.stdout, f"the sources differ from their manifest: {result}")
    folder = os.path.join(top, "crates", "moc_text", "src")
    with open(os.path.join(folder, "lib.rt"), "a", encoding="utf-8") as file:
        file.write("\n")
    write_text(os.path.join(top, "crates", "moc_sphere", "proofs", "New.antt"), "")
    os.remove(os.path.join(top, "crates", "moc_c", "c", "handles.c"))
    result = run(command, top)
    tally.check_equal("the sources that differ", (result.returncode, result.stdout.splitlines()),
                      (1, ["crate moc_sphere: the sources differ", "crate moc_text: the sources differ",
                           "file crates/moc_c/c/handles.c: only in the manifest"]))
    result = run([*command[:2], os.path.join(top, "crates.txt")], top)
    tally.check_equal("the status for a file that is not a manifest", result.returncode, 2)


def check_changed_sources(tally: Tally, top: str) -> None:
    """Checks that `./moc` does not run a program whose sources were edited. Without the toolchain, it ends with status 3."""
    script, folder = os.path.join(top, "moc"), os.path.join(top, "crates", "moc_text", "src")
    path = os.path.join(folder, "lib.rt")
    content = read_bytes(path)

    def is_run(subject: str, expected: bool) -> None:
        result = run([script, "ring", "1", "18"], top)
        if expected:
            tally.check_equal(subject, (result.returncode, result.stdout, result.stderr), (0, "27\n", ""))
        else:
            tally.check(result.returncode == 3 and not result.stdout and "a source has changed" in result.stderr, f"{subject}: {result}")

    is_run("a program that was built from the sources", True)
    os.utime(path)
    is_run("a source that was touched", True)
    changes: list[tuple[str, Callable[[str], None]]] = [
        ("changed in place", replace_in_place), ("replaced by an older file", rename_over), ("removed", os.remove)]
    for name, change in changes:
        change(path)
        is_run(f"a source that was {name}", False)
        with open(path, "wb") as file:
            file.write(content)
        is_run(f"a source that was {name} and restored", True)
    write_text(os.path.join(folder, "new.rt"), "// new\n")
    is_run("a new source", False)
    os.remove(os.path.join(folder, "new.rt"))
    is_run("no new source", True)
    os.rename(os.path.join(top, "tools"), os.path.join(top, "elsewhere"))
    result = run([script, "ring", "1", "18"], top)
    tally.check(result.returncode == 3 and "tools/build.py does not exist" in result.stderr, f"a script without its tools: {result}")


def check_missing_toolchain(tally: Tally, top: str) -> None:
    """Checks that the subcommands of `./moc` that build end with status 3 without the toolchain, and make nothing."""
    if shutil.which("rt", path=SYSTEM_PATH) is not None:
        print("the toolchain is with the system's programs: its absence is not tested", file=sys.stderr)
        return
    folder = os.path.join(top, "empty")
    os.mkdir(folder)
    for subcommand in ("library", "page", "install", "package"):
        result = run([os.path.join(top, "moc"), subcommand, os.path.join(folder, "result")], folder)
        tally.check(result.returncode == 3 and not result.stdout and result.stderr.startswith("moc: rt is not installed, which proves and"),
                    f"./moc {subcommand} without the toolchain: {result}")
        tally.check_equal(f"the files that ./moc {subcommand} makes without the toolchain", os.listdir(folder), [])


def main() -> int:
    """Installs, makes packages, and runs all tests."""
    tally = Tally()
    with tempfile.TemporaryDirectory() as folder:
        stage, first, second, work = (os.path.join(folder, name) for name in ("stage", "first", "second", "work"))
        os.mkdir(work)
        prefix = stage + PREFIX
        results = [run_script(["install", PREFIX], DESTDIR=stage), run_script(["package", first]), run_script(["package", second])]
        for result in results:
            tally.check(result.returncode == 0, f"{result.args}: {result.stdout}")
        if any(result.returncode for result in results):
            return tally.finish()
        check_files(tally, stage)
        check_program(tally, prefix, work)
        check_c(tally, prefix, work)
        check_cmake(tally, prefix, work)
        check_help(tally, prefix, work)
        check_package(tally, first, second, prefix)
        wheel = glob.glob(os.path.join(first, "*.whl"))[0]
        check_tag(tally, wheel, prefix, work)
        check_python(tally, wheel, work)
        program = os.path.join(prefix, "libexec", "ploverchaise", "moc")
        with copy_of_sources(program) as top:
            check_manifest(tally, glob.glob(os.path.join(first, "*.json"))[0], top)
        with copy_of_sources(program) as top:
            check_missing_toolchain(tally, top)
        with copy_of_sources(program) as top:
            check_changed_sources(tally, top)
        check_uninstall(tally, stage)
    return tally.finish()


if __name__ == "__main__":
    sys.exit(main())
