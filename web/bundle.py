#!/usr/bin/env python3
"""Puts the page into one HTML file: the module, the style and the scripts.

usage: web/bundle.py MODULE OUTPUT

The module is compressed by gzip and encoded as base64url. The scripts are concatenated in the order of their imports,
without the lines of imports and the keyword `export`. The script of the worker is a separate bundle, which the page
starts. The table of commands is that of `docs/SCRIPTS.md`. The security policy of the page has the digests of its style
and its script, and blocks all requests.

A script may only have imports of names from files next to it, and one name in each declaration at its top level. The
tool reports an error if a script has another import, if an imported name is not exported, or if a name is declared
twice."""
from __future__ import annotations

import base64
import gzip
import hashlib
import html
import os
import re
import sys

FOLDER = os.path.dirname(os.path.abspath(__file__))
SCRIPTS = os.path.join(FOLDER, "scripts")
PAGE_SCRIPT, WORKER_SCRIPT = "page.js", "worker.js"
SCRIPTS_PAGE = os.path.join(FOLDER, "..", "docs", "SCRIPTS.md")
# The table of commands in the page about scripts, and code in a cell of it.
COMMAND_TABLE = re.compile(r"^\| Command \| Effect \| Reply \|\n\|[-|]+\|\n((?:\| .* \|\n)+)", re.MULTILINE)
CODE = re.compile(r"`([^`]*)`")
IMPORT = re.compile(r'import \{ ([\w, ]+) \} from "\./(\w+\.js)";\n')
DECLARATION = re.compile(r"^(export )?(?:(?:async )?function\*? (\w+)|class (\w+)|(?:const|let) (\w+) =)", re.MULTILINE)
# Lines at the top level that declare something, or import or export it.
STATEMENT = re.compile(r"^(?:export|import|async function|function|class|const|let|var)\b.*", re.MULTILINE)
# What may not be in the scripts, because it would end an element of the page or begin a comment.
MARKUP = re.compile(r"</script|<!--", re.IGNORECASE)
POLICY = ("default-src 'none'; connect-src 'none'; style-src {style}; script-src {script} 'wasm-unsafe-eval'; "
          "worker-src blob:; img-src blob: data:; form-action 'none'; base-uri 'none'")


class BundleError(Exception):
    """A script that cannot be part of a bundle."""


def read_text(path: str) -> str:
    """Returns the text of a file."""
    with open(path, encoding="utf-8") as file:
        return file.read()


def imports_of(name: str, source: str) -> list[tuple[list[str], str]]:
    """Returns the imported names of a script and their files."""
    found = [(match[1].split(", "), match[2]) for match in IMPORT.finditer(source)]
    if len(found) != len(re.findall(r"^\s*import\b", source, re.MULTILINE)):
        raise BundleError(f"{name}: an import has another form than `import {{ name }} from './file.js';`")
    return found


def names_of(name: str, source: str) -> dict[str, bool]:
    """Returns the names that a script declares at its top level, and whether each is exported."""
    names: dict[str, bool] = {}
    for line in STATEMENT.findall(IMPORT.sub("", source)):
        match = DECLARATION.match(line)
        if match is None:
            raise BundleError(f"{name}: unknown declaration: {line}")
        declared = match[2] or match[3] or match[4]
        if declared in names:
            raise BundleError(f"{name}: {declared} is declared twice")
        names[declared] = match[1] is not None
    return names


def in_order(folder: str, name: str, path: tuple[str, ...], sources: dict[str, str]) -> None:
    """Adds a script to the sources, after the scripts that it imports."""
    if name in path:
        raise BundleError(f"{name}: the imports have a cycle")
    if name in sources:
        return
    file = os.path.join(folder, name)
    if not os.path.exists(file):
        raise BundleError(f"{path[-1] if path else folder}: unknown file {name}")
    source = read_text(file)
    for _, imported in imports_of(name, source):
        in_order(folder, imported, (*path, name), sources)
    sources[name] = source


def bundle_scripts(folder: str, name: str) -> str:
    """Returns the bundle of a script and of all scripts that it imports."""
    sources: dict[str, str] = {}
    in_order(folder, name, (), sources)
    names = {script: names_of(script, source) for script, source in sources.items()}
    owners: dict[str, str] = {}
    for script, declared in names.items():
        for word in declared:
            if word in owners:
                raise BundleError(f"{script}: {word} is also declared in {owners[word]}")
            owners[word] = script
    for script, source in sources.items():
        for words, imported in imports_of(script, source):
            for word in words:
                if not names[imported].get(word):
                    raise BundleError(f"{script}: {imported} does not export {word}")
    plain = [re.sub(r"^export ", "", IMPORT.sub("", source), flags=re.MULTILINE) for source in sources.values()]
    text = "\n".join(f"{source.strip()}\n" for source in plain)
    if MARKUP.search(text):
        raise BundleError(f"{name}: the scripts have markup that would end their element")
    return text


def digest(text: str) -> str:
    """Returns the digest of a text, as a security policy states it."""
    return f"'sha256-{base64.b64encode(hashlib.sha256(text.encode()).digest()).decode()}'"


def fill(page: str, place: str, text: str) -> str:
    """Returns the page with a text at a place that it has once."""
    mark = f"<!--{place}-->"
    if page.count(mark) != 1:
        raise BundleError(f"page.html: {mark} is not there once")
    return page.replace(mark, text)


def command_rows(page: str) -> str:
    """Returns the rows of the table of commands in HTML.

    Parameters
    ----------
    page : str
        The text of the page about scripts.

    Raises
    ------
    BundleError
        If the page has no table of commands.
    """
    table = COMMAND_TABLE.search(page)
    if table is None:
        raise BundleError("docs/SCRIPTS.md: no table of commands")
    rows = []
    for line in table[1].splitlines():
        command, effect, reply = (CODE.sub(r"<code>\1</code>", html.escape(cell)) for cell in line[2:-2].split(" | "))
        rows.append(f'<tr><th scope="row">{command}</th><td>{effect}</td><td>{reply}</td></tr>')
    return "\n".join(rows)


def bundle(module: bytes) -> str:
    """Returns the page for a module of WebAssembly.

    Parameters
    ----------
    module : bytes
        The module, not compressed.

    Returns
    -------
    str
        The text of the HTML file.

    Raises
    ------
    BundleError
        If a script has another import, an unknown name or a name that another script declares, or if the page about
        scripts has no table of commands.
    """
    style, script = read_text(os.path.join(FOLDER, "page.css")), bundle_scripts(SCRIPTS, PAGE_SCRIPT)
    compressed = base64.urlsafe_b64encode(gzip.compress(module, 9, mtime=0)).decode().rstrip("=")
    policy = POLICY.format(style=digest(style), script=digest(script))
    page = read_text(os.path.join(FOLDER, "page.html"))
    for place, text in [("POLICY", policy), ("STYLE", style), ("SCRIPT", script), ("MODULE", compressed),
                        ("WORKER", bundle_scripts(SCRIPTS, WORKER_SCRIPT)),
                        ("COMMANDS", command_rows(read_text(SCRIPTS_PAGE)))]:
        page = fill(page, place, text)
    return page


def main(arguments: list[str]) -> int:
    """Bundles the page. Returns the exit status."""
    if len(arguments) != 2:
        print("usage: web/bundle.py MODULE OUTPUT", file=sys.stderr)
        return 2
    with open(arguments[0], "rb") as file:
        module = file.read()
    try:
        page = bundle(module)
    except BundleError as error:
        print(error, file=sys.stderr)
        return 1
    with open(arguments[1], "w", encoding="utf-8", newline="\n") as file:
        file.write(page)
    return 0


if __name__ == "__main__":
    sys.exit(main(sys.argv[1:]))
