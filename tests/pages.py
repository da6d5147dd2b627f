#!/usr/bin/env python3
"""Holds the pages to the source: every file, heading, theorem and definition that README.md and docs/ name is there, and every public
function without a `requires` stands in docs/UNIQUE.md. Run it from anywhere; prints a line for each fault and fails if there is one.
Notes of landings tell how things were when they landed, and only their links are looked at."""
import os
import re
import sys

ROOT = os.path.dirname(os.path.dirname(os.path.abspath(__file__)))
faults = []


def text(path):
    with open(os.path.join(ROOT, path), encoding="utf-8") as file:
        return file.read()


def there(path):
    return os.path.exists(os.path.join(ROOT, path))


def pages():
    yield "README.md"
    for folder, _, names in os.walk(os.path.join(ROOT, "docs")):
        for name in sorted(names):
            if name.endswith(".md"):
                yield os.path.relpath(os.path.join(folder, name), ROOT)


def slugs(path):
    """The anchors of a page's headings, as they are made from the words."""
    for heading in re.findall(r"(?m)^#+ (.*)$", text(path)):
        words = re.sub(r"[^\w\- ]", "", heading.lower())
        yield words.strip().replace(" ", "-")


def links(page):
    for target in re.findall(r"\]\(([^)\s]+)\)", text(page)):
        if target.startswith(("http:", "https:")):
            continue
        path, _, anchor = target.partition("#")
        path = os.path.normpath(os.path.join(os.path.dirname(page), path)) if path else page
        if not there(path):
            faults.append(f"{page}: there is no {path}")
        elif anchor and path.endswith(".md") and anchor not in slugs(path):
            faults.append(f"{page}: {path} has no heading for #{anchor}")


def defined(name, path):
    """Whether a file defines a name: a definition, theorem, record or data type of antt, or a function, struct or constant of Rattle."""
    escaped = re.escape(name)
    if path.endswith(".rt"):
        return re.search(rf"\b(fn|struct|enum|const|mod) {escaped}\b", text(path)) is not None
    return re.search(rf"(?m)^ *(?:(?:abbrev|unfoldable|pub|record|data) )*{escaped}(?: :| \(| \{{)", text(path)) is not None


def names(page):
    content = text(page)
    for path in re.findall(r"crates/[\w/+-]+\.(?:antt|rt|edit)", content):
        if not there(path):
            faults.append(f"{page}: there is no {path}")
    for listed, path in re.findall(r"((?:`[^`]+`(?:, | and )?)+) \((crates/[\w/+-]+\.(?:antt|rt))\)", content):
        for name in re.findall(r"`([^`]+)`", listed):
            if there(path) and not defined(name, path):
                faults.append(f"{page}: {path} does not define {name}")


def rows(page):
    """Every row of a table about a demand names a file, or says that it is the same as above."""
    for part in re.split(r"(?m)^## ", text(page)):
        if not part.startswith("Demand"):
            continue
        for row in re.findall(r"(?m)^\| (?!What is demanded|---)(.*) \|$", part):
            if len(row.split(" | ")) != 4 or "crates/" not in row.split(" | ")[1]:
                faults.append(f"{page}: a row names no file for its theorem: {row[:60]}..")


def public_functions():
    """Each public function of a library that has no `requires`, by crate (and module) and name."""
    for line in text("crates.txt").splitlines():
        crate = line.split("#")[0].split(":")[0].strip()
        folder = f"crates/{crate}/src"
        if not crate or not there(f"{folder}/lib.rt"):
            continue
        lib = text(f"{folder}/lib.rt")
        for name in sorted(os.listdir(os.path.join(ROOT, folder))):
            module = name[: -len(".rt")]
            if module == "lib":
                prefix = f"{crate}::"
            elif f"pub mod {module};" in lib:
                prefix = f"{crate}::{module}::"
            else:
                prefix = f"{module}::"
            for exported, function, rest in re.findall(
                r'(?m)^ *pub (extern "C" )?fn (\w+)(.*?)\{(?=\n)', re.sub(r"(requires|ensures)(?: \w+)? \{.*?\}\n", r"\1\n", text(f"{folder}/{name}"), flags=re.S), re.S
            ):
                if "requires" not in rest:
                    yield function if exported else prefix + function


for page in pages():
    links(page)
    if not page.startswith("docs/landings/"):
        names(page)
rows("docs/READING.md")
unique = text("docs/UNIQUE.md")
for function in public_functions():
    if f"`{function}`" not in unique:
        faults.append(f"docs/UNIQUE.md: {function} is public, has no requires, and is not named")

for fault in faults:
    print(f"pages.py: {fault}")
if faults:
    sys.exit(1)
print("pages.py: what the pages name is there")
