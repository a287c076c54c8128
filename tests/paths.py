"""Holds the pages to the repository: each path that README.md, docs/*.md, bench/README.md or crates/*/README.md names in backticks, in a link or as
a command exists, `crate::module::function` and `crate/specs/File` among them. docs/history and the table of earlier names in LANDINGS are left out.

    python3 tests/paths.py        prints those that do not; its last line is `N paths, 0 lost`
"""

import glob
import os
import re
import sys

TOP = os.path.dirname(os.path.dirname(os.path.abspath(__file__)))
CRATES = sorted(os.path.basename(os.path.dirname(p)) for p in glob.glob(os.path.join(TOP, "crates", "*", "src")))
SUFFIX = r"\.(?:md|py|rt|antt|edit|h|c|rs|pl|txt)\b"
EARLIER = re.compile(r"<!-- earlier names -->.*?<!-- end of earlier names -->", re.S)


def read(path):
    with open(path, encoding="utf-8") as f:
        return f.read()


def sources(crate):
    return {os.path.relpath(p, os.path.join(TOP, "crates", crate, "src"))[:-3]: read(p)
            for p in glob.glob(os.path.join(TOP, "crates", crate, "src", "**", "*.rt"), recursive=True)}


CODE = {crate: sources(crate) for crate in CRATES}
HERE = [os.path.relpath(p, TOP) for p in glob.glob(os.path.join(TOP, "**", "*"), recursive=True)]


def is_file(path, page):
    """Whether a path stands at the top, beside the page, below crates/ or, with its last parts alone, anywhere; what `rt` makes in out/ counts."""
    path = path.rstrip("/")
    places = [path, os.path.join(os.path.dirname(page), path), os.path.join("crates", path)]
    if "/out" in path or "*" in path or "{" in path or "NAME" in path or path.startswith("out"):
        return True
    return any(os.path.exists(os.path.join(TOP, place)) for place in places) or any(h.endswith("/" + path) for h in HERE)


def is_item(path):
    """Whether `crate::module::item` names a module of the crate, or an item of a module of it (a method or a value is sought in the whole crate)."""
    crate, *parts = path.split("::")
    files = CODE[crate]
    while parts and "/".join(parts) not in files:
        last = parts.pop()
        home = "/".join(parts) if "/".join(parts) in files else None if parts else "lib"
        told = files.get(home, "") if home else "".join(files.values())
        value = rf"|\b{last}\b *[({{,]" if last[0].isupper() else ""
        if not re.search(rf"\b(fn|struct|enum|const|static|trait|type|mod|pub use) [^;(\n]*\b{last}\b{value}", told):
            return False
    return True


def main():
    found, lost = 0, 0
    pages = ["README.md", "bench/README.md"] + [os.path.relpath(p, TOP) for p in
             sorted(glob.glob(os.path.join(TOP, "docs", "*.md")) + glob.glob(os.path.join(TOP, "crates", "*", "README.md")))]
    for page in pages:
        text = EARLIER.sub("", read(os.path.join(TOP, page)))
        words = {(w, is_file(w, page)) for w in re.findall(r"\]\(([^)#:]+)[^):]*\)", text)}
        commands = [line for line in text.split("\n") if line.startswith("    ")]
        for code in re.findall(r"`([^`\n]+)`", text) + commands:
            for word in re.findall(r"[\w./:*{}-]+", code):
                word = word.rstrip(".:,")
                if "::" in word and word.split("::")[0] in CRATES:
                    words.add((word, is_item(word)))
                elif re.fullmatch(r"\.?\w[\w.*{}-]*(/[\w.*{}-]+)+/?|[\w-]+/", word) and not re.fullmatch(r"\d+/\d+", word) or re.fullmatch(rf"[\w-]+{SUFFIX}", word):
                    words.add((word, is_file(word, page) or is_file(word + ".antt", page) or is_file(word + ".edit", page)))
        found += len(words)
        for word in sorted(w for w, good in words if not good):
            lost += 1
            print(page, "|", word)
    print(f"{found} paths, {lost} lost")
    return 1 if lost else 0


if __name__ == "__main__":
    sys.exit(main())
