"""A Sphinx extension: code in the text of a page links to the page that explains it, and code blocks get colours.

`finder.conjunctions` links to its reference, and `tools/spans` to the page that shows it (`HOMES`). In pages for users
`find` and the other commands of the program link to theirs (`COMMANDS`). The name of a page links to it. A block that
begins with `$ ` is one of a shell, and one that begins with `>>> ` one of Python; any other has no colours.
"""

from __future__ import annotations

import re
from typing import Any

from docutils import nodes
from sphinx.addnodes import pending_xref
from sphinx.transforms import SphinxTransform
from sphinx.transforms.post_transforms import SphinxPostTransform

# Where a tool or a command has its page, and its heading there.
HOMES = {
    "tools/spans": "docs/guide/many-machines",
    "tools/slurm": "docs/guide/many-machines#slurm",
    "tools/cut.py": "docs/guide/formats#cutting-files",
    "tools/publish": "docs/guide/publishing",
    "tools/check-certificate": "docs/guide/formats#checking-without-the-program",
    "finder almanac": "docs/guide/almanac",
    "finder tonight": "docs/guide/places",
    "finder text": "docs/guide/sources#names-files-and-the-command-line",
}
COMMANDS = {word: f"docs/guide/usage#{word}" for word in ("find", "set", "scalar", "check", "gen")}
COMMANDS.update({"cert": "docs/guide/usage#cert-and-verify", "verify": "docs/guide/usage#cert-and-verify"})
FOR_USERS = ("docs/start/", "docs/guide/", "docs/python/", "examples/")
OF_PACKAGE = re.compile(r"(finder(?:\.\w+)+)(?:\(.*\))?")


def linkable(tree: nodes.document) -> list[nodes.literal]:
    """The code in running text that is no link yet and stands in no heading."""
    found = tree.findall(nodes.literal)
    return [each for each in found if not isinstance(each.parent, (nodes.reference, nodes.title, pending_xref))]


class PackageNames(SphinxTransform):
    """A name of the package becomes a reference, which Sphinx resolves where the name has one."""

    default_priority = 700

    def apply(self, **_: Any) -> None:
        """Called by Sphinx for each page that it reads."""
        for literal in linkable(self.document):
            named = OF_PACKAGE.fullmatch(literal.astext())
            if named:
                target = pending_xref("", refdomain="py", reftype="obj", reftarget=named[1], refwarn=False)
                target["refdoc"] = self.env.docname
                literal.replace_self(target)
                target += literal


class Homes(SphinxPostTransform):
    """A tool, a page, or in a page for users a command, becomes a link to its page."""

    default_priority = 300
    formats = ("html",)

    def run(self, **_: Any) -> None:
        """Called by Sphinx for each page that it writes."""
        page = self.env.docname
        homes = {**HOMES, **COMMANDS} if page.startswith(FOR_USERS) else HOMES
        for literal in linkable(self.document):
            named = literal.astext()
            home, _, anchor = homes.get(named, named.removesuffix(".md")).partition("#")
            if home != page and home in self.env.found_docs:
                place = self.app.builder.get_relative_uri(page, home)
                link = nodes.reference("", "", internal=True, refuri=f"{place}#{anchor}" if anchor else place)
                literal.replace_self(link)
                link += literal


class Colours(SphinxTransform):
    """A code block without a language gets the one that its first line shows."""

    default_priority = 150

    def apply(self, **_: Any) -> None:
        """Called by Sphinx for each page that it reads."""
        for block in self.document.findall(nodes.literal_block):
            if "language" not in block:
                text = block.astext()
                block["language"] = "console" if text.startswith("$ ") else "pycon" if text.startswith(">>> ") else "text"


def setup(app: Any) -> dict[str, bool]:
    """Called by Sphinx."""
    app.add_transform(PackageNames)
    app.add_transform(Colours)
    app.add_post_transform(Homes)
    return {"parallel_read_safe": True, "parallel_write_safe": True}
