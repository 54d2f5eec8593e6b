"""How Sphinx builds the site of the documents: `docs/build` runs it over the pages of this repository.

The pages are Markdown, and link to one another by relative paths, so they can be read where they stand too.
"""

import sys
from pathlib import Path

TOP = Path(__file__).resolve().parents[1]
sys.path[:0] = [str(TOP / "python"), str(TOP / "docs" / "site")]

import finder  # noqa: E402

project = "finder"
author = "Nibslate maintainers"
version = release = finder.__version__
language = "en"

root_doc = "docs/index"
include_patterns = [
    "docs/**.md",
    "examples/README.md",
    "tests/cases/README.md",
    "tests/reference/README.md",
    "bench/**.md",
    "dev/public-calls.md",
    "CONTRIBUTING.md",
    "CHANGELOG.md",
    "SECURITY.md",
]
extensions = [
    "myst_parser",
    "sphinx.ext.autodoc",
    "sphinx.ext.autosummary",
    "matplotlib.sphinxext.plot_directive",
    "literals",
    "docstrings",
]

# Headings down to this level have an anchor, by which other pages link to them.
myst_heading_anchors = 3
myst_enable_extensions = ["colon_fence"]

# (docstrings write code between single back quotes, as Markdown does)
default_role = "literal"
autodoc_default_options = {"members": True, "member-order": "bysource"}
autodoc_typehints = "none"
autosummary_generate = False

plot_basedir = plot_working_directory = str(TOP)
plot_include_source = True
plot_formats = [("png", 110)]
plot_html_show_formats = False
plot_html_show_source_link = False

html_theme = "sphinx_rtd_theme"
html_theme_options = {"navigation_depth": 2, "style_external_links": True}
html_static_path = ["site/static"]
html_css_files = ["site.css"]
html_title = f"finder {release}"
html_show_sourcelink = False
html_show_sphinx = False
html_copy_source = False
