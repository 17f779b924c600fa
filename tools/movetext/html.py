"""Pages that stand alone: nothing in them is loaded from elsewhere, and what they show is escaped."""

import json
from html import escape
from typing import Any

# No page may load anything, or send anything anywhere.
POLICY = "default-src 'none'; style-src 'unsafe-inline'; script-src 'unsafe-inline'; base-uri 'none'; form-action 'none'"

STYLE = """
:root { color-scheme: light dark; --ground: #ffffff; --text: #1b1b1f; --quiet: #5d5f66; --line: #d5d7dd; --panel: #f4f5f8;
  --here: #fff0b3; --good: #e3f4e4; --bad: #fbe0dd; --part: #fdf0d0; --accent: #0b4fc4; --stop: #b3261e; }
@media (prefers-color-scheme: dark) { :root { --ground: #16171a; --text: #e4e4e8; --quiet: #a0a2aa; --line: #3a3c43;
  --panel: #202226; --here: #4b4012; --good: #1d3522; --bad: #4a2320; --part: #443714; --accent: #8ab4ff; --stop: #ff8a80; } }
* { box-sizing: border-box; }
html { -webkit-text-size-adjust: 100%; }
body { margin: 0 auto; padding: 1rem; max-width: 84rem; background: var(--ground); color: var(--text);
  font: 16px/1.45 system-ui, sans-serif; }
h1 { font-size: 1.35rem; margin: 0 0 .5rem; } h2 { font-size: 1.1rem; margin: 1.5rem 0 .5rem; }
code, pre, .code, svg text { font-family: ui-monospace, "DejaVu Sans Mono", Menlo, Consolas, monospace; }
.code, pre { font-size: 13px; line-height: 1.5; }
.quiet { color: var(--quiet); } .stop { color: var(--stop); }
.wide { overflow-x: auto; border: 1px solid var(--line); border-radius: 6px; background: var(--panel); }
h1, h2, p, td { overflow-wrap: anywhere; }
"""


def encodable(text: str) -> str:
    """A text that can be encoded: a half of a pair of surrogates is escaped."""
    return text.encode("utf-8", "backslashreplace").decode("utf-8")


def escaped(text: str) -> str:
    """A text as it stands in a page, in an element or in an attribute's quotes. Of what a browser would not show, or would take for a
    change of direction, the number stands there."""
    shown = "".join(one if one.isprintable() or one in "\n\t" else f"\\u{ord(one):04x}" for one in text)
    return escape(encodable(shown), quote=True)


def data(value: Any) -> str:
    """A value as JSON within a page's element."""
    text = json.dumps(value, separators=(",", ":"))
    return text.replace("<", "\\u003c").replace(">", "\\u003e").replace("&", "\\u0026")


def page(title: str, body: str, style: str = "", script: str = "") -> str:
    """A whole page."""
    parts = [
        "<!doctype html>", '<html lang="en">', "<head>", '<meta charset="utf-8">',
        f'<meta http-equiv="Content-Security-Policy" content="{POLICY}">',
        '<meta name="viewport" content="width=device-width, initial-scale=1">', f"<title>{escaped(title)}</title>",
        f"<style>{STYLE}{style}</style>", "</head>", "<body>", body]
    if script:
        parts.append(f"<script>{script}</script>")
    return "\n".join([*parts, "</body>", "</html>", ""])
