"""A page of which lines of modules were done by runs, and how often."""

from typing import List, Optional, Sequence, Tuple

from .coverage import Module, listing, percent, short_lines
from .html import escaped, page

Texts = Sequence[Tuple[Module, Optional[List[str]]]]

STYLE = """
table { border-collapse: collapse; } .sum { width: 100%; } .sum td, .sum th { padding: .25rem .75rem .25rem 0; text-align: left;
  vertical-align: top; border-bottom: 1px solid var(--line); } .sum a { color: var(--accent); }
.wide table { min-width: 100%; } .wide td { white-space: pre; padding: 0 .6rem; overflow-wrap: normal; }
.n { text-align: right; color: var(--quiet); user-select: none; } tr.yes td { background: var(--good); }
tr.no td { background: var(--bad); } tr.part td { background: var(--part); } .ways { color: var(--stop); }
"""


def coverage_page(modules: Texts, summary: str) -> str:
    """The page."""
    parts = ["<h1>What the tests run</h1>", f"<p>{escaped(summary)}</p>", '<table class="sum">',
             "<tr><th>Module</th><th>Instructions</th><th>Ways of branches</th></tr>"]
    for place, (module, _) in enumerate(modules):
        (done, count), (taken, ways) = module.instructions(), module.branches()
        told = f"{taken} of {ways}, {percent(taken, ways)}" if ways else "none"
        file = f'<br><span class="quiet">{escaped(module.file)}</span>' if module.file is not None else ""
        parts.append(f'<tr><td><a href="#m{place}">{escaped(module.name)}</a>{file}</td><td>{done} of {count}, {percent(done, count)}</td>'
                     f"<td>{told}</td></tr>")
    parts.append("</table>")
    for place, (module, text) in enumerate(modules):
        parts += module_part(place, module, text)
    return page("What the tests run", "\n".join(parts), STYLE)


def module_part(place: int, module: Module, text: Optional[List[str]]) -> List[str]:
    """A module: what was done of it, and its lines."""
    first, *others = short_lines([module])
    parts = [f'<h2 id="m{place}">{escaped(first)}</h2>', *(f'<p class="quiet">{escaped(other.strip())}</p>' for other in others)]
    parts.append('<div class="wide code"><table>')
    for done, number, missing, line in listing(module, text):
        kind = "" if not done else "no" if done == "0" else "part" if missing else "yes"
        ways = f'  <span class="ways">{escaped("; ".join(missing))}</span>' if missing else ""
        parts.append(f'<tr class="{kind}"><td class="n">{done}</td><td class="n">{number}</td><td>{escaped(line)}{ways}</td></tr>')
    return [*parts, "</table></div>"]
