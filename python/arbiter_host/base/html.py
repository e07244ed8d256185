"""HTML pages by jinja2, which escapes each text. They ask for nothing from the network."""
from __future__ import annotations

from collections.abc import Iterable
from typing import Any

from arbiter_host.base.names import shown


def bar(name: str, unit: str, **figures: str) -> dict[str, Any]:
    """The bar of a host: the part that the first figure is of `capacity`, and the figures."""
    part, all_ = float(next(iter(figures.values()))), float(figures["capacity"])
    return {"name": name, "unit": unit, "figures": figures,
            "percent": f"{min(100 * part / all_, 100) if all_ else 0:.2f}"}


def rendered(template: str, title: str, head: Iterable[str], **values: Any) -> str:
    """A page of a template of templates/, with its title and the lines below it."""
    from jinja2 import Environment, PackageLoader  # (no other form needs it)
    environment = Environment(loader=PackageLoader("arbiter_host"), autoescape=True,
                              trim_blocks=True, lstrip_blocks=True)
    page = environment.get_template(template)
    return page.render(title=shown(title), head=list(head), **values) + "\n"
