"""Makes one HTML file of a template with style and scripts in it, and a strict policy."""

import base64
import hashlib
from collections.abc import Sequence
from importlib import resources

from jinja2 import Environment, FunctionLoader, StrictUndefined
from markupsafe import Markup

from pert_companion import VERSION


def html_file(
    template: str, styles: Sequence[str], scripts: Sequence[str], **values: object
) -> bytes:
    """Returns the page of a template as UTF-8. It asks for nothing from anywhere.

    Styles and scripts are files of this folder, put together in their order. The template gets
    them as `style` and `script`, with `policy`, `version` and the values. Bytes of a file's name
    that are no text become question marks.
    """
    style = "".join(map(_part, styles))
    script = "".join(map(_part, scripts))
    if "</" in style or "</script" in script.lower() or "<!--" in script:
        raise ValueError("a script or a style would end its element")
    text = ENVIRONMENT.get_template(template).render(
        version=VERSION,
        policy=policy([script], [style]),
        style=Markup(style),
        script=Markup(script),
        **values,
    )
    return text.encode("utf-8", "replace")


def policy(scripts: Sequence[str], styles: Sequence[str]) -> str:
    """Returns a content security policy that allows these elements' texts and nothing else."""
    allowed = ["default-src 'none'"]
    allowed.append(" ".join(["script-src", *map(_digest, scripts)]))
    allowed.append(" ".join(["style-src", *map(_digest, styles)]))
    return "; ".join([*allowed, "base-uri 'none'", "form-action 'none'"])


def _digest(text: str) -> str:
    digest = base64.b64encode(hashlib.sha256(text.encode()).digest()).decode()
    return f"'sha256-{digest}'"


def _part(name: str) -> str:
    return resources.files(__package__).joinpath(name).read_text("utf-8")


def _template(name: str) -> str:
    return _part(f"templates/{name}")


ENVIRONMENT = Environment(
    loader=FunctionLoader(_template),
    autoescape=True,
    undefined=StrictUndefined,
    trim_blocks=True,
    lstrip_blocks=True,
)
"""The only one: all pages escape alike, and a value that is not there is an error."""
