"""The renderer of this package's templates."""
from jinja2 import Environment, PackageLoader


def environment() -> Environment:
    """The templates, without filters of this package."""
    return Environment(loader=PackageLoader("arbiter_pages"), trim_blocks=True, lstrip_blocks=True,
                       keep_trailing_newline=True)
