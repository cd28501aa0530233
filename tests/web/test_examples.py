"""Each public thing has an example, which runs as it says."""
import doctest
from types import FunctionType

import pytest

from fevstunik import web
from fevstunik.web import service


def public():
    for name in web.__all__:
        thing = getattr(web, name)
        if name != "serve":
            yield name, thing
        if isinstance(thing, type):
            yield from ((f"{name}.{word}", it) for word, it in vars(thing).items()
                        if not word.startswith("_") and isinstance(it, (FunctionType, property)))


@pytest.mark.parametrize("name, thing", [("fevstunik.web", web), ("negotiate_of", service.negotiate_of), *public()])
def test_example(name, thing):
    found, = doctest.DocTestFinder(recurse=False).find(thing, name, module=False, globs=dict(vars(web)))
    assert found.examples
    assert doctest.DocTestRunner(optionflags=doctest.ELLIPSIS).run(found).failed == 0
