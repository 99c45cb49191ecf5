"""Sites for the tests of a program that sells: the real program, over a folder in memory that goes with the test, not synced.

    with temporary_site(Schema(2, (Field("stock", 0, 100, 40),))) as site:
        site.change("stock", -3)

For pytest there are fixtures, by `pytest_plugins = ["escrow.testing"]` in conftest.py: `escrow_site` is a new site for each
test, number 0 in a world of the schema that the fixture `escrow_schema` tells. That is `STOCK`, unless a fixture of this name
tells another.
"""

from __future__ import annotations

import os
import tempfile
from collections.abc import Iterator
from contextlib import ExitStack, contextmanager
from typing import Any, Optional

from .program import create
from .schema import Field, Path, Schema
from .site import Site

__all__ = ["STOCK", "temporary_site", "temporary_world"]

STOCK = Schema(1, (Field("stock", 0, 1_000_000, 1_000),))
"""One site, which has all: 1,000 to sell, and room for 999,000 more."""
MEMORY = "/dev/shm"


def _in_memory() -> tempfile.TemporaryDirectory[str]:
    is_there = os.access(MEMORY, os.W_OK | os.X_OK)
    return tempfile.TemporaryDirectory(prefix="escrow-", dir=MEMORY if is_there else None)


@contextmanager
def temporary_world(
    schema: Schema = STOCK, *, name: str = "test", program: Optional[Path] = None, **options: Any
) -> Iterator[list[Site]]:
    """All sites of a new world, served until the end, in their order. `options` are those of `Site`; `sync` is False
    unless they tell otherwise."""
    with _in_memory() as place, ExitStack() as open_sites:
        folders = [os.path.join(place, f"site{number}") for number in range(schema.sites)]
        for number, folder in enumerate(folders):
            create(folder, schema, number, program, name=name)
        told: dict[str, Any] = {"sync": False, **options}
        yield [open_sites.enter_context(Site(folder, program, **told)) for folder in folders]


@contextmanager
def temporary_site(
    schema: Schema = STOCK, number: int = 0, *, name: str = "test", program: Optional[Path] = None, **options: Any
) -> Iterator[Site]:
    """One site of a new world, as `temporary_world`: with its part of the rights."""
    with _in_memory() as place:
        told: dict[str, Any] = {"sync": False, **options}
        with Site.create(os.path.join(place, "site"), schema, number, program, name=name, **told) as site:
            yield site


try:
    import pytest
except ImportError:  # then nobody asks for its fixtures
    pass
else:

    @pytest.fixture
    def escrow_schema() -> Schema:
        """The schema of `escrow_site`: a fixture of this name of your own tells another."""
        return STOCK

    @pytest.fixture(name="escrow_site")
    def _escrow_site(escrow_schema: Schema) -> Iterator[Site]:
        """A site of its own for each test."""
        with temporary_site(escrow_schema) as site:
            yield site
