"""A site of escrow inside this process: quantities that never pass a bound, with no program beside.

    import escrow_native
    escrow_native.create("shop0.log")                   # at its first start, and never again
    with escrow_native.Site("world.json", 0, "shop0.log") as site:
        with site.transaction() as t:
            t.lower("stock", 3)

It has the calls of `escrow.Site`, which asks a program by a pipe, and its values and exceptions, but that it has no
time limits, no `outcome`, and no tasks. The library `libescrow_c.so` comes with the wheel; a checkout of the repository has it
packed. `$ESCROW_LIBRARY` names another one.
"""

from escrow import __version__

from .site import Fault, Site, Transaction, create

__all__ = ["Fault", "Site", "Transaction", "__version__", "create"]
