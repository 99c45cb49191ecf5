"""A page that shows a world at work: `python3 -m escrow_board FOLDER.. --program ESCROW_SITE`.

It reads folders of sites and changes nothing in them, also while the sites are served. For each field the page shows the
bounds, between which values each site knows the value to lie, its rights, those on their way, and the last refusals.
"""

from escrow import __version__

__all__ = ["__version__"]
