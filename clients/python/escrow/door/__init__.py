"""A door for many processes of one machine: one `escrow_site serve` over a folder, behind a Unix socket.

    python3 -m escrow.door shop0 --socket /run/shop0.sock

`escrow.Site.connect(PATH)` and `escrow.AsyncSite.connect(PATH)` come in by it. "The socket of a door" in docs/FORMATS.md has each
line.
"""
