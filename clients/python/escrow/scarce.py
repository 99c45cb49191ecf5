"""What isn't to be had for a moment."""

from __future__ import annotations

import errno

SCARCE = (errno.EMFILE, errno.ENFILE, errno.ENOMEM, errno.EAGAIN)
"""Descriptors, memory or processes that aren't to be had: there may be some again soon."""
