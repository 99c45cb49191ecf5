"""What `pip install clients/python` and `pip wheel clients/python` call (PEP 517): tools/wheel of this repository makes the
wheel. It asks for no other package, so nothing is downloaded."""

import os
import subprocess
import sys
from typing import Any, Optional

TOOL = os.path.join(os.path.dirname(os.path.abspath(__file__)), "..", "..", "tools", "wheel")


def build_wheel(wheel_directory: str, config_settings: Optional[dict[str, Any]] = None,
                metadata_directory: Optional[str] = None) -> str:
    """The name of the wheel that is made in this folder. Ends the build where there is no program to put into it."""
    made = subprocess.run([sys.executable, TOOL, wheel_directory], stdout=subprocess.PIPE, text=True, check=False)
    if made.returncode != 0:
        sys.exit(f"tools/wheel made no wheel: status {made.returncode}, as told above")
    return os.path.basename(made.stdout.strip())


def build_sdist(sdist_directory: str, config_settings: Optional[dict[str, Any]] = None) -> str:
    """None is made: a wheel alone has the programs."""
    sys.exit("escrow-client has no source distribution: its programs are proved and built in the repository")
