"""How the evaluation ends if something is not as it has to be."""
import sys
from typing import NoReturn


def stop(reason: str) -> NoReturn:
    """Ends with status 1, and says why on standard error."""
    sys.exit(f"evaluate: {reason}")
