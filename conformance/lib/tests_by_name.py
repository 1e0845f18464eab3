"""The random tests by their names."""

from typing import Callable

from .api_test import api_script, conflicts_script, threads_script
from .directory_test import directory_script, hca_script
from .scripts import Script
from .tuple_test import tuple_script

TESTS: dict[str, Callable[..., Script]] = {
    "api": api_script,
    "tuple": tuple_script,
    "directory": directory_script,
    "directory_hca": hca_script,
    "conflicts": conflicts_script,
    "threads": threads_script,
}
