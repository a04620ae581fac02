"""What all tests need: the repository's folder, which has expected values from outside num_format."""
import os
import sys
from pathlib import Path

import pytest

ROOT = Path(os.environ["NUM_FORMAT_REPOSITORY"])

# tools/ has the table of locales, and the definition of what is printed and parsed.
sys.path.append(str(ROOT / "tools"))


@pytest.fixture(scope="session")
def rows():
    """The row of each locale in the table from which the crates' table is written."""
    import locales

    return {row["name"]: row for row in locales.rows()}
