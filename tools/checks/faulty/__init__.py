"""The faults by name. Each of these modules puts its own down."""
from checks.faulty import assigning, sending, taking  # noqa: F401
from checks.faulty.base import FAULTS, changed  # noqa: F401
