"""A page to design on, served to this machine alone. Nothing here is proved: see docs/PAGE.md."""
