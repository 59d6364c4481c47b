"""The page, served on this machine alone."""
