"""The view of a log for a browser: `lens.py page` and the page of the core draw with the same scripts, from the same data."""
