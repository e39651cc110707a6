"""To look at a log: what is in it, pictures and pages of it, a node that runs."""
