"""To mend a torn log, and to bring back a node that lost its log."""
