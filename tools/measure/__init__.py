"""What commands of the program cost, and the logs that this is measured by."""
