"""To run the program without a proof: what builds programs in minutes, and keeps them by the state of the sources."""
