"""Trials of real nodes on this machine: kills, losses, clocks, peers that misbehave."""
