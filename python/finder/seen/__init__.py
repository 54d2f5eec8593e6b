"""What stands beside the windows, in doubles and unproved: times as seen, apparent places, values."""
