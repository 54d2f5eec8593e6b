"""What the command prints: windows, sets of times and certificates, as arrays, times and tables."""
