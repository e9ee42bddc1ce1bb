"""A pack of one period: its files with a manifest of their sums, and their check by the program."""
