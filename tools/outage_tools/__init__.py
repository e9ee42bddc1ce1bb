"""Tools beside the proved program: they read an outage book, and compare its figures with the program's before they answer."""
