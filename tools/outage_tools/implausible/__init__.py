"""What is implausible in exports, though nothing contradicts it: each kind with what it weighs, estimated by the rows alone."""
