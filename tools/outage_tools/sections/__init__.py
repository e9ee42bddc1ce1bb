"""From raw connectivity (lines, transformers, switches between nodes) to the buses, sections and devices that a book takes."""
