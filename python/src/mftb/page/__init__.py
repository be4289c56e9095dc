"""A store as one page for a browser: a map that moves, with a clock (`mftb-page`)."""
