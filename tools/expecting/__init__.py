"""Scripts that carry the replies that are expected: they are read, played and compared, and what comes is written into them."""
