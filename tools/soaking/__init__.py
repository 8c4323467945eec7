"""Random requests to a desk that is killed now and then, and what a client can know of it, for tools/soak."""
