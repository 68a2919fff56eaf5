"""Scripts that run the built programs and look at what they do. Each is run by itself, or all by bin/try-all."""
