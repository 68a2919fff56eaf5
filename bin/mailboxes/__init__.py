"""What mbsync-from-isync and mbsync-start-over know of configurations, names, states and folders."""
