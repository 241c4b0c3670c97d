"""flowtrace: what changes in a trace, whole traces from that, and two traces compared."""
