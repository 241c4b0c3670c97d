"""flowreq: which requirements the parts of a chart have."""
