"""flowlint: warnings about an accepted chart."""
