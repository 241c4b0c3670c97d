"""flowls: a language server for charts. Each language has a module of its own, and the rest knows none."""
