"""Scripts; their common parts are in lib/."""
