"""The page on which a run moves: `recording` reads the run and writes the page, `web` has its script, style and frame."""
