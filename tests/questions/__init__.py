"""Questions about one case: factor, size, row, margins, working, headroom and the fewest conductors."""
