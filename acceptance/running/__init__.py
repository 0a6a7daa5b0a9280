"""How programs are run: the worked cases, what came of them, and the programs that probe readers."""
