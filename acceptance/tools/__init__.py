"""For each tool what the second readers say of it, and what no case of it has; `table` lists the tools."""
