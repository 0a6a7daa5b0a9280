"""Second programs for what the tools compute: codes, graphs, netlists, buffers, delays, layouts, and Verilog."""
