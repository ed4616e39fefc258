"""The parts of ./test: its stages (stages), how they run (runner, progress), and the parts themselves (the other
modules)."""
