"""The commands: one module for each entry script."""
