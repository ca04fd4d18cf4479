"""The commands: their options, and the lines that they print."""
