"""What the tests share: writers of dumps, runs of a tool, a browser."""
