"""One module a command: its words and its call."""
