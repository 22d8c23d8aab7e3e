"""The second reader of the language, and the cures of faulty lines."""
