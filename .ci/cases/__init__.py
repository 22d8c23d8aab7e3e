"""The cases that .ci/program runs, a file for each kind of command."""
