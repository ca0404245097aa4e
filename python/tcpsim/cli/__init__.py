"""The options and the output of each command, a module each: its `main` does what the words ask for."""
