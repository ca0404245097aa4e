"""The commands tcpsim-NAME, a module each; a launcher in bin/ calls its `main`."""
