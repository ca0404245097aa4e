"""Sweeps: one scenario over a grid of values, its runs here or on other machines, their figures and means."""
