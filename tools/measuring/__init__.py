"""Inputs to measure the program on, and what a run of it takes."""
