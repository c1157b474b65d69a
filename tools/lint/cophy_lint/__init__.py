"""Warns of what `cophy` takes in silence, and of what makes its costs guesses."""
