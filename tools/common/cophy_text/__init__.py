"""What the tools know of the files that `cophy` reads and of the texts that it prints."""

VERSION = "1.0.0"
"""The version of the program and of the tools, which the script `cophy` reads here."""
