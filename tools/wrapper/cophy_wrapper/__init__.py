"""What the script `cophy` does beside the program: hints, and a first look without the proof."""
