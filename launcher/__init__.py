"""What stands outside of the proof: building the program, choosing which of two runs, and commands of its own."""
