"""What the page and the command `tw` share: the program, the store, runs, and the one place that says what a verdict is worth."""
