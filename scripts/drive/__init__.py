"""What runs the built programs, and compares what they do with the model and the questions."""
