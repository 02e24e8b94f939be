"""What writes the stored questions, scripts and worked frames. It imports the model, which has their answers."""
