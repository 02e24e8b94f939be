"""The reference model: what is right, computed from the definitions. It imports nothing of the other folders."""
