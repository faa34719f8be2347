"""The language of the tutorial in an editor."""
