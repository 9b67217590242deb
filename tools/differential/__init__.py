"""The differential run: cases from a seed, put to our library and to its judges, answer by answer."""
