"""A model of the library (README.md), which makes the rows of the programs test_rows and their answers."""
