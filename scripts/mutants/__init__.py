"""What scripts/try-mutants.py is made of."""
