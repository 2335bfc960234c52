"""What ./predator does around the program: gcc -E in front of it, and what a person needs behind its answer."""
