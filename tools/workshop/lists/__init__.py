"""What is written from the sources, and compared with them: lists of constants, and contracts on pages."""
