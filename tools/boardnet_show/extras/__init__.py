"""What is made where it is asked for: gaps, the comparison with another board, the record and its verification."""
