"""Texts of Singular: the declarations of a ring, a matrix of degrees and an ideal."""
