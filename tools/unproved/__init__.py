"""Builds without proofs: programs and static libraries of a Rattle repository, optimised, for trying and for load tests."""
