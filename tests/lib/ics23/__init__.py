"""ICS 23 a second time, written from the standard and from ICS 23 for Go; it shares nothing with the crate rb_ics23.

`proofs` has what a proof is made of and its bytes, `trees` makes trees with their roots and proofs, `judge` says what a light client
says of a proof, and `cases` makes cases of proofs that are right, wrong or damaged."""
