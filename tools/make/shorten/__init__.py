"""What `tools/make/shorter` tries in place of proofs."""
