"""The answers of `sctd` as FHIR R4 over HTTP, and as a page for people. It only reads."""
