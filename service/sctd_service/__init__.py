"""The service around `sctd`: the hub, by which many programs ask one store (`sctd-hub`), and the
gateway, which answers FHIR R4 over HTTP and shows a page for people (`sctd-gateway`)."""

VERSION = "1.0.0"
