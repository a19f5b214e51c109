"""The hub: many clients of one `sctd serve`, over Unix sockets."""
