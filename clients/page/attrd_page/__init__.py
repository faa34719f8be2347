"""A page of probes, and a hub by which many clients share one server."""
