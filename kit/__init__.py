"""A conformance kit for makers of TURN servers: kit/run drives a server through situations, and turnaudit judges each."""
