"""Turns configurations of foreign forwarders into a forwarder.toml(5), and advises on one."""
