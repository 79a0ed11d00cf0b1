"""What a capture shows of the forwarder, judged by what the forwarder claims."""
