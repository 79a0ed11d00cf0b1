"""Random scripts for `forwarder replay`, and comparing what two readers print of them."""
