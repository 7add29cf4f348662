"""A slow, plain reader of rules and traces: it writes the report of `pfsrc replay`, from lists and filters, so that the proved program can be compared with it."""
