"""Traces and reports: captures and logs that become traces, records and answers read and written, records put in."""
