"""Scenarios: who sends what to the firewall, and plays of them, in which clients and servers act by what it answers."""
