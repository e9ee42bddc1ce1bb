"""Exports of other systems (outage management, network, customers, causes) as rows of commands."""
