"""Runs a bank's day on an ACH desk: see achdesk_day.cli."""
