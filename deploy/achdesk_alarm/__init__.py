"""Sends alarms of the desk's machine by mail, to Alertmanager, or to both.

An alarm is first written into a folder, so that a program without network and without a password can raise one, and it
stays there until each configured receiver has it: a receiver that is down delays an alarm and does not lose it.
"""
