"""Unit tests of the client, with fakes of the desk and of a proxy."""
