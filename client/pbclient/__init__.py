"""The client of the store: a tool for administrators. Nothing of it is proved."""

VERSION = "0.1"
