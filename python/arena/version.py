"""The version of the package and of the command."""
VERSION = "0.9.0"
