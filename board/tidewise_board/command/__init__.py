"""The command `tw`."""
