"""What the commands in the folder above do; `commands` has a table of them."""
