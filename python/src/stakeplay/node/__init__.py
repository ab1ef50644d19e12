"""What a node of a Cosmos SDK chain writes, turned into lines and stores, and back."""
