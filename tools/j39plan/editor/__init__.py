"""The language server: what an editor shows of a plan or a vehicle while it is written."""
