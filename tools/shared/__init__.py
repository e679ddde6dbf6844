"""What wesalondo, compare and the tools share."""
