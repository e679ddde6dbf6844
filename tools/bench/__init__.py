"""What ./wesalondo is made of. Every number that it shows comes from the proved programs."""
