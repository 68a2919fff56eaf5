"""What the scripts of tests/, oracle/ and bench/ share."""
