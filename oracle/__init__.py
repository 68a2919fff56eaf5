"""Second readings of docs/RULES.md and of the grammar of IMAP lines, which share nothing with the programs, and scripts that compare
the programs with them."""
