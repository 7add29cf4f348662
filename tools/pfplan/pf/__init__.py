"""A pf.conf to a rules text: its tokens, statements and expansion, what is left out, and pf's own numbers of rules."""
