"""Makes the man pages and the completions of arbiterctl from its parser and its help texts."""
