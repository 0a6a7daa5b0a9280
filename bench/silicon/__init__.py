"""Looks at what lies below metal 1, apart from the maker of the cells: shapes by the rules of a process, transistors, their nets and what they do."""
