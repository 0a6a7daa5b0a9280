"""Readers of the formats and what several programs make of them. They are written from the pages of docs/formats and share nothing with the
proved program; acceptance/ compares them with it."""
