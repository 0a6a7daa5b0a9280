"""The second readers: of each language of files, of libraries and of words, and the runs of what is read."""
