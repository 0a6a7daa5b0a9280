"""What is made at random, and what is changed as a hand changes it."""
