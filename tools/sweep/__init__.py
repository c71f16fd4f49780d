"""What a job prints, worked out by the rules of docs/PROFILE.md with whole lists and whole numbers, and the jobs of the sweep."""
