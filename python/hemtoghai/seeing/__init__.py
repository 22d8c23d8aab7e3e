"""Pictures, and the studio with the files of its page."""
