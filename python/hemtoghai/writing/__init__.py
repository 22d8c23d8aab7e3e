"""What helps somebody who writes a show."""
