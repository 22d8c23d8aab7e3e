"""What only a checkout needs: proving and building, the library, releases and the manual page. No release has it."""
