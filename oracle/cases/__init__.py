"""Cases of the test programs: each module makes what its program reads, and what it must write."""
