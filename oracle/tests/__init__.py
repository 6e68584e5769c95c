"""Tests of the reference program, of the cases and of what the documents cite.

    python3 -m unittest discover -s oracle -p 'test_*.py'    all of them
    cd oracle && python3 -m unittest tests.test_run          those of one file
"""
