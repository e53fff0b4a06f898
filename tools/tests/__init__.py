"""Tests of the commands around the program, run on the built program. From the folder tools:
python3 -m unittest discover -s tests -t .
"""
