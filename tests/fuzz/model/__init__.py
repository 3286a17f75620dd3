"""A second implementation of the rules, plain and slow, that the program is compared with.

It is written from the rules and shares no code with the crates. Texts are bytes, since all places and lengths
count bytes, and everything that has a meaning in USFM is ASCII. Books' codes and names are str.
"""
