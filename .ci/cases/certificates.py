"""Certificates that `verify` judges."""
from typing import Dict

from cases.texts import APART, Rows, START, WITHOUT_ROOM

CERTIFICATES: Rows = [
    ("verify", APART + b"%%\ncertificate 6\nr\nl\na\n", 0, b"valid depth 6 trees 3\n"),
    ("verify", APART + b"%%\r\ncertificate 6\r\nr\r\nl\r\na", 0, b"valid depth 6 trees 3\n"),
    ("verify", APART + b"%%\ncertificate 6\nr\nl\n", 12, b"error 12 missing pair a b cue 3\n"),
    ("verify", APART + b"%%\ncertificate 6\nr\na\n", 12,
     b"error 12 fails pair a b cue 2 part 0 0 direction a control 0\n"),
    ("verify", APART + b"%%\ncertificate 6\nr\n.rl\na\n", 12,
     b"error 12 fails pair a b cue 2 part 1 0 direction r control 5\n"),
    ("verify", APART + b"%%\ncertificate 6\nr\n.w.wl\na\n", 12,
     b"error 12 fails pair a b cue 2 part 2 2 direction w control 1\n"),
    ("verify", APART + b"%%\ncertificate 6\nr\nl\na\nr\n", 12, b"error 12 extra line 5\n"),
    ("verify", APART + b"%%\ncertificate 0\n.rr\nl\na\n", 12, b"error 12 too-deep pair a b cue 1\n"),
    ("verify", APART + b"%%\nversion 2\ncertificate 6\n58\n46\n00\n", 0, b"valid depth 6 trees 3\n"),
    ("verify", APART + b"%%\nversion 2\ncertificate 6\n.5858\n46\n00", 0, b"valid depth 6 trees 3\n"),
    ("verify", APART + b"%%\nversion 2\ncertificate 6\n58\n45\n00\n", 12,
     b"error 12 fails pair a b cue 2 part 0 0 direction 45 control 0\n"),
    ("verify", APART + b"%%\nversion 2\ncertificate 6\n58\n46\n00\n58\n", 12, b"error 12 extra line 6\n"),
]

FAULTY_CERTIFICATES: Rows = [
    ("verify", APART + b"%%\ncertificate 6\n.r\nl\na\n", 11, b"error 11 line 2\n"),
    ("verify", APART + b"%%\ncertificate 6\nr\nl\na\n%%\n", 11, b"error 11 line 5\n"),
    ("verify", APART + b"%%\n", 11, b"error 11 line 1\n"),
    ("verify", APART, 11, b"error 11 line 1\n"),
    ("verify", APART + b"%%\ncertificate 9\n", 11, b"error 11 line 1\n"),
    ("verify", APART + b"%%\ncertificate 06\n", 11, b"error 11 line 1\n"),
    ("verify", APART + b"%%\ncertificate 6\naa\n", 11, b"error 11 line 2\n"),
    ("verify", APART + b"%%\ncertificate 6\n..aa\n", 11, b"error 11 line 2\n"),
    ("verify", APART + b"%%\ncertificate 6\nA\n", 11, b"error 11 line 2\n"),
    # version 2: no depth, and a direction too many
    ("verify", APART + b"%%\nversion 2\n58\n46\n00\n", 11, b"error 11 line 2\n"),
    ("verify", APART + b"%%\nversion 2\ncertificate 6\n98\n46\n00\n", 11, b"error 11 line 3\n"),
    # half a leaf, half a leaf before a split, letters
    ("verify", APART + b"%%\nversion 2\ncertificate 6\n5\n46\n00\n", 11, b"error 11 line 3\n"),
    ("verify", APART + b"%%\nversion 2\ncertificate 6\n5.8\n46\n00\n", 11, b"error 11 line 3\n"),
    ("verify", APART + b"%%\nversion 2\ncertificate 6\nr\nl\na\n", 11, b"error 11 line 3\n"),
    # no second line; a carriage return that no line feed follows; a fixed word with a zero
    ("verify", APART + b"%%\nversion 2\n", 11, b"error 11 line 2\n"),
    ("verify", APART + b"%%\nversion 2\r", 11, b"error 11 line 1\n"),
    ("verify", APART + b"%%\nversion 02\ncertificate 6\n58\n46\n00\n", 11, b"error 11 line 1\n"),
]

# What is wrong with the show comes before anything of the certificate.
REFUSED_SHOWS: Rows = [
    ("verify", START + b"%%\ncertificate 9\n", 3, b"error 3 line 1 no-cue\n"),
    ("verify", WITHOUT_ROOM + b"%%\ncertificate 9\n", 4, b"error 4 drone solo bytes 28 room 27\n"),
]

# A tree of 100,000 splits.
DEEP_TREES: Rows = [
    ("verify", APART + b"%%\ncertificate 6\n" + b"." * 100_000 + b"a" * 100_001, 12,
     b"error 12 too-deep pair a b cue 1\n"),
]

GROUPS: Dict[str, Rows] = {
    "certificates": CERTIFICATES, "faulty certificates": FAULTY_CERTIFICATES,
    "certificates of refused shows": REFUSED_SHOWS, "deep trees": DEEP_TREES,
}
