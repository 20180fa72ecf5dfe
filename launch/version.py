"""The version. CHANGELOG.md says what a version is, and what is new in each."""

VERSION = "1.0.0"
