"""The editor's side of `daig`: the language, the server that is asked, the protocol, and the commands."""

# Of the whole project: the launcher, the commands, the packages and CHANGELOG.md have it from here.
VERSION = "1.1.0"
