"""What tests of several folders share: packets, names of suites, compiled test code, --help."""
