# The stored texts of crates/test_cases, a file for each kind. tests/make-runs calls them.
