"""Tests of ltd_study and ./ltd; 'python3 -m tests' in the folder python runs them, and .ci/desk in the gate."""
