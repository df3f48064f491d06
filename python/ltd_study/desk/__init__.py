"""The desk: CSV files in, tables and pages out, over the calls of ltd_study. The command ./ltd is ltd_study.desk.command."""
