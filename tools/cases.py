#!/usr/bin/env python3
"""Writes the files of lines in crates/sledsh/data with what they should print, and the check of them all.

    cases.py            writes all files
    cases.py NAME ..    writes these
    cases.py names      writes none, but the names of all that are there into the words and the output of the check

What is printed comes from the oracle; see script.py for what it is compared with. A case stops the script where the oracle
does not print what the case spells out.
"""
import sys
import cases_beginnings
import cases_draws
import cases_drops
import cases_events
import cases_extremes
import cases_fetch
import cases_flights
import cases_groups
import cases_images
import cases_imports
import cases_levels
import cases_links
import cases_merges
import cases_names
import cases_owned
import cases_people
import cases_pops
import cases_prefixes
import cases_rare
import cases_reads
import cases_refusals
import cases_scans
import cases_shapes
import cases_sweeps
import cases_trees
import cases_values
import script

if __name__ == '__main__':
    script.write_all(sys.argv[1:])
