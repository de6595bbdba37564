"""The companion of `pert`: from planners' files to decks, to schedules and pages, and back.

The programs `pert`, `pert_check` and `pert_whatif` compute schedules, costs and curves. This
package computes none of them: it reads and writes files, counts working time, and calls the
programs.
"""

VERSION = "2.0"
