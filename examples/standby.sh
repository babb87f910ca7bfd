#!/bin/sh
# A standby: a copy of a database that goes on by what the runs on the database
# ship. To be run in an empty folder, with `ode` among the programs.
examples=$(dirname "$0")

ode init shop.db
cp shop.db standby.db

# A run that ships prints a frame for each transaction, in place of its text.
# The standby applies each frame whole, and runs nothing itself.
ode ship shop.db < "$examples/stock.ode" > frames
ode follow standby.db < frames

# Both have the same records.
ode dump shop.db > shop.txt
ode dump standby.db > standby.txt
cmp shop.txt standby.txt && echo same

# Frames may come again: the standby skips what it has.
ode follow standby.db < frames

# When the shop's file is lost, its runs go on here.
echo 'show #3.pieces;' | ode run standby.db
