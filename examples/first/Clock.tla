---- MODULE Clock ----
CONSTANTS Hours, Minutes
VARIABLES hour, minute
====
