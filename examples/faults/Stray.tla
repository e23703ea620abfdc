---- MODULE Stray ----
Name == "never closed
====
