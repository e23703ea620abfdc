---- MODULE Queue ----
CONSTANTS Value, Length
VARIABLES items, LOCAL
====
