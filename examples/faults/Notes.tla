-- MODULE Notes --
VARIABLE page
====
