# Changes a page of docs/ into the one that is installed: pages, examples and samples lie beside each other there, and
# what is in the source alone is said to be so. The Makefile puts the prefix in.

# From the source, QUICKSTART is run at its root; else in an empty folder, with a copy of the examples.
s,^All commands are given at the root of the repository,All commands are given in a folder of yours that is empty,
s,^PATH=\$PWD/crates/roam/out:\$PATH$,cp -r @DOC@/examples .,

# What is installed, and where; the page of definitions isn't.
s,`docs/DEFINITIONS\.md`,the page of definitions (in the source),g
s,docs/\([A-Z]*\.md\),\1,g
s,packaging/samples,samples,g
s,`packaging/installed/from-\(radsecproxy\|freeradius\)\.py`,`@LIB@/from-\1.py`,g
s,`packaging/installed/roam\.service`,`roam.service`,g
s,`packaging/installed/f-ticks\.py`,`samples/f-ticks.py`,g
s,/usr/local/lib/roam,@LIB@,g
s,/usr/local/share/doc/roam,@DOC@,g

# What isn't.
s,`\(packaging\|load\|oracle\|crates\)/[^`]*`,& of the source,g
