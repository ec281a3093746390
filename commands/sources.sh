# What is read of the sources of a build, at the top of the repository.

# The first source that is newer than a file; nothing where there is none.
# Every crate counts, since rt itself finds out whether the program stands on it, and folders count, since a file taken away renews the time of its folder alone. The folder of a crate does not, since rt renews its time with out/, which it makes anew; no build reads a must-fail edit.
newer_source() {
  find crates.txt crates -regex 'crates/[^/]*/\(must-fail\|out\)' -prune -o -newer "$1" ! -regex 'crates/[^/]*' -print -quit
}
